package qpack

// An extent says how much of a prefix or a line has arrived.
type extent int

const (
	whole extent = iota
	incomplete
	invalid
)

// A reader passes the bytes of a prefix or a line.
type reader struct {
	text []byte
	at   int
}

// skip passes that many bytes.
func (r *reader) skip(count uint64) extent {
	if uint64(len(r.text)-r.at) < count {
		r.at = len(r.text)
		return incomplete
	}
	r.at += int(count)
	return whole
}

// integer passes an integer of at most 62 bits, whose first byte has that many bits of it (RFC 9204, section 4.1.1).
func (r *reader) integer(bits uint) (uint64, extent) {
	if r.at == len(r.text) {
		return 0, incomplete
	}
	most := uint64(1)<<bits - 1
	value := uint64(r.text[r.at]) & most
	r.at++
	if value < most {
		return value, whole
	}
	for shift := uint(0); shift <= 56; shift += 7 {
		if r.at == len(r.text) {
			return 0, incomplete
		}
		next := r.text[r.at]
		r.at++
		if value += uint64(next&0x7f) << shift; value >= 1<<62 {
			return 0, invalid
		}
		if next&0x80 == 0 {
			return value, whole
		}
	}
	return 0, invalid
}

// literal passes a string literal, whose first byte has that many bits of its length (RFC 9204, section 4.1.2).
func (r *reader) literal(bits uint) extent {
	length, found := r.integer(bits)
	if found != whole {
		return found
	}
	return r.skip(length)
}

// passPrefix passes the prefix of a section (RFC 9204, section 4.5.1).
func passPrefix(r *reader) extent {
	if _, found := r.integer(8); found != whole {
		return found
	}
	_, found := r.integer(7)
	return found
}

// passLine passes a line, by its first bits (RFC 9204, sections 4.5.2 to 4.5.6).
func passLine(r *reader) extent {
	if r.at == len(r.text) {
		return incomplete
	}
	var found extent
	switch first := r.text[r.at]; {
	case first&0x80 != 0:
		_, found = r.integer(6)
		return found
	case first&0xf0 == 0x10:
		_, found = r.integer(4)
		return found
	case first&0x40 != 0:
		_, found = r.integer(4)
	case first&0x20 != 0:
		found = r.literal(3)
	default:
		_, found = r.integer(3)
	}
	if found != whole {
		return found
	}
	return r.literal(7)
}

// measure returns the length of the prefix or the line at the start of a text.
func measure(text []byte, pass func(*reader) extent) (int, extent) {
	r := reader{text: text}
	found := pass(&r)
	return r.at, found
}

// isCut reports whether a text ends before the prefix or the line at its start does.
func isCut(text []byte, pass func(*reader) extent) bool {
	_, found := measure(text, pass)
	return found == incomplete
}
