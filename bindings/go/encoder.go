package h3qpack

// #include "bridge.h"
import "C"

import "hash/maphash"

// EncoderSettings are those that the peer sent, and what this side makes of its table. A zero of the last three is the
// default.
type EncoderSettings struct {
	// MaxCapacity is the peer's SETTINGS_QPACK_MAX_TABLE_CAPACITY, in bytes, below 2^30. For a peer with more pass 0.
	MaxCapacity uint64
	// MaxBlocked is the peer's SETTINGS_QPACK_BLOCKED_STREAMS.
	MaxBlocked uint64
	// Capacity is the table capacity in bytes, 16,384 by default, or MaxCapacity if that is less. To begin without a
	// table, call SetCapacity(0) before the first Encode.
	Capacity uint64
	// MostUnacknowledged is 100 by default. While that many sections that reference the table are unacknowledged,
	// sections reference only the static table.
	MostUnacknowledged uint64
	// Seed is what the hashes of the table's fields are computed with, a random number by default. With one that nobody
	// can guess, nobody can choose fields that take long to insert. No byte that is written depends on it.
	Seed uint64
}

// inC returns the settings with their defaults.
func (s EncoderSettings) inC() C.h3_qpack_encoder_settings {
	var settings C.h3_qpack_encoder_settings
	C.h3_qpack_encoder_settings_default_versioned(C.H3_QPACK_VERSION, &settings)
	settings.max_capacity = C.uint64_t(s.MaxCapacity)
	settings.max_blocked = C.uint64_t(s.MaxBlocked)
	if s.Capacity != 0 {
		settings.capacity = C.uint64_t(s.Capacity)
	}
	if s.MostUnacknowledged != 0 {
		settings.most_unacknowledged = C.uint64_t(s.MostUnacknowledged)
	}
	settings.seed = C.uint64_t(s.Seed)
	if s.Seed == 0 {
		settings.seed = C.uint64_t(maphash.Bytes(maphash.MakeSeed(), nil))
	}
	return settings
}

// An Encoder encodes the sections that this side sends (RFC 9204, section 2.1). Do not copy it: go vet reports copies.
type Encoder struct {
	_   noCopy
	end *C.h3_qpack_encoder // a copy has the same, so that it closes with its original
}

// Encoded is what [Encoder.Encode] returns.
type Encoded struct {
	// Section is for the stream. Send what TakeEncoderStream returns before it.
	Section []byte
	// Required is its Required Insert Count. If it is above 0, the peer acknowledges the section.
	Required int
	// Size is the sum over the fields of name, value and 32 bytes each. The peer may reject a section above its
	// SETTINGS_MAX_FIELD_SECTION_SIZE.
	Size int
}

// NewEncoder makes an encoder for a peer that sent the settings, or that sends them later, to SetPeerSettings. Call Close
// when the connection ends.
//
// It fails with ErrInvalid if a setting is out of its range.
func NewEncoder(settings EncoderSettings) (*Encoder, error) {
	encoder, given := &Encoder{end: new(C.h3_qpack_encoder)}, settings.inC()
	status := C.h3_qpack_encoder_new_versioned(encoder.end, C.H3_QPACK_VERSION, &given)
	if err := check("new encoder", C.int32_t(status)); err != nil {
		return nil, err
	}
	return encoder, nil
}

// isClosed reports whether there is no encoder: it was closed, or NewEncoder did not make it.
func (e *Encoder) isClosed() bool { return e.end == nil || e.end.at == nil }

// Close frees the encoder. Later calls that can fail return ErrClosed. It returns nil, and may be called again.
func (e *Encoder) Close() error {
	C.h3_qpack_encoder_del(e.end)
	return nil
}

// Encode encodes fields, in order, as a section of a stream below 2^62. Then send what TakeEncoderStream returns on the
// encoder stream, and the section on the stream.
//
// It fails with ErrInvalid for a stream of 2^62 or more, and with ErrDecoderStream if Receive did.
func (e *Encoder) Encode(streamID uint64, fields []Field) (Encoded, error) {
	if e.isClosed() {
		return Encoded{}, ErrClosed
	}
	given, section := newLines(fields), make([]byte, usualSection)
	encoded := C.h3qpack_encode(e.end, C.uint64_t(streamID), firstByte(given.text), given.first(),
		C.size_t(len(fields)), firstByte(section), C.size_t(len(section)))
	status := encoded.status
	if status == C.H3_QPACK_ERR_NO_ROOM {
		section = make([]byte, encoded.len)
		status = C.h3_qpack_encoder_section(e.end, firstByte(section), C.size_t(len(section))).status
	}
	if err := check("encode", status); err != nil {
		return Encoded{}, err
	}
	return Encoded{section[:encoded.len], int(encoded.required), int(encoded.size)}, nil
}

// TakeEncoderStream returns the bytes that are to be sent on the encoder stream, which the encoder does not keep.
func (e *Encoder) TakeEncoderStream() []byte {
	bytes := make([]byte, C.h3_qpack_encoder_get_encoder_streamlen(e.end))
	count := C.h3_qpack_encoder_write_encoder(e.end, firstByte(bytes), C.size_t(len(bytes)))
	return bytes[:count]
}

// Receive reads the next bytes of the peer's decoder stream, in pieces of any size.
//
// It fails with ErrDecoderStream if an instruction is invalid: close the connection.
func (e *Encoder) Receive(bytes []byte) error {
	if e.isClosed() {
		return ErrClosed
	}
	return checkReceived(C.h3_qpack_encoder_read_decoder(e.end, firstByte(bytes), C.size_t(len(bytes))))
}

// SetPeerSettings applies the peer's SETTINGS to an encoder that was made before they arrived: its
// SETTINGS_QPACK_MAX_TABLE_CAPACITY, in bytes, and its SETTINGS_QPACK_BLOCKED_STREAMS, 0 for one that is missing. Make
// such an encoder with 0 for both, or for 0-RTT with the settings that were remembered.
//
// It fails with ErrDecoderStream if the encoder has another maximum, above 0, and with ErrSettings if it has a greater
// limit of blocked streams: close the connection. It fails with ErrInvalid for a new maximum of 2^30 or more: pass 0.
func (e *Encoder) SetPeerSettings(maxCapacity, maxBlocked uint64) error {
	if e.isClosed() {
		return ErrClosed
	}
	status := C.h3_qpack_encoder_set_peer_settings(e.end, C.uint64_t(maxCapacity), C.uint64_t(maxBlocked))
	return check("set peer settings", C.int32_t(status))
}

// SetCapacity sets the capacity of the table, in bytes. An error changes nothing.
//
// It fails with ErrInvalid above the peer's maximum, and with ErrHeld while the peer may still reference entries that
// would be evicted. On a busy connection it always may: call Shrink.
func (e *Encoder) SetCapacity(capacity uint64) error {
	return e.callWithCapacity("set capacity", capacity, func(size C.size_t) C.int {
		return C.h3_qpack_encoder_set_capacity(e.end, size)
	})
}

// Shrink sets the capacity of the table, in bytes, as SetCapacity does, or has it wait while the peer may still
// reference an entry that does not fit. The next Encode that finds no such entry sets it, and announces it before its
// section. An error changes nothing.
//
// While it waits, sections reference only the static table, and nothing is inserted. So it comes once all sections that
// reference those entries are acknowledged or cancelled, and the insertions acknowledged. A later call, or a capacity
// that SetCapacity sets, takes its place. It fails with ErrInvalid above the peer's maximum.
func (e *Encoder) Shrink(capacity uint64) error {
	return e.callWithCapacity("shrink", capacity, func(size C.size_t) C.int {
		return C.h3_qpack_encoder_shrink(e.end, size)
	})
}

// callWithCapacity makes a call of this name with a capacity, which must fit the type of sizes in C.
func (e *Encoder) callWithCapacity(name string, capacity uint64, call func(C.size_t) C.int) error {
	if e.isClosed() {
		return ErrClosed
	}
	size := C.size_t(capacity)
	if uint64(size) != capacity {
		return check(name, C.H3_QPACK_ERR_INVALID)
	}
	return check(name, C.int32_t(call(size)))
}

// PendingCapacity returns the capacity that waits, in bytes, if one does.
func (e *Encoder) PendingCapacity() (capacity int, ok bool) {
	var pending C.size_t
	if C.h3_qpack_encoder_get_pending_capacity(e.end, &pending) == 0 {
		return 0, false
	}
	return int(pending), true
}

// Blocked returns how many streams may be blocked at the peer.
func (e *Encoder) Blocked() int { return int(C.h3_qpack_encoder_get_num_blocked(e.end)) }

// Unacknowledged returns how many sections that reference the table are unacknowledged.
func (e *Encoder) Unacknowledged() int { return int(C.h3_qpack_encoder_get_num_unacked(e.end)) }

// InsertCount returns how many insertions were made since the connection began.
func (e *Encoder) InsertCount() int { return int(C.h3_qpack_encoder_get_icnt(e.end)) }

// KnownReceivedCount returns how many insertions the peer is known to have received.
func (e *Encoder) KnownReceivedCount() int { return int(C.h3_qpack_encoder_get_krcnt(e.end)) }

// Capacity returns the capacity of the table, in bytes. It is 0 before the first Encode or SetCapacity.
func (e *Encoder) Capacity() int { return int(C.h3_qpack_encoder_get_capacity(e.end)) }

// TableSize returns the size of the table, in bytes: the sum over its entries of name, value and 32 bytes each.
func (e *Encoder) TableSize() int { return int(C.h3_qpack_encoder_get_table_size(e.end)) }

// Entries returns the entries of the table, the newest first.
func (e *Encoder) Entries() []Field {
	count := int(C.h3_qpack_encoder_get_num_entries(e.end))
	return listEntries(count, e.TableSize(), func(index C.size_t, text []byte) C.h3_qpack_field {
		return C.h3_qpack_encoder_entry(e.end, index, firstByte(text), C.size_t(len(text)))
	})
}

// listEntries returns the entries of a table of that size, each of which a call copies to a text.
func listEntries(count, size int, entry func(index C.size_t, text []byte) C.h3_qpack_field) []Field {
	entries, text := make([]Field, 0, count), make([]byte, size)
	for index := 0; index < count; index++ {
		field := entry(C.size_t(index), text)
		if field.status != C.H3_QPACK_OK {
			panic("h3qpack: an entry is not there, or is larger than its table")
		}
		parts := cutter{rest: text[:field.namelen+field.valuelen]}
		entries = append(entries, parts.field(field))
	}
	return entries
}

// usualSection is the room for a section that most fit in, in bytes.
const usualSection = 512
