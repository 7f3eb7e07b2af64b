package h3qpack

// #include "bridge.h"
import "C"

// A Field is a line of a field section. Name and Value may have any bytes; HTTP/3 needs names in lowercase.
type Field struct {
	Name, Value string
	// NeverIndexed marks a secret: the field is a literal here and at every later hop (RFC 9204, section 7.1.3).
	NeverIndexed bool
	// Wish is for the encoder. A decoded field has none.
	Wish Wish
}

// A Wish says what an [Encoder] does with a field. NeverIndexed takes precedence over it.
type Wish uint8

const (
	// NoWish leaves the choice to the encoder.
	NoWish Wish = 0
	// WishInsert inserts the field if there is room, unless an entry equals it.
	WishInsert Wish = C.H3_QPACK_NV_FLAG_INSERT
	// WishReuse inserts nothing for the field. An entry that equals it is referenced.
	WishReuse Wish = C.H3_QPACK_NV_FLAG_REUSE
)

// flags returns the flags of the field in C.
func (f *Field) flags() C.uint8_t {
	if f.NeverIndexed {
		return C.H3_QPACK_NV_FLAG_NEVER_INDEX
	}
	return C.uint8_t(f.Wish & (WishInsert | WishReuse))
}

// lines are fields as bridge.h has them. Neither part has a pointer.
type lines struct {
	text    []byte
	lengths []C.h3qpack_line
}

// newLines copies fields.
func newLines(fields []Field) lines {
	size := 0
	for i := range fields {
		size += len(fields[i].Name) + len(fields[i].Value)
	}
	copied := lines{make([]byte, 0, size), make([]C.h3qpack_line, len(fields))}
	for i := range fields {
		field := &fields[i]
		copied.text = append(append(copied.text, field.Name...), field.Value...)
		copied.lengths[i] = C.h3qpack_line{
			namelen:  C.size_t(len(field.Name)),
			valuelen: C.size_t(len(field.Value)),
			flags:    field.flags(),
		}
	}
	return copied
}

// first returns a pointer to the lengths, or nil if there are none.
func (l *lines) first() *C.h3qpack_line {
	if len(l.lengths) == 0 {
		return nil
	}
	return &l.lengths[0]
}

// room is where the library copies decoded fields.
type room struct {
	fields []C.h3_qpack_field
	text   []byte
}

// newRoom makes room for fields whose names and values have that many bytes together.
func newRoom(fields, bytes C.size_t) room {
	return room{make([]C.h3_qpack_field, fields), make([]byte, bytes)}
}

// first returns a pointer to the room for fields, or nil if there is none.
func (r *room) first() *C.h3_qpack_field {
	if len(r.fields) == 0 {
		return nil
	}
	return &r.fields[0]
}

// list returns the fields that were copied to the room.
func (r *room) list() []Field {
	list, parts := make([]Field, len(r.fields)), cutter{rest: r.text}
	for i, field := range r.fields {
		list[i] = parts.field(field)
	}
	return list
}

// mostShared is how many bytes of names and values share their memory at most. A name or value that is kept holds no
// more, unless it is longer itself.
const mostShared = 512

// A cutter cuts a text to names and values. Those that fit in mostShared bytes together are parts of one string.
type cutter struct {
	rest   []byte // of the text
	shared string // what is left of the string that was made last
}

// next returns the next bytes of the text, as a string.
func (c *cutter) next(size C.size_t) string {
	length := int(size)
	if length > len(c.shared) {
		c.shared = string(c.rest[:larger(length, smaller(mostShared, len(c.rest)))])
	}
	cut := c.shared[:length]
	c.shared, c.rest = c.shared[length:], c.rest[length:]
	return cut
}

// field returns the field at the start of the text that is left.
func (c *cutter) field(field C.h3_qpack_field) Field {
	return Field{
		Name:         c.next(field.namelen),
		Value:        c.next(field.valuelen),
		NeverIndexed: field.flags&C.H3_QPACK_NV_FLAG_NEVER_INDEX != 0,
	}
}

func smaller(a, b int) int {
	if a < b {
		return a
	}
	return b
}

func larger(a, b int) int {
	if a > b {
		return a
	}
	return b
}
