package qpack

import (
	"io"

	"h3qpack"
)

// prefix is that of a section without the dynamic table (RFC 9204, section 4.5.1).
const prefix = "\x00\x00"

// An Encoder writes sections, a field at a time.
type Encoder struct {
	to    io.Writer
	begun bool
}

// NewEncoder returns an encoder that writes to w.
func NewEncoder(w io.Writer) *Encoder { return &Encoder{to: w} }

// WriteField writes a field by one Write, after the prefix of its section if it is the first.
//
// It fails with the error of that Write, or with h3qpack.ErrNoMemory.
func (e *Encoder) WriteField(f HeaderField) error {
	section, err := h3qpack.EncodeStateless([]h3qpack.Field{{Name: f.Name, Value: f.Value}})
	if err != nil {
		return err
	}
	if e.begun {
		section = section[len(prefix):]
	}
	e.begun = true
	_, err = e.to.Write(section)
	return err
}

// Close ends a section. The next field begins another.
func (e *Encoder) Close() error {
	e.begun = false
	return nil
}
