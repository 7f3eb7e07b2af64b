package qpack

import (
	"errors"
	"fmt"
	"io"
	"math"

	"h3qpack"
)

// A Decoder decodes sections, whole by Decode and DecodeFull, or in pieces by Write. Use it from one goroutine at a time.
type Decoder struct {
	emit  func(HeaderField)
	begun bool   // Write has read the prefix
	rest  []byte // what Write has of a prefix or a line that is not whole
}

// A DecodeFunc returns the next field of a section, and io.EOF after the last.
type DecodeFunc func() (HeaderField, error)

// NewDecoder returns a decoder. Write calls emit with each field; the other calls need none.
func NewDecoder(emit ...func(f HeaderField)) *Decoder {
	d := &Decoder{emit: func(HeaderField) {}}
	if len(emit) > 0 && emit[0] != nil {
		d.emit = emit[0]
	}
	return d
}

// Decode returns a function that returns the fields of a section in order.
//
// The function fails with io.ErrUnexpectedEOF if the section ends in a line, and with h3qpack.ErrDecompressionFailed if it
// is invalid otherwise; errors.Is finds both. The fields before come first.
func (d *Decoder) Decode(p []byte) DecodeFunc {
	var fields []HeaderField
	var failure error
	decoded := false
	return func() (HeaderField, error) {
		if !decoded {
			fields, failure = decode(p)
			decoded = true
		}
		if len(fields) == 0 {
			return HeaderField{}, failure
		}
		next := fields[0]
		fields = fields[1:]
		return next, nil
	}
}

// decode returns the fields of a section up to its end, with io.EOF, or up to what is invalid.
func decode(p []byte) ([]HeaderField, error) {
	fields, err := h3qpack.DecodeStateless(p, math.MaxUint64)
	var failure *h3qpack.Error
	if err == nil {
		return headers(fields), io.EOF
	}
	if !errors.As(err, &failure) || failure.Status != h3qpack.ErrDecompressionFailed {
		return nil, err
	}
	line := int(failure.Offset)
	if failure.Number > 0 {
		if fields, _ = h3qpack.DecodeStateless(p[:line], math.MaxUint64); isCut(p[line:], passLine) {
			err = cut{err}
		}
	} else if isCut(p, passPrefix) {
		err = cut{err}
	}
	return headers(fields), err
}

// headers returns fields as this package has them.
func headers(fields []h3qpack.Field) []HeaderField {
	list := make([]HeaderField, len(fields))
	for i := range fields {
		list[i] = HeaderField{fields[i].Name, fields[i].Value}
	}
	return list
}

// A cut is the error of a section that ends in its prefix or in a line.
type cut struct{ error }

func (c cut) Unwrap() error        { return c.error }
func (c cut) Is(target error) bool { return target == io.ErrUnexpectedEOF }

// DecodeFull decodes a section. It fails as the function of Decode does. Nothing is a section without fields.
func (d *Decoder) DecodeFull(p []byte) ([]HeaderField, error) {
	if len(p) == 0 {
		return []HeaderField{}, nil
	}
	fields, err := decode(p)
	if err != io.EOF {
		return nil, err
	}
	return fields, nil
}

// Write reads the next bytes of a section, in pieces of any size, and emits each field whose last byte has come.
//
// It fails with h3qpack.ErrDecompressionFailed if a line is invalid.
func (d *Decoder) Write(p []byte) (int, error) {
	d.rest = append(d.rest, p...)
	for len(d.rest) > 0 {
		pass, before := passPrefix, ""
		if d.begun {
			pass, before = passLine, prefix
		}
		length, found := measure(d.rest, pass)
		if found == incomplete {
			break
		}
		fields, err := h3qpack.DecodeStateless(append([]byte(before), d.rest[:length]...), math.MaxUint64)
		if err != nil {
			return 0, err
		}
		for _, field := range headers(fields) {
			d.emit(field)
		}
		d.rest, d.begun = d.rest[length:], true
	}
	return len(p), nil
}

// Close ends a section. The next Write begins another. It fails with io.ErrUnexpectedEOF if the section ends in a line.
func (d *Decoder) Close() error {
	left := len(d.rest)
	d.rest, d.begun = nil, false
	if left > 0 {
		return cut{fmt.Errorf("qpack: the section ends in a line, of which %d bytes arrived", left)}
	}
	return nil
}
