package qpack

import (
	"bytes"
	"errors"
	"io"
	"reflect"
	"strings"
	"testing"

	"h3qpack"
)

var request = []HeaderField{
	{":method", "GET"},
	{":path", "/a/path"},
	{"user-agent", "quic-go"},
	{"x-long", strings.Repeat("long ", 200)},
	{"x-empty", ""},
	{"x-bytes", "\x00\xff\n"},
}

// write encodes fields, each by a call.
func write(t *testing.T, fields []HeaderField) []byte {
	t.Helper()
	var section bytes.Buffer
	encoder := NewEncoder(&section)
	for _, field := range fields {
		if err := encoder.WriteField(field); err != nil {
			t.Fatal(err)
		}
	}
	if err := encoder.Close(); err != nil {
		t.Fatal(err)
	}
	return section.Bytes()
}

// read calls the function of a decoder until it fails.
func read(next DecodeFunc) ([]HeaderField, error) {
	var fields []HeaderField
	for {
		field, err := next()
		if err != nil {
			return fields, err
		}
		fields = append(fields, field)
	}
}

func wantFields(t *testing.T, found, expected []HeaderField) {
	t.Helper()
	if !reflect.DeepEqual(found, expected) {
		t.Fatalf("%q were decoded, and %q were expected", found, expected)
	}
}

func TestSectionIsThatOfTheWholeList(t *testing.T) {
	var all []h3qpack.Field
	for _, field := range request {
		all = append(all, h3qpack.Field{Name: field.Name, Value: field.Value})
	}
	expected, err := h3qpack.EncodeStateless(all)
	if found := write(t, request); err != nil || !bytes.Equal(found, expected) {
		t.Fatalf("%x was written, and %x was expected: %v", found, expected, err)
	}
}

func TestDecodeReturnsWhatWasWritten(t *testing.T) {
	section := write(t, request)
	fields, err := read(NewDecoder().Decode(section))
	if err != io.EOF {
		t.Fatal(err)
	}
	wantFields(t, fields, request)
	fields, err = NewDecoder(nil).DecodeFull(section)
	if err != nil {
		t.Fatal(err)
	}
	wantFields(t, fields, request)
}

func TestNothingHasNoFields(t *testing.T) {
	fields, err := NewDecoder().DecodeFull(nil)
	if err != nil || len(fields) != 0 {
		t.Fatal(fields, err)
	}
	if _, err := NewDecoder().Decode(nil)(); !errors.Is(err, io.ErrUnexpectedEOF) {
		t.Fatal(err)
	}
}

// Each cut of a section ends at a line, or in one, and the fields before it come first.
func TestCutSections(t *testing.T) {
	section := write(t, request)
	ends := 0
	for length := range section {
		fields, err := read(NewDecoder().Decode(section[:length]))
		if err == io.EOF {
			ends++
		} else if !errors.Is(err, io.ErrUnexpectedEOF) || !errors.Is(err, h3qpack.ErrDecompressionFailed) {
			t.Fatalf("%d bytes: %v", length, err)
		}
		if len(fields) > 0 {
			wantFields(t, fields, request[:len(fields)])
		}
	}
	if ends != len(request) {
		t.Fatalf("%d cuts are sections, and %d were expected", ends, len(request))
	}
}

func TestInvalidLinesComeAfterTheFieldsBefore(t *testing.T) {
	for _, line := range []string{"\x80", "\xff\xff\xff\xff\xff\xff\xff\xff\xff\xff\xff", "\x10", "\x50\x81\x00"} {
		fields, err := read(NewDecoder().Decode([]byte("\x00\x00\xd1" + line)))
		wantFields(t, fields, []HeaderField{{":method", "GET"}})
		if !errors.Is(err, h3qpack.ErrDecompressionFailed) || errors.Is(err, io.ErrUnexpectedEOF) {
			t.Fatalf("%x: %v", line, err)
		}
	}
}

func TestWriteTakesPiecesOfAnySize(t *testing.T) {
	section := write(t, request)
	for size := 1; size <= len(section); size++ {
		var found []HeaderField
		decoder := NewDecoder(func(field HeaderField) { found = append(found, field) })
		for round := 0; round < 2; round++ {
			found = nil
			for rest := section; len(rest) > 0; {
				piece := size
				if piece > len(rest) {
					piece = len(rest)
				}
				if count, err := decoder.Write(rest[:piece]); err != nil || count != piece {
					t.Fatal(count, err)
				}
				rest = rest[piece:]
			}
			if err := decoder.Close(); err != nil {
				t.Fatal(err)
			}
			wantFields(t, found, request)
		}
	}
}

func TestWriteRejects(t *testing.T) {
	decoder := NewDecoder(func(HeaderField) { t.Fatal("a field of an invalid section") })
	if _, err := decoder.Write([]byte("\x00\x00\x80")); !errors.Is(err, h3qpack.ErrDecompressionFailed) {
		t.Fatal(err)
	}
	decoder = NewDecoder()
	if _, err := decoder.Write([]byte("\x00\x00\x51")); err != nil {
		t.Fatal(err)
	}
	if err := decoder.Close(); !errors.Is(err, io.ErrUnexpectedEOF) {
		t.Fatal(err)
	}
}

type closed struct{}

func (closed) Write([]byte) (int, error) { return 0, io.ErrClosedPipe }

func TestWriteFieldReturnsTheErrorOfWrite(t *testing.T) {
	if err := NewEncoder(closed{}).WriteField(request[0]); err != io.ErrClosedPipe {
		t.Fatal(err)
	}
}

func TestIsPseudo(t *testing.T) {
	if !request[0].IsPseudo() || request[2].IsPseudo() || (HeaderField{}).IsPseudo() {
		t.Fatal("a name is pseudo if it begins with a colon")
	}
}
