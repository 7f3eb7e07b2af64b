package h3qpack

// #include "bridge.h"
import "C"

// A SectionReader reads the sections of a stream, which come in pieces of any size. It gives each field as soon as its
// line is whole, and keeps at most LongestSection bytes. To give up a section, call CancelStream of the decoder, and Close.
// Do not copy it: go vet reports copies.
type SectionReader struct {
	_      noCopy
	reader *C.h3_qpack_section_reader // a copy has the same, so that it closes with its original
	room   room                       // for what a call gives
}

// The room of a reader: for so many fields, whose names and values have that many bytes together. More are read by further
// calls of C.
const (
	pieceFields = 32
	pieceText   = 2048
)

// NewSectionReader makes a reader for a stream below 2^62. Call Close when the stream ends.
//
// It fails with ErrInvalid if the stream is 2^62 or more.
func NewSectionReader(streamID uint64) (*SectionReader, error) {
	reader := &SectionReader{reader: new(C.h3_qpack_section_reader)}
	status := C.h3_qpack_section_reader_new(reader.reader, C.uint64_t(streamID))
	if err := check("new section reader", C.int32_t(status)); err != nil {
		return nil, err
	}
	return reader, nil
}

// isClosed reports whether there is no reader: it was closed, or NewSectionReader did not make it.
func (r *SectionReader) isClosed() bool { return r.reader == nil || r.reader.at == nil }

// Close frees the reader. Later calls that can fail return ErrClosed. It returns nil, and may be called again.
func (r *SectionReader) Close() error {
	C.h3_qpack_section_reader_del(r.reader)
	return nil
}

// Pending returns how many bytes the reader keeps: of a prefix or of a field line that is not whole.
func (r *SectionReader) Pending() int { return int(C.h3_qpack_section_reader_get_pending(r.reader)) }

// Read reads the next bytes of a section, which continue those of earlier calls, and returns the fields that they give and
// how many bytes it read. If fin is set, the section ends with them, and without an error it is over: the reader is at the
// start of the stream's next section. Pass the same decoder each time.
//
// It fails as [Decoder.Decode] does, after the fields that it returns. With ErrBlocked, keep the bytes after the first taken
// ones, and pass them when NextReady returns the stream. With ErrNoMemory, pass them again later.
func (r *SectionReader) Read(decoder *Decoder, bytes []byte, fin bool) (fields []Field, taken int, err error) {
	if r.isClosed() || decoder.isClosed() {
		return nil, 0, ErrClosed
	}
	if r.room.fields == nil {
		r.room = newRoom(pieceFields, pieceText)
	}
	for {
		read := r.readAll(decoder, bytes[taken:], fin)
		taken += int(read.taken)
		given := room{r.room.fields[:read.fields], r.room.text[:read.len]}
		fields = append(fields, given.list()...)
		switch read.status {
		case C.H3_QPACK_OK, C.H3_QPACK_END:
			return fields, taken, nil
		case C.H3_QPACK_FIELD:
		case C.H3_QPACK_ERR_NO_ROOM:
			fields = append(fields, r.field())
		default:
			return fields, taken, &Error{
				Op:       "read section",
				Status:   Status(read.status),
				Number:   uint64(read.number),
				Offset:   uint64(read.offset),
				Required: int(read.required),
			}
		}
	}
}

// readAll reads bytes, and as many fields of them as there is room for.
func (r *SectionReader) readAll(decoder *Decoder, bytes []byte, fin bool) C.h3_qpack_pieces {
	last := C.int(0)
	if fin {
		last = 1
	}
	return C.h3_qpack_section_reader_read_all(r.reader, decoder.end, firstByte(bytes), C.size_t(len(bytes)), last,
		r.room.first(), pieceFields, firstByte(r.room.text), pieceText)
}

// field returns the field that was read last, and did not fit.
func (r *SectionReader) field() Field {
	lengths := C.h3_qpack_section_reader_field(r.reader, nil, 0)
	text := make([]byte, lengths.namelen+lengths.valuelen)
	given := C.h3_qpack_section_reader_field(r.reader, firstByte(text), C.size_t(len(text)))
	parts := cutter{rest: text}
	return parts.field(given)
}
