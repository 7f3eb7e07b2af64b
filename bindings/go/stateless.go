package h3qpack

// #include "bridge.h"
import "C"

// EncodeStateless encodes fields as a section that uses the static table alone. Any decoder can read it.
//
// It fails with ErrNoMemory only.
func EncodeStateless(fields []Field) ([]byte, error) {
	given, section := newLines(fields), make([]byte, usualSection)
	for {
		written := C.h3qpack_encode_stateless(firstByte(given.text), given.first(), C.size_t(len(fields)),
			firstByte(section), C.size_t(len(section)))
		if written.status != C.H3_QPACK_ERR_NO_ROOM {
			return section[:written.len], check("encode", written.status)
		}
		section = make([]byte, written.len)
	}
}

// DecodeStateless decodes a section that uses the static table alone. maxSectionSize is the limit of [DecoderSettings],
// except that 0 is no default.
//
// It fails with ErrTooLarge, ErrDecompressionFailed and ErrNoMemory, as [Decoder.Decode] does.
func DecodeStateless(section []byte, maxSectionSize uint64) ([]Field, error) {
	given := newRoom(usualFields, usualSection)
	for {
		decoded := C.h3_qpack_decode_stateless(firstByte(section), C.size_t(len(section)), C.uint64_t(maxSectionSize),
			given.first(), C.size_t(len(given.fields)), firstByte(given.text), C.size_t(len(given.text)))
		switch decoded.status {
		case C.H3_QPACK_OK:
			given.fields, given.text = given.fields[:decoded.fields], given.text[:decoded.len]
			return given.list(), nil
		case C.H3_QPACK_ERR_NO_ROOM:
			given = newRoom(decoded.fields, decoded.len)
		default:
			return nil, &Error{
				Op:     "decode",
				Status: Status(decoded.status),
				Number: uint64(decoded.number),
				Offset: uint64(decoded.offset),
			}
		}
	}
}

// usualFields is the room for the fields of a section that most fit in.
const usualFields = 32
