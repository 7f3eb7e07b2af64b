package h3qpack

// #include "bridge.h"
import "C"

// DecoderSettings are those that this side sends in its SETTINGS frame.
type DecoderSettings struct {
	// MaxCapacity is SETTINGS_QPACK_MAX_TABLE_CAPACITY, in bytes, below 2^30. 0 need not be sent.
	MaxCapacity uint64
	// MaxBlocked is SETTINGS_QPACK_BLOCKED_STREAMS, below 65,535. 0 need not be sent.
	MaxBlocked uint64
	// MaxSectionSize is SETTINGS_MAX_FIELD_SECTION_SIZE, in bytes: the sum over the fields of name, value and 32 bytes
	// each. 0 is the default, 65,536, which is to be sent. math.MaxUint64 is no limit.
	MaxSectionSize uint64
}

// inC returns the settings with their defaults.
func (s DecoderSettings) inC() C.h3_qpack_decoder_settings {
	var settings C.h3_qpack_decoder_settings
	C.h3_qpack_decoder_settings_default_versioned(C.H3_QPACK_VERSION, &settings)
	settings.max_capacity = C.uint64_t(s.MaxCapacity)
	settings.max_blocked = C.uint64_t(s.MaxBlocked)
	if s.MaxSectionSize != 0 {
		settings.max_section_size = C.uint64_t(s.MaxSectionSize)
	}
	return settings
}

// A Decoder decodes the sections that this side receives (RFC 9204, section 2.2). Do not copy it: go vet reports copies.
type Decoder struct {
	_   noCopy
	end *C.h3_qpack_decoder // a copy has the same, so that it closes with its original
}

// NewDecoder makes a decoder for a side that sends the settings. Call Close when the connection ends.
//
// It fails with ErrInvalid if a setting is out of its range.
func NewDecoder(settings DecoderSettings) (*Decoder, error) {
	decoder, given := &Decoder{end: new(C.h3_qpack_decoder)}, settings.inC()
	status := C.h3_qpack_decoder_new_versioned(decoder.end, C.H3_QPACK_VERSION, &given)
	if err := check("new decoder", C.int32_t(status)); err != nil {
		return nil, err
	}
	return decoder, nil
}

// isClosed reports whether there is no decoder: it was closed, or NewDecoder did not make it.
func (d *Decoder) isClosed() bool { return d.end == nil || d.end.at == nil }

// Close frees the decoder. Later calls that can fail return ErrClosed. It returns nil, and may be called again.
func (d *Decoder) Close() error {
	C.h3_qpack_decoder_del(d.end)
	return nil
}

// Receive reads the next bytes of the peer's encoder stream, in pieces of any size. Then call NextReady: sections that
// were blocked may be decodable now.
//
// It fails with ErrEncoderStream if an instruction is invalid, and with ErrDecompressionFailed if Decode did: close the
// connection. With ErrNoMemory, pass the bytes after the first Taken ones again later.
func (d *Decoder) Receive(bytes []byte) error {
	if d.isClosed() {
		return ErrClosed
	}
	return checkReceived(C.h3_qpack_decoder_read_encoder(d.end, firstByte(bytes), C.size_t(len(bytes))))
}

// Prefix is what the prefix of a section says (RFC 9204, section 4.5.1).
type Prefix struct {
	Required int  // the Required Insert Count, 0 if the section references no entry of the dynamic table
	Base     int  // the Base, from which its lines count the entries that they reference
	Length   int  // the length of the prefix, in bytes
	Blocked  bool // whether the section waits for insertions: until InsertCount returns Required or more
}

// PeekPrefix reads the prefix of a section, whose lines may be missing. It changes nothing: call it to know at once
// whether the section waits.
//
// It fails with ErrDecompressionFailed if the prefix is invalid, or not whole: read more of the section, up to 20 bytes,
// or close the connection.
func (d *Decoder) PeekPrefix(section []byte) (Prefix, error) {
	if d.isClosed() {
		return Prefix{}, ErrClosed
	}
	peeked := C.h3_qpack_decoder_peek_prefix(d.end, firstByte(section), C.size_t(len(section)))
	if peeked.status != C.H3_QPACK_OK && peeked.status != C.H3_QPACK_BLOCKED {
		return Prefix{}, check("peek prefix", peeked.status)
	}
	return Prefix{
		Required: int(peeked.required),
		Base:     int(peeked.base),
		Length:   int(peeked.len),
		Blocked:  peeked.status == C.H3_QPACK_BLOCKED,
	}, nil
}

// Decode decodes a whole section of a stream below 2^62. Pass the sections of a stream in order.
//
// It fails with:
//   - ErrBlocked: keep the section, and decode it again when NextReady returns its stream;
//   - ErrTooLarge: the fields exceed MaxSectionSize. Reject the message, and call CancelStream;
//   - ErrDecompressionFailed, or ErrEncoderStream if Receive did: close the connection;
//   - ErrInvalid: the stream is 2^62 or more;
//   - ErrNoMemory: decode the section again later.
func (d *Decoder) Decode(streamID uint64, section []byte) ([]Field, error) {
	if d.isClosed() {
		return nil, ErrClosed
	}
	decoded := C.h3_qpack_decoder_decode(d.end, C.uint64_t(streamID), firstByte(section), C.size_t(len(section)))
	if decoded.status != C.H3_QPACK_OK {
		return nil, &Error{
			Op:       "decode",
			Status:   Status(decoded.status),
			Number:   uint64(decoded.number),
			Offset:   uint64(decoded.offset),
			Required: int(decoded.required),
		}
	}
	given := newRoom(decoded.fields, decoded.len)
	written := C.h3_qpack_decoder_fields(d.end, given.first(), decoded.fields, firstByte(given.text), decoded.len)
	if err := check("decode", written.status); err != nil {
		return nil, err
	}
	return given.list(), nil
}

// NextReady returns a blocked stream whose section can be decoded now. Decode that section, or cancel the stream,
// before the next call: until then it returns the same stream.
func (d *Decoder) NextReady() (streamID uint64, ok bool) {
	var stream C.uint64_t
	if C.h3_qpack_decoder_next_ready(d.end, &stream) == 0 {
		return 0, false
	}
	return uint64(stream), true
}

// CancelStream gives up the sections of a stream that are not decoded. Call it when the stream is reset, or when you
// stop reading it. It is allowed for any stream below 2^62.
func (d *Decoder) CancelStream(streamID uint64) error {
	if d.isClosed() {
		return ErrClosed
	}
	return check("cancel stream", C.int32_t(C.h3_qpack_decoder_cancel_stream(d.end, C.uint64_t(streamID))))
}

// TakeDecoderStream returns the bytes that are to be sent on the decoder stream, which the decoder does not keep. Call
// it after each Decode, Receive and CancelStream.
func (d *Decoder) TakeDecoderStream() []byte {
	bytes := make([]byte, C.h3_qpack_decoder_get_decoder_streamlen(d.end))
	count := C.h3_qpack_decoder_write_decoder(d.end, firstByte(bytes), C.size_t(len(bytes)))
	return bytes[:count]
}

// Blocked returns how many streams are blocked.
func (d *Decoder) Blocked() int { return int(C.h3_qpack_decoder_get_num_blocked(d.end)) }

// InsertCount returns how many insertions were received since the connection began.
func (d *Decoder) InsertCount() int { return int(C.h3_qpack_decoder_get_icnt(d.end)) }

// Capacity returns the capacity of the table, in bytes: 0 until the peer sets one.
func (d *Decoder) Capacity() int { return int(C.h3_qpack_decoder_get_capacity(d.end)) }

// TableSize returns the size of the table, in bytes: the sum over its entries of name, value and 32 bytes each.
func (d *Decoder) TableSize() int { return int(C.h3_qpack_decoder_get_table_size(d.end)) }

// Entries returns the entries of the table, the newest first.
func (d *Decoder) Entries() []Field {
	count := int(C.h3_qpack_decoder_get_num_entries(d.end))
	return listEntries(count, d.TableSize(), func(index C.size_t, text []byte) C.h3_qpack_field {
		return C.h3_qpack_decoder_entry(d.end, index, firstByte(text), C.size_t(len(text)))
	})
}
