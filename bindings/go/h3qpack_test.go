package h3qpack

import (
	"bytes"
	"errors"
	"math"
	"reflect"
	"runtime"
	"strings"
	"sync"
	"testing"
)

// newPair makes an encoder, and the decoder of its peer. They are closed after the test.
func newPair(t *testing.T, capacity, blocked uint64) (*Encoder, *Decoder) {
	t.Helper()
	encoder, err := NewEncoder(EncoderSettings{MaxCapacity: capacity, MaxBlocked: blocked})
	if err != nil {
		t.Fatal(err)
	}
	decoder, err := NewDecoder(DecoderSettings{MaxCapacity: capacity, MaxBlocked: blocked})
	if err != nil {
		t.Fatal(err)
	}
	t.Cleanup(func() {
		encoder.Close()
		decoder.Close()
	})
	return encoder, decoder
}

// must fails the test on an error.
func must(t *testing.T, err error) {
	t.Helper()
	if err != nil {
		t.Fatal(err)
	}
}

// encode encodes fields, which must succeed.
func encode(t *testing.T, encoder *Encoder, streamID uint64, fields []Field) Encoded {
	t.Helper()
	encoded, err := encoder.Encode(streamID, fields)
	must(t, err)
	return encoded
}

// expect fails the test unless a call returned this status, with an *Error, which it returns.
func expect(t *testing.T, err error, status Status) *Error {
	t.Helper()
	var failure *Error
	if !errors.Is(err, status) || !errors.As(err, &failure) {
		t.Fatalf("got %v, expected %v", err, status)
	}
	return failure
}

// expectFields fails the test unless a decode returned these fields.
func expectFields(t *testing.T, got []Field, err error, fields []Field) {
	t.Helper()
	must(t, err)
	if !reflect.DeepEqual(got, fields) {
		t.Fatalf("got %v, expected %v", got, fields)
	}
}

// receiveCut has an end receive a stream byte by byte.
func receiveCut(t *testing.T, receive func([]byte) error, stream []byte) {
	t.Helper()
	for at := range stream {
		must(t, receive(stream[at:at+1]))
	}
}

var request = []Field{
	{Name: ":method", Value: "GET"},
	{Name: "user-agent", Value: "curl/8"},
	{Name: "authorization", Value: "Basic Og==", NeverIndexed: true},
	{Name: "x-trace", Value: "\xff\x00"},
}

func TestRoundTrip(t *testing.T) {
	encoder, decoder := newPair(t, 4096, 16)
	for _, stream := range []uint64{0, 4, 1<<62 - 1} {
		encoded := encode(t, encoder, stream, request)
		if size := 10 + 16 + 23 + 9 + 4*32; encoded.Size != size || encoded.Required == 0 {
			t.Fatalf("size %d, required %d", encoded.Size, encoded.Required)
		}
		receiveCut(t, decoder.Receive, encoder.TakeEncoderStream())
		got, err := decoder.Decode(stream, encoded.Section)
		expectFields(t, got, err, request)
		receiveCut(t, encoder.Receive, decoder.TakeDecoderStream())
	}
	if encoder.InsertCount() == 0 || encoder.InsertCount() != decoder.InsertCount() ||
		encoder.KnownReceivedCount() != encoder.InsertCount() || encoder.Unacknowledged() != 0 {
		t.Fatalf("insertions: %d, %d, of which %d are known to be received; %d sections unacknowledged",
			encoder.InsertCount(), decoder.InsertCount(), encoder.KnownReceivedCount(), encoder.Unacknowledged())
	}
}

func TestTables(t *testing.T) {
	encoder, decoder := newPair(t, 4096, 16)
	if encoder.Capacity() != 0 || decoder.Capacity() != 0 {
		t.Fatal("a capacity before the first section")
	}
	encode(t, encoder, 0, []Field{{Name: "foo", Value: "bar"}, {Name: "trace", Value: "17"}})
	must(t, decoder.Receive(encoder.TakeEncoderStream()))
	entries := []Field{{Name: "trace", Value: "17"}, {Name: "foo", Value: "bar"}}
	if !reflect.DeepEqual(encoder.Entries(), entries) || !reflect.DeepEqual(decoder.Entries(), entries) {
		t.Fatalf("entries %v and %v", encoder.Entries(), decoder.Entries())
	}
	if encoder.TableSize() != 13+2*32 || decoder.TableSize() != 13+2*32 {
		t.Fatalf("sizes %d and %d", encoder.TableSize(), decoder.TableSize())
	}
	if encoder.Capacity() != 4096 || decoder.Capacity() != 4096 {
		t.Fatalf("capacities %d and %d", encoder.Capacity(), decoder.Capacity())
	}
}

func TestWishes(t *testing.T) {
	encoder, _ := newPair(t, 4096, 16)
	fields := []Field{
		{Name: "foo", Value: "bar", Wish: WishReuse},
		{Name: "foo", Value: "baz", NeverIndexed: true, Wish: WishInsert},
	}
	if encoded := encode(t, encoder, 0, fields); encoded.Required != 0 || encoder.InsertCount() != 0 {
		t.Fatalf("%d insertions", encoder.InsertCount())
	}
	long := Field{Name: "foo", Value: strings.Repeat("x", 1500), Wish: WishInsert}
	encode(t, encoder, 0, []Field{long})
	long.Wish = NoWish
	if !reflect.DeepEqual(encoder.Entries(), []Field{long}) {
		t.Fatalf("%d entries", len(encoder.Entries()))
	}
}

func TestBlocked(t *testing.T) {
	encoder, decoder := newPair(t, 4096, 16)
	encoded := encode(t, encoder, 8, request)
	if encoder.Blocked() != 1 || encoder.Unacknowledged() != 1 {
		t.Fatalf("%d blocked, %d unacknowledged", encoder.Blocked(), encoder.Unacknowledged())
	}
	_, err := decoder.Decode(8, encoded.Section)
	failure := expect(t, err, ErrBlocked)
	if failure.Required != encoded.Required || failure.Closes() || failure.Code() != 0 || decoder.Blocked() != 1 {
		t.Fatalf("%+v, %d blocked", failure, decoder.Blocked())
	}
	if stream, ok := decoder.NextReady(); ok {
		t.Fatalf("stream %d is ready", stream)
	}
	must(t, decoder.Receive(encoder.TakeEncoderStream()))
	if stream, ok := decoder.NextReady(); !ok || stream != 8 {
		t.Fatalf("stream %d, %t", stream, ok)
	}
	got, err := decoder.Decode(8, encoded.Section)
	expectFields(t, got, err, request)
	if _, ok := decoder.NextReady(); ok || decoder.Blocked() != 0 {
		t.Fatal("a stream is ready after its decode")
	}
	must(t, encoder.Receive(decoder.TakeDecoderStream()))
	if encoder.Blocked() != 0 {
		t.Fatal("a stream is blocked after its acknowledgment")
	}
}

func TestPeekPrefix(t *testing.T) {
	encoder, decoder := newPair(t, 4096, 16)
	encoded := encode(t, encoder, 8, request)
	peek := func(section []byte, want Prefix) {
		t.Helper()
		if got, err := decoder.PeekPrefix(section); err != nil || got != want {
			t.Fatalf("%x: %+v, %v", section, got, err)
		}
	}
	waiting, err := decoder.PeekPrefix(encoded.Section)
	if err != nil || waiting.Required != encoded.Required || waiting.Length != 2 || !waiting.Blocked {
		t.Fatalf("%+v, %v", waiting, err)
	}
	peek(encoded.Section[:2], waiting)
	if decoder.Blocked() != 0 || len(decoder.TakeDecoderStream()) != 0 {
		t.Fatal("a peek changed the decoder")
	}
	must(t, decoder.Receive(encoder.TakeEncoderStream()))
	waiting.Blocked = false
	peek(encoded.Section, waiting)
	peek([]byte{0x02, 0x80}, Prefix{Required: 1, Length: 2})
	peek([]byte{0x00, 0x00, 0xd1}, Prefix{Length: 2})
	for _, section := range [][]byte{nil, {0x02}, {0x00, 0x80}} {
		_, err := decoder.PeekPrefix(section)
		expect(t, err, ErrDecompressionFailed)
	}
	got, err := decoder.Decode(8, encoded.Section)
	expectFields(t, got, err, request)
	must(t, decoder.Close())
	if _, err := decoder.PeekPrefix(encoded.Section); err != ErrClosed {
		t.Fatal(err)
	}
}

func TestCancel(t *testing.T) {
	encoder, decoder := newPair(t, 4096, 16)
	_, err := decoder.Decode(8, encode(t, encoder, 8, request).Section)
	expect(t, err, ErrBlocked)
	must(t, decoder.CancelStream(8))
	if stream := decoder.TakeDecoderStream(); !bytes.Equal(stream, []byte{0x48}) {
		t.Fatalf("decoder stream %x", stream)
	}
	must(t, decoder.Receive(encoder.TakeEncoderStream()))
	if _, ok := decoder.NextReady(); ok || decoder.Blocked() != 0 {
		t.Fatal("a cancelled stream is ready")
	}
	must(t, encoder.Receive([]byte{0x48}))
	if encoder.Unacknowledged() != 0 {
		t.Fatal("a cancelled section is unacknowledged")
	}
}

func TestTooLarge(t *testing.T) {
	decoder, err := NewDecoder(DecoderSettings{MaxSectionSize: 50})
	must(t, err)
	defer decoder.Close()
	_, err = decoder.Decode(0, []byte{0, 0, 0xd1, 0xd1})
	if failure := expect(t, err, ErrTooLarge); failure.Closes() || failure.Number != 2 || failure.Offset != 3 {
		t.Fatalf("%+v", failure)
	}
	must(t, decoder.CancelStream(0))
	got, err := decoder.Decode(4, []byte{0, 0, 0xd1})
	expectFields(t, got, err, request[:1])
}

func TestDefaultLimit(t *testing.T) {
	decoder, err := NewDecoder(DecoderSettings{})
	must(t, err)
	defer decoder.Close()
	section, err := EncodeStateless([]Field{{Name: "x", Value: strings.Repeat("y", 65536)}})
	must(t, err)
	_, err = decoder.Decode(0, section)
	expect(t, err, ErrTooLarge)
}

func TestInvalidSection(t *testing.T) {
	_, decoder := newPair(t, 4096, 16)
	_, err := decoder.Decode(0, []byte{0, 0, 0xd1, 0xff, 0x3f})
	failure := expect(t, err, ErrDecompressionFailed)
	if failure.Code() != 0x200 || failure.Number != 2 || failure.Offset != 3 {
		t.Fatalf("%+v", failure)
	}
	if text := failure.Error(); text != "h3qpack: decode: a section is invalid, at line 2, byte 3: close the connection with 0x200" {
		t.Fatal(text)
	}
	expect(t, decoder.Receive([]byte{0x20}), ErrDecompressionFailed)
	expect(t, decoder.CancelStream(0), ErrDecompressionFailed)
}

func TestInvalidEncoderStream(t *testing.T) {
	_, decoder := newPair(t, 4096, 16)
	failure := expect(t, decoder.Receive([]byte{0x3f, 0xe1, 0x1f, 0x02}), ErrEncoderStream)
	if failure.Code() != 0x201 || failure.Number != 2 || failure.Offset != 3 {
		t.Fatalf("%+v", failure)
	}
	_, err := decoder.Decode(0, []byte{0, 0, 0xd1})
	if failure = expect(t, err, ErrEncoderStream); failure.Code() != 0x201 {
		t.Fatalf("%+v", failure)
	}
}

func TestInvalidDecoderStream(t *testing.T) {
	encoder, _ := newPair(t, 4096, 16)
	failure := expect(t, encoder.Receive([]byte{0x44, 0x84}), ErrDecoderStream)
	if failure.Code() != 0x202 || failure.Number != 2 || failure.Offset != 1 {
		t.Fatalf("%+v", failure)
	}
	if text := failure.Error(); !strings.Contains(text, "at instruction 2, byte 1: close the connection with 0x202") {
		t.Fatal(text)
	}
	_, err := encoder.Encode(0, request)
	expect(t, err, ErrDecoderStream)
}

func TestPeerSettings(t *testing.T) {
	encoder, _ := newPair(t, 0, 0)
	_, decoder := newPair(t, 4096, 16)
	fields := []Field{{Name: "foo", Value: "bar"}}
	early := encode(t, encoder, 0, fields)
	if early.Required != 0 || len(encoder.TakeEncoderStream()) != 0 {
		t.Fatal("an encoder without settings used a table")
	}
	got, err := decoder.Decode(0, early.Section)
	expectFields(t, got, err, fields)
	expect(t, encoder.SetPeerSettings(1<<30, 16), ErrInvalid)
	must(t, encoder.SetPeerSettings(4096, 16))
	late := encode(t, encoder, 4, fields)
	must(t, decoder.Receive(encoder.TakeEncoderStream()))
	got, err = decoder.Decode(4, late.Section)
	expectFields(t, got, err, fields)
	if late.Required != 1 || encoder.Capacity() != 4096 {
		t.Fatalf("required %d, capacity %d", late.Required, encoder.Capacity())
	}
	if failure := expect(t, encoder.SetPeerSettings(4096, 15), ErrSettings); failure.Code() != 0x109 {
		t.Fatalf("code %#x", failure.Code())
	}
	expect(t, encoder.SetCapacity(0), ErrSettings)
	other, _ := newPair(t, 4096, 16)
	expect(t, other.SetPeerSettings(0, 16), ErrDecoderStream)
	must(t, other.Close())
	if err := other.SetPeerSettings(0, 16); err != ErrClosed {
		t.Fatal(err)
	}
}

func TestCapacity(t *testing.T) {
	encoder, decoder := newPair(t, 4096, 16)
	must(t, encoder.SetCapacity(100))
	encoded := encode(t, encoder, 0, []Field{{Name: "foo", Value: "bar"}})
	if encoder.Capacity() != 100 {
		t.Fatalf("capacity %d", encoder.Capacity())
	}
	expect(t, encoder.SetCapacity(4097), ErrInvalid)
	expect(t, encoder.SetCapacity(0), ErrHeld)
	must(t, decoder.Receive(encoder.TakeEncoderStream()))
	_, err := decoder.Decode(0, encoded.Section)
	must(t, err)
	must(t, encoder.Receive(decoder.TakeDecoderStream()))
	must(t, encoder.SetCapacity(0))
}

func TestShrink(t *testing.T) {
	encoder, decoder := newPair(t, 4096, 16)
	first := encode(t, encoder, 0, []Field{{Name: "foo", Value: "bar"}})
	expect(t, encoder.Shrink(4097), ErrInvalid)
	must(t, encoder.Shrink(33))
	if pending, ok := encoder.PendingCapacity(); !ok || pending != 33 {
		t.Fatalf("pending %d, %v", pending, ok)
	}
	if waiting := encode(t, encoder, 4, []Field{{Name: "foo", Value: "bar"}}); waiting.Required != 0 {
		t.Fatal("a reference while a capacity waits")
	}
	must(t, decoder.Receive(encoder.TakeEncoderStream()))
	_, err := decoder.Decode(0, first.Section)
	must(t, err)
	must(t, encoder.Receive(decoder.TakeDecoderStream()))
	encode(t, encoder, 8, []Field{{Name: "foo", Value: "bar"}})
	if _, ok := encoder.PendingCapacity(); ok || encoder.Capacity() != 33 {
		t.Fatalf("capacity %d", encoder.Capacity())
	}
	must(t, decoder.Receive(encoder.TakeEncoderStream()))
	if decoder.Capacity() != 33 {
		t.Fatalf("capacity %d at the decoder", decoder.Capacity())
	}
}

func TestNoTable(t *testing.T) {
	encoder, _ := newPair(t, 4096, 16)
	must(t, encoder.SetCapacity(0))
	if encoded := encode(t, encoder, 0, request); encoded.Required != 0 || encoder.InsertCount() != 0 {
		t.Fatal("an insertion without a capacity")
	}
}

func TestSettings(t *testing.T) {
	encoder, err := NewEncoder(EncoderSettings{MaxCapacity: 4096, MaxBlocked: 16, Capacity: 76, MostUnacknowledged: 1})
	must(t, err)
	defer encoder.Close()
	encode(t, encoder, 0, []Field{{Name: "foo", Value: "bar"}})
	if second := encode(t, encoder, 4, []Field{{Name: "foo", Value: "bar"}}); second.Required != 0 {
		t.Fatalf("the second section requires %d", second.Required)
	}
	if encoder.Capacity() != 76 || encoder.Unacknowledged() != 1 {
		t.Fatalf("capacity %d, %d unacknowledged", encoder.Capacity(), encoder.Unacknowledged())
	}
}

func TestSeed(t *testing.T) {
	var written [2][]byte
	for i := range written {
		encoder, err := NewEncoder(EncoderSettings{MaxCapacity: 4096, MaxBlocked: 16, Seed: uint64(i + 1)})
		must(t, err)
		defer encoder.Close()
		for stream := uint64(0); stream < 12; stream += 4 {
			written[i] = append(written[i], encode(t, encoder, stream, request).Section...)
		}
	}
	if !bytes.Equal(written[0], written[1]) {
		t.Fatalf("% x and % x by another seed", written[0], written[1])
	}
}

func TestOutOfRange(t *testing.T) {
	_, err := NewEncoder(EncoderSettings{MaxCapacity: 1 << 30})
	expect(t, err, ErrInvalid)
	for _, settings := range []DecoderSettings{{MaxCapacity: 1 << 30}, {MaxBlocked: 65535}} {
		_, err = NewDecoder(settings)
		expect(t, err, ErrInvalid)
	}
	encoder, decoder := newPair(t, 0, 0)
	_, err = encoder.Encode(1<<62, request)
	expect(t, err, ErrInvalid)
	_, err = decoder.Decode(1<<62, []byte{0, 0})
	expect(t, err, ErrInvalid)
	if failure := expect(t, decoder.CancelStream(1<<62), ErrInvalid); !strings.HasSuffix(failure.Error(), "below 2^62") {
		t.Fatal(failure)
	}
}

func TestClose(t *testing.T) {
	encoder, decoder := newPair(t, 4096, 16)
	for range [2]int{} {
		must(t, encoder.Close())
		must(t, decoder.Close())
	}
	_, encodeErr := encoder.Encode(0, request)
	_, decodeErr := decoder.Decode(0, []byte{0, 0})
	for _, err := range []error{
		encodeErr, encoder.Receive([]byte{0x44}), encoder.SetCapacity(0), encoder.Shrink(0),
		decodeErr, decoder.Receive([]byte{0x20}), decoder.CancelStream(0),
	} {
		if err != ErrClosed {
			t.Fatalf("got %v", err)
		}
	}
	if _, ok := decoder.NextReady(); ok || len(encoder.TakeEncoderStream())+len(decoder.TakeDecoderStream()) != 0 {
		t.Fatal("a closed end has something")
	}
	if len(encoder.Entries())+len(decoder.Entries())+encoder.TableSize()+decoder.InsertCount() != 0 {
		t.Fatal("a closed end has a table")
	}
}

// copyOf returns a copy of a struct, which go vet does not see.
func copyOf[T any](original *T) *T {
	copied := new(T)
	reflect.ValueOf(copied).Elem().Set(reflect.ValueOf(original).Elem())
	return copied
}

func TestCopies(t *testing.T) {
	encoder, decoder := newPair(t, 4096, 16)
	otherEncoder, otherDecoder := copyOf(encoder), copyOf(decoder)
	must(t, encoder.Close())
	must(t, decoder.Close())
	_, encodeErr := otherEncoder.Encode(0, request)
	_, decodeErr := otherDecoder.Decode(0, []byte{0, 0, 0xd1})
	if encodeErr != ErrClosed || decodeErr != ErrClosed {
		t.Fatalf("copies of closed ends: %v, %v", encodeErr, decodeErr)
	}
	must(t, otherEncoder.Close())
	must(t, otherDecoder.Close())
}

func TestZeroValues(t *testing.T) {
	var encoder Encoder
	var decoder Decoder
	_, encodeErr := encoder.Encode(0, request)
	_, decodeErr := decoder.Decode(0, []byte{0, 0, 0xd1})
	if encodeErr != ErrClosed || decodeErr != ErrClosed || len(encoder.Entries())+decoder.Blocked() != 0 {
		t.Fatalf("zero values: %v, %v", encodeErr, decodeErr)
	}
	must(t, encoder.Close())
	must(t, decoder.Close())
}

// largeSection returns a section of a value of 60,000 bytes and one of two, each under a name of its own.
func largeSection(t testing.TB) []byte {
	section, err := EncodeStateless([]Field{{Name: "large", Value: strings.Repeat("v", 60000)}, {Name: "kept", Value: "id"}})
	if err != nil {
		t.Fatal(err)
	}
	return section
}

// heap returns how many bytes are reachable.
func heap() uint64 {
	var memory runtime.MemStats
	runtime.GC()
	runtime.ReadMemStats(&memory)
	return memory.HeapAlloc
}

// A value that is kept does not hold the text of its section.
func TestKeptValues(t *testing.T) {
	decoder, err := NewDecoder(DecoderSettings{})
	must(t, err)
	defer decoder.Close()
	section, kept, before := largeSection(t), [2000][]string{}, heap()
	for i := range kept {
		fields, err := decoder.Decode(uint64(4*i), section)
		must(t, err)
		kept[i] = []string{fields[0].Name, fields[1].Name, fields[1].Value}
	}
	if held := heap() - before; held > 4<<20 {
		t.Fatalf("%d kept values hold %d bytes", len(kept), held)
	}
	runtime.KeepAlive(kept)
}

// Names and values of all lengths around the bound on what shares memory are cut where they end.
func TestCuts(t *testing.T) {
	encoder, decoder := newPair(t, 0, 0)
	for size := 0; size < 3*mostShared; size += 37 {
		fields := []Field{{Name: "a", Value: "b"}, {Name: strings.Repeat("n", size), Value: strings.Repeat("v", 2*size/3)},
			{Name: "c"}, {Name: "d", Value: strings.Repeat("w", mostShared)}, {Name: "e", Value: "f"}}
		got, err := decoder.Decode(0, encode(t, encoder, 0, fields).Section)
		expectFields(t, got, err, fields)
	}
}

func BenchmarkDecode(b *testing.B) {
	decoder, err := NewDecoder(DecoderSettings{})
	if err != nil {
		b.Fatal(err)
	}
	defer decoder.Close()
	for name, fields := range map[string][]Field{"4 fields": request, "33 fields, one of 1,536 bytes": manyFields()} {
		section, err := EncodeStateless(fields)
		if err != nil {
			b.Fatal(err)
		}
		b.Run(name, func(b *testing.B) {
			b.ReportAllocs()
			for i := 0; i < b.N; i++ {
				if _, err := decoder.Decode(0, section); err != nil {
					b.Fatal(err)
				}
			}
		})
	}
}

func TestLongestSection(t *testing.T) {
	for _, row := range [][2]uint64{{0, 20}, {50, 220}, {65536, 262164}, {math.MaxUint64, math.MaxUint64}} {
		if longest := LongestSection(row[0]); longest != row[1] {
			t.Errorf("of %d: %d", row[0], longest)
		}
	}
	decoder, err := NewDecoder(DecoderSettings{MaxSectionSize: 50})
	must(t, err)
	defer decoder.Close()
	longest := append([]byte{0, 0, 0xd1}, make([]byte, LongestSection(50)-3)...)
	_, err = decoder.Decode(0, longest) // a line of it is wrong, and so it was read
	expect(t, err, ErrDecompressionFailed)
	other, err := NewDecoder(DecoderSettings{MaxSectionSize: 50})
	must(t, err)
	defer other.Close()
	_, err = other.Decode(0, append(longest, 0))
	if failure := expect(t, err, ErrTooLarge); failure.Number != 0 {
		t.Fatalf("%+v", failure)
	}
}

func TestEmpty(t *testing.T) {
	encoder, decoder := newPair(t, 4096, 16)
	for _, fields := range [][]Field{{}, {{}}, {{Name: "x"}, {Value: "y"}, {Name: "x", NeverIndexed: true}}} {
		encoded := encode(t, encoder, 0, fields)
		must(t, decoder.Receive(encoder.TakeEncoderStream()))
		got, err := decoder.Decode(0, encoded.Section)
		expectFields(t, got, err, fields)
		section, err := EncodeStateless(fields)
		must(t, err)
		got, err = DecodeStateless(section, math.MaxUint64)
		expectFields(t, got, err, fields)
	}
	must(t, decoder.Receive(nil))
	must(t, encoder.Receive(nil))
	_, err := decoder.Decode(0, nil)
	expect(t, err, ErrDecompressionFailed)
}

// manyFields returns more fields, and larger ones, than the room that is tried first.
func manyFields() []Field {
	fields := []Field{{Name: "long", Value: strings.Repeat("\xff", 3*usualSection), NeverIndexed: true}}
	for len(fields) <= usualFields {
		fields = append(fields, Field{Name: "x", Value: "\x00"})
	}
	return fields
}

func TestLarge(t *testing.T) {
	encoder, decoder := newPair(t, 0, 0)
	encoded := encode(t, encoder, 0, manyFields())
	if len(encoded.Section) <= usualSection {
		t.Fatalf("a section of %d bytes", len(encoded.Section))
	}
	got, err := decoder.Decode(0, encoded.Section)
	expectFields(t, got, err, manyFields())
	section, err := EncodeStateless(manyFields())
	must(t, err)
	got, err = DecodeStateless(section, math.MaxUint64)
	expectFields(t, got, err, manyFields())
}

func TestStateless(t *testing.T) {
	section, err := EncodeStateless(request[:1])
	if must(t, err); !bytes.Equal(section, []byte{0, 0, 0xd1}) {
		t.Fatalf("section %x", section)
	}
	got, err := DecodeStateless(section, 42)
	expectFields(t, got, err, request[:1])
	_, err = DecodeStateless(section, 41)
	expect(t, err, ErrTooLarge)
	_, err = DecodeStateless([]byte{0, 0, 0xd1, 0x80}, 4096)
	if failure := expect(t, err, ErrDecompressionFailed); failure.Number != 2 || failure.Offset != 3 {
		t.Fatalf("%+v", failure)
	}
}

func TestGoroutines(t *testing.T) {
	var group sync.WaitGroup
	for range [4]int{} {
		encoder, decoder := newPair(t, 4096, 16)
		group.Add(1)
		go func() {
			defer group.Done()
			for stream := uint64(0); stream < 100; stream++ {
				encoded, err := encoder.Encode(stream, request)
				if err != nil || decoder.Receive(encoder.TakeEncoderStream()) != nil {
					t.Error("stream", stream, err)
				}
				got, err := decoder.Decode(stream, encoded.Section)
				if err != nil || !reflect.DeepEqual(got, request) {
					t.Error("stream", stream, got, err)
				}
			}
		}()
	}
	group.Wait()
}

func TestVersion(t *testing.T) {
	if major, minor := Version(); major != 0 || minor != 2 {
		t.Fatalf("version %d.%d", major, minor)
	}
}

func TestMessages(t *testing.T) {
	for _, row := range []struct {
		err  error
		text string
	}{
		{&Error{Op: "encode", Status: ErrInvalid},
			"h3qpack: encode: an argument is out of its range: the stream must be below 2^62"},
		{&Error{Op: "decode", Status: ErrTooLarge, Number: 2, Offset: 3},
			"h3qpack: decode: the section is too large, at line 2, byte 3: reject the message, and cancel its stream"},
		{&Error{Op: "decode", Status: ErrBlocked, Required: 7},
			"h3qpack: decode: the section is blocked until insertion 7: keep it until NextReady returns its stream"},
		{&Error{Op: "receive", Status: ErrEncoderStream, Number: 2, Offset: 3},
			"h3qpack: receive: the peer's encoder stream is invalid, at instruction 2, byte 3: close the connection with 0x201"},
		{ErrNoMemory, "out of memory: repeat the call later"},
		{Status(-99), "unknown status -99: install the library that this package is of"},
	} {
		if row.err.Error() != row.text {
			t.Errorf("got %q, expected %q", row.err, row.text)
		}
	}
	for status := range texts {
		if status.Closes() != (status.Code() != 0) || status.Closes() != (status.advice() != texts[status].advice) {
			t.Errorf("%v: code %#x", status, status.Code())
		}
	}
}

// readPieces reads a section in pieces of a size. Returns its fields, and how many bytes were read until an error.
func readPieces(reader *SectionReader, decoder *Decoder, section []byte, size int) ([]Field, int, error) {
	var fields []Field
	at := 0
	for {
		end := smaller(at+size, len(section))
		given, taken, err := reader.Read(decoder, section[at:end], end == len(section))
		fields, at = append(fields, given...), at+taken
		if err != nil || at == len(section) {
			return fields, at, err
		}
	}
}

func TestSectionsInPieces(t *testing.T) {
	long := Field{Name: "x-long", Value: strings.Repeat("v", 2*pieceText)}
	list := append(append([]Field{}, request...), long)
	for len(list) < 2*pieceFields {
		list = append(list, Field{Name: "x", Value: "y"})
	}
	for _, size := range []int{1, 7, 65536} {
		encoder, decoder := newPair(t, 4096, 1)
		for streamID := uint64(0); streamID < 12; streamID += 4 {
			reader, err := NewSectionReader(streamID)
			must(t, err)
			encoded := encode(t, encoder, streamID, list)
			rest := encoded.Section
			if encoded.Required > decoder.InsertCount() {
				_, taken, err := readPieces(reader, decoder, rest, size)
				if failure := expect(t, err, ErrBlocked); failure.Required != encoded.Required || decoder.Blocked() != 1 {
					t.Fatal("it waits for others")
				}
				rest = rest[taken:]
			}
			must(t, decoder.Receive(encoder.TakeEncoderStream()))
			fields, taken, err := readPieces(reader, decoder, rest, size)
			expectFields(t, fields, err, list)
			if taken != len(rest) || reader.Pending() != 0 {
				t.Fatal("bytes are left")
			}
			must(t, encoder.Receive(decoder.TakeDecoderStream()))
			must(t, reader.Close())
			if _, _, err := reader.Read(decoder, nil, false); err != ErrClosed {
				t.Fatalf("got %v", err)
			}
		}
	}
	_, err := NewSectionReader(1 << 62)
	expect(t, err, ErrInvalid)
	_, decoder := newPair(t, 0, 0)
	reader, err := NewSectionReader(0)
	must(t, err)
	defer reader.Close()
	fields, _, err := reader.Read(decoder, []byte{0, 0, 0xd1, 0xff}, true)
	if failure := expect(t, err, ErrDecompressionFailed); failure.Number != 2 || failure.Offset != 3 || len(fields) != 1 {
		t.Fatalf("got %v", failure)
	}
}
