// Package h3qpack is QPACK, the header compression of HTTP/3 (RFC 9204). It has the C library h3_qpack in it, as the assembly
// of its proved code, and calls it by cgo. So it needs a C compiler, and nothing that is installed.
//
// Each side of a connection has an [Encoder], made from the settings that the peer sent, and a [Decoder], made from the
// settings that this side sent. The package does no I/O: pass it the bytes that you received, in order and without the
// stream type (0x02 or 0x03), and send the bytes that it returns.
//
// An error of an end is an [*Error]. Its status says what happened, and can be tested:
//
//	fields, err := decoder.Decode(streamID, section)
//	var failure *h3qpack.Error
//	switch {
//	case errors.Is(err, h3qpack.ErrBlocked):
//		keep(streamID, section) // until NextReady returns streamID
//	case errors.As(err, &failure) && failure.Closes():
//		conn.CloseWithError(failure.Code(), err.Error())
//	}
//
// Use an Encoder or a Decoder from one goroutine at a time. Close each: no finalizer does.
package h3qpack

// #cgo CFLAGS: -O2 -g0
// #include "bridge.h"
import "C"

import "unsafe"

// Version returns the version of the library's interface. This package needs version 0.2.
func Version() (major, minor int) {
	version := int(C.h3_qpack_version())
	return version >> 16, version & 0xffff
}

// LongestSection returns the length, in bytes, of the longest section whose fields can be within a MaxSectionSize. A
// decoder rejects a longer one unread, with ErrTooLarge, so a buffer for a HEADERS frame needs no more room.
func LongestSection(maxSectionSize uint64) uint64 {
	return uint64(C.h3qpack_longest_section(C.uint64_t(maxSectionSize)))
}

// noCopy has go vet report copies of a struct that has it: vet takes it for a lock.
type noCopy struct{}

func (*noCopy) Lock()   {}
func (*noCopy) Unlock() {}

// firstByte returns a pointer to the bytes, or nil if there are none.
func firstByte(bytes []byte) *C.uint8_t {
	if len(bytes) == 0 {
		return nil
	}
	return (*C.uint8_t)(unsafe.Pointer(&bytes[0]))
}
