package h3qpack

// #include "bridge.h"
import "C"

import (
	"errors"
	"fmt"
)

// ErrClosed is the error of a call after Close.
var ErrClosed = errors.New("h3qpack: the encoder or decoder is closed: make another")

// A Status says why a call failed. It is an error for errors.Is.
type Status int32

// These statuses are error codes of RFC 9204, section 6, and of RFC 9114, section 8.1: close the connection with them. The
// encoder or decoder is unusable then, and each later call that can fail returns the same status.
const (
	// ErrDecompressionFailed: a section is invalid, or one stream too many is blocked.
	ErrDecompressionFailed Status = C.H3_QPACK_DECOMPRESSION_FAILED
	// ErrEncoderStream: an instruction of the peer's encoder stream is invalid.
	ErrEncoderStream Status = C.H3_QPACK_ENCODER_STREAM_ERROR
	// ErrDecoderStream: an instruction of the peer's decoder stream is invalid, or the peer changed its maximum capacity.
	ErrDecoderStream Status = C.H3_QPACK_DECODER_STREAM_ERROR
	// ErrSettings: the peer lowered its limit of blocked streams.
	ErrSettings Status = C.H3_QPACK_SETTINGS_ERROR
)

// With these statuses the connection goes on.
const (
	// ErrNoMemory: malloc or realloc failed. Repeat the call later.
	ErrNoMemory Status = C.H3_QPACK_ERR_NO_MEMORY
	// ErrBlocked: the section requires insertions that have not arrived. Keep it, and decode it again when
	// [Decoder.NextReady] returns its stream.
	ErrBlocked Status = C.H3_QPACK_BLOCKED
	// ErrInvalid: an argument is out of its range, and nothing was done.
	ErrInvalid Status = C.H3_QPACK_ERR_INVALID
	// ErrTooLarge: the section exceeds MaxSectionSize. Reject the message, and call [Decoder.CancelStream].
	ErrTooLarge Status = C.H3_QPACK_ERR_TOO_LARGE
	// ErrHeld: the capacity would evict entries that may still be referenced. Set it again after more acknowledgments.
	ErrHeld Status = C.H3_QPACK_ERR_HELD
	// ErrVersion: the package was compiled with a header that does not fit the library. Compile it again.
	ErrVersion Status = C.H3_QPACK_ERR_VERSION
)

// texts says what each status means, and what to do, except with those that close the connection.
var texts = map[Status]struct{ cause, advice string }{
	ErrDecompressionFailed: {"a section is invalid, or too many streams are blocked", ""},
	ErrEncoderStream:       {"the peer's encoder stream is invalid", ""},
	ErrDecoderStream:       {"the peer's decoder stream is invalid", ""},
	ErrSettings:            {"the peer lowered its limit of blocked streams", ""},
	ErrNoMemory:            {"out of memory", "repeat the call later"},
	ErrBlocked:             {"the section is blocked", "keep it until NextReady returns its stream"},
	ErrInvalid:             {"an argument is out of its range", "correct the call"},
	ErrTooLarge:            {"the section is too large", "reject the message, and cancel its stream"},
	ErrHeld:                {"entries may still be referenced", "set the capacity after more acknowledgments"},
	ErrVersion:             {"the library is of another version", "compile the program with its header"},
}

// causeAt says what a status means where the place is known, if that is less than it means otherwise.
var causeAt = map[Status]string{ErrDecompressionFailed: "a section is invalid"}

// cause returns what the status means.
func (s Status) cause() string {
	if text, ok := texts[s]; ok {
		return text.cause
	}
	return fmt.Sprintf("unknown status %d", int32(s))
}

// advice returns what to do.
func (s Status) advice() string {
	if s.Closes() {
		return fmt.Sprintf("close the connection with %#x", s.Code())
	}
	if text, ok := texts[s]; ok {
		return text.advice
	}
	return "install the library that this package is of"
}

// Error returns what the status means, and what to do.
func (s Status) Error() string { return s.cause() + ": " + s.advice() }

// Closes reports whether the connection must be closed.
func (s Status) Closes() bool { return s > 0 }

// Code returns the error code to close the connection with, or 0 if the connection goes on.
func (s Status) Code() uint64 {
	if !s.Closes() {
		return 0
	}
	return uint64(s)
}

// An Error is why a call failed. errors.Is finds its status.
type Error struct {
	// Op is what failed, as "decode".
	Op string
	Status
	// Number is the number, from 1, of the invalid field line of the section, or instruction of the stream. It is 0 if
	// there is none: the prefix is invalid, say, or an earlier call reported the error.
	Number uint64
	// Offset is the position of its first byte in the section, or on the stream after its type.
	Offset uint64
	// Required is the Required Insert Count of a section that is blocked.
	Required int
	// Taken is, with ErrNoMemory from Receive, how many bytes were read. Pass the rest later, even if it is empty.
	Taken int
}

// ranges says what ErrInvalid expected, for each call.
var ranges = map[string]string{
	"new encoder":       "MaxCapacity must be below 2^30; for a peer with more pass 0",
	"new decoder":       "MaxCapacity must be below 2^30, and MaxBlocked below 65,535",
	"encode":            "the stream must be below 2^62",
	"decode":            "the stream must be below 2^62",
	"cancel stream":     "the stream must be below 2^62",
	"set capacity":      "the capacity must be at most the peer's MaxCapacity",
	"set peer settings": "maxCapacity must be below 2^30; for a peer with more pass 0",
}

// Error returns what failed, why and where, and what to do.
func (e *Error) Error() string {
	cause, advice := e.cause(), e.advice()
	if at, ok := causeAt[e.Status]; ok && e.Number > 0 {
		cause = at
	}
	text := "h3qpack: " + e.Op + ": " + cause
	switch {
	case e.Status == ErrInvalid:
		advice = ranges[e.Op]
	case e.Status == ErrBlocked:
		text += fmt.Sprintf(" until insertion %d", e.Required)
	case e.Number > 0 && e.Op == "receive":
		text += fmt.Sprintf(", at instruction %d, byte %d", e.Number, e.Offset)
	case e.Number > 0:
		text += fmt.Sprintf(", at line %d, byte %d", e.Number, e.Offset)
	}
	return text + ": " + advice
}

// Unwrap returns the status.
func (e *Error) Unwrap() error { return e.Status }

// check returns the error of a status, or nil if the call succeeded.
func check(op string, status C.int32_t) error {
	if status == C.H3_QPACK_OK {
		return nil
	}
	return &Error{Op: op, Status: Status(status)}
}

// checkReceived returns the error of a call that read bytes of a stream, or nil if it read all.
func checkReceived(received C.h3_qpack_received) error {
	if received.status == C.H3_QPACK_OK {
		return nil
	}
	return &Error{
		Op:     "receive",
		Status: Status(received.status),
		Number: uint64(received.number),
		Offset: uint64(received.offset),
		Taken:  int(received.taken),
	}
}
