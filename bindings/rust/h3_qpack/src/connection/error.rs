//! Why the ends of a connection fail.

use crate::sys;
use core::fmt;

/// The decoder failed to interpret a section (RFC 9204, section 6).
pub const QPACK_DECOMPRESSION_FAILED: u64 = 0x200;
/// The decoder failed to interpret the encoder stream (RFC 9204, section 6).
pub const QPACK_ENCODER_STREAM_ERROR: u64 = 0x201;
/// The encoder failed to interpret the decoder stream (RFC 9204, section 6).
pub const QPACK_DECODER_STREAM_ERROR: u64 = 0x202;
/// The peer's SETTINGS are not allowed (RFC 9114, section 8.1).
pub const H3_SETTINGS_ERROR: u64 = 0x109;

/// The place of an invalid line of a section, or of an invalid instruction of a stream.
#[derive(Debug, Clone, Copy, PartialEq, Eq)]
#[non_exhaustive]
pub struct Place {
    /// The number of the line or instruction, from 1.
    pub number: u64,
    /// Where it begins, in bytes from the start of the section, or of the stream after its type.
    pub offset: u64,
}

impl Place {
    /// Makes a place, to compare an error with one that is expected.
    pub const fn new(number: u64, offset: u64) -> Place {
        Place { number, offset }
    }

    /// Returns the place that the library reported, if it reported one.
    pub(crate) fn told(number: u64, offset: u64) -> Option<Place> {
        if number == 0 {
            None
        } else {
            Some(Place { number, offset })
        }
    }
}

impl fmt::Display for Place {
    fn fmt(&self, f: &mut fmt::Formatter<'_>) -> fmt::Result {
        write!(f, "{}, byte {}", self.number, self.offset)
    }
}

/// The allocator refused. Repeat the call later.
#[derive(Debug, Clone, Copy, PartialEq, Eq)]
pub struct NoMemory;

impl fmt::Display for NoMemory {
    fn fmt(&self, f: &mut fmt::Formatter<'_>) -> fmt::Result {
        f.write_str("out of memory")
    }
}

/// Why an end can't be made.
#[derive(Debug, Clone, Copy, PartialEq, Eq)]
#[non_exhaustive]
pub enum SettingsError {
    /// A setting is out of its range. For a peer's maximum capacity of 2^30 bytes or more, make an encoder of 0.
    OutOfRange,
    /// The allocator refused.
    NoMemory,
    /// An encoder has no seed, and without the feature `std` there is no random one. Set `seed` to a random number.
    NoSeed,
    /// A status that this crate does not know: the library is of another version.
    Unknown(i32),
}

impl SettingsError {
    /// The error of a status.
    pub(crate) fn of(status: i32) -> SettingsError {
        match status {
            sys::INVALID => SettingsError::OutOfRange,
            sys::NO_MEMORY => SettingsError::NoMemory,
            status => SettingsError::Unknown(status),
        }
    }
}

impl fmt::Display for SettingsError {
    fn fmt(&self, f: &mut fmt::Formatter<'_>) -> fmt::Result {
        match self {
            SettingsError::OutOfRange => f.write_str("a setting is out of its range"),
            SettingsError::NoMemory => f.write_str("out of memory"),
            SettingsError::NoSeed => f.write_str("the encoder has no seed"),
            SettingsError::Unknown(status) => write!(f, "unknown status {status}"),
        }
    }
}

/// Why an encoder fails.
#[derive(Debug, Clone, Copy, PartialEq, Eq)]
#[non_exhaustive]
pub enum EncodingError {
    /// The decoder stream can't be interpreted (RFC 9204, section 4.4), or the peer changed a maximum capacity that is not
    /// 0 (section 3.2.3). Close the connection: the encoder is unusable, and each later call returns this error.
    DecoderStream {
        /// The place of the invalid instruction on the stream. `None` in an error of a call that does not read it.
        instruction: Option<Place>,
    },
    /// The peer's SETTINGS lower its limit of blocked streams (RFC 9114, section 7.2.4.2). Close the connection: the
    /// encoder is unusable, and each later call returns this error.
    LimitLowered,
    /// The peer's maximum capacity is new, and 2^30 or more; nothing was done. Pass 0 instead.
    MaximumTooLarge,
    /// The number of the stream is 2^62 or more; nothing was done.
    StreamId,
    /// The capacity is above the peer's maximum; nothing was done.
    CapacityTooLarge,
    /// For that capacity entries would have to go that may still be referenced; nothing was done. Try again later.
    EntriesHeld,
    /// The allocator refused; the call can be made again.
    NoMemory,
    /// A status that this crate does not know: the library is of another version.
    Unknown(i32),
}

impl EncodingError {
    /// Returns the code to close the connection with (RFC 9204, section 6, and RFC 9114, section 8.1). `None` if the
    /// encoder can go on.
    pub fn code(&self) -> Option<u64> {
        match self {
            EncodingError::DecoderStream { .. } => Some(QPACK_DECODER_STREAM_ERROR),
            EncodingError::LimitLowered => Some(H3_SETTINGS_ERROR),
            _ => None,
        }
    }

    /// Returns the error for a status. `invalid` is the call's error for an argument out of range.
    pub(crate) fn of(status: i32, invalid: EncodingError, instruction: Option<Place>) -> EncodingError {
        match status {
            DECODER_STREAM_ERROR => EncodingError::DecoderStream { instruction },
            SETTINGS_ERROR => EncodingError::LimitLowered,
            sys::INVALID => invalid,
            sys::HELD => EncodingError::EntriesHeld,
            sys::NO_MEMORY => EncodingError::NoMemory,
            status => EncodingError::Unknown(status),
        }
    }
}

impl fmt::Display for EncodingError {
    fn fmt(&self, f: &mut fmt::Formatter<'_>) -> fmt::Result {
        match self {
            EncodingError::DecoderStream { instruction: None } => f.write_str("the peer's decoder stream is invalid"),
            EncodingError::DecoderStream { instruction: Some(place) } => {
                write!(f, "the peer's decoder stream is invalid, at instruction {place}")
            }
            EncodingError::LimitLowered => f.write_str("the peer lowered its limit of blocked streams"),
            EncodingError::MaximumTooLarge => f.write_str("the peer's maximum capacity is 2^30 or more"),
            EncodingError::StreamId => f.write_str("no stream has that number"),
            EncodingError::CapacityTooLarge => f.write_str("the capacity is above the peer's maximum"),
            EncodingError::EntriesHeld => f.write_str("entries may still be referenced"),
            EncodingError::NoMemory => f.write_str("out of memory"),
            EncodingError::Unknown(status) => write!(f, "unknown status {status}"),
        }
    }
}

impl From<NoMemory> for EncodingError {
    fn from(_: NoMemory) -> EncodingError {
        EncodingError::NoMemory
    }
}

/// Why a decoder rejects its input, or fails.
#[derive(Debug, Clone, Copy, PartialEq, Eq)]
#[non_exhaustive]
pub enum DecodingError {
    /// A section can't be interpreted, or one stream too many is blocked (RFC 9204, sections 2.1.2 and 4.5). Close the
    /// connection: the decoder is unusable, and each later call returns this error.
    DecompressionFailed {
        /// The place of the invalid line in the first section that failed. `None` if its prefix is invalid, if a stream
        /// too many is blocked, and in an error of a call that decodes no section.
        line: Option<Place>,
    },
    /// The encoder stream can't be interpreted (RFC 9204, section 4.3). Close the connection: the decoder is unusable, and
    /// each later call returns this error.
    EncoderStream {
        /// The place of the invalid instruction on the stream. `None` in an error of a call that does not read it.
        instruction: Option<Place>,
    },
    /// The sizes of the section's fields sum to more than `max_section_size` (RFC 9114, section 4.2.2). The connection
    /// goes on: reject the message, and cancel its stream.
    TooLarge,
    /// The number of the stream is 2^62 or more; nothing was done.
    StreamId,
    /// The allocator refused. Repeat the call later.
    NoMemory {
        /// How many bytes [`receive`](crate::connection::ConnectionDecoder::receive) read: pass it those after them, even
        /// if there are none. 0 for any other call.
        taken: usize,
    },
    /// A status that this crate does not know: the library is of another version.
    Unknown(i32),
}

impl DecodingError {
    /// The code of RFC 9204, section 6, to close the connection with; `None` where the decoder can go on.
    pub fn code(&self) -> Option<u64> {
        match self {
            DecodingError::DecompressionFailed { .. } => Some(QPACK_DECOMPRESSION_FAILED),
            DecodingError::EncoderStream { .. } => Some(QPACK_ENCODER_STREAM_ERROR),
            _ => None,
        }
    }

    /// Returns the error of a status, with the place that was reported with it, and how many bytes were taken.
    pub(crate) fn of(status: i32, place: Option<Place>, taken: usize) -> DecodingError {
        match status {
            DECOMPRESSION_FAILED => DecodingError::DecompressionFailed { line: place },
            ENCODER_STREAM_ERROR => DecodingError::EncoderStream { instruction: place },
            sys::TOO_LARGE => DecodingError::TooLarge,
            sys::INVALID => DecodingError::StreamId,
            sys::NO_MEMORY => DecodingError::NoMemory { taken },
            status => DecodingError::Unknown(status),
        }
    }
}

impl fmt::Display for DecodingError {
    fn fmt(&self, f: &mut fmt::Formatter<'_>) -> fmt::Result {
        match self {
            DecodingError::DecompressionFailed { line: None } => {
                f.write_str("a section is invalid, or too many streams are blocked")
            }
            DecodingError::DecompressionFailed { line: Some(place) } => {
                write!(f, "a section is invalid, at line {place}")
            }
            DecodingError::EncoderStream { instruction: None } => f.write_str("the peer's encoder stream is invalid"),
            DecodingError::EncoderStream { instruction: Some(place) } => {
                write!(f, "the peer's encoder stream is invalid, at instruction {place}")
            }
            DecodingError::TooLarge => f.write_str("the section is too large"),
            DecodingError::StreamId => f.write_str("no stream has that number"),
            DecodingError::NoMemory { .. } => f.write_str("out of memory"),
            DecodingError::Unknown(status) => write!(f, "unknown status {status}"),
        }
    }
}

impl From<NoMemory> for DecodingError {
    fn from(_: NoMemory) -> DecodingError {
        DecodingError::NoMemory { taken: 0 }
    }
}

/// The codes as statuses.
pub(crate) const DECOMPRESSION_FAILED: i32 = QPACK_DECOMPRESSION_FAILED as i32;
const ENCODER_STREAM_ERROR: i32 = QPACK_ENCODER_STREAM_ERROR as i32;
const DECODER_STREAM_ERROR: i32 = QPACK_DECODER_STREAM_ERROR as i32;
const SETTINGS_ERROR: i32 = H3_SETTINGS_ERROR as i32;
