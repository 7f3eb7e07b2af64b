//! The decoder of a connection.

use super::entries::Entries;
use super::error::{DecodingError, NoMemory, Place, SettingsError};
use super::take_all;
use crate::copied::{Copied, Fields};
use crate::sys;
use crate::view::Views;
use alloc::vec::Vec;
use core::fmt;

/// The settings of a decoder, which this side sends in its SETTINGS frame.
///
/// ```
/// use h3_qpack::connection::DecoderSettings;
///
/// let mut settings = DecoderSettings::new(4096, 16);
/// settings.max_section_size = 16_384;
/// assert_eq!(settings, DecoderSettings::new(4096, 16).with_max_section_size(16_384));
/// assert_eq!(DecoderSettings::default(), DecoderSettings::new(0, 0));
/// ```
#[derive(Debug, Clone, Copy, PartialEq, Eq)]
#[non_exhaustive]
pub struct DecoderSettings {
    /// SETTINGS_QPACK_MAX_TABLE_CAPACITY (RFC 9204, section 5), in bytes, below 2^30.
    pub max_capacity: usize,
    /// SETTINGS_QPACK_BLOCKED_STREAMS (RFC 9204, section 5), below 65,535.
    pub max_blocked: usize,
    /// SETTINGS_MAX_FIELD_SECTION_SIZE (RFC 9114, section 7.2.4.1): the greatest sum of a section's fields, in bytes.
    pub max_section_size: u64,
}

impl DecoderSettings {
    /// Returns the settings with these two, and a `max_section_size` of 65,536 bytes, as in C, Go and Python.
    pub const fn new(max_capacity: usize, max_blocked: usize) -> DecoderSettings {
        DecoderSettings { max_capacity, max_blocked, max_section_size: 65_536 }
    }

    /// Returns the settings with another `max_section_size`, in bytes.
    pub const fn with_max_section_size(self, max_section_size: u64) -> DecoderSettings {
        DecoderSettings { max_section_size, ..self }
    }
}

impl Default for DecoderSettings {
    /// Returns the settings of a side without a dynamic table, `new(0, 0)`. It must send its `max_section_size`.
    fn default() -> DecoderSettings {
        DecoderSettings::new(0, 0)
    }
}

/// Returns the length, in bytes, of the longest section whose fields can be within a `max_section_size`; at most
/// [`u64::MAX`]. A decoder rejects a longer one unread, with [`DecodingError::TooLarge`], so a buffer for a HEADERS frame
/// needs no more room.
///
/// ```
/// assert_eq!(h3_qpack::connection::longest_section(65_536), 262_164);
/// ```
pub fn longest_section(max_section_size: u64) -> u64 {
    max_section_size.saturating_mul(4).saturating_add(20)
}

/// The result of decoding a section.
#[derive(Debug, Clone, Copy, PartialEq, Eq)]
#[non_exhaustive]
pub enum Reading {
    /// The section was decoded. Get its fields from [`ConnectionDecoder::fields`].
    Fields {
        /// The number of fields.
        count: usize,
        /// The Required Insert Count. If it is above 0, the section was acknowledged.
        required: usize,
    },
    /// The section is blocked (RFC 9204, section 2.2.1). Keep it, and decode it again when
    /// [`ConnectionDecoder::next_ready`] returns its stream.
    Blocked {
        /// The number of insertions that must be received first.
        required: usize,
    },
}

/// What the prefix of a section says (RFC 9204, section 4.5.1).
#[derive(Debug, Clone, Copy, PartialEq, Eq)]
#[non_exhaustive]
pub struct SectionPrefix {
    /// The Required Insert Count, 0 if the section references no entry of the dynamic table.
    pub required: usize,
    /// The Base, from which its lines count the entries that they reference.
    pub base: usize,
    /// The length of the prefix, in bytes.
    pub len: usize,
    /// Whether the section waits for insertions: until [`insert_count`](ConnectionDecoder::insert_count) returns
    /// `required` or more.
    pub is_blocked: bool,
}

/// The decoder of a connection (RFC 9204, section 2.2). It is [`Send`] and not [`Sync`]: one thread uses it at a time.
///
/// ```
/// fn is_send<T: Send>() {}
/// is_send::<h3_qpack::connection::ConnectionDecoder>();
/// ```
/// ```compile_fail,E0277
/// fn is_sync<T: Sync>() {}
/// is_sync::<h3_qpack::connection::ConnectionDecoder>();
/// ```
pub struct ConnectionDecoder {
    end: sys::Decoder,
    /// The fields of the last decoded section, if they were copied already.
    copied: Copied,
}

impl ConnectionDecoder {
    /// Makes a decoder. Its table has the capacity 0 until the peer sets one.
    ///
    /// # Errors
    /// - [`SettingsError::OutOfRange`] if `max_capacity` is 2^30 or more, or `max_blocked` is 65,535 or more.
    /// - [`SettingsError::NoMemory`].
    pub fn new(settings: DecoderSettings) -> Result<ConnectionDecoder, SettingsError> {
        let DecoderSettings { max_capacity, max_blocked, max_section_size } = settings;
        match sys::Decoder::new(max_capacity, max_blocked, max_section_size) {
            Ok(end) => Ok(ConnectionDecoder { end, copied: Copied::default() }),
            Err(status) => Err(SettingsError::of(status)),
        }
    }

    /// Reads the prefix of a section, whose lines may be missing. It changes nothing: call it to know at once whether the
    /// section waits.
    ///
    /// # Errors
    /// - [`DecodingError::DecompressionFailed`] if the prefix is invalid, or not whole. Read more of the section, up to 20
    ///   bytes, or close the connection.
    ///
    /// ```
    /// # use h3_qpack::connection::{ConnectionDecoder, DecoderSettings};
    /// let decoder = ConnectionDecoder::new(DecoderSettings::new(4096, 16))?;
    /// let prefix = decoder.peek_prefix(&[0x02, 0x00])?;
    /// assert_eq!((prefix.required, prefix.len, prefix.is_blocked), (1, 2, true));
    /// # Ok::<(), Box<dyn std::error::Error>>(())
    /// ```
    pub fn peek_prefix(&self, section: &[u8]) -> Result<SectionPrefix, DecodingError> {
        let prefix = self.end.peek_prefix(section);
        match prefix.status {
            sys::OK | sys::BLOCKED => Ok(SectionPrefix {
                required: prefix.required,
                base: prefix.base,
                len: prefix.len,
                is_blocked: prefix.status == sys::BLOCKED,
            }),
            status => Err(DecodingError::of(status, None, 0)),
        }
    }

    /// Decodes a whole section of a stream (RFC 9204, section 4.5). Pass the sections of a stream in order.
    ///
    /// # Errors
    /// - [`DecodingError::DecompressionFailed`] if the section is invalid, or one stream too many is blocked. Close the
    ///   connection.
    /// - [`DecodingError::TooLarge`] if the fields exceed `max_section_size`. Reject the message, and call
    ///   [`cancel_stream`](Self::cancel_stream).
    /// - [`DecodingError::StreamId`] if `stream_id` is 2^62 or more.
    /// - [`DecodingError::NoMemory`]: decode the section again later.
    /// - [`DecodingError::EncoderStream`] if [`receive`](Self::receive) returned it before.
    pub fn decode(&mut self, stream_id: u64, section: &[u8]) -> Result<Reading, DecodingError> {
        self.copied.clear();
        let decoded = self.end.decode(stream_id, section);
        match decoded.status {
            sys::OK => Ok(Reading::Fields { count: decoded.fields, required: decoded.required }),
            sys::BLOCKED => Ok(Reading::Blocked { required: decoded.required }),
            status => Err(DecodingError::of(status, Place::told(decoded.number, decoded.offset), 0)),
        }
    }

    /// The end, for a reader of sections in pieces.
    pub(super) fn end(&mut self) -> &mut sys::Decoder {
        &mut self.end
    }

    /// Returns copies of the fields of the last decode, in order. There are none if it did not return
    /// [`Reading::Fields`].
    ///
    /// # Errors
    /// [`NoMemory`] if there is no memory to copy them to: call it again later.
    pub fn fields(&mut self) -> Result<Fields<'_>, NoMemory> {
        if self.copied.told.len() < self.end.field_count() {
            self.copy_fields()?;
        }
        Ok(self.copied.fields())
    }

    /// Returns the fields of the last decode where they lie in the decoder, in order, and copies none. Each has its index
    /// in the static table.
    ///
    /// ```
    /// # use h3_qpack::connection::{ConnectionDecoder, DecoderSettings, FieldLine};
    /// let mut decoder = ConnectionDecoder::new(DecoderSettings::default())?;
    /// decoder.decode(0, &[0x00, 0x00, 0x51, 0x02, b'/', b'a'])?; // the name :path, and a value
    /// let path = decoder.views().next().unwrap();
    /// assert_eq!(path.line, FieldLine::new(":path", "/a"));
    /// assert_eq!((path.static_name(), path.static_field()), (Some(1), None));
    /// # Ok::<(), Box<dyn std::error::Error>>(())
    /// ```
    /// While they are there, the decoder can't decode:
    /// ```compile_fail,E0502
    /// # use h3_qpack::connection::{ConnectionDecoder, DecoderSettings};
    /// let mut decoder = ConnectionDecoder::new(DecoderSettings::default()).unwrap();
    /// let fields = decoder.views();
    /// decoder.decode(4, &[0x00, 0x00]).unwrap();
    /// assert_eq!(fields.len(), 0);
    /// ```
    pub fn views(&self) -> Views<'_> {
        Views::new(&self.end)
    }

    /// Takes the fields of the last decode. Without memory they stay, and can be taken later.
    #[cfg(feature = "std")]
    pub(crate) fn take_fields(&mut self) -> Result<Copied, NoMemory> {
        self.fields()?;
        Ok(core::mem::take(&mut self.copied))
    }

    /// Returns the length of all names and values of the last decode, in bytes. It is 0 if that did not return
    /// [`Reading::Fields`].
    ///
    /// ```
    /// # use h3_qpack::connection::{ConnectionDecoder, DecoderSettings};
    /// let mut decoder = ConnectionDecoder::new(DecoderSettings::default())?;
    /// decoder.decode(0, &[0x00, 0x00, 0xd1])?; // :method GET
    /// assert_eq!(decoder.decoded_len(), 10);
    /// # Ok::<(), Box<dyn std::error::Error>>(())
    /// ```
    pub fn decoded_len(&self) -> usize {
        self.end.fields_len()
    }

    /// The older name of [`decoded_len`](Self::decoded_len), which C returns as `len`.
    #[deprecated(since = "0.2.0", note = "call `decoded_len`, which does the same")]
    pub fn fields_len(&self) -> usize {
        self.decoded_len()
    }

    /// Copies the fields of the last decode.
    fn copy_fields(&mut self) -> Result<(), NoMemory> {
        let copied = &mut self.copied;
        copied.make_room(self.end.field_count(), self.end.fields_len())?;
        let written = self.end.fields(&mut copied.told, &mut copied.bytes);
        assert_eq!(written.status, sys::OK, "the fields fit in the room that the library asked for");
        Ok(())
    }

    /// Receives the next bytes of the peer's encoder stream, without the stream type, in pieces of any size. Then
    /// [`next_ready`](Self::next_ready) returns the streams whose sections are no longer blocked.
    ///
    /// # Errors
    /// - [`DecodingError::EncoderStream`] if an instruction is invalid (RFC 9204, section 4.3). Close the connection.
    /// - [`DecodingError::NoMemory`]: pass the bytes after the first `taken` ones again, even if there are none.
    /// - [`DecodingError::DecompressionFailed`] if [`decode`](Self::decode) returned it before.
    pub fn receive(&mut self, bytes: &[u8]) -> Result<(), DecodingError> {
        let received = self.end.read(bytes);
        match received.status {
            sys::OK => Ok(()),
            status => {
                let place = Place::told(received.number, received.offset);
                Err(DecodingError::of(status, place, received.taken))
            }
        }
    }

    /// Returns a blocked stream whose section can be decoded now, the one that waited for the fewest insertions. It
    /// returns the same stream until its section is decoded or the stream is cancelled.
    pub fn next_ready(&self) -> Option<u64> {
        self.end.next_ready()
    }

    /// Returns the number of insertions that were received since the connection began.
    pub fn insert_count(&self) -> usize {
        self.end.insert_count()
    }

    /// Returns the number of blocked streams (RFC 9204, section 2.1.2).
    pub fn blocked(&self) -> usize {
        self.end.blocked()
    }

    /// Returns the capacity of the table, in bytes: 0 until the peer sets one (RFC 9204, section 4.3.1).
    pub fn capacity(&self) -> usize {
        self.end.capacity()
    }

    /// Returns the size of the table, in bytes: the sum over its entries of name, value and 32 bytes each (RFC 9204,
    /// section 3.2.1). Goes through all entries.
    pub fn table_size(&self) -> usize {
        self.end.table_size()
    }

    /// Returns the entries of the table, the newest first.
    ///
    /// ```
    /// # use h3_qpack::connection::{ConnectionDecoder, DecoderSettings};
    /// # use h3_qpack::HeaderField;
    /// let mut decoder = ConnectionDecoder::new(DecoderSettings::new(4096, 16))?;
    /// decoder.receive(&[0x3f, 0x45, 0xc1, 0x01, b'x'])?; // the capacity 100, and an insertion of the name :path
    /// assert_eq!((decoder.capacity(), decoder.table_size()), (100, 38));
    /// assert_eq!(decoder.entries().next(), Some(Ok(HeaderField::new(":path", "x"))));
    /// # Ok::<(), Box<dyn std::error::Error>>(())
    /// ```
    pub fn entries(&self) -> Entries<'_> {
        Entries::new(&self.end)
    }

    /// Returns the number of bytes to send on the decoder stream.
    pub fn decoder_stream_len(&self) -> usize {
        self.end.stream_len()
    }

    /// Moves bytes to send on the decoder stream to `out`, as many as fit. Returns how many.
    pub fn write_decoder_stream(&mut self, out: &mut [u8]) -> usize {
        self.end.stream(out)
    }

    /// Appends all bytes to send on the decoder stream to `out`. Returns how many.
    ///
    /// # Errors
    /// [`NoMemory`]: nothing was taken.
    pub fn take_decoder_stream(&mut self, out: &mut Vec<u8>) -> Result<usize, NoMemory> {
        take_all(out, self.end.stream_len(), |room| self.end.stream(room))
    }

    /// Gives up the sections of a stream, and writes a Stream Cancellation (RFC 9204, section 2.2.2.2). Call this when a
    /// stream is reset, or when you stop reading it. It is allowed for any stream.
    ///
    /// # Errors
    /// - [`DecodingError::StreamId`] if `stream_id` is 2^62 or more.
    /// - [`DecodingError::NoMemory`]: nothing changed.
    /// - An error with a code that another call returned before.
    pub fn cancel_stream(&mut self, stream_id: u64) -> Result<(), DecodingError> {
        match self.end.cancel(stream_id) {
            sys::OK => Ok(()),
            status => Err(DecodingError::of(status, None, 0)),
        }
    }

    /// The older name of [`cancel_stream`](Self::cancel_stream), which C, Go and Python have too.
    ///
    /// # Errors
    /// Those of `cancel_stream`.
    #[deprecated(since = "0.2.0", note = "call `cancel_stream`, which does the same")]
    pub fn cancel(&mut self, stream_id: u64) -> Result<(), DecodingError> {
        self.cancel_stream(stream_id)
    }
}

impl fmt::Debug for ConnectionDecoder {
    fn fmt(&self, f: &mut fmt::Formatter<'_>) -> fmt::Result {
        f.debug_struct("ConnectionDecoder").finish_non_exhaustive()
    }
}
