//! The encoder of a connection.

use super::entries::Entries;
use super::error::{EncodingError, NoMemory, Place, SettingsError};
use super::take_all;
use crate::field::{FieldLine, Wish, WishedField};
use crate::room::{gather, make_room};
use crate::sys::{self, Lent};
use alloc::vec::Vec;
use core::fmt;

/// The settings of an encoder.
///
/// ```
/// use h3_qpack::connection::EncoderSettings;
///
/// let mut settings = EncoderSettings::new(65_536, 16);
/// settings.capacity = 16_384;
/// assert_eq!(settings, EncoderSettings::new(65_536, 16).with_capacity(16_384));
/// assert_eq!(EncoderSettings::default(), EncoderSettings::new(0, 0));
/// ```
#[derive(Debug, Clone, Copy, PartialEq, Eq)]
#[non_exhaustive]
pub struct EncoderSettings {
    /// The peer's SETTINGS_QPACK_MAX_TABLE_CAPACITY (RFC 9204, section 5), in bytes, below 2^30.
    pub max_capacity: usize,
    /// The peer's SETTINGS_QPACK_BLOCKED_STREAMS (RFC 9204, section 5).
    pub max_blocked: usize,
    /// The capacity of the table, in bytes; `max_capacity` if that is less.
    pub capacity: usize,
    /// While this number of sections is unacknowledged (RFC 9204, section 4.4.1), sections reference only the static
    /// table.
    pub most_unacknowledged: usize,
    /// The seed of the hashes of the table's fields; `None` for a random one, which needs the feature `std`. With a seed
    /// that nobody can guess, nobody can choose fields that take long to insert. No byte that is written depends on it.
    pub seed: Option<u64>,
}

impl EncoderSettings {
    /// Returns the settings for a peer that sent these two, with a capacity of 16,384 bytes, 100 unacknowledged sections
    /// and a random seed.
    pub const fn new(max_capacity: usize, max_blocked: usize) -> EncoderSettings {
        EncoderSettings { max_capacity, max_blocked, capacity: 16_384, most_unacknowledged: 100, seed: None }
    }

    /// Returns the settings with another `capacity`, in bytes.
    pub const fn with_capacity(self, capacity: usize) -> EncoderSettings {
        EncoderSettings { capacity, ..self }
    }

    /// Returns the settings with another `most_unacknowledged`, a number of sections.
    pub const fn with_most_unacknowledged(self, most_unacknowledged: usize) -> EncoderSettings {
        EncoderSettings { most_unacknowledged, ..self }
    }

    /// Returns the settings with this `seed`.
    pub const fn with_seed(self, seed: u64) -> EncoderSettings {
        EncoderSettings { seed: Some(seed), ..self }
    }
}

impl Default for EncoderSettings {
    /// Returns the settings for a peer that sent neither of the two, or whose SETTINGS did not arrive yet: `new(0, 0)`.
    fn default() -> EncoderSettings {
        EncoderSettings::new(0, 0)
    }
}

/// The encoder of a connection (RFC 9204, section 2.1). It is [`Send`] and not [`Sync`]: one thread uses it at a time.
///
/// ```
/// fn is_send<T: Send>() {}
/// is_send::<h3_qpack::connection::ConnectionEncoder>();
/// ```
/// ```compile_fail,E0277
/// fn is_sync<T: Sync>() {}
/// is_sync::<h3_qpack::connection::ConnectionEncoder>();
/// ```
pub struct ConnectionEncoder {
    end: sys::Encoder,
    /// The size of the fields of the last section.
    encoded_size: usize,
}

impl ConnectionEncoder {
    /// Makes an encoder. It writes its table capacity to the encoder stream before the first section.
    ///
    /// # Errors
    /// - [`SettingsError::OutOfRange`] if `max_capacity` is 2^30 or more: for such a peer pass 0.
    /// - [`SettingsError::NoMemory`].
    /// - [`SettingsError::NoSeed`] if `seed` is `None` without the feature `std`: pass a random number.
    pub fn new(settings: EncoderSettings) -> Result<ConnectionEncoder, SettingsError> {
        let EncoderSettings { max_capacity, max_blocked, capacity, most_unacknowledged, seed } = settings;
        let seed = seed.or_else(random_seed).ok_or(SettingsError::NoSeed)?;
        match sys::Encoder::new(max_capacity, max_blocked, capacity, most_unacknowledged, seed) {
            Ok(end) => Ok(ConnectionEncoder { end, encoded_size: 0 }),
            Err(status) => Err(SettingsError::of(status)),
        }
    }

    /// Encodes fields for a stream, and appends the section to `section` (RFC 9204, section 4.5). Returns its Required
    /// Insert Count: if that is above 0, the peer acknowledges the section. Send the bytes of the encoder stream before
    /// the section. Reserves four bytes for each byte of the fields.
    ///
    /// # Errors
    /// `section` is unchanged.
    /// - [`EncodingError::StreamId`] if `stream_id` is 2^62 or more.
    /// - [`EncodingError::NoMemory`]: encode the fields again later.
    /// - [`EncodingError::DecoderStream`] if [`receive`](Self::receive) returned it before.
    ///
    /// ```
    /// # use h3_qpack::connection::{ConnectionEncoder, EncoderSettings, FieldLine};
    /// let mut encoder = ConnectionEncoder::new(EncoderSettings::new(0, 0))?;
    /// let fields = [FieldLine::new(":method", "GET"), FieldLine::never_indexed("authorization", "Basic Og==")];
    /// let mut section = Vec::new();
    /// assert_eq!(encoder.encode(0, fields, &mut section)?, 0);
    /// assert_eq!(section[..3], [0x00, 0x00, 0xd1]);
    /// # Ok::<(), Box<dyn std::error::Error>>(())
    /// ```
    pub fn encode<'f, I>(&mut self, stream_id: u64, fields: I, section: &mut Vec<u8>) -> Result<usize, EncodingError>
    where
        I: IntoIterator,
        I::Item: Into<WishedField<'f>>,
    {
        self.encoded_size = 0;
        self.encode_lent(stream_id, &ConnectionEncoder::lend(fields)?, section)
    }

    /// Borrows fields for [`encode_lent`](Self::encode_lent).
    pub(crate) fn lend<'f, I>(fields: I) -> Result<Lines<'f>, NoMemory>
    where
        I: IntoIterator,
        I::Item: Into<WishedField<'f>>,
    {
        let mut most_encoded = SECTION_PREFIX;
        let lent = gather(fields.into_iter().map(|field| {
            let WishedField { line: FieldLine { name, value, never_indexed }, wish } = field.into();
            let text = name.len().saturating_add(value.len());
            most_encoded = most_encoded.saturating_add(text.saturating_mul(MOST_CODED)).saturating_add(LINE_LENGTHS);
            Lent::new(name, value, if never_indexed { Wish::Never } else { wish })
        }))?;
        Ok(Lines { lent, most_encoded })
    }

    /// Does what [`encode`](Self::encode) does, with fields that were borrowed before.
    pub(crate) fn encode_lent(
        &mut self,
        stream_id: u64,
        lines: &Lines<'_>,
        section: &mut Vec<u8>,
    ) -> Result<usize, EncodingError> {
        self.encoded_size = 0;
        make_room(section, lines.most_encoded)?;
        let encoded = self.end.encode(stream_id, &lines.lent, section);
        self.encoded_size = encoded.size;
        match encoded.status {
            sys::OK => Ok(encoded.required),
            status => Err(EncodingError::of(status, EncodingError::StreamId, None)),
        }
    }

    /// Returns the size of the fields of the last encode, in bytes: the sum of name, value and 32 bytes each. It is 0 if
    /// that failed. The peer may reject a section above its SETTINGS_MAX_FIELD_SECTION_SIZE (RFC 9114, section 4.2.2).
    ///
    /// ```
    /// # use h3_qpack::connection::{ConnectionEncoder, EncoderSettings};
    /// let mut encoder = ConnectionEncoder::new(EncoderSettings::new(4096, 16))?;
    /// encoder.encode(0, [(":method", "GET"), ("foo", "bar")], &mut Vec::new())?;
    /// assert_eq!(encoder.encoded_size(), 10 + 32 + 6 + 32);
    /// # Ok::<(), Box<dyn std::error::Error>>(())
    /// ```
    pub fn encoded_size(&self) -> usize {
        self.encoded_size
    }

    /// The older name of [`encoded_size`](Self::encoded_size), which C, Go and Python return as `size`.
    #[deprecated(since = "0.2.0", note = "call `encoded_size`, which does the same")]
    pub fn list_size(&self) -> usize {
        self.encoded_size()
    }

    /// Returns the number of bytes to send on the encoder stream.
    pub fn encoder_stream_len(&self) -> usize {
        self.end.stream_len()
    }

    /// Moves bytes to send on the encoder stream to `out`, as many as fit. Returns how many.
    pub fn write_encoder_stream(&mut self, out: &mut [u8]) -> usize {
        self.end.stream(out)
    }

    /// Appends all bytes to send on the encoder stream to `out`. Returns how many.
    ///
    /// # Errors
    /// [`NoMemory`]: nothing was taken.
    pub fn take_encoder_stream(&mut self, out: &mut Vec<u8>) -> Result<usize, NoMemory> {
        take_all(out, self.end.stream_len(), |room| self.end.stream(room))
    }

    /// Receives the next bytes of the peer's decoder stream, without the stream type, in pieces of any size.
    ///
    /// # Errors
    /// [`EncodingError::DecoderStream`] if an instruction is invalid (RFC 9204, section 4.4): an acknowledgment of a stream
    /// without an unacknowledged section, or an increment of 0 or past the insertions. Close the connection.
    pub fn receive(&mut self, bytes: &[u8]) -> Result<(), EncodingError> {
        let received = self.end.read(bytes);
        match received.status {
            sys::OK => Ok(()),
            status => {
                let place = Place::told(received.number, received.offset);
                Err(EncodingError::of(status, EncodingError::Unknown(status), place))
            }
        }
    }

    /// Applies the peer's SETTINGS to an encoder that was made before they arrived: its SETTINGS_QPACK_MAX_TABLE_CAPACITY
    /// in bytes, and its SETTINGS_QPACK_BLOCKED_STREAMS, 0 for one that is missing (RFC 9204, section 3.2.3).
    ///
    /// Make such an encoder with 0 for both, or for 0-RTT with the settings that were remembered. Until this call an
    /// encoder of maximum 0 writes sections that any peer can decode, and nothing on the encoder stream. Afterwards it is
    /// as if made with the peer's settings.
    ///
    /// # Errors
    /// - [`EncodingError::MaximumTooLarge`] if the maximum is new, and 2^30 or more. Nothing changes: pass 0 instead.
    /// - [`EncodingError::DecoderStream`] if the encoder has another maximum, above 0. Close the connection.
    /// - [`EncodingError::LimitLowered`] if the encoder has a greater limit of blocked streams. Close the connection.
    /// - An earlier error after which the encoder is unusable.
    ///
    /// ```
    /// # use h3_qpack::connection::{ConnectionEncoder, EncoderSettings};
    /// let mut encoder = ConnectionEncoder::new(EncoderSettings::new(0, 0))?;
    /// assert_eq!(encoder.encode(0, [("foo", "bar")], &mut Vec::new())?, 0); // before the peer's SETTINGS
    /// encoder.set_peer_settings(4096, 16)?;
    /// assert_eq!(encoder.encode(4, [("foo", "bar")], &mut Vec::new())?, 1); // references an insertion
    /// # Ok::<(), Box<dyn std::error::Error>>(())
    /// ```
    pub fn set_peer_settings(&mut self, max_capacity: usize, max_blocked: usize) -> Result<(), EncodingError> {
        done(self.end.set_peer_settings(max_capacity, max_blocked), EncodingError::MaximumTooLarge)
    }

    /// Sets the capacity of the table, in bytes, at most the peer's maximum (RFC 9204, section 4.3.1).
    ///
    /// # Errors
    /// Nothing changes.
    /// - [`EncodingError::CapacityTooLarge`] if it is above the maximum.
    /// - [`EncodingError::EntriesHeld`] if entries would be evicted that the peer may still reference (RFC 9204, section
    ///   2.1.1). On a busy connection it always may: call [`shrink`](Self::shrink).
    /// - [`EncodingError::NoMemory`]: call it again later.
    /// - [`EncodingError::DecoderStream`] if [`receive`](Self::receive) returned it before.
    pub fn set_capacity(&mut self, capacity: usize) -> Result<(), EncodingError> {
        done(self.end.set_capacity(capacity), EncodingError::CapacityTooLarge)
    }

    /// Sets the capacity of the table, in bytes, as [`set_capacity`](Self::set_capacity) does, or has it wait while the
    /// peer may still reference an entry that does not fit (RFC 9204, section 3.2.3). The next
    /// [`encode`](Self::encode) that finds no such entry sets it, and announces it before its section.
    ///
    /// While it waits, sections reference only the static table, and nothing is inserted. So it comes once all sections
    /// that reference those entries are acknowledged or cancelled, and the insertions acknowledged. A later call, or a
    /// capacity that `set_capacity` sets, takes its place.
    ///
    /// # Errors
    /// Nothing changes.
    /// - [`EncodingError::CapacityTooLarge`] if it is above the maximum.
    /// - [`EncodingError::NoMemory`]: call it again later.
    /// - [`EncodingError::DecoderStream`] if [`receive`](Self::receive) returned it before.
    ///
    /// ```
    /// # use h3_qpack::connection::{ConnectionEncoder, EncoderSettings};
    /// let mut encoder = ConnectionEncoder::new(EncoderSettings::new(4096, 16))?;
    /// encoder.encode(4, [("foo", "bar")], &mut Vec::new())?;
    /// encoder.shrink(0)?;
    /// assert_eq!(encoder.pending_capacity(), Some(0)); // the section of stream 4 references the entry
    /// encoder.receive(&[0x84])?; // its acknowledgment
    /// encoder.encode(8, [("foo", "bar")], &mut Vec::new())?;
    /// assert_eq!((encoder.pending_capacity(), encoder.capacity()), (None, 0));
    /// # Ok::<(), Box<dyn std::error::Error>>(())
    /// ```
    pub fn shrink(&mut self, capacity: usize) -> Result<(), EncodingError> {
        done(self.end.shrink(capacity), EncodingError::CapacityTooLarge)
    }

    /// Returns the capacity that waits, in bytes, if one does ([`shrink`](Self::shrink)).
    pub fn pending_capacity(&self) -> Option<usize> {
        self.end.pending_capacity()
    }

    /// Returns the number of streams that may be blocked at the peer (RFC 9204, section 2.1.2).
    pub fn blocked(&self) -> usize {
        self.end.blocked()
    }

    /// Returns the number of unacknowledged sections that reference the table (RFC 9204, section 4.4.1). While it is
    /// `most_unacknowledged`, sections reference only the static table.
    pub fn unacknowledged(&self) -> usize {
        self.end.unacknowledged()
    }

    /// Returns the number of insertions that were made since the connection began (RFC 9204, section 2.1.4).
    ///
    /// ```
    /// # use h3_qpack::connection::{ConnectionEncoder, EncoderSettings};
    /// let mut encoder = ConnectionEncoder::new(EncoderSettings::new(4096, 16))?;
    /// encoder.encode(4, [("foo", "bar")], &mut Vec::new())?;
    /// assert_eq!((encoder.insert_count(), encoder.known_received_count(), encoder.unacknowledged()), (1, 0, 1));
    /// encoder.receive(&[0x84])?; // the acknowledgment of stream 4
    /// assert_eq!((encoder.insert_count(), encoder.known_received_count(), encoder.unacknowledged()), (1, 1, 0));
    /// # Ok::<(), Box<dyn std::error::Error>>(())
    /// ```
    pub fn insert_count(&self) -> usize {
        self.end.insert_count()
    }

    /// Returns the number of insertions that the peer is known to have received (RFC 9204, section 2.1.4).
    pub fn known_received_count(&self) -> usize {
        self.end.known_received_count()
    }

    /// Returns the capacity of the table, in bytes (RFC 9204, section 3.2.2). It is 0 before the first
    /// [`encode`](Self::encode) or [`set_capacity`](Self::set_capacity).
    pub fn capacity(&self) -> usize {
        self.end.capacity()
    }

    /// Returns the size of the table, in bytes: the sum over its entries of name, value and 32 bytes each (RFC 9204,
    /// section 3.2.1). Goes through all entries.
    pub fn table_size(&self) -> usize {
        self.end.table_size()
    }

    /// Returns the entries of the table, the newest first.
    ///
    /// ```
    /// # use h3_qpack::connection::{ConnectionEncoder, EncoderSettings};
    /// # use h3_qpack::HeaderField;
    /// let mut encoder = ConnectionEncoder::new(EncoderSettings::new(4096, 16))?;
    /// encoder.encode(4, [("foo", "bar"), ("trace", "17")], &mut Vec::new())?;
    /// let entries = encoder.entries().collect::<Result<Vec<_>, _>>()?;
    /// assert_eq!(entries, [HeaderField::new("trace", "17"), HeaderField::new("foo", "bar")]);
    /// assert_eq!(encoder.table_size(), entries.iter().map(HeaderField::mem_size).sum());
    /// assert_eq!(encoder.capacity(), 4096);
    /// # Ok::<(), Box<dyn std::error::Error>>(())
    /// ```
    pub fn entries(&self) -> Entries<'_> {
        Entries::new(&self.end)
    }
}

impl fmt::Debug for ConnectionEncoder {
    fn fmt(&self, f: &mut fmt::Formatter<'_>) -> fmt::Result {
        f.debug_struct("ConnectionEncoder").finish_non_exhaustive()
    }
}

/// The fields of a section, borrowed.
pub(crate) struct Lines<'f> {
    lent: Vec<Lent<'f>>,
    /// The length of the longest section that they can take, in bytes.
    most_encoded: usize,
}

#[cfg(feature = "std")]
impl Lines<'_> {
    /// Asks the encoder to insert nothing for any of the fields.
    pub(crate) fn insert_nothing(&mut self) {
        self.lent.iter_mut().for_each(Lent::insert_nothing);
    }
}

/// Returns the result of a call that returns a status alone; this is the error of an argument out of its range.
fn done(status: i32, invalid: EncodingError) -> Result<(), EncodingError> {
    match status {
        sys::OK => Ok(()),
        status => Err(EncodingError::of(status, invalid, None)),
    }
}

/// Returns a number that nobody can guess, if the system gives one.
fn random_seed() -> Option<u64> {
    #[cfg(feature = "std")]
    {
        use std::hash::{BuildHasher, Hasher};
        Some(std::collections::hash_map::RandomState::new().build_hasher().finish())
    }
    #[cfg(not(feature = "std"))]
    None
}

/// Room for the prefix of a section, in bytes: two integers of 64 bits.
const SECTION_PREFIX: usize = 20;
/// Room for the lengths of a line's name and value, in bytes: two integers of 64 bits.
const LINE_LENGTHS: usize = 20;
/// The most bytes that a byte of a name or a value takes: its code has up to 30 bits (RFC 7541, appendix B).
const MOST_CODED: usize = 4;
