//! Field sections without a dynamic table, in the names of h3.

use crate::connection::{FieldLine, Fields, NoMemory, Place, Wish, DECOMPRESSION_FAILED, QPACK_DECOMPRESSION_FAILED};
use crate::copied::Copied;
use crate::room::{copy_of, gather, make_room};
use crate::sys::{self, Lent};
use crate::{HeaderField, ESTIMATED_OVERHEAD_BYTES};
use alloc::vec::Vec;
use core::fmt;

/// The errors of [`encode_stateless`].
#[derive(Debug, Clone, Copy, PartialEq, Eq)]
#[non_exhaustive]
pub enum EncoderError {
    /// There is no memory. Nothing was written: call it again later.
    Memory,
}

impl fmt::Display for EncoderError {
    fn fmt(&self, f: &mut fmt::Formatter<'_>) -> fmt::Result {
        f.write_str("out of memory")
    }
}

impl From<NoMemory> for EncoderError {
    fn from(_: NoMemory) -> EncoderError {
        EncoderError::Memory
    }
}

/// The errors of [`decode_stateless`].
#[derive(Debug, Clone, Copy, PartialEq, Eq)]
#[non_exhaustive]
pub enum DecoderError {
    /// The section is invalid, or references a dynamic table (RFC 9204, section 2.2). This is the invalid line, or `None`
    /// for the prefix.
    Decompression(Option<Place>),
    /// The fields exceed the limit: their sizes sum to this number of bytes or more.
    HeaderTooLong(u64),
    /// There is no memory: call it again later.
    Memory,
}

impl DecoderError {
    /// Returns the code to close the connection with (RFC 9204, section 6), or `None` if the connection can go on.
    pub fn code(&self) -> Option<u64> {
        match self {
            DecoderError::Decompression(_) => Some(QPACK_DECOMPRESSION_FAILED),
            DecoderError::HeaderTooLong(_) | DecoderError::Memory => None,
        }
    }
}

impl fmt::Display for DecoderError {
    fn fmt(&self, f: &mut fmt::Formatter<'_>) -> fmt::Result {
        match self {
            DecoderError::Decompression(None) => f.write_str("the prefix of the section is invalid"),
            DecoderError::Decompression(Some(place)) => write!(f, "a section is invalid, at line {place}"),
            DecoderError::HeaderTooLong(size) => write!(f, "the section is too large: {size} bytes or more"),
            DecoderError::Memory => f.write_str("out of memory"),
        }
    }
}

impl From<NoMemory> for DecoderError {
    fn from(_: NoMemory) -> DecoderError {
        DecoderError::Memory
    }
}

/// An error of [`encode_stateless`] or [`decode_stateless`].
#[derive(Debug, Clone, Copy, PartialEq, Eq)]
#[non_exhaustive]
pub enum Error {
    /// Of [`encode_stateless`].
    Encoder(EncoderError),
    /// Of [`decode_stateless`].
    Decoder(DecoderError),
}

impl fmt::Display for Error {
    fn fmt(&self, f: &mut fmt::Formatter<'_>) -> fmt::Result {
        match self {
            Error::Encoder(error) => write!(f, "encoder: {error}"),
            Error::Decoder(error) => write!(f, "decoder: {error}"),
        }
    }
}

impl From<EncoderError> for Error {
    fn from(error: EncoderError) -> Error {
        Error::Encoder(error)
    }
}

impl From<DecoderError> for Error {
    fn from(error: DecoderError) -> Error {
        Error::Decoder(error)
    }
}

/// Encodes fields as a section without a dynamic table (RFC 9204, section 4.5), and appends it to `block`, a `Vec<u8>`, a
/// `BytesMut` or another buffer. Returns the sum of the fields' sizes, in bytes (section 3.2.1).
///
/// No field gets the N bit. To mark fields as never indexed, use [`connection`](crate::connection).
///
/// # Errors
/// [`EncoderError::Memory`]: nothing was appended. If `block` itself can't grow, it does what its `Extend` does.
///
/// ```
/// use h3_qpack::{encode_stateless, HeaderField};
///
/// let mut block = Vec::new();
/// let size = encode_stateless(&mut block, [HeaderField::new(":status", "201")])?;
/// assert_eq!((size, block), (42, vec![0x00, 0x00, 0x5f, 0x09, 0x82, 0x10, 0x03]));
/// # Ok::<(), h3_qpack::EncoderError>(())
/// ```
pub fn encode_stateless<W, T, H>(block: &mut W, fields: T) -> Result<u64, EncoderError>
where
    W: for<'b> Extend<&'b u8>,
    T: IntoIterator<Item = H>,
    H: AsRef<HeaderField>,
{
    let fields = gather(fields.into_iter())?;
    let lent = gather(fields.iter().map(|field| {
        let field = field.as_ref();
        Lent::new(&field.name, &field.value, Wish::Unmarked)
    }))?;
    let size = fields.iter().map(|field| field.as_ref().mem_size() as u64).sum();
    let mut section = Vec::new();
    write_stateless(&lent, &mut section, size)?;
    block.extend(&section);
    Ok(size)
}

/// Encodes fields whose sizes sum to `size` to an empty vector. A section is rarely longer than that sum. If it is, makes
/// room and encodes again.
fn write_stateless(fields: &[Lent<'_>], section: &mut Vec<u8>, size: u64) -> Result<(), EncoderError> {
    let mut room = usize::try_from(size).map_or(usize::MAX, |size| size.saturating_add(2));
    loop {
        make_room(section, room)?;
        let written = sys::encode_stateless(fields, section);
        match written.status {
            sys::OK => return Ok(()),
            sys::NO_ROOM => room = written.len,
            _ => return Err(EncoderError::Memory),
        }
    }
}

/// A decoded section.
#[derive(Debug, Clone, PartialEq, Eq)]
pub struct Decoded {
    /// The fields, in order.
    pub fields: Vec<HeaderField>,
    /// Whether the section references the dynamic table: always false here.
    pub dyn_ref: bool,
    /// The sum of the fields' sizes, in bytes (RFC 9204, section 3.2.1).
    pub mem_size: u64,
}

/// Decodes a whole section without a dynamic table (RFC 9204, section 4.5). The sizes of its fields may sum to `max_size`
/// bytes (section 3.2.1). `buf` is a vector, a slice, `Bytes` or another container of bytes.
///
/// The N bits of the fields are not returned. To get them, use [`connection`](crate::connection).
///
/// # Errors
/// - [`DecoderError::Decompression`] if the section is invalid, or references a dynamic table.
/// - [`DecoderError::HeaderTooLong`] if the fields exceed `max_size`. The rest of the section is not read.
/// - [`DecoderError::Memory`].
///
/// ```
/// use h3_qpack::{decode_stateless, DecoderError};
///
/// assert_eq!(decode_stateless(b"\x00\x00\xd1", 42)?.mem_size, 42);
/// assert_eq!(decode_stateless(b"\x00\x00\xd1", 41), Err(DecoderError::HeaderTooLong(42)));
/// # Ok::<(), DecoderError>(())
/// ```
pub fn decode_stateless<T: AsRef<[u8]> + ?Sized>(buf: &T, max_size: u64) -> Result<Decoded, DecoderError> {
    let section = buf.as_ref();
    let mut copied = Copied::default();
    let (mut fields, mut bytes) = first_room(section.len(), max_size);
    loop {
        copied.make_room(fields, bytes)?;
        let decoded = sys::decode_stateless(section, max_size, &mut copied.told, &mut copied.bytes);
        match decoded.status {
            sys::OK => return own_fields(copied.fields()),
            sys::NO_ROOM => (fields, bytes) = (decoded.fields, decoded.len),
            status => return Err(error_of(status, Place::told(decoded.number, decoded.offset), max_size)),
        }
    }
}

/// The bytes of a section that count as one line in an estimate of its fields.
const LINE_LEN: usize = 4;

/// Returns the room to make before a section of this length is decoded: a number of fields, and of bytes of names and
/// values. It is at most what fields within the limit can take.
fn first_room(len: usize, max_size: u64) -> (usize, usize) {
    let limit = usize::try_from(max_size).unwrap_or(usize::MAX);
    let fields = (len / LINE_LEN + 1).min(limit / ESTIMATED_OVERHEAD_BYTES + 1);
    (fields, len.saturating_mul(2).min(limit))
}

/// Copies borrowed fields to owned ones.
fn own_fields(lent: Fields<'_>) -> Result<Decoded, DecoderError> {
    let mut decoded = Decoded { fields: Vec::new(), dyn_ref: false, mem_size: 0 };
    make_room(&mut decoded.fields, lent.len())?;
    for FieldLine { name, value, .. } in lent {
        let field = HeaderField::new(copy_of(name)?, copy_of(value)?);
        decoded.mem_size += field.mem_size() as u64;
        decoded.fields.push(field);
    }
    Ok(decoded)
}

/// Returns the error for a status, the invalid line and the limit.
fn error_of(status: i32, line: Option<Place>, max_size: u64) -> DecoderError {
    match status {
        sys::TOO_LARGE => DecoderError::HeaderTooLong(max_size.saturating_add(1)),
        sys::NO_MEMORY => DecoderError::Memory,
        DECOMPRESSION_FAILED => DecoderError::Decompression(line),
        status => unreachable!("a section that is read alone does not fail with {status}"),
    }
}
