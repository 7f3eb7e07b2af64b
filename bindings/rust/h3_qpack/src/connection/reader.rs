//! Sections in pieces.

use super::decoder::ConnectionDecoder;
use super::error::{DecodingError, Place};
use crate::field::FieldLine;
use crate::sys;
use crate::view::FieldView;
use core::fmt;

/// What a piece of a section gives.
#[derive(Debug, Clone, Copy, PartialEq, Eq)]
#[non_exhaustive]
pub enum Progress<'a> {
    /// All bytes were read. Pass the next ones.
    Waits,
    /// The next field. Read on, even if no byte is left.
    Field(FieldLine<'a>),
    /// The section is blocked (RFC 9204, section 2.2.1). Keep the bytes that are left, and read on when
    /// [`ConnectionDecoder::next_ready`] returns its stream.
    Blocked {
        /// The number of insertions that must be received first.
        required: usize,
    },
    /// The section is over. The reader is at the start of the stream's next section.
    End {
        /// The Required Insert Count. If it is above 0, the section was acknowledged.
        required: usize,
    },
}

/// A reader of the sections of a stream, which come in pieces of any size. It gives each field as soon as its line is
/// whole. It keeps the bytes of a prefix or of a line that is not whole, at most [`longest_section`](super::longest_section)
/// of them. To give up a section, call [`ConnectionDecoder::cancel_stream`], and drop the reader.
///
/// ```
/// use h3_qpack::connection::{ConnectionDecoder, DecoderSettings, FieldLine, Progress, SectionReader};
///
/// let mut decoder = ConnectionDecoder::new(DecoderSettings::default())?;
/// let mut reader = SectionReader::new(0)?;
/// let mut bytes: &[u8] = &[0x00, 0x00, 0xd1, 0x21]; // the prefix, a field, and the begin of one
/// let field = FieldLine::new(":method", "GET");
/// assert_eq!(reader.read(&mut decoder, &mut bytes, false)?, Progress::Field(field));
/// assert_eq!(reader.read(&mut decoder, &mut bytes, false)?, Progress::Waits);
/// let mut bytes: &[u8] = &[b'x', 0x01, b'y'];
/// assert_eq!(reader.read(&mut decoder, &mut bytes, true)?, Progress::Field(FieldLine::new("x", "y")));
/// assert_eq!(reader.read(&mut decoder, &mut bytes, true)?, Progress::End { required: 0 });
/// # Ok::<(), Box<dyn std::error::Error>>(())
/// ```
pub struct SectionReader {
    end: sys::Reader,
}

impl SectionReader {
    /// Makes a reader.
    ///
    /// # Errors
    /// - [`DecodingError::StreamId`] if `stream_id` is 2^62 or more.
    /// - [`DecodingError::NoMemory`].
    pub fn new(stream_id: u64) -> Result<SectionReader, DecodingError> {
        match sys::Reader::new(stream_id) {
            Ok(end) => Ok(SectionReader { end }),
            Err(status) => Err(DecodingError::of(status, None, 0)),
        }
    }

    /// Reads the bytes of a section up to its next field, and moves `bytes` past them. They continue those of earlier
    /// calls. With `last`, the section ends with them. Pass the same decoder each time.
    ///
    /// # Errors
    /// Those of [`ConnectionDecoder::decode`]. After [`DecodingError::NoMemory`], call it again with the bytes that are
    /// left.
    pub fn read(
        &mut self,
        decoder: &mut ConnectionDecoder,
        bytes: &mut &[u8],
        last: bool,
    ) -> Result<Progress<'_>, DecodingError> {
        let piece = self.end.read(decoder.end(), bytes, last);
        *bytes = &bytes[piece.taken..];
        match piece.status {
            sys::OK => Ok(Progress::Waits),
            sys::FIELD => Ok(Progress::Field(self.given())),
            sys::BLOCKED => Ok(Progress::Blocked { required: piece.required }),
            sys::END => Ok(Progress::End { required: piece.required }),
            status => Err(DecodingError::of(status, Place::told(piece.number, piece.offset), 0)),
        }
    }

    /// Returns the number of bytes that it keeps.
    pub fn pending(&self) -> usize {
        self.end.waiting()
    }

    /// Returns the field that the last call of [`read`](Self::read) gave, with its index in the static table.
    ///
    /// ```
    /// # use h3_qpack::connection::{ConnectionDecoder, DecoderSettings, SectionReader};
    /// let mut decoder = ConnectionDecoder::new(DecoderSettings::default())?;
    /// let mut reader = SectionReader::new(0)?;
    /// assert_eq!(reader.view(), None);
    /// reader.read(&mut decoder, &mut &[0x00, 0x00, 0xd1][..], false)?; // :method GET
    /// assert_eq!(reader.view().and_then(|field| field.static_field()), Some(17));
    /// # Ok::<(), Box<dyn std::error::Error>>(())
    /// ```
    pub fn view(&self) -> Option<FieldView<'_>> {
        self.end.view()
    }

    /// Returns the field that was read.
    fn given(&self) -> FieldLine<'_> {
        self.view().expect("the library keeps the field that it gave").line
    }
}

impl fmt::Debug for SectionReader {
    fn fmt(&self, f: &mut fmt::Formatter<'_>) -> fmt::Result {
        f.debug_struct("SectionReader").finish_non_exhaustive()
    }
}
