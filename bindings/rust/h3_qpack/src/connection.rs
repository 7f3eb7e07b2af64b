//! The two ends of a connection (RFC 9204, section 2). Make the encoder from the settings that the peer sent, and the
//! decoder from those that this side sent. They share nothing, and can be used by different threads.
//!
//! Each end writes one stream of instructions and reads another, in pieces of any size. If an error has a
//! [`code`](DecodingError::code), close the connection with it. Each later call of that end that can fail returns such an
//! error too.
//!
//! ```
//! use h3_qpack::connection::{
//!     ConnectionDecoder, ConnectionEncoder, DecoderSettings, EncoderSettings, FieldLine, Reading,
//! };
//!
//! let mut decoder = ConnectionDecoder::new(DecoderSettings::new(4096, 16))?;
//! let mut encoder = ConnectionEncoder::new(EncoderSettings::new(4096, 16))?;
//!
//! // The section comes first, so its stream is blocked until the instructions are there.
//! let (mut section, mut instructions, mut answers) = (Vec::new(), Vec::new(), Vec::new());
//! encoder.encode(4, [("foo", "bar")], &mut section)?;
//! encoder.take_encoder_stream(&mut instructions)?;
//! assert_eq!(decoder.decode(4, &section)?, Reading::Blocked { required: 1 });
//! decoder.receive(&instructions)?;
//! assert_eq!(decoder.next_ready(), Some(4));
//! assert_eq!(decoder.decode(4, &section)?, Reading::Fields { count: 1, required: 1 });
//! assert_eq!(decoder.fields()?.next(), Some(FieldLine::new("foo", "bar")));
//!
//! // The decoder stream goes back to the encoder.
//! decoder.take_decoder_stream(&mut answers)?;
//! encoder.receive(&answers)?;
//! assert_eq!(encoder.blocked(), 0);
//! # Ok::<(), Box<dyn std::error::Error>>(())
//! ```

mod decoder;
mod encoder;
mod entries;
mod error;
mod reader;

pub use crate::copied::Fields;
pub use crate::field::{FieldLine, Wish, WishedField};
pub use crate::view::{FieldView, Views};
pub use decoder::{longest_section, ConnectionDecoder, DecoderSettings, Reading, SectionPrefix};
pub use encoder::{ConnectionEncoder, EncoderSettings};
pub use entries::Entries;
pub use error::{
    DecodingError, EncodingError, NoMemory, Place, SettingsError, H3_SETTINGS_ERROR, QPACK_DECODER_STREAM_ERROR,
    QPACK_DECOMPRESSION_FAILED, QPACK_ENCODER_STREAM_ERROR,
};
pub use reader::{Progress, SectionReader};

pub(crate) use error::DECOMPRESSION_FAILED;

use crate::room::make_room;
use alloc::vec::Vec;

/// Adds all bytes that a stream has to `out`, in room that is made first.
fn take_all(out: &mut Vec<u8>, many: usize, take: impl FnOnce(&mut [u8]) -> usize) -> Result<usize, NoMemory> {
    make_room(out, many)?;
    let len = out.len();
    out.resize(len + many, 0);
    let taken = take(&mut out[len..]);
    out.truncate(len + taken);
    Ok(taken)
}
