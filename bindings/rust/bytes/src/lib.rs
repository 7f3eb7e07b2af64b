//! The calls of `h3_qpack` for the buffers of the crate `bytes`. An encoded section becomes [`Bytes`], which take over its
//! memory. Instruction streams go out to any [`BufMut`], and come in from any [`Buf`], whose chunks are not joined.
//!
//! To decode a section, no call of this crate is needed: `decode(stream_id, &section)` takes `Bytes` as they are.
//!
//! ```
//! use bytes::{Buf, Bytes, BytesMut};
//! use h3_qpack::connection::{ConnectionDecoder, ConnectionEncoder, DecoderSettings, EncoderSettings, Reading};
//! use h3_qpack_bytes::{DecoderBytes, EncoderBytes};
//!
//! let mut encoder = ConnectionEncoder::new(EncoderSettings::new(4096, 16).with_seed(1))?;
//! let mut decoder = ConnectionDecoder::new(DecoderSettings::new(4096, 16))?;
//! let (section, required) = encoder.encode_bytes(4, [("x-tenant", "17")])?;
//! assert_eq!(required, 1);
//!
//! let mut instructions = BytesMut::new();
//! encoder.put_encoder_stream(&mut instructions);
//! let mut arrived = instructions.split_to(3).freeze().chain(instructions.freeze()); // two pieces
//! decoder.receive_buf(&mut arrived)?;
//! assert_eq!(decoder.decode(4, &section)?, Reading::Fields { count: 1, required: 1 });
//! # Ok::<(), Box<dyn std::error::Error>>(())
//! ```
#![no_std]
#![deny(missing_docs)]
#![forbid(unsafe_code)]

extern crate alloc;

use alloc::vec::Vec;
use bytes::{Buf, BufMut, Bytes};
use h3_qpack::connection::{ConnectionDecoder, ConnectionEncoder, DecodingError, EncodingError, WishedField};

/// The greatest piece of an instruction stream that is put at once, in bytes.
const PIECE: usize = 512;

/// The calls of an encoder.
pub trait EncoderBytes {
    /// Encodes fields for a stream, as [`ConnectionEncoder::encode`] does. Returns the section and its Required Insert
    /// Count.
    ///
    /// # Errors
    /// Those of `encode`.
    fn encode_bytes<'f, I>(&mut self, stream_id: u64, fields: I) -> Result<(Bytes, usize), EncodingError>
    where
        I: IntoIterator,
        I::Item: Into<WishedField<'f>>;

    /// Moves bytes to send on the encoder stream to `out`, as many as it takes. Returns how many.
    fn put_encoder_stream<B: BufMut>(&mut self, out: &mut B) -> usize;

    /// Receives bytes of the peer's decoder stream, all that `bytes` has, and advances it past those that were received.
    ///
    /// # Errors
    /// Those of [`ConnectionEncoder::receive`].
    fn receive_buf<B: Buf>(&mut self, bytes: &mut B) -> Result<(), EncodingError>;
}

/// The calls of a decoder.
pub trait DecoderBytes {
    /// Moves bytes to send on the decoder stream to `out`, as many as it takes. Returns how many.
    fn put_decoder_stream<B: BufMut>(&mut self, out: &mut B) -> usize;

    /// Receives bytes of the peer's encoder stream, all that `bytes` has, and advances it past those that were received.
    ///
    /// # Errors
    /// Those of [`ConnectionDecoder::receive`]. After [`DecodingError::NoMemory`] pass `bytes` again, even if it is empty:
    /// it begins where the decoder goes on.
    fn receive_buf<B: Buf>(&mut self, bytes: &mut B) -> Result<(), DecodingError>;
}

impl EncoderBytes for ConnectionEncoder {
    fn encode_bytes<'f, I>(&mut self, stream_id: u64, fields: I) -> Result<(Bytes, usize), EncodingError>
    where
        I: IntoIterator,
        I::Item: Into<WishedField<'f>>,
    {
        let mut section = Vec::new();
        let required = self.encode(stream_id, fields, &mut section)?;
        Ok((section.into(), required))
    }

    fn put_encoder_stream<B: BufMut>(&mut self, out: &mut B) -> usize {
        put(out, |piece| self.write_encoder_stream(piece))
    }

    fn receive_buf<B: Buf>(&mut self, bytes: &mut B) -> Result<(), EncodingError> {
        while bytes.has_remaining() {
            let piece = bytes.chunk();
            self.receive(piece)?;
            bytes.advance(piece.len());
        }
        Ok(())
    }
}

impl DecoderBytes for ConnectionDecoder {
    fn put_decoder_stream<B: BufMut>(&mut self, out: &mut B) -> usize {
        put(out, |piece| self.write_decoder_stream(piece))
    }

    fn receive_buf<B: Buf>(&mut self, bytes: &mut B) -> Result<(), DecodingError> {
        loop {
            let piece = bytes.chunk();
            match self.receive(piece) {
                Ok(()) => bytes.advance(piece.len()),
                Err(error) => {
                    if let DecodingError::NoMemory { taken } = error {
                        bytes.advance(taken);
                    }
                    return Err(error);
                }
            }
            if !bytes.has_remaining() {
                return Ok(());
            }
        }
    }
}

/// Puts pieces of a stream to a buffer, until it is full or the stream has none. Returns their length.
fn put<B: BufMut>(out: &mut B, mut write: impl FnMut(&mut [u8]) -> usize) -> usize {
    let (mut room, mut put) = ([0; PIECE], 0);
    loop {
        let most = out.remaining_mut().min(PIECE);
        let len = write(&mut room[..most]);
        out.put_slice(&room[..len]);
        put += len;
        if len < PIECE {
            return put;
        }
    }
}
