//! The streams of a connection in buffers of many forms.

use bytes::{Buf, BufMut, Bytes, BytesMut};
use h3_qpack::connection::{
    ConnectionDecoder, ConnectionEncoder, DecoderSettings, DecodingError, EncoderSettings, EncodingError, FieldLine,
    Reading, Wish,
};
use h3_qpack_bytes::{DecoderBytes, EncoderBytes};
use std::collections::VecDeque;

fn ends() -> (ConnectionEncoder, ConnectionDecoder) {
    let encoder = ConnectionEncoder::new(EncoderSettings::new(65_536, 100).with_capacity(65_536).with_seed(7));
    (encoder.unwrap(), ConnectionDecoder::new(DecoderSettings::new(65_536, 100)).unwrap())
}

/// Encodes a field that is inserted, on each of many streams.
fn encode(encoder: &mut ConnectionEncoder, streams: u64) -> Vec<Bytes> {
    let encode = |stream_id: u64| {
        let value = format!("a value of some length, number {stream_id}");
        let (section, required) =
            encoder.encode_bytes(stream_id, [FieldLine::new("x", &value).wish(Wish::Insert)]).unwrap();
        assert_eq!(required as u64, stream_id + 1);
        section
    };
    (0..streams).map(encode).collect()
}

/// Decodes them, and has each as it was encoded.
fn decode(decoder: &mut ConnectionDecoder, sections: &[Bytes]) {
    for (stream_id, section) in (0..).zip(sections) {
        let reading = decoder.decode(stream_id, section).unwrap();
        assert_eq!(reading, Reading::Fields { count: 1, required: stream_id as usize + 1 });
        let value = format!("a value of some length, number {stream_id}");
        assert!(decoder.fields().unwrap().eq([FieldLine::new("x", &value)]));
    }
}

#[test]
fn streams_longer_than_a_piece() {
    let (mut encoder, mut decoder) = ends();
    let (sections, mut instructions, mut answers) = (encode(&mut encoder, 60), BytesMut::new(), Vec::new());
    let many = encoder.encoder_stream_len();
    assert!(many > 2 * 512);
    assert_eq!((encoder.put_encoder_stream(&mut instructions), instructions.len()), (many, many));
    assert_eq!((encoder.encoder_stream_len(), encoder.put_encoder_stream(&mut instructions)), (0, 0));
    decoder.receive_buf(&mut instructions).unwrap();
    assert!(instructions.is_empty());
    decode(&mut decoder, &sections);
    let many = decoder.decoder_stream_len();
    assert_eq!((decoder.put_decoder_stream(&mut answers), answers.len()), (many, many));
    encoder.receive_buf(&mut VecDeque::from(answers)).unwrap();
    assert_eq!((encoder.unacknowledged(), encoder.known_received_count()), (0, 60));
}

/// A buffer of a fixed length takes what fits, and the rest is taken later; and what arrives comes in many chunks.
#[test]
fn buffers_that_are_full_and_chunks() {
    let (mut encoder, mut decoder) = ends();
    let sections = encode(&mut encoder, 20);
    let mut chunks: Box<dyn Buf> = Box::new(Bytes::new());
    loop {
        let mut room = [0; 7];
        let mut out = &mut room[..];
        let len = encoder.put_encoder_stream(&mut out);
        assert_eq!(out.remaining_mut(), 7 - len);
        chunks = Box::new(chunks.chain(Bytes::copy_from_slice(&room[..len])));
        if len < 7 {
            break;
        }
    }
    assert!(chunks.chunk().len() <= 7 && chunks.remaining() > 100);
    decoder.receive_buf(&mut chunks).unwrap();
    assert!(!chunks.has_remaining());
    decode(&mut decoder, &sections);
}

/// The section is `Bytes` as it is, and may be kept until its insertion arrives.
#[test]
fn a_section_that_is_blocked() {
    let (mut encoder, mut decoder) = ends();
    let sections = encode(&mut encoder, 1);
    assert_eq!(decoder.decode(0, &sections[0]), Ok(Reading::Blocked { required: 1 }));
    let (kept, mut instructions) = (sections.clone(), Vec::new());
    drop(sections);
    encoder.put_encoder_stream(&mut instructions);
    decoder.receive_buf(&mut &instructions[..]).unwrap();
    assert_eq!(decoder.next_ready(), Some(0));
    decode(&mut decoder, &kept);
}

#[test]
fn errors_are_those_of_the_ends() {
    let (mut encoder, mut decoder) = ends();
    let invalid = |first: &'static [u8], rest: &'static [u8]| first.chain(rest);
    let error = decoder.receive_buf(&mut invalid(&[0x3f], &[0xff, 0xff, 0xff, 0x7f])).unwrap_err();
    assert!(matches!(error, DecodingError::EncoderStream { .. }));
    let error = encoder.receive_buf(&mut invalid(&[], &[0x00])).unwrap_err();
    assert!(matches!(error, EncodingError::DecoderStream { .. }));
    assert_eq!(encoder.encode_bytes(0, [("a", "b")]).unwrap_err().code(), Some(0x202));
}
