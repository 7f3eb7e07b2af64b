//! Each refusal, its code, and what an end answers from then on.

mod common;

use common::{decoder, prefix};
use h3_qpack::connection::{
    longest_section, ConnectionDecoder, ConnectionEncoder, DecoderSettings, DecodingError, EncoderSettings,
    EncodingError, FieldLine, Place, Reading, SettingsError,
};
use h3_qpack::{decode_stateless, DecoderError};

fn encoder() -> ConnectionEncoder {
    ConnectionEncoder::new(EncoderSettings::new(4096, 1)).unwrap()
}

#[test]
fn the_library_is_of_the_version_that_this_crate_knows() {
    assert_eq!(h3_qpack::library_version(), (0, 2));
}

#[test]
fn settings_out_of_range() {
    let too_much = 1 << 30;
    let encoder = ConnectionEncoder::new(EncoderSettings::new(too_much, 0));
    assert_eq!(encoder.err(), Some(SettingsError::OutOfRange));
    for (max_capacity, max_blocked) in [(too_much, 0), (0, 65_535)] {
        let decoder = ConnectionDecoder::new(DecoderSettings::new(max_capacity, max_blocked));
        assert_eq!(decoder.err(), Some(SettingsError::OutOfRange));
    }
}

#[test]
fn an_encoder_refuses_and_goes_on() {
    let (mut encoder, mut section) = (encoder(), vec![7]);
    assert_eq!(encoder.encode(1 << 62, [("a", "b")], &mut section), Err(EncodingError::StreamId));
    assert_eq!(encoder.set_capacity(4097), Err(EncodingError::CapacityTooLarge));
    assert_eq!(section, [7]);
    assert_eq!(encoder.encode(0, [("foo", "bar")], &mut section), Ok(1));
    assert_eq!(encoder.set_capacity(0), Err(EncodingError::EntriesHeld));
    assert_eq!(EncodingError::EntriesHeld.code(), None);
    assert_eq!(encoder.receive(b"\x01\x80"), Ok(()));
    assert_eq!(encoder.set_capacity(0), Ok(()));
}

#[test]
fn a_capacity_waits_until_no_entry_is_needed() {
    let (mut encoder, mut section) = (encoder(), Vec::new());
    assert_eq!(encoder.shrink(4097), Err(EncodingError::CapacityTooLarge));
    assert_eq!(encoder.encode(0, [("foo", "bar")], &mut section), Ok(1));
    assert_eq!((encoder.shrink(33), encoder.pending_capacity()), (Ok(()), Some(33)));
    assert_eq!(encoder.encode(1 << 62, [("a", "b")], &mut section), Err(EncodingError::StreamId));
    assert_eq!(encoder.encode(4, [("foo", "bar")], &mut section), Ok(0)); // no reference while it waits
    assert_eq!((encoder.insert_count(), encoder.pending_capacity()), (1, Some(33)));
    assert_eq!(encoder.receive(b"\x80"), Ok(()));
    assert_eq!(encoder.encode(8, [("foo", "bar")], &mut section), Ok(0)); // an entry has 38 bytes
    assert_eq!((encoder.capacity(), encoder.pending_capacity()), (33, None));
    assert_eq!((encoder.shrink(100), encoder.capacity()), (Ok(()), 100));
}

#[test]
fn an_encoder_is_over_behind_its_decoder_stream() {
    let (mut encoder, mut section) = (encoder(), vec![7]);
    let instruction = Some(Place::new(2, 1));
    let error = encoder.receive(b"\x44\x84").unwrap_err();
    assert_eq!(error, EncodingError::DecoderStream { instruction });
    assert_eq!((error.code(), error.to_string()), (Some(0x202), told("decoder", "2, byte 1")));
    let over = EncodingError::DecoderStream { instruction: None };
    assert_eq!(encoder.encode(0, [("a", "b")], &mut section), Err(over));
    assert_eq!((encoder.set_capacity(0), section), (Err(over), vec![7]));
}

#[test]
fn settings_of_the_peer_come_late() {
    let mut encoder = ConnectionEncoder::new(EncoderSettings::new(0, 0)).unwrap();
    let mut section = Vec::new();
    assert_eq!(encoder.encode(0, [("foo", "bar")], &mut section), Ok(0));
    assert_eq!(encoder.encoder_stream_len(), 0);
    let error = encoder.set_peer_settings(1 << 30, 16).unwrap_err();
    assert_eq!((error, error.code()), (EncodingError::MaximumTooLarge, None));
    assert_eq!(encoder.set_peer_settings(4096, 16), Ok(()));
    assert_eq!(encoder.encode(4, [("foo", "bar")], &mut section), Ok(1));
    assert_eq!(encoder.capacity(), 4096);
    let lowered = EncodingError::LimitLowered;
    assert_eq!(encoder.set_peer_settings(4096, 15), Err(lowered));
    assert_eq!((lowered.code(), encoder.set_capacity(0)), (Some(0x109), Err(lowered)));
}

#[test]
fn a_peer_changes_a_maximum_that_was_remembered() {
    let mut encoder = encoder();
    let over = EncodingError::DecoderStream { instruction: None };
    assert_eq!(encoder.set_peer_settings(0, 1), Err(over));
    assert_eq!((over.code(), encoder.set_capacity(0)), (Some(0x202), Err(over)));
}

fn told(stream: &str, place: &str) -> String {
    format!("the peer's {stream} stream is invalid, at instruction {place}")
}

#[test]
fn a_decoder_is_over_behind_its_encoder_stream() {
    let mut decoder = decoder(4096, 1);
    let instruction = Some(Place::new(2, 3));
    let error = decoder.receive(b"\x3f\xe1\x1f\x02").unwrap_err();
    assert_eq!(error, DecodingError::EncoderStream { instruction });
    assert_eq!((error.code(), error.to_string()), (Some(0x201), told("encoder", "2, byte 3")));
    let over = DecodingError::EncoderStream { instruction: None };
    assert_eq!((decoder.decode(0, b"\x00\x00\xd1"), decoder.cancel_stream(0)), (Err(over), Err(over)));
    assert_eq!(decoder.receive(b"\x20"), Err(error));
}

#[test]
fn a_decoder_is_over_behind_a_section_that_means_nothing() {
    let mut decoder = decoder(4096, 1);
    let line = Some(Place::new(2, 3));
    let error = decoder.decode(0, b"\x00\x00\xd1\xff\x3f").unwrap_err();
    assert_eq!((error, error.code()), (DecodingError::DecompressionFailed { line }, Some(0x200)));
    assert_eq!(decoder.decode(4, b"\x00\x00\xd1"), Err(error));
    assert_eq!(decoder.fields().unwrap().len(), 0);
    assert_eq!(decoder.cancel_stream(0).unwrap_err().code(), Some(0x200));
}

#[test]
fn a_decoder_reads_no_section_above_the_longest() {
    assert_eq!([0, 50, u64::MAX].map(longest_section), [20, 220, u64::MAX]);
    let settings = DecoderSettings::default().with_max_section_size(50);
    let mut decoder = ConnectionDecoder::new(settings).unwrap();
    let mut section = vec![0; longest_section(50) as usize + 1];
    section[2] = 0xd1;
    assert_eq!(decoder.decode(0, &section), Err(DecodingError::TooLarge));
    section.pop();
    let error = decoder.decode(0, &section).unwrap_err(); // a line of it is wrong, and so it was read
    assert_eq!(error.code(), Some(0x200));
}

#[test]
fn a_decoder_refuses_a_section_past_its_limit_and_goes_on() {
    let settings = DecoderSettings::default().with_max_section_size(50);
    let mut decoder = ConnectionDecoder::new(settings).unwrap();
    let refused = decoder.decode(0, b"\x00\x00\xd1\xd1");
    assert_eq!((refused, DecodingError::TooLarge.code()), (Err(DecodingError::TooLarge), None));
    assert_eq!(decoder.decode(1 << 62, b"\x00\x00\xd1"), Err(DecodingError::StreamId));
    assert_eq!(decoder.cancel_stream(1 << 62), Err(DecodingError::StreamId));
    assert_eq!(decoder.decode(0, b"\x00\x00\xd1"), Ok(Reading::Fields { count: 1, required: 0 }));
    assert!(decoder.fields().unwrap().eq([FieldLine::new(":method", "GET")]));
    assert!(decoder.fields().unwrap().eq([FieldLine::new(":method", "GET")]));
}

#[test]
fn a_stream_that_waits_is_given_up_and_one_too_many_ends_the_decoder() {
    let (mut decoder, section) = (decoder(4096, 1), [prefix(2, 2, 4096), vec![0x80]].concat());
    assert_eq!(decoder.decode(8, &section), Ok(Reading::Blocked { required: 2 }));
    assert_eq!((decoder.blocked(), decoder.next_ready(), decoder.fields().unwrap().len()), (1, None, 0));
    assert_eq!(decoder.cancel_stream(8), Ok(()));
    let mut stream = vec![7];
    assert_eq!(decoder.take_decoder_stream(&mut stream), Ok(1));
    assert_eq!((decoder.blocked(), stream), (0, vec![7, 0x48]));
    assert_eq!(decoder.decode(12, &section), Ok(Reading::Blocked { required: 2 }));
    assert_eq!(decoder.decode(16, &section), Err(DecodingError::DecompressionFailed { line: None }));
}

#[test]
fn sections_that_mean_nothing_without_a_table() {
    let line = |offset| DecoderError::Decompression(Some(Place::new(1, offset)));
    let refused: [(&[u8], DecoderError); 12] = [
        (b"", DecoderError::Decompression(None)),
        (b"\x00", DecoderError::Decompression(None)),
        (b"\x05\x00", DecoderError::Decompression(None)),
        (b"\x00\x00\xff", line(2)),
        (b"\x00\x00\xff\x24", line(2)),
        (b"\x00\x00\x10", line(2)),
        (b"\x00\x00\x00\x00", line(2)),
        (b"\x00\x00\x80", line(2)),
        (b"\x00\x00\x40\x00", line(2)),
        (b"\x00\x00\x2a\x94", line(2)),
        (b"\x00\x00\x27\xff\xff\xff\xff\xff\xff\xff\xff\xff", line(2)),
        (b"\x00\x00\x51\x81\x00", line(2)),
    ];
    for (section, error) in refused {
        assert_eq!(decode_stateless(section, 4096), Err(error), "{section:?}");
        assert_eq!(error.code(), Some(0x200));
    }
}

#[test]
fn the_prefix_says_whether_a_section_waits() {
    let (mut encoder, mut section) = (encoder(), Vec::new());
    let mut decoder = ConnectionDecoder::new(DecoderSettings::new(4096, 16)).unwrap();
    let required = encoder.encode(0, [("foo", "bar")], &mut section).unwrap();
    let waiting = decoder.peek_prefix(&section).unwrap();
    assert_eq!((waiting.required, waiting.len, waiting.is_blocked), (required, 2, true));
    assert_eq!(decoder.peek_prefix(&section[..2]), Ok(waiting));
    assert_eq!((decoder.blocked(), decoder.decoder_stream_len()), (0, 0));

    let mut instructions = Vec::new();
    encoder.take_encoder_stream(&mut instructions).unwrap();
    decoder.receive(&instructions).unwrap();
    let ready = decoder.peek_prefix(&section).unwrap();
    assert_eq!((ready.required, ready.base, ready.is_blocked), (required, waiting.base, false));
    let read = |section: &[u8]| decoder.peek_prefix(section).map(|it| (it.required, it.base, it.len, it.is_blocked));
    assert_eq!(read(&[0x02, 0x80]), Ok((1, 0, 2, false)));
    assert_eq!(read(&[0x00, 0x00, 0xd1]), Ok((0, 0, 2, false)));
    assert_eq!(read(&[0x02, 0x7f, 0x00]), Ok((1, 128, 3, false)));
    for section in [&[][..], &[0x02], &[0x00, 0x80]] {
        assert_eq!(read(section), Err(DecodingError::DecompressionFailed { line: None }));
    }
}
