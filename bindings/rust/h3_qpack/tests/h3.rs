//! The cases of h3 0.0.8's `qpack` that can be said with what is public here, by their names there. Where a case there
//! makes bytes by a form, they are written plainly here; where it looks into a table, a section that names the entry is
//! decoded. docs/DIFFERENCES.md tells of the others.

mod common;

use common::{decoder, duplicate, fields_of, insert, insert_dynamic, insert_static, int, prefix, set_capacity, text};
use h3_qpack::connection::{
    ConnectionDecoder, ConnectionEncoder, DecodingError, EncoderSettings, EncodingError, Place, Reading,
};
use h3_qpack::{decode_stateless, encode_stateless, DecoderError, HeaderField};
use std::slice;

const TABLE_SIZE: usize = 4096;

fn field(n: usize) -> HeaderField {
    HeaderField::new(format!("foo{n}"), "bar")
}

// ---- field.rs

#[test]
fn test_field_size_is_offset_by_32() {
    let field = HeaderField { name: b"Name"[..].into(), value: b"Value"[..].into() };
    assert_eq!(field.mem_size(), 4 + 5 + 32);
}

#[test]
fn with_value() {
    assert_eq!(HeaderField::new("name", "value").with_value("new value"), HeaderField::new("name", "new value"));
}

// ---- static_.rs

/// What a section means whose one line is the static entry of an index.
fn static_field(index: usize) -> Result<HeaderField, DecoderError> {
    let section = [vec![0, 0], int(0xc0, 6, index)].concat();
    decode_stateless(&section, u64::MAX).map(|decoded| decoded.fields[0].clone())
}

/// The line that is written for a field without a table.
fn line_of(field: HeaderField) -> Vec<u8> {
    let mut section = Vec::new();
    encode_stateless(&mut section, [field]).unwrap();
    section.split_off(2)
}

#[test]
fn test_static_table_index_is_0_based() {
    assert_eq!(static_field(0), Ok(HeaderField::new(":authority", "")));
}

#[test]
fn test_static_table_is_full() {
    let fields: Vec<HeaderField> = (0..).map_while(|index| static_field(index).ok()).collect();
    assert_eq!(fields.len(), 99);
}

#[test]
fn test_static_table_can_get_field() {
    assert_eq!(static_field(98), Ok(HeaderField::new("x-frame-options", "sameorigin")));
}

#[test]
fn invalid_index() {
    assert_eq!(static_field(99), Err(DecoderError::Decompression(Some(Place::new(1, 2)))));
}

#[test]
fn find_by_name() {
    assert_eq!(line_of(HeaderField::new("last-modified", "now"))[..1], [0x50 | 10]);
    assert_eq!(line_of(HeaderField::new("does-not-exist", "now"))[0] & 0xe0, 0x20);
}

#[test]
fn find() {
    assert_eq!(line_of(HeaderField::new(":method", "GET")), [0xc0 | 17]);
    assert_eq!(line_of(HeaderField::new("foo", "bar"))[0] & 0xe0, 0x20);
}

// ---- block.rs

#[test]
fn header_prefix() {
    let mut decoder = decoder_with(10);
    let section = [prefix(10, 5, TABLE_SIZE), vec![0x80, 0x10]].concat();
    assert_eq!(decoder.decode(0, &section), Ok(Reading::Fields { count: 2, required: 10 }));
    assert_eq!(fields_of(&mut decoder), [field(5), field(6)]);
}

#[test]
fn header_prefix_table_size_0() {
    let mut decoder = decoder(0, 0);
    assert_eq!(decoder.decode(0, &prefix(0, 0, 0)), Ok(Reading::Fields { count: 0, required: 0 }));
}

#[test]
fn base_index_too_small() {
    let section = [int(0, 8, 2 % (2 * TABLE_SIZE / 32) + 1), int(0x80, 7, 2)].concat();
    let refused = decoder_with(2).decode(0, &section);
    assert_eq!(refused, Err(DecodingError::DecompressionFailed { line: None }));
}

// ---- encoder.rs

fn encoder() -> ConnectionEncoder {
    encoder_of(TABLE_SIZE)
}

/// An encoder with a table of this capacity, which was told.
fn encoder_of(capacity: usize) -> ConnectionEncoder {
    let settings = EncoderSettings::new(TABLE_SIZE, 100).with_capacity(capacity);
    let mut encoder = ConnectionEncoder::new(settings).unwrap();
    let (_, instructions) = encode(&mut encoder, 0, &[]);
    assert_eq!(instructions.is_empty(), capacity == 0);
    encoder
}

/// The lines behind the prefix of two bytes, and the instructions.
fn encode(encoder: &mut ConnectionEncoder, stream_id: u64, fields: &[HeaderField]) -> (Vec<u8>, Vec<u8>) {
    let (mut section, mut instructions) = (Vec::new(), Vec::new());
    encoder.encode(stream_id, fields, &mut section).unwrap();
    encoder.take_encoder_stream(&mut instructions).unwrap();
    (section.split_off(2), instructions)
}

/// The encoder's peer received so many insertions.
fn received(encoder: &mut ConnectionEncoder, insertions: usize) {
    encoder.receive(&int(0, 6, insertions)).unwrap();
}

/// What a decoder has once it received instructions, its newest entry last.
fn entries(instructions: &[&[u8]], count: usize) -> Vec<HeaderField> {
    let mut decoder = decoder(TABLE_SIZE, 100);
    decoder.receive(&instructions.concat()).unwrap();
    assert_eq!(decoder.insert_count(), count);
    let lines = (0..count).rev().map(|index| 0x80 | index as u8).collect();
    decoder.decode(0, &[prefix(count, count, TABLE_SIZE), lines].concat()).unwrap();
    fields_of(&mut decoder)
}

#[test]
fn encode_static() {
    let (lines, instructions) = encode(&mut encoder(), 1, &[HeaderField::new(":method", "GET")]);
    assert_eq!((lines, instructions), (vec![0xd1], vec![]));
}

#[test]
fn encode_static_nameref() {
    let field = HeaderField::new("location", "/bar");
    let (lines, instructions) = encode(&mut encoder(), 1, slice::from_ref(&field));
    assert_eq!((lines, instructions[0]), (vec![0x10], 0xc0 | 12));
    assert_eq!(entries(&[&set_capacity(TABLE_SIZE), &instructions], 1), [field]);
}

#[test]
fn encode_static_nameref_indexed_in_dynamic() {
    let (mut encoder, field) = (encoder(), HeaderField::new("location", "/bar"));
    encode(&mut encoder, 1, slice::from_ref(&field));
    assert_eq!(encode(&mut encoder, 2, &[field]), (vec![0x80], vec![]));
}

#[test]
fn encode_dynamic_insert() {
    let field = HeaderField::new("foo", "bar");
    let (lines, instructions) = encode(&mut encoder(), 1, slice::from_ref(&field));
    assert_eq!((lines, instructions[0] & 0xc0), (vec![0x10], 0x40));
    assert_eq!(entries(&[&set_capacity(TABLE_SIZE), &instructions], 1), [field]);
}

#[test]
fn encode_dynamic_insert_nameref() {
    let (mut encoder, field) = (encoder(), HeaderField::new("foo", "bar"));
    let before = encode(&mut encoder, 1, &[field.clone(), HeaderField::new("baz", "bar")]).1;
    let (lines, instructions) = encode(&mut encoder, 2, &[field.with_value("quxx")]);
    assert_eq!((lines, instructions[0]), (vec![0x10], 0x80 | 1));
    let entries = entries(&[&set_capacity(TABLE_SIZE), &before, &instructions], 3);
    assert_eq!(entries[2], HeaderField::new("foo", "quxx"));
}

#[test]
fn encode_literal() {
    let (lines, instructions) = encode(&mut encoder_of(0), 1, &[HeaderField::new("foo", "bar")]);
    assert_eq!((lines[0] & 0xe0, instructions), (0x20, vec![]));
}

#[test]
fn encode_literal_nameref() {
    let (mut encoder, field) = (encoder_of(76), HeaderField::new("foo", "bar"));
    assert_eq!(encode(&mut encoder, 1, slice::from_ref(&field)).0, [0x10]);
    let (lines, instructions) = encode(&mut encoder, 2, &[field.with_value("quxx")]);
    assert_eq!((lines[0], instructions), (0x40, vec![]));
}

#[test]
fn encode_literal_postbase_nameref() {
    let (mut encoder, field) = (encoder_of(76), HeaderField::new("foo", "bar"));
    let (lines, instructions) = encode(&mut encoder, 1, &[field.clone(), field.with_value("quxx")]);
    assert_eq!(lines[..2], [0x10, 0x00]);
    assert_eq!(entries(&[&set_capacity(76), &instructions], 1), [field]);
}

#[test]
fn encode_with_header_block() {
    let mut encoder = encoder();
    for n in 1..5 {
        encode(&mut encoder, n, &[HeaderField::new(format!("foo{n}"), format!("bar{n}"))]);
    }
    let fields = [
        HeaderField::new(":method", "GET"),
        HeaderField::new("foo1", "bar1"),
        HeaderField::new("foo3", "new bar3"),
        HeaderField::new(":method", "staticnameref"),
        HeaderField::new("newfoo", "newbar"),
    ];
    let mut section = Vec::new();
    assert_eq!(encoder.encode(8, &fields, &mut section), Ok(7));
    assert_eq!(section[..2], prefix(7, 4, TABLE_SIZE)[..]);
    assert_eq!(section[2..], [0xc0 | 17, 0x80 | 3, 0x10, 0x11, 0x12]);
}

/// An encoder that encoded two fields for stream 2, of which the second has the name of the first.
fn encoder_that_waits() -> ConnectionEncoder {
    let (mut encoder, field) = (encoder(), HeaderField::new("foo", "bar"));
    encode(&mut encoder, 2, &[field.clone(), field.with_value("quxx")]);
    encoder
}

/// The refusal of the instruction of this number and place.
fn refused_at(number: u64, offset: u64) -> Result<(), EncodingError> {
    Err(EncodingError::DecoderStream { instruction: Some(Place::new(number, offset)) })
}

#[test]
fn decoder_block_ack() {
    let mut encoder = encoder_that_waits();
    assert_eq!(encoder.receive(&int(0x80, 7, 2)), Ok(()));
    assert_eq!(encoder.receive(&int(0x80, 7, 2)), refused_at(2, 1));
}

#[test]
fn decoder_stream_cacnceled() {
    let mut encoder = encoder_that_waits();
    assert_eq!(encoder.receive(&int(0x40, 6, 2)), Ok(()));
    assert_eq!(encoder.receive(&int(0x80, 7, 2)), refused_at(2, 1));
}

#[test]
fn decoder_accept_truncated() {
    let (mut encoder, cancellation) = (encoder(), int(0x40, 6, 2321));
    assert_eq!(encoder.receive(&cancellation[..2]), Ok(()));
    assert_eq!(encoder.receive(&cancellation[2..]), Ok(()));
}

#[test]
fn decoder_unknown_stream() {
    let mut encoder = encoder();
    encode(&mut encoder, 2, &[HeaderField::new("foo", "bar")]);
    assert_eq!(encoder.receive(&int(0x80, 7, 4)), refused_at(1, 0));
}

/// There increments past what was inserted are taken; here they end the encoder (RFC 9204, section 4.4.3).
#[test]
fn insert_count() {
    assert_eq!(encoder().receive(&int(0, 6, 4)), refused_at(1, 0));
    let mut encoder = encoder();
    encode(&mut encoder, 0, &[field(1), field(2), field(3), field(4)]);
    assert_eq!(encoder.receive(&int(0, 6, 4)), Ok(()));
}

// ---- dynamic.rs, as far as an end shows it

#[test]
fn cannot_insert_field_greater_than_total_size() {
    let (lines, instructions) = encode(&mut encoder_of(33), 4, &[HeaderField::new("foo", "bar")]);
    assert_eq!((lines[0] & 0xe0, instructions), (0x20, vec![]));
}

#[test]
fn test_set_maximum_table_size_to_zero_clear_entries() {
    let mut decoder = decoder_with(2);
    decoder.receive(&[set_capacity(0), set_capacity(TABLE_SIZE)].concat()).unwrap();
    let refused = decoder.decode(0, &[prefix(2, 2, TABLE_SIZE), vec![0x80]].concat());
    let line = Some(Place::new(1, 2));
    assert_eq!(refused, Err(DecodingError::DecompressionFailed { line }));
}

#[test]
fn test_eviction_is_fifo() {
    let mut decoder = decoder_of(78, &[insert("Name-A", "Value-A"), insert("Name-B", "Value-B")]);
    assert_eq!(decoder.insert_count(), 2);
    decoder.receive(&[set_capacity(90), insert("Name-C", "Value-C")].concat()).unwrap();
    decoder.decode(0, &[prefix(3, 3, TABLE_SIZE), vec![0x80, 0x81]].concat()).unwrap();
    let fields = [HeaderField::new("Name-C", "Value-C"), HeaderField::new("Name-B", "Value-B")];
    assert_eq!(fields_of(&mut decoder), fields);
    assert!(decoder.decode(0, &[prefix(3, 3, TABLE_SIZE), vec![0x82]].concat()).is_err());
}

/// An insertion would cost more than four fifths of the section's bytes (RFC 9204, section 2.1.2).
#[test]
fn no_insert_when_max_blocked_0() {
    let settings = EncoderSettings::new(TABLE_SIZE, 0);
    let (mut encoder, field) = (ConnectionEncoder::new(settings).unwrap(), HeaderField::new("foo", "bar"));
    let (lines, instructions) = encode(&mut encoder, 44, slice::from_ref(&field));
    assert_eq!(lines[0] & 0xe0, 0x20);
    assert!(entries(&[&instructions], 0).is_empty());
}

#[test]
fn no_insert_after_max_blocked_reached() {
    let mut encoder = ConnectionEncoder::new(EncoderSettings::new(TABLE_SIZE, 2)).unwrap();
    encode(&mut encoder, 42, &[field(1)]);
    assert_eq!(encode(&mut encoder, 44, &[field(2)]).0, [0x10]);
    assert_eq!(encoder.blocked(), 2);
    let (lines, instructions) = encode(&mut encoder, 46, &[field(99)]);
    assert_eq!((lines[0] & 0xe0, instructions.len()), (0x20, 0));
    assert_eq!(encoder.blocked(), 2);
}

#[test]
fn insert_again_after_encoder_ack() {
    let mut encoder = ConnectionEncoder::new(EncoderSettings::new(TABLE_SIZE, 1)).unwrap();
    encode(&mut encoder, 42, &[field(1), field(2), field(3)]);
    assert_eq!(encoder.blocked(), 1);
    assert_eq!(encode(&mut encoder, 44, &[field(99)]).0[0] & 0xe0, 0x20);
    received(&mut encoder, 3);
    assert_eq!(encoder.blocked(), 0);
    assert_eq!(encode(&mut encoder, 46, &[HeaderField::new("foo", "bar")]).0, [0x10]);
}

// ---- decoder.rs

#[test]
fn test_header_too_long() {
    let trailers = [HeaderField::new("trailer", "value"), HeaderField::new("trailer2", "value2")];
    let mut section = Vec::new();
    assert_eq!(encode_stateless(&mut section, &trailers), Ok(90));
    assert!(matches!(decode_stateless(&section, 2), Err(DecoderError::HeaderTooLong(size)) if size <= 44));
    assert_eq!(decode_stateless(&section, 89), Err(DecoderError::HeaderTooLong(90)));
    assert_eq!(decode_stateless(&section, 90).map(|decoded| decoded.mem_size), Ok(90));
}

/// A decoder that received so many insertions.
fn decoder_with(insertions: usize) -> ConnectionDecoder {
    let instructions: Vec<Vec<u8>> = (1..=insertions).map(|n| insert(&format!("foo{n}"), "bar")).collect();
    let mut decoder = decoder_of(TABLE_SIZE, &instructions);
    assert_eq!(decoder.insert_count(), insertions);
    taken(&mut decoder);
    decoder
}

/// A decoder that received this capacity and these instructions.
fn decoder_of(capacity: usize, instructions: &[Vec<u8>]) -> ConnectionDecoder {
    let mut decoder = decoder(TABLE_SIZE, 100);
    decoder.receive(&[set_capacity(capacity), instructions.concat()].concat()).unwrap();
    decoder
}

/// What the decoder stream has.
fn taken(decoder: &mut ConnectionDecoder) -> Vec<u8> {
    let mut stream = Vec::new();
    decoder.take_decoder_stream(&mut stream).unwrap();
    stream
}

/// The newest entry, its insertion being the first, and told by an increment of 1.
fn check_inserted(decoder: &mut ConnectionDecoder, field: HeaderField) {
    assert_eq!(taken(decoder), [0x01]);
    let count = decoder.insert_count();
    decoder.decode(0, &[prefix(count, count, TABLE_SIZE), vec![0x80]].concat()).unwrap();
    assert_eq!(fields_of(decoder), [field]);
}

#[test]
fn test_insert_field_with_name_ref_into_dynamic_table() {
    let mut decoder = decoder_with(0);
    decoder.receive(&insert_static(1, "serial value")).unwrap();
    check_inserted(&mut decoder, HeaderField::new(":path", "serial value"));
}

/// The encoder stream is refused at the instruction behind the capacity.
fn check_refused(instruction: &[u8]) {
    let mut decoder = decoder_with(0);
    let place = Some(Place::new(2, 3));
    assert_eq!(decoder.receive(instruction), Err(DecodingError::EncoderStream { instruction: place }));
    assert_eq!(taken(&mut decoder), []);
}

#[test]
fn test_insert_field_with_wrong_name_index_from_static_table() {
    check_refused(&insert_static(3000, ""));
}

#[test]
fn test_insert_field_with_wrong_name_index_from_dynamic_table() {
    check_refused(&insert_dynamic(3000, ""));
}

#[test]
fn test_insert_field_without_name_ref() {
    let mut decoder = decoder_with(0);
    decoder.receive(&insert("key", "value")).unwrap();
    check_inserted(&mut decoder, HeaderField::new("key", "value"));
}

#[test]
fn test_duplicate_field() {
    let mut decoder = decoder_with(2);
    decoder.receive(&duplicate(1)).unwrap();
    assert_eq!(decoder.insert_count(), 3);
    check_inserted(&mut decoder, field(1));
}

#[test]
fn test_dynamic_table_size_update() {
    let mut decoder = decoder_with(0);
    decoder.receive(&set_capacity(25)).unwrap();
    assert_eq!((decoder.insert_count(), taken(&mut decoder)), (0, vec![]));
    assert!(decoder.receive(&insert("", "")).is_err());
}

#[test]
fn enc_recv_buf_too_short() {
    let mut decoder = decoder_with(0);
    assert_eq!(decoder.receive(&[]), Ok(()));
    assert_eq!(decoder.receive(&[0b1000_0000]), Ok(()));
}

#[test]
fn enc_recv_accepts_truncated_messages() {
    let instructions = [insert("keyfoobarbaz", "value"), insert("keyfoobarbaz2", "value")].concat();
    for cut in 0..instructions.len() {
        let mut decoder = decoder_with(0);
        decoder.receive(&instructions[..cut]).unwrap();
        assert_eq!(decoder.insert_count(), usize::from(cut >= insert("keyfoobarbaz", "value").len()));
        decoder.receive(&instructions[cut..]).unwrap();
        assert_eq!(decoder.insert_count(), 2);
    }
}

#[test]
fn largest_ref_too_big() {
    let section = prefix(8, 8, TABLE_SIZE);
    assert_eq!(decoder_with(0).decode(0, &section), Ok(Reading::Blocked { required: 8 }));
}

/// A section behind so many insertions means these fields, and references the table if `required` is above 0.
fn check_fields(insertions: usize, required: usize, section: &[Vec<u8>], fields: &[HeaderField]) {
    let mut decoder = decoder_with(insertions);
    let reading = decoder.decode(0, &section.concat());
    assert_eq!(reading, Ok(Reading::Fields { count: fields.len(), required }));
    assert_eq!(fields_of(&mut decoder), fields);
}

#[test]
fn decode_indexed_header_field() {
    let section = [prefix(2, 2, TABLE_SIZE), vec![0x80, 0x81, 0xc0 | 18]];
    check_fields(2, 2, &section, &[field(2), field(1), HeaderField::new(":method", "HEAD")]);
}

#[test]
fn decode_post_base_indexed() {
    let section = [prefix(4, 2, TABLE_SIZE), vec![0x80, 0x10, 0x11]];
    check_fields(4, 4, &section, &[field(2), field(3), field(4)]);
}

#[test]
fn decode_name_ref_header_field() {
    let lines = [int(0x40, 4, 1), text(0, 7, "new bar1"), int(0x50, 4, 18), text(0, 7, "PUT")].concat();
    let fields = [field(1).with_value("new bar1"), HeaderField::new(":method", "PUT")];
    check_fields(4, 2, &[prefix(2, 2, TABLE_SIZE), lines], &fields);
}

/// There the count that the prefix requires may be below what a line references; here it is above.
#[test]
fn decode_post_base_name_ref_header_field() {
    let line = [int(0, 3, 0), text(0, 7, "new bar3")].concat();
    check_fields(4, 3, &[prefix(3, 2, TABLE_SIZE), line.clone()], &[field(3).with_value("new bar3")]);
    let refused = decoder_with(4).decode(0, &[prefix(2, 2, TABLE_SIZE), line].concat());
    let line = Some(Place::new(1, 2));
    assert_eq!(refused, Err(DecodingError::DecompressionFailed { line }));
}

#[test]
fn decode_without_name_ref_header_field() {
    let line = [text(0x20, 3, "foo"), text(0, 7, "bar")].concat();
    check_fields(0, 0, &[prefix(0, 0, TABLE_SIZE), line], &[HeaderField::new("foo", "bar")]);
}

#[test]
fn decode_single_pass_encoded() {
    let section = [prefix(4, 0, TABLE_SIZE), vec![0x10, 0x11, 0x12, 0x13]];
    check_fields(4, 4, &section, &[field(1), field(2), field(3), field(4)]);
}

#[test]
fn largest_ref_greater_than_max_entries() {
    let most = TABLE_SIZE / 32;
    let section = [prefix(most + 5, most + 5, TABLE_SIZE), vec![0x80 | 10]];
    check_fields(most + 10, most + 5, &section, &[field(most - 5)]);
    let section = [prefix(most + 10, most + 5, TABLE_SIZE), vec![0x10, 0x14]];
    check_fields(most + 10, most + 10, &section, &[field(most + 6), field(most + 10)]);
}
