//! Fields where they lie in the decoder, beside their copies.

mod common;

use common::{corpus, decoder, fields_of, int, text};
use h3_qpack::connection::{
    ConnectionDecoder, ConnectionEncoder, DecoderSettings, EncoderSettings, FieldLine, FieldView, Progress,
    SectionReader,
};
use h3_qpack::{decode_stateless, HeaderField};

/// The static table (RFC 9204, Appendix A): a section with a line for each of its indexes.
fn static_table() -> Vec<HeaderField> {
    let lines: Vec<u8> = (0..99).flat_map(|index| int(0xc0, 6, index)).collect();
    decode_stateless(&[vec![0, 0], lines].concat(), 1 << 16).unwrap().fields
}

/// What a view should say: the first index that has the name, and the one that has the field.
fn assert_is_static(table: &[HeaderField], view: &FieldView<'_>) {
    let FieldLine { name, value, .. } = view.line;
    let first = |is_one: &dyn Fn(&HeaderField) -> bool| table.iter().position(is_one).map(|index| index as u8);
    assert_eq!(view.static_name(), first(&|entry| entry.name == name));
    assert_eq!(view.static_field(), first(&|entry| entry.name == name && entry.value == value));
}

#[test]
fn views_are_what_copies_are() {
    let table = static_table();
    let mut encoder = ConnectionEncoder::new(EncoderSettings::new(4096, 16)).unwrap();
    let mut decoder = decoder(4096, 16);
    let (mut instructions, mut answers, mut fields) = (Vec::new(), Vec::new(), 0);
    for (number, list) in corpus().iter().enumerate() {
        let mut section = Vec::new();
        encoder.encode(4 * number as u64, list, &mut section).unwrap();
        instructions.clear();
        encoder.take_encoder_stream(&mut instructions).unwrap();
        decoder.receive(&instructions).unwrap();
        decoder.decode(4 * number as u64, &section).unwrap();
        assert_eq!((&fields_of(&mut decoder), decoder.views().len()), (list, list.len()));
        assert!(decoder.views().map(FieldLine::from).eq(list.iter().map(FieldLine::from)));
        assert!(decoder.views().rev().map(FieldLine::from).eq(list.iter().rev().map(FieldLine::from)));
        decoder.views().for_each(|view| assert_is_static(&table, &view));
        fields += list.len();
        answers.clear();
        decoder.take_decoder_stream(&mut answers).unwrap();
        encoder.receive(&answers).unwrap();
    }
    assert!(fields > 500);
}

#[test]
fn each_index_of_the_static_table_is_found() {
    let table = static_table();
    let mut decoder = decoder(0, 0);
    for (index, field) in table.iter().enumerate() {
        decoder.decode(0, &[vec![0, 0], int(0xc0, 6, index)].concat()).unwrap();
        let view = decoder.views().next().unwrap();
        assert_eq!((view.line, view.static_field()), (FieldLine::from(field), Some(index as u8)));
        assert_is_static(&table, &view);
        let name = view.static_name();
        decoder.decode(4, &[vec![0, 0], int(0x70, 4, index), text(0, 7, "no value of it")].concat()).unwrap();
        let other = decoder.views().next().unwrap();
        assert!(other.line.never_indexed);
        assert_eq!((other.static_name(), other.static_field()), (name, None));
    }
}

#[test]
fn empty_names_and_values_are_viewed() {
    let mut decoder = decoder(0, 0);
    assert_eq!(decoder.views().len(), 0);
    decoder.decode(0, &[0x00, 0x00]).unwrap();
    assert_eq!((decoder.views().next(), decoder.views().nth(7)), (None, None));
    decoder.decode(0, &[0x00, 0x00, 0x20, 0x00, 0x21, b'x', 0x00, 0x20, 0x01, b'y']).unwrap();
    let lines: Vec<FieldLine<'_>> = decoder.views().map(FieldLine::from).collect();
    assert_eq!(lines, [FieldLine::new("", ""), FieldLine::new("x", ""), FieldLine::new("", "y")]);
    assert!(decoder.views().all(|view| (view.static_name(), view.static_field()) == (None, None)));
    assert_eq!(decoder.views().nth(1).map(FieldLine::from), Some(FieldLine::new("x", "")));
    assert_eq!((decoder.views().nth(3), format!("{:?}", decoder.views()).is_empty()), (None, false));
    assert!(decoder.decode(0, &[0x00, 0x00, 0xff]).is_err());
    assert_eq!(decoder.views().len(), 0);
}

#[test]
fn a_reader_has_a_view_of_each_field_that_it_gives() {
    let table = static_table();
    let mut decoder = ConnectionDecoder::new(DecoderSettings::default()).unwrap();
    let mut reader = SectionReader::new(0).unwrap();
    let section = [vec![0, 0], int(0xc0, 6, 17), text(0x20, 3, "a-name"), text(0, 7, "b"), int(0xc0, 6, 98)].concat();
    let (mut bytes, mut given) = (&section[..], Vec::new());
    assert_eq!(reader.view(), None);
    while let Progress::Field(field) = reader.read(&mut decoder, &mut bytes, true).unwrap() {
        let copy = HeaderField::new(field.name, field.value);
        let view = reader.view().unwrap();
        assert_eq!(view.line, FieldLine::from(&copy));
        assert_is_static(&table, &view);
        given.push((copy, view.static_name(), view.static_field()));
    }
    assert_eq!(reader.view(), None);
    assert_eq!(given[0], (HeaderField::new(":method", "GET"), Some(15), Some(17)));
    assert_eq!(given[1], (HeaderField::new("a-name", "b"), None, None));
    assert_eq!(given[2], (HeaderField::new("x-frame-options", "sameorigin"), Some(97), Some(98)));
    assert_eq!(given.len(), 3);
}
