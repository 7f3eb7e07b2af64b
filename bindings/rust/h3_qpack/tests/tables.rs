//! What both ends tell of their tables: with an entry more at a time, and after evictions.

mod common;

use common::decoder;
use h3_qpack::connection::{ConnectionEncoder, EncoderSettings, Entries, FieldLine, Wish};
use h3_qpack::HeaderField;

/// The letters that are the values of entries, in their order. The name of each is n.
fn letters(entries: Entries<'_>) -> String {
    let (mut letters, count) = (String::new(), entries.len());
    for entry in entries {
        let HeaderField { name, value } = entry.unwrap();
        assert_eq!(name, &b"n"[..]);
        letters.push_str(std::str::from_utf8(&value).unwrap());
    }
    assert_eq!(letters.len(), count);
    letters
}

fn counts(encoder: &ConnectionEncoder) -> (usize, usize, usize) {
    (encoder.insert_count(), encoder.known_received_count(), encoder.unacknowledged())
}

/// An entry has 34 bytes, so two fit.
#[test]
fn entries_come_and_go() {
    let mut encoder = ConnectionEncoder::new(EncoderSettings::new(70, 16)).unwrap();
    let mut decoder = decoder(70, 16);
    assert_eq!((encoder.capacity(), decoder.capacity()), (0, 0));
    assert_eq!((encoder.table_size(), decoder.table_size()), (0, 0));
    assert!(encoder.entries().next().is_none() && decoder.entries().next().is_none());
    for (i, (value, table)) in [("a", "a"), ("b", "ba"), ("c", "cb")].into_iter().enumerate() {
        let (mut section, mut stream) = (Vec::new(), Vec::new());
        assert_eq!(counts(&encoder), (i, i, 0));
        let field = FieldLine::new("n", value).wish(Wish::Insert);
        assert_eq!(encoder.encode(4 * i as u64, [field], &mut section), Ok(i + 1));
        assert_eq!(counts(&encoder), (i + 1, i, 1));
        encoder.take_encoder_stream(&mut stream).unwrap();
        decoder.receive(&stream).unwrap();
        assert_eq!((encoder.capacity(), decoder.capacity()), (70, 70));
        assert_eq!((encoder.table_size(), decoder.table_size()), (34 * table.len(), 34 * table.len()));
        assert_eq!((letters(encoder.entries()), letters(decoder.entries())), (table.into(), table.into()));
        decoder.decode(4 * i as u64, &section).unwrap();
        stream.clear();
        decoder.take_decoder_stream(&mut stream).unwrap();
        encoder.receive(&stream).unwrap();
    }
    let oldest_first: Vec<HeaderField> = encoder.entries().rev().map(Result::unwrap).collect();
    assert_eq!(oldest_first, [HeaderField::new("n", "b"), HeaderField::new("n", "c")]);
    for (capacity, table) in [(67, "c"), (33, ""), (0, "")] {
        encoder.set_capacity(capacity).unwrap();
        assert_eq!((encoder.capacity(), encoder.table_size()), (capacity, 34 * table.len()));
        assert_eq!(letters(encoder.entries()), table);
        assert_eq!(counts(&encoder), (3, 3, 0));
    }
}
