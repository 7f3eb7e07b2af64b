//! Sections in pieces, beside the same sections whole.

mod common;

use common::{corpus, decoder};
use h3_qpack::connection::{
    ConnectionDecoder, ConnectionEncoder, DecoderSettings, DecodingError, EncoderSettings, FieldLine, Place, Progress,
    SectionReader,
};
use h3_qpack::HeaderField;

/// The sections of a stream, and what was read of one.
struct Coming {
    reader: SectionReader,
    passed: usize,
    fields: Vec<HeaderField>,
}

impl Coming {
    /// Reads on in pieces of a size. Returns how many insertions the section waits for, if it does.
    fn read(&mut self, decoder: &mut ConnectionDecoder, section: &[u8], size: usize) -> Option<usize> {
        loop {
            let end = section.len().min(self.passed + size);
            let mut piece = &section[self.passed..end];
            loop {
                let before = piece.len();
                let progress = self.reader.read(decoder, &mut piece, end == section.len()).unwrap();
                self.passed = end - piece.len();
                match progress {
                    Progress::Field(field) => {
                        assert!(piece.len() < before, "a field takes a byte");
                        self.fields.push(HeaderField::new(field.name, field.value));
                    }
                    Progress::Waits => break,
                    Progress::Blocked { required } => return Some(required),
                    Progress::End { .. } => return None,
                    other => panic!("{other:?}"),
                }
            }
        }
    }
}

#[test]
fn pieces_are_read_as_the_whole() {
    for size in [1, 7, 65_536] {
        let mut encoder = ConnectionEncoder::new(EncoderSettings::new(4096, 16)).unwrap();
        let mut decoder = decoder(4096, 16);
        for (number, list) in corpus().iter().enumerate() {
            let stream = 4 * number as u64;
            let (mut section, mut instructions, mut answers) = (Vec::new(), Vec::new(), Vec::new());
            let required = encoder.encode(stream, list, &mut section).unwrap();
            encoder.take_encoder_stream(&mut instructions).unwrap();
            let mut coming = Coming { reader: SectionReader::new(stream).unwrap(), passed: 0, fields: Vec::new() };
            let is_late = required > decoder.insert_count();
            if is_late {
                assert_eq!(coming.read(&mut decoder, &section, size), Some(required));
                assert_eq!((decoder.blocked(), coming.fields.len()), (1, 0));
                assert!(coming.passed <= 20);
            }
            decoder.receive(&instructions).unwrap();
            assert_eq!(decoder.next_ready(), Some(stream).filter(|_| is_late));
            assert_eq!(coming.read(&mut decoder, &section, size), None);
            assert_eq!((&coming.fields, coming.reader.pending(), decoder.next_ready()), (list, 0, None));
            decoder.take_decoder_stream(&mut answers).unwrap();
            encoder.receive(&answers).unwrap();
            assert_eq!((encoder.blocked(), encoder.unacknowledged()), (0, 0));
        }
    }
}

#[test]
fn what_is_invalid_is_rejected() {
    let mut decoder = ConnectionDecoder::new(DecoderSettings::default()).unwrap();
    assert_eq!(SectionReader::new(1 << 62).unwrap_err(), DecodingError::StreamId);
    let mut reader = SectionReader::new(0).unwrap();
    let mut bytes: &[u8] = &[0x00, 0x00, 0xd1, 0xff];
    let get = Progress::Field(FieldLine::new(":method", "GET"));
    assert_eq!(reader.read(&mut decoder, &mut bytes, true), Ok(get));
    let error = DecodingError::DecompressionFailed { line: Some(Place::new(2, 3)) };
    assert_eq!(reader.read(&mut decoder, &mut bytes, true), Err(error));
    assert_eq!(decoder.decode(4, &[0x00, 0x00]), Err(error));
}
