//! The vectors that the repository holds: the blocks that h3 writes of the corpus, and what nghttp3 sent for it.

mod common;

use common::{corpus, data, decoder, fields_of, unhex};
use h3_qpack::connection::{ConnectionDecoder, Reading};
use h3_qpack::{decode_stateless, encode_stateless, HeaderField};

/// Copies an integer with a prefix of so many bits, and returns it (RFC 7541, section 5.1).
fn copy_int(rest: &mut &[u8], bits: u8, copy: &mut Vec<u8>) -> usize {
    let most = (1 << bits) - 1;
    let (mut value, mut shift, mut len) = (usize::from(rest[0] & most), 0, 1);
    if value == usize::from(most) {
        loop {
            value += usize::from(rest[len] & 0x7f) << shift;
            (shift, len) = (shift + 7, len + 1);
            if rest[len - 1] < 0x80 {
                break;
            }
        }
    }
    let (bytes, behind) = rest.split_at(len);
    copy.extend_from_slice(bytes);
    *rest = behind;
    value
}

/// Copies a coded string, plain if its code is as long as its text (RFC 9204, section 4.1.2).
fn copy_string(rest: &mut &[u8], bits: u8, text: &[u8], copy: &mut Vec<u8>) {
    let (first, flag) = (copy.len(), 1 << bits);
    assert!(rest[0] & flag != 0);
    let len = copy_int(rest, bits, copy);
    let (payload, behind) = rest.split_at(len);
    assert!(len <= text.len());
    if len == text.len() {
        copy[first] ^= flag;
    }
    copy.extend_from_slice(if len == text.len() { text } else { payload });
    *rest = behind;
}

/// A section of h3 without a table, in which strings that the code makes no shorter are plain.
fn with_plain_strings(section: &[u8], list: &[HeaderField]) -> Vec<u8> {
    let (mut copy, mut rest) = (section[..2].to_vec(), &section[2..]);
    for field in list {
        match rest[0] {
            0x80.. => {
                copy_int(&mut rest, 6, &mut copy);
                continue;
            }
            0x40.. => {
                copy_int(&mut rest, 4, &mut copy);
            }
            _ => copy_string(&mut rest, 3, &field.name, &mut copy),
        }
        copy_string(&mut rest, 7, &field.value, &mut copy);
    }
    assert!(rest.is_empty());
    copy
}

/// h3 codes every string, and this crate those that get shorter.
#[test]
fn sections_without_a_table_are_those_of_h3() {
    let lists = corpus();
    let text = data("stateless_h3.tsv");
    for line in text.lines() {
        let parts: Vec<&str> = line.split('\t').collect();
        let list = &lists[parts[0].parse::<usize>().unwrap()];
        let (size, section) = (parts[1].parse().unwrap(), unhex(parts[2]));
        let mut written = Vec::new();
        assert_eq!(encode_stateless(&mut written, list), Ok(size));
        assert_eq!(written, with_plain_strings(&section, list));
        let decoded = decode_stateless(&section, size).unwrap();
        assert_eq!((&decoded.fields, decoded.mem_size, decoded.dyn_ref), (list, size, false));
        assert!(decode_stateless(&section, size - 1).is_err());
    }
    assert_eq!(text.lines().count(), lists.len());
}

/// Hands in a line of a recording, the encoder stream in pieces of so many bytes; whether it is a section.
fn hand_in(decoder: &mut ConnectionDecoder, lists: &[Vec<HeaderField>], line: &str, piece: usize) -> bool {
    let parts: Vec<&str> = line.split('\t').collect();
    if let ["b", stream_id, digits] = parts[..] {
        let stream_id: u64 = stream_id.parse().unwrap();
        let list = &lists[stream_id as usize / 4];
        let reading = decoder.decode(stream_id, &unhex(digits)).unwrap();
        assert!(matches!(reading, Reading::Fields { count, .. } if count == list.len()));
        assert_eq!(&fields_of(decoder), list);
        return true;
    }
    assert_eq!((parts[0], parts.len()), ("e", 2));
    for bytes in unhex(parts[1]).chunks(piece) {
        decoder.receive(bytes).unwrap();
    }
    false
}

fn replay(name: &str, max_capacity: usize) {
    let (lists, text) = (corpus(), data(name));
    for piece in [1, 7, 65_536] {
        let mut decoder = decoder(max_capacity, 100);
        let sections = text.lines().filter(|line| hand_in(&mut decoder, &lists, line, piece)).count();
        assert_eq!((sections, decoder.blocked()), (lists.len(), 0));
        assert_eq!(decoder.insert_count() == 0, max_capacity == 0);
    }
}

#[test]
fn nghttp3_without_a_table() {
    replay("nghttp3_0_0_ack.txt", 0);
}

#[test]
fn nghttp3_at_256() {
    replay("nghttp3_256_8_ack.txt", 256);
}

#[test]
fn nghttp3_at_4096() {
    replay("nghttp3_4096_100_ack.txt", 4096);
}

#[test]
fn nghttp3_at_4096_without_acknowledgments() {
    replay("nghttp3_4096_16_noack.txt", 4096);
}

#[test]
fn nghttp3_at_65536() {
    replay("nghttp3_65536_16_ack.txt", 65_536);
}
