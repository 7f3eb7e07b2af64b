//! What the tests share: forms of the wire, written plainly, the corpus, and numbers at random.
#![allow(dead_code)] // each test takes what it needs

use h3_qpack::connection::{ConnectionDecoder, DecoderSettings, FieldLine};
use h3_qpack::HeaderField;
use std::fs;
use std::path::Path;

/// A file of the corpus.
pub fn data(name: &str) -> String {
    let folder = Path::new(env!("CARGO_MANIFEST_DIR")).join("tests/data");
    fs::read_to_string(folder.join(name)).expect("the file is among the tests")
}

/// The lists of the corpus: a field a line, its name and its value parted by a TAB, and an empty line behind each list.
pub fn corpus() -> Vec<Vec<HeaderField>> {
    let lists: Vec<Vec<HeaderField>> = data("corpus.qif").trim_end().split("\n\n").map(list_of).collect();
    assert_eq!(lists.len(), 58);
    lists
}

fn list_of(text: &str) -> Vec<HeaderField> {
    text.lines().filter(|line| !line.starts_with('#')).map(field_of).collect()
}

fn field_of(line: &str) -> HeaderField {
    let (name, value) = line.split_once('\t').expect("a name and a value");
    HeaderField::new(name, value)
}

/// Bytes of their hexadecimal digits.
pub fn unhex(digits: &str) -> Vec<u8> {
    assert!(digits.len() % 2 == 0);
    (0..digits.len() / 2).map(|at| u8::from_str_radix(&digits[2 * at..2 * at + 2], 16).expect("digits")).collect()
}

/// An integer behind flags, with a prefix of so many bits (RFC 7541, section 5.1).
pub fn int(flags: u8, bits: u8, mut value: usize) -> Vec<u8> {
    let most = (1 << bits) - 1;
    if value < most {
        return vec![flags | value as u8];
    }
    let mut bytes = vec![flags | most as u8];
    value -= most;
    while value >= 128 {
        bytes.push((value % 128 + 128) as u8);
        value /= 128;
    }
    bytes.push(value as u8);
    bytes
}

/// A string behind flags that is not coded, its length with a prefix of so many bits (RFC 9204, section 4.1.2).
pub fn text(flags: u8, bits: u8, text: &str) -> Vec<u8> {
    [int(flags, bits, text.len()), text.as_bytes().to_vec()].concat()
}

/// The instruction that sets a capacity (RFC 9204, section 4.3.1).
pub fn set_capacity(capacity: usize) -> Vec<u8> {
    int(0x20, 5, capacity)
}

/// An insertion under a static name (RFC 9204, section 4.3.2).
pub fn insert_static(index: usize, value: &str) -> Vec<u8> {
    [int(0xc0, 6, index), text(0, 7, value)].concat()
}

/// An insertion under the name of an entry (RFC 9204, section 4.3.2).
pub fn insert_dynamic(index: usize, value: &str) -> Vec<u8> {
    [int(0x80, 6, index), text(0, 7, value)].concat()
}

/// An insertion of a literal name (RFC 9204, section 4.3.3).
pub fn insert(name: &str, value: &str) -> Vec<u8> {
    [text(0x40, 5, name), text(0, 7, value)].concat()
}

/// A duplicate (RFC 9204, section 4.3.4).
pub fn duplicate(index: usize) -> Vec<u8> {
    int(0, 5, index)
}

/// The prefix of a section (RFC 9204, section 4.5.1).
pub fn prefix(required: usize, base: usize, max_capacity: usize) -> Vec<u8> {
    let count = if required == 0 { 0 } else { required % (2 * (max_capacity / 32)) + 1 };
    let delta = if base >= required { int(0, 7, base - required) } else { int(0x80, 7, required - base - 1) };
    [int(0, 8, count), delta].concat()
}

/// A decoder that sent these settings, and no limit on sizes.
pub fn decoder(max_capacity: usize, max_blocked: usize) -> ConnectionDecoder {
    ConnectionDecoder::new(DecoderSettings::new(max_capacity, max_blocked).with_max_section_size(u64::MAX))
        .expect("settings in range")
}

/// The fields that a decoder has, owned.
pub fn fields_of(decoder: &mut ConnectionDecoder) -> Vec<HeaderField> {
    let fields = decoder.fields().expect("memory");
    fields.map(|FieldLine { name, value, .. }| HeaderField::new(name, value)).collect()
}

/// Numbers at random, the same in every run.
pub struct Random(u64);

impl Random {
    /// The numbers of a seed, which is not 0.
    pub fn new(seed: u64) -> Random {
        Random(seed)
    }

    /// A number below another.
    pub fn below(&mut self, most: usize) -> usize {
        self.0 ^= self.0 << 13;
        self.0 ^= self.0 >> 7;
        self.0 ^= self.0 << 17;
        (self.0 % most as u64) as usize
    }

    /// Bytes, cut into pieces.
    pub fn pieces<'a>(&mut self, bytes: &'a [u8]) -> Vec<&'a [u8]> {
        let (mut left, mut pieces) = (bytes, Vec::new());
        while !left.is_empty() {
            let (piece, rest) = left.split_at(1 + self.below(left.len()));
            pieces.push(piece);
            left = rest;
        }
        pieces
    }

    /// A list of fields: few names, some of them static, values that repeat, all bytes, and its marks.
    pub fn list(&mut self) -> Vec<(HeaderField, bool)> {
        (0..self.below(12)).map(|_| (self.field(), self.below(6) == 0)).collect()
    }

    fn field(&mut self) -> HeaderField {
        const NAMES: [&str; 7] =
            [":path", "cookie", "x", "x-long-name-that-is-not-static", "accept", "authorization", ""];
        let name = NAMES[self.below(NAMES.len())];
        let most = if self.below(8) == 0 { 300 } else { 20 };
        let is_any = self.below(2) == 0;
        let len = self.below(most);
        let value: Vec<u8> =
            (0..len).map(|_| if is_any { self.below(256) as u8 } else { b'a' + self.below(3) as u8 }).collect();
        HeaderField::new(name, value)
    }
}
