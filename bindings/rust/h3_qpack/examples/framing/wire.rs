//! The bytes of HTTP/3: numbers of streams, frames and settings, and integers (RFC 9114 and RFC 9000).
#![allow(dead_code)] // each program takes what it needs

/// The types of frames (RFC 9114, section 7.2).
pub const DATA: u64 = 0x00;
pub const HEADERS: u64 = 0x01;
pub const SETTINGS: u64 = 0x04;
/// The types of the streams that a side opens (RFC 9114, section 6.2, and RFC 9204, section 4.2).
pub const CONTROL_STREAM: u64 = 0x00;
pub const ENCODER_STREAM: u64 = 0x02;
pub const DECODER_STREAM: u64 = 0x03;
/// The settings of QPACK (RFC 9204, section 5), and of HTTP/3 (RFC 9114, section 7.2.4.1).
pub const MAX_TABLE_CAPACITY: u64 = 0x01;
pub const MAX_FIELD_SECTION_SIZE: u64 = 0x06;
pub const BLOCKED_STREAMS: u64 = 0x07;

/// Adds an integer of QUIC (RFC 9000, section 16).
pub fn add_number(out: &mut Vec<u8>, number: u64) {
    match number {
        0..=0x3f => out.push(number as u8),
        0x40..=0x3fff => out.extend((number as u16 | 0x4000).to_be_bytes()),
        0x4000..=0x3fff_ffff => out.extend((number as u32 | 0x8000_0000).to_be_bytes()),
        _ => out.extend((number | 0xc000_0000_0000_0000).to_be_bytes()),
    }
}

/// Takes an integer of QUIC from the front, if it is whole.
pub fn take_number(bytes: &mut &[u8]) -> Option<u64> {
    let len = 1 << (bytes.first()? >> 6);
    let (number, rest) = (bytes.get(..len)?, bytes.get(len..)?);
    *bytes = rest;
    Some(number[1..].iter().fold(u64::from(number[0] & 0x3f), |sum, byte| sum << 8 | u64::from(*byte)))
}

/// Adds a frame (RFC 9114, section 7.1).
pub fn add_frame(out: &mut Vec<u8>, kind: u64, payload: &[u8]) {
    add_number(out, kind);
    add_number(out, payload.len() as u64);
    out.extend(payload);
}

/// Takes a frame from the front, if it is whole.
pub fn take_frame<'a>(bytes: &mut &'a [u8]) -> Option<(u64, &'a [u8])> {
    let mut rest = *bytes;
    let (kind, len) = (take_number(&mut rest)?, take_number(&mut rest)? as usize);
    let payload = rest.get(..len)?;
    *bytes = &rest[len..];
    Some((kind, payload))
}
