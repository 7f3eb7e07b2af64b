//! A field section without a dynamic table, both ways.

use h3_qpack::{decode_stateless, encode_stateless, DecoderError, Error, HeaderField};

/// The greatest sum of the fields' sizes that is taken, in bytes: SETTINGS_MAX_FIELD_SECTION_SIZE.
const LIMIT: u64 = 16_384;

fn main() -> Result<(), Error> {
    let fields = [
        HeaderField::new(":method", "GET"),
        HeaderField::new(":scheme", "https"),
        HeaderField::new(":authority", "example.org"),
        HeaderField::new(":path", "/"),
        HeaderField::new("user-agent", "curl/8"),
    ];
    let mut section = Vec::new();
    let size = encode_stateless(&mut section, &fields)?;
    println!("{} fields of {size} bytes are {} bytes", fields.len(), section.len());

    let decoded = decode_stateless(&section, LIMIT)?;
    assert_eq!((&decoded.fields[..], decoded.mem_size), (&fields[..], size));
    for field in &decoded.fields {
        println!("{field}");
    }

    // A peer may send anything: what is refused has the code to close the connection with.
    let refused = decode_stateless(&section[..section.len() - 1], LIMIT).expect_err("the section is cut");
    assert_eq!(refused.code(), Some(0x200));
    println!("{refused}: {:#x}", 0x200);
    assert!(matches!(decode_stateless(&section, size - 1), Err(DecoderError::HeaderTooLong(_))));
    Ok(())
}
