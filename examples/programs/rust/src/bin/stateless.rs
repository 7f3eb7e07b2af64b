//! Encodes and decodes a section without a table. Any peer can decode it, and nothing is kept between two.

use h3_qpack::{decode_stateless, encode_stateless, HeaderField};
use std::error::Error;

fn main() -> Result<(), Box<dyn Error>> {
    let fields = [
        HeaderField::new(":method", "GET"),
        HeaderField::new(":path", "/"),
        HeaderField::new("user-agent", "example/1"),
    ];
    let mut section = Vec::new();
    encode_stateless(&mut section, fields)?;
    print!("section ");
    for byte in &section {
        print!("{byte:02x}");
    }
    println!();
    for field in decode_stateless(&section, 65_536)?.fields {
        let (name, value) = field.into_inner();
        println!("  {}: {}", String::from_utf8_lossy(&name), String::from_utf8_lossy(&value));
    }
    Ok(())
}
