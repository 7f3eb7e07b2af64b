//! A peer sends a section whose second line references an entry that is not in the static table. The connection must be
//! closed, and each later call says so again.

use h3_qpack::connection::{ConnectionDecoder, DecoderSettings, DecodingError};
use std::error::Error;

fn main() -> Result<(), Box<dyn Error>> {
    let section = [0x00, 0x00, 0xd1, 0xff, 0x80, 0x01];
    let ours = DecoderSettings::default();
    let mut server = ConnectionDecoder::new(ours)?;
    let error = server.decode(0, &section).expect_err("the section is invalid");
    if let (Some(code), DecodingError::DecompressionFailed { line: Some(place) }) = (error.code(), error) {
        println!("close the connection with {code:#x}: line {}, byte {}", place.number, place.offset);
    }
    let error = server.decode(4, &section[..3]).expect_err("the decoder is unusable"); // this one is valid
    println!("afterwards: {:#x}", error.code().unwrap_or(0));
    Ok(())
}
