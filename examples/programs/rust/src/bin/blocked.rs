//! Two sections overtake the insertions that they require, so they are blocked. The client resets the second stream. Then the
//! insertions arrive, and the first section can be decoded.

use h3_qpack::connection::{ConnectionDecoder, ConnectionEncoder, DecoderSettings, EncoderSettings, Reading};
use std::collections::BTreeMap;
use std::error::Error;

fn main() -> Result<(), Box<dyn Error>> {
    let mut client = ConnectionEncoder::new(EncoderSettings::new(4096, 16))?;
    let ours = DecoderSettings::new(4096, 16);
    let mut server = ConnectionDecoder::new(ours)?;
    let mut kept = BTreeMap::new();
    for stream in [0, 4] {
        let mut section = Vec::new();
        client.encode(stream, [(":method", "GET"), ("user-agent", "example/1")], &mut section)?;
        match server.decode(stream, &section)? {
            Reading::Blocked { required } => println!("stream {stream} is blocked until insertion {required}"),
            _ => return Err("the section is not blocked".into()),
        }
        kept.insert(stream, section);
    }

    server.cancel_stream(4)?;
    println!("stream 4 is cancelled");

    let mut instructions = Vec::new();
    client.take_encoder_stream(&mut instructions)?;
    server.receive(&instructions)?;
    while let Some(stream) = server.next_ready() {
        server.decode(stream, &kept[&stream])?;
        println!("stream {stream} is ready");
        for field in server.fields()? {
            println!("  {}: {}", String::from_utf8_lossy(field.name), String::from_utf8_lossy(field.value));
        }
    }

    instructions.clear();
    server.take_decoder_stream(&mut instructions)?;
    print!("decoder stream ");
    instructions.iter().for_each(|byte| print!("{byte:02x}"));
    println!();
    client.receive(&instructions)?;
    println!("{} unacknowledged sections", client.unacknowledged());
    Ok(())
}
