//! Two requests of a connection, from a client's encoder to a server's decoder. The second is short, since the table has the
//! fields of the first.

use h3_qpack::connection::{ConnectionDecoder, ConnectionEncoder, DecoderSettings, EncoderSettings, Reading};
use std::error::Error;

fn hex(bytes: &[u8]) -> String {
    bytes.iter().map(|byte| format!("{byte:02x}")).collect()
}

fn request(client: &mut ConnectionEncoder, server: &mut ConnectionDecoder, stream: u64) -> Result<(), Box<dyn Error>> {
    let (mut section, mut instructions) = (Vec::new(), Vec::new());
    let fields = [(":method", "GET"), (":authority", "example.org"), ("user-agent", "example/1")];
    client.encode(stream, fields, &mut section)?;
    println!("stream {stream}\n  section {}", hex(&section));

    // The client's encoder stream arrives before the section.
    client.take_encoder_stream(&mut instructions)?;
    println!("  encoder stream {}", hex(&instructions));
    server.receive(&instructions)?;
    if let Reading::Blocked { .. } = server.decode(stream, &section)? {
        return Err("the section is blocked".into());
    }
    for field in server.fields()? {
        println!("  {}: {}", String::from_utf8_lossy(field.name), String::from_utf8_lossy(field.value));
    }

    // The server's decoder stream acknowledges both.
    instructions.clear();
    server.take_decoder_stream(&mut instructions)?;
    println!("  decoder stream {}", hex(&instructions));
    client.receive(&instructions)?;
    Ok(())
}

fn main() -> Result<(), Box<dyn Error>> {
    let mut client = ConnectionEncoder::new(EncoderSettings::new(0, 0))?; // before the server's SETTINGS
    let ours = DecoderSettings::new(4096, 16);
    let mut server = ConnectionDecoder::new(ours)?;
    client.set_peer_settings(4096, 16)?; // they arrived
    request(&mut client, &mut server, 0)?;
    request(&mut client, &mut server, 4)?;
    println!("{} insertions, {} unacknowledged sections", client.insert_count(), client.unacknowledged());
    Ok(())
}
