//! Both ends of a connection: what is inserted, a section that waits for it, and what goes back.

use h3_qpack::connection::{
    ConnectionDecoder, ConnectionEncoder, DecoderSettings, EncoderSettings, FieldLine, Reading,
};
use std::error::Error;

/// What the decoding side sends as its settings.
const SETTINGS: DecoderSettings = DecoderSettings::new(4096, 16);

fn main() -> Result<(), Box<dyn Error>> {
    let mut encoder = ConnectionEncoder::new(EncoderSettings::new(SETTINGS.max_capacity, SETTINGS.max_blocked))?;
    let mut decoder = ConnectionDecoder::new(SETTINGS)?;

    let (mut section, mut instructions) = (Vec::new(), Vec::new());
    encoder.encode(4, fields(), &mut section)?;
    encoder.take_encoder_stream(&mut instructions)?;
    println!("a section of {} bytes, and {} bytes of instructions", section.len(), instructions.len());

    // The section comes first, so its stream is blocked.
    if let Reading::Blocked { required } = decoder.decode(4, &section)? {
        println!("stream 4 is blocked until insertion {required}");
    }
    decoder.receive(&instructions)?;
    while let Some(stream_id) = decoder.next_ready() {
        decoder.decode(stream_id, &section)?;
        assert!(decoder.fields()?.eq(fields()));
        print_fields(&mut decoder)?;
    }

    // What the decoder answers goes back; then the same fields want no instruction.
    let mut answers = Vec::new();
    decoder.take_decoder_stream(&mut answers)?;
    encoder.receive(&answers)?;
    section.clear();
    encoder.encode(8, fields(), &mut section)?;
    assert_eq!(encoder.encoder_stream_len(), 0);
    println!("the next section of the same fields: {} bytes, and no instruction", section.len());
    decoder.decode(8, &section)?;
    assert!(decoder.fields()?.eq(fields()));
    Ok(())
}

fn fields() -> [FieldLine<'static>; 3] {
    [
        FieldLine::new(":method", "GET"),
        FieldLine::new("user-agent", "curl/8"),
        FieldLine::never_indexed("authorization", "Basic Og=="),
    ]
}

fn print_fields(decoder: &mut ConnectionDecoder) -> Result<(), Box<dyn Error>> {
    for field in decoder.fields()? {
        let mark = if field.never_indexed { " (never indexed)" } else { "" };
        println!("{}: {}{mark}", String::from_utf8_lossy(field.name), String::from_utf8_lossy(field.value));
    }
    Ok(())
}
