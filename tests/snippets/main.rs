//! The frame of README's snippet in Rust: a program with both ends of a connection.

use std::cell::RefCell;
use std::error::Error;

fn decode_again(decoder: &mut h3_qpack::connection::ConnectionDecoder, stream: u64) -> Result<(), Box<dyn Error>> {
    Err(format!("stream {stream} was not blocked: {} are", decoder.blocked()).into())
}

fn main() -> Result<(), Box<dyn Error>> {
    let (mut section, mut instructions, mut answers) = (Vec::new(), Vec::new(), Vec::new());
    let handed_on = RefCell::new(String::new());
    let hand_on = |name: &[u8], value: &[u8]| {
        let [name, value] = [name, value].map(String::from_utf8_lossy);
        handed_on.borrow_mut().push_str(&format!("{name}: {value}\n"));
    };
    // SNIPPET
    assert_eq!(handed_on.into_inner(), ":method: GET\nuser-agent: curl/8\n");
    assert_eq!((answers.is_empty(), encoder.unacknowledged()), (false, 0));
    Ok(())
}
