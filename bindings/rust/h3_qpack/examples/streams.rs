//! HTTP/3 connections over streams in memory: a small framing (RFC 9114: SETTINGS, HEADERS, DATA, and the three streams
//! that each side opens) with this crate for QPACK, the dynamic table on. Each of two hosts is the other's client in a
//! connection of its own. What is sent arrives in pieces, the messages first, so that sections wait for instructions.

mod framing;

use framing::{Outcome, Side};

/// Moves what one side sent to the other in pieces of so many bytes, the streams of messages first. Answers whether
/// there was any.
fn deliver(from: &mut Side, to: &mut Side, piece: usize) -> Outcome<bool> {
    let sent = std::mem::take(&mut from.outgoing);
    let is_any = sent.values().any(|bytes| !bytes.is_empty());
    let (messages, own): (Vec<_>, Vec<_>) = sent.into_iter().partition(|(stream_id, _)| stream_id & 2 == 0);
    for (stream_id, bytes) in messages.into_iter().chain(own) {
        for bytes in bytes.chunks(piece) {
            to.arrive(stream_id, bytes)?;
        }
    }
    Ok(is_any)
}

/// Delivers until nothing moves.
fn settle(one: &mut Side, other: &mut Side) -> Outcome<()> {
    while deliver(one, other, 7)? | deliver(other, one, 7)? {}
    Ok(())
}

/// A connection in which one host asks another four times.
fn converse(client: &'static str, server: &'static str) -> Outcome<()> {
    let (mut client, mut server) = (Side::new(client, 0)?, Side::new(server, 1)?);
    settle(&mut client, &mut server)?;
    for (round, path) in ["/", "/style.css", "/", "/image.png"].into_iter().enumerate() {
        let stream_id = 4 * round as u64;
        client.ask(stream_id, path)?;
        settle(&mut client, &mut server)?;
        assert!(server.answer(stream_id)?);
        settle(&mut client, &mut server)?;
        client.check_answer(stream_id, server.name, path)?;
    }
    for side in [&client, &server] {
        assert!(side.waited > 0);
        side.check_end();
    }
    Ok(())
}

fn main() -> Outcome<()> {
    converse("one", "other")?;
    converse("other", "one")
}
