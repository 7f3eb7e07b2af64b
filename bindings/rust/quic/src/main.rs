//! `h3_qpack_quic CERTIFICATE KEY`: an HTTP/3 client and a server over QUIC on the loopback, in one process: four GETs,
//! the dynamic table on both ways. The framing is that of the example `streams`; the streams have the numbers that QUIC
//! gives them. The certificate, for the name `localhost`, and its key are files in DER. `run.sh` makes them.

mod endpoints;
#[path = "../../h3_qpack/examples/framing/mod.rs"]
mod framing;

use framing::{Outcome, Side};
use quinn::{Connection, Endpoint, RecvStream, SendStream, VarInt};
use std::collections::{BTreeMap, BTreeSet};
use tokio::sync::mpsc::{unbounded_channel, UnboundedReceiver, UnboundedSender};

/// What happens at one end of a connection.
enum Event {
    /// The peer opened a stream for messages, which the answer goes out on.
    Opened(u64, SendStream),
    /// Bytes arrived on a stream.
    Arrived(u64, Vec<u8>),
    /// A stream has no more.
    Ended(u64),
}

/// The greatest piece that is read at once, in bytes: small, so that messages arrive in several.
const PIECE: usize = 16;

/// Reads a stream to its end, and tells what arrives.
async fn read_stream(mut stream: RecvStream, events: UnboundedSender<Event>) {
    let id = VarInt::from(stream.id()).into_inner();
    while let Ok(Some(chunk)) = stream.read_chunk(PIECE, true).await {
        let _ = events.send(Event::Arrived(id, chunk.bytes.to_vec()));
    }
    let _ = events.send(Event::Ended(id));
}

/// Takes the streams that the peer opens for itself.
async fn accept_own(connection: Connection, events: UnboundedSender<Event>) {
    while let Ok(stream) = connection.accept_uni().await {
        tokio::spawn(read_stream(stream, events.clone()));
    }
}

/// Takes the streams that the peer opens for messages.
async fn accept_messages(connection: Connection, events: UnboundedSender<Event>) {
    while let Ok((send, receive)) = connection.accept_bi().await {
        let id = VarInt::from(send.id()).into_inner();
        let _ = events.send(Event::Opened(id, send));
        tokio::spawn(read_stream(receive, events.clone()));
    }
}

/// One end of a connection: its side of HTTP/3, and the streams of QUIC that it writes to.
struct End {
    side: Side,
    connection: Connection,
    sends: BTreeMap<u64, SendStream>,
    ended: BTreeSet<u64>,
    events: UnboundedReceiver<Event>,
    teller: UnboundedSender<Event>,
}

impl End {
    /// Opens the three streams of a side, and sends its settings.
    async fn new(side: Side, connection: Connection) -> Outcome<End> {
        let (teller, events) = unbounded_channel();
        tokio::spawn(accept_own(connection.clone(), teller.clone()));
        tokio::spawn(accept_messages(connection.clone(), teller.clone()));
        let (sends, ended) = (BTreeMap::new(), BTreeSet::new());
        let mut end = End { side, connection, sends, ended, events, teller };
        for _ in 0..3 {
            let stream = end.connection.open_uni().await?;
            end.sends.insert(VarInt::from(stream.id()).into_inner(), stream);
        }
        end.flush().await?;
        Ok(end)
    }

    /// Sends what the side has.
    async fn flush(&mut self) -> Outcome<()> {
        for (id, bytes) in std::mem::take(&mut self.side.outgoing) {
            self.sends.get_mut(&id).ok_or("a stream that is not open")?.write_all(&bytes).await?;
        }
        Ok(())
    }

    /// Takes what happens next; whether anything did.
    async fn step(&mut self) -> Outcome<bool> {
        let event = tokio::select! {
            biased;
            event = self.events.recv() => event,
            _ = self.connection.closed() => None,
        };
        match event {
            Some(Event::Opened(id, send)) => drop(self.sends.insert(id, send)),
            Some(Event::Arrived(id, bytes)) => self.side.arrive(id, &bytes)?,
            Some(Event::Ended(id)) => drop(self.ended.insert(id)),
            None => return Ok(false),
        }
        self.flush().await?;
        Ok(true)
    }

    /// Nothing more is sent on a stream.
    async fn finish(&mut self, id: u64) -> Outcome<()> {
        self.sends.remove(&id).ok_or("a stream that is not open")?.finish().await?;
        Ok(())
    }

    /// Answers each request that came whole.
    async fn answer_all(&mut self) -> Outcome<()> {
        for id in self.ended.clone() {
            if self.side.answer(id)? {
                self.ended.remove(&id);
                self.flush().await?;
                self.finish(id).await?;
            }
        }
        Ok(())
    }

    /// Asks for a path, and waits for the answer.
    async fn get(&mut self, server: &str, path: &str) -> Outcome<()> {
        while self.side.encoder.is_none() {
            self.step().await?;
        }
        let (send, receive) = self.connection.open_bi().await?;
        let id = VarInt::from(send.id()).into_inner();
        self.sends.insert(id, send);
        tokio::spawn(read_stream(receive, self.teller.clone()));
        self.side.ask(id, path)?;
        self.flush().await?;
        self.finish(id).await?;
        while !(self.ended.contains(&id) && self.side.messages.contains_key(&id)) {
            if !self.step().await? {
                return Err("the connection was closed".into());
            }
        }
        self.side.check_answer(id, server, path)
    }

    /// Waits for what is still to come of the instruction streams.
    async fn settle(&mut self) -> Outcome<()> {
        while self.side.encoder.as_ref().map_or(true, |encoder| encoder.blocked() > 0) {
            self.step().await?;
        }
        Ok(())
    }
}

/// The server: answers until the connection is closed, be it before its last answer was acknowledged.
async fn serve(endpoint: Endpoint) -> Outcome<()> {
    let connecting = endpoint.accept().await.ok_or("no connection came")?;
    let mut end = End::new(Side::new("server", 1)?, connecting.await?).await?;
    while end.step().await? {
        end.answer_all().await?;
    }
    assert!(end.side.decoder.insert_count() > 0 && end.side.decoder.blocked() == 0);
    Ok(())
}

/// The client: four GETs.
async fn ask(endpoint: Endpoint, server: std::net::SocketAddr) -> Outcome<()> {
    let connection = endpoint.connect(server, "localhost")?.await?;
    let mut end = End::new(Side::new("client", 0)?, connection).await?;
    for path in ["/", "/style.css", "/", "/image.png"] {
        end.get("server", path).await?;
    }
    end.settle().await?;
    end.side.check_end();
    end.connection.close(0x100u32.into(), b""); // H3_NO_ERROR (RFC 9114, section 8.1)
    endpoint.wait_idle().await;
    Ok(())
}

fn main() -> Outcome<()> {
    tokio::runtime::Builder::new_current_thread().enable_all().build()?.block_on(async {
        let (server, client) = endpoints::from_words()?;
        let address = server.local_addr()?;
        let serving = tokio::spawn(serve(server));
        ask(client, address).await?;
        serving.await?
    })
}
