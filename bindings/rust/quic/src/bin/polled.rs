//! `polled CERTIFICATE KEY`: HTTP/3 over QUIC on the loopback, as a stack writes it whose tasks are polled by hand. A side of
//! the connection is a task, and so is a message. All share the ends of `h3_qpack::poll`. Eight answers are blocked at
//! once, and one of them is cancelled. The insertions that they require arrive, and each is decoded. Then an answer is
//! blocked, an invalid instruction arrives in place of its insertion, and both ends fail with code 0x201.

#[path = "../endpoints.rs"]
mod endpoints;
#[path = "../../../h3_qpack/examples/framing/wire.rs"]
mod wire;

use h3_qpack::connection::{DecoderSettings, QPACK_ENCODER_STREAM_ERROR};
use h3_qpack::poll::{self, Ends, Section, Settings, DECODER_STREAM, ENCODER_STREAM};
use quinn::{Connection, ConnectionError, Endpoint, RecvStream, SendStream, VarInt};
use std::error::Error;
use std::future::Future;
use std::pin::Pin;
use std::task::{Context, Poll};
use std::time::Duration;
use tokio::io::{AsyncRead, AsyncWrite, ReadBuf};
use tokio::sync::mpsc::{unbounded_channel, UnboundedReceiver, UnboundedSender};
use tokio::task::JoinHandle;
use wire::{add_frame, add_number, take_frame, take_number, CONTROL_STREAM, HEADERS, SETTINGS};

/// A value, or whatever went wrong.
type Outcome<T> = Result<T, Box<dyn Error + Send + Sync>>;

/// The greatest piece that is read or written at once, in bytes: small, so that everything comes in several.
const PIECE: usize = 16;
/// The requests of the first round.
const REQUESTS: usize = 8;
/// How long the program waits for a state that it must come to.
const LONGEST_WAIT: Duration = Duration::from_secs(20);

/// Reads a piece of a stream. Ready with no bytes at its end.
fn poll_read(stream: &mut RecvStream, cx: &mut Context<'_>) -> Poll<Outcome<Vec<u8>>> {
    let mut room = [0; PIECE];
    let mut piece = ReadBuf::new(&mut room);
    match Pin::new(stream).poll_read(cx, &mut piece) {
        Poll::Ready(Ok(())) => Poll::Ready(Ok(piece.filled().to_vec())),
        Poll::Ready(Err(error)) => Poll::Ready(Err(error.into())),
        Poll::Pending => Poll::Pending,
    }
}

/// A stream that this side opened, and bytes that it did not take yet.
struct Outgoing {
    stream: SendStream,
    unsent: Vec<u8>,
}

impl Outgoing {
    /// Opens a stream, and writes its first bytes.
    async fn open(connection: &Connection, unsent: Vec<u8>) -> Outcome<Outgoing> {
        Ok(Outgoing { stream: connection.open_uni().await?, unsent })
    }

    /// Sends what is unsent. Pending while flow control keeps some of it.
    fn poll_flush(&mut self, cx: &mut Context<'_>) -> Poll<Outcome<()>> {
        while !self.unsent.is_empty() {
            match Pin::new(&mut self.stream).poll_write(cx, &self.unsent) {
                Poll::Ready(sent) => drop(self.unsent.drain(..sent?)),
                Poll::Pending => return Poll::Pending,
            }
        }
        Poll::Ready(Ok(()))
    }

    /// Sends what an end has for this stream. It takes the next piece only when the last one was sent. Returns when there is
    /// nothing to do now, and its task is woken when there is.
    fn flush_end(
        &mut self,
        cx: &mut Context<'_>,
        mut take: impl FnMut(&mut Context<'_>, &mut [u8]) -> Poll<Result<usize, poll::Error>>,
    ) -> Outcome<()> {
        let mut piece = [0; PIECE];
        while let Poll::Ready(flushed) = self.poll_flush(cx) {
            flushed?;
            match take(cx, &mut piece) {
                Poll::Ready(taken) => self.unsent.extend(&piece[..taken?]),
                Poll::Pending => break,
            }
        }
        Ok(())
    }
}

/// A stream that the peer opened for itself, and bytes that were not read yet.
struct Incoming {
    stream: RecvStream,
    kind: Option<u64>,
    unread: Vec<u8>,
}

impl Incoming {
    /// Reads what there is. It reads no further piece of an encoder stream while the end does not take the last one.
    fn read(&mut self, cx: &mut Context<'_>, ends: &Ends) -> Outcome<()> {
        loop {
            if self.kind.is_some() && !self.hand_on(cx, ends)? {
                return Ok(());
            }
            match poll_read(&mut self.stream, cx) {
                Poll::Ready(piece) => {
                    let piece = piece?;
                    if piece.is_empty() {
                        return Ok(()); // a stream of QPACK ends with the connection
                    }
                    self.unread.extend(piece);
                }
                Poll::Pending => return Ok(()),
            }
            if self.kind.is_none() {
                let mut rest = &self.unread[..];
                self.kind = take_number(&mut rest);
                self.unread = rest.to_vec();
            }
        }
    }

    /// Hands on what was read. Whether more may be read.
    fn hand_on(&mut self, cx: &mut Context<'_>, ends: &Ends) -> Outcome<bool> {
        match self.kind {
            Some(CONTROL_STREAM) => {
                let mut rest = &self.unread[..];
                if let Some((SETTINGS, payload)) = take_frame(&mut rest) {
                    take_settings(ends, payload)?;
                    self.unread = rest.to_vec();
                }
                return Ok(true);
            }
            Some(kind) if kind == u64::from(ENCODER_STREAM) => match ends.poll_receive_encoder_stream(cx, &self.unread)
            {
                Poll::Ready(received) => received?,
                Poll::Pending => return Ok(false),
            },
            Some(kind) if kind == u64::from(DECODER_STREAM) => ends.receive_decoder_stream(&self.unread)?,
            _ => {}
        }
        self.unread.clear();
        Ok(true)
    }
}

/// Applies the peer's SETTINGS.
fn take_settings(ends: &Ends, mut payload: &[u8]) -> Outcome<()> {
    let (mut max_capacity, mut max_blocked) = (0, 0);
    while let (Some(id), Some(value)) = (take_number(&mut payload), take_number(&mut payload)) {
        match id {
            poll::SETTINGS_QPACK_MAX_TABLE_CAPACITY => max_capacity = value,
            poll::SETTINGS_QPACK_BLOCKED_STREAMS => max_blocked = value,
            _ => {}
        }
    }
    Ok(ends.set_peer_settings(max_capacity, max_blocked)?)
}

/// What the program has a side do with its encoder stream.
#[derive(Debug)]
enum Order {
    /// Send nothing more of it for now.
    Hold,
    /// Send it.
    Flow,
    /// Send an instruction that is invalid: a capacity above the maximum.
    Break,
}

type Accepting = Pin<Box<dyn Future<Output = Result<RecvStream, ConnectionError>> + Send>>;

/// The task of one side of a connection: it moves the bytes of the control stream and of both instruction streams.
struct Driver {
    ends: Ends,
    connection: Connection,
    accepting: Accepting,
    incoming: Vec<Incoming>,
    control: Outgoing,
    encoder_stream: Outgoing,
    decoder_stream: Outgoing,
    orders: UnboundedReceiver<Order>,
    is_held: bool,
}

fn accept(connection: Connection) -> Accepting {
    Box::pin(async move { connection.accept_uni().await })
}

impl Driver {
    /// Opens the three streams of a side, and begins with its SETTINGS.
    async fn new(ends: Ends, connection: Connection, orders: UnboundedReceiver<Order>) -> Outcome<Driver> {
        let (mut settings, mut control) = (Vec::new(), vec![CONTROL_STREAM as u8]);
        for (id, value) in ends.settings() {
            add_number(&mut settings, id);
            add_number(&mut settings, value);
        }
        add_frame(&mut control, SETTINGS, &settings);
        Ok(Driver {
            ends,
            accepting: accept(connection.clone()),
            incoming: Vec::new(),
            control: Outgoing::open(&connection, control).await?,
            encoder_stream: Outgoing::open(&connection, vec![ENCODER_STREAM]).await?,
            decoder_stream: Outgoing::open(&connection, vec![DECODER_STREAM]).await?,
            connection,
            orders,
            is_held: false,
        })
    }

    fn take_orders(&mut self, cx: &mut Context<'_>) {
        while let Poll::Ready(Some(order)) = self.orders.poll_recv(cx) {
            match order {
                Order::Hold => self.is_held = true,
                Order::Flow => self.is_held = false,
                Order::Break => self.encoder_stream.unsent.extend([0x3f, 0xff, 0xff, 0xff, 0x7f]),
            }
        }
    }

    /// Moves what can be moved. Fails when the connection ends.
    fn step(&mut self, cx: &mut Context<'_>) -> Outcome<()> {
        self.take_orders(cx);
        while let Poll::Ready(stream) = self.accepting.as_mut().poll(cx) {
            self.incoming.push(Incoming { stream: stream?, kind: None, unread: Vec::new() });
            self.accepting = accept(self.connection.clone());
        }
        for incoming in &mut self.incoming {
            incoming.read(cx, &self.ends)?;
        }
        if let Poll::Ready(flushed) = self.control.poll_flush(cx) {
            flushed?;
        }
        if self.is_held {
            if let Poll::Ready(flushed) = self.encoder_stream.poll_flush(cx) {
                flushed?;
            }
        } else {
            self.encoder_stream.flush_end(cx, |cx, out| self.ends.poll_encoder_stream(cx, out))?;
        }
        self.decoder_stream.flush_end(cx, |cx, out| self.ends.poll_decoder_stream(cx, out))
    }
}

impl Future for Driver {
    /// The code that the connection was closed with.
    type Output = u64;

    fn poll(mut self: Pin<&mut Self>, cx: &mut Context<'_>) -> Poll<u64> {
        let error = match self.step(cx) {
            Ok(()) => return Poll::Pending,
            Err(error) => error,
        };
        if let Some(code) = error.downcast_ref::<poll::Error>().and_then(poll::Error::code) {
            self.connection.close(VarInt::from_u32(code as u32), b"");
            return Poll::Ready(code);
        }
        self.ends.close();
        match error.downcast_ref::<ConnectionError>() {
            Some(ConnectionError::ApplicationClosed(close)) => Poll::Ready(close.error_code.into_inner()),
            _ => Poll::Ready(0),
        }
    }
}

/// The fields of a message that is received: its HEADERS frame is read, its section decoded, and its stream read to the end.
struct Message {
    ends: Ends,
    stream: RecvStream,
    unread: Vec<u8>,
    section: Option<Section>,
    is_read: bool,
}

impl Message {
    fn new(ends: Ends, stream: RecvStream) -> Message {
        Message { ends, stream, unread: Vec::new(), section: None, is_read: false }
    }

    fn stream_id(&self) -> u64 {
        VarInt::from(self.stream.id()).into_inner()
    }
}

impl Future for Message {
    type Output = Outcome<Section>;

    fn poll(mut self: Pin<&mut Self>, cx: &mut Context<'_>) -> Poll<Outcome<Section>> {
        loop {
            if let (None, Some((HEADERS, section))) = (&self.section, take_frame(&mut &self.unread[..])) {
                match self.ends.poll_decode(cx, self.stream_id(), section) {
                    Poll::Ready(decoded) => self.section = Some(decoded?),
                    Poll::Pending => return Poll::Pending,
                }
            }
            match poll_read(&mut self.stream, cx) {
                Poll::Ready(Ok(piece)) if piece.is_empty() => {
                    self.is_read = true;
                    return Poll::Ready(self.section.take().ok_or_else(|| "the message was cut off".into()));
                }
                Poll::Ready(piece) => self.unread.extend(piece?),
                Poll::Pending => return Poll::Pending,
            }
        }
    }
}

impl Drop for Message {
    /// Gives up the sections of a stream that was not read to its end, as every stack has to.
    fn drop(&mut self) {
        if !self.is_read {
            let _ = self.ends.cancel_stream(self.stream_id()); // an error is that of the connection, which its task has too
        }
    }
}

/// Sends a message of these fields, and no more on that stream.
async fn send(ends: &Ends, mut stream: SendStream, fields: &[(&str, &str)]) -> Outcome<()> {
    let (mut section, mut frame) = (Vec::new(), Vec::new());
    let fields = fields.iter().map(|(name, value)| (*name, *value));
    ends.encode(VarInt::from(stream.id()).into_inner(), fields, &mut section)?;
    add_frame(&mut frame, HEADERS, &section);
    stream.write_all(&frame).await?;
    Ok(stream.finish().await?)
}

/// Returns the value of a field.
fn value_of(section: &Section, name: &str) -> Outcome<String> {
    let field = section.fields().find(|field| field.name == name.as_bytes()).ok_or("the message lacks a field")?;
    Ok(String::from_utf8(field.value.to_vec())?)
}

/// Answers one request.
async fn answer(ends: Ends, stream: SendStream, request: RecvStream) -> Outcome<()> {
    let request = Message::new(ends.clone(), request).await?;
    let path = value_of(&request, ":path")?;
    send(&ends, stream, &[(":status", "200"), ("x-path", &path)]).await
}

/// Answers requests until the connection ends.
async fn serve(ends: Ends, connection: Connection) {
    while let Ok((stream, request)) = connection.accept_bi().await {
        tokio::spawn(answer(ends.clone(), stream, request));
    }
}

/// Sends a request, and returns the task that awaits its answer.
async fn ask(ends: &Ends, connection: &Connection, path: &str) -> Outcome<JoinHandle<Outcome<Section>>> {
    let (stream, answer) = connection.open_bi().await?;
    send(ends, stream, &[(":method", "GET"), (":path", path)]).await?;
    Ok(tokio::spawn(Message::new(ends.clone(), answer)))
}

/// Waits until something holds.
async fn wait_until(what: &str, mut holds: impl FnMut() -> bool) -> Outcome<()> {
    let wait = async {
        while !holds() {
            tokio::time::sleep(Duration::from_millis(2)).await;
        }
    };
    tokio::time::timeout(LONGEST_WAIT, wait).await.map_err(|_| format!("it did not come to this: {what}").into())
}

/// A side of the connection: its ends, the task that moves their bytes, and who gives that task orders.
struct Side {
    ends: Ends,
    driver: JoinHandle<u64>,
    orders: UnboundedSender<Order>,
}

impl Side {
    async fn new(connection: &Connection) -> Outcome<Side> {
        let (orders, receiver) = unbounded_channel();
        let ends = Ends::new(Settings::new(DecoderSettings::new(4096, 16)).with_most_unsent(256))?;
        let driver = tokio::spawn(Driver::new(ends.clone(), connection.clone(), receiver).await?);
        Ok(Side { ends, driver, orders })
    }
}

/// Both sides of one connection.
async fn run((server, client): (Endpoint, Endpoint)) -> Outcome<()> {
    let connecting = client.connect(server.local_addr()?, "localhost")?;
    let accepted =
        tokio::spawn(
            async move { server.accept().await.ok_or("no connection came")?.await.map_err(|_| "no handshake") },
        );
    let asking = connecting.await?;
    let serving = accepted.await??;
    let (server, client) = (Side::new(&serving).await?, Side::new(&asking).await?);
    tokio::spawn(serve(server.ends.clone(), serving));
    exchange(&server, &client, &asking).await?;
    fail(server, client, &asking).await
}

/// Asks until an answer references the table: then the server has the client's SETTINGS.
async fn await_settings(client: &Side, connection: &Connection) -> Outcome<()> {
    while ask(&client.ends, connection, "/first").await?.await??.required() == 0 {}
    Ok(())
}

/// Eight answers wait for their insertions; one is cancelled, and the others come through.
async fn exchange(server: &Side, client: &Side, connection: &Connection) -> Outcome<()> {
    tokio::time::timeout(LONGEST_WAIT, await_settings(client, connection)).await??;
    server.orders.send(Order::Hold)?;
    let mut answers = Vec::new();
    for number in 0..REQUESTS {
        answers.push(ask(&client.ends, connection, &format!("/{number}")).await?);
    }
    wait_until("all answers are blocked", || client.ends.waiting() == REQUESTS).await?;
    println!("client: {REQUESTS} answers are blocked");
    let cancelled = answers.pop().ok_or("no answer")?;
    cancelled.abort();
    wait_until("one waits no more", || client.ends.waiting() == REQUESTS - 1).await?;
    server.orders.send(Order::Flow)?;
    for (number, answer) in answers.into_iter().enumerate() {
        let section = tokio::time::timeout(LONGEST_WAIT, answer).await???;
        assert_eq!((value_of(&section, "x-path")?, section.required() > 0), (format!("/{number}"), true));
    }
    assert_eq!((client.ends.waiting(), cancelled.await.unwrap_err().is_cancelled()), (0, true));
    println!("client: {} answers came, and one was cancelled", REQUESTS - 1);
    Ok(())
}

/// An invalid instruction comes while an answer waits: its task and both sides end with the code.
async fn fail(server: Side, client: Side, connection: &Connection) -> Outcome<()> {
    server.orders.send(Order::Hold)?;
    let blocked = ask(&client.ends, connection, "/last").await?;
    wait_until("an answer is blocked", || client.ends.waiting() == 1).await?;
    server.orders.send(Order::Break)?;
    let error = blocked.await?.expect_err("an answer whose insertion never came");
    let code = error.downcast_ref::<poll::Error>().and_then(poll::Error::code);
    let codes = (code, client.driver.await?, server.driver.await?);
    assert_eq!(codes, (Some(QPACK_ENCODER_STREAM_ERROR), QPACK_ENCODER_STREAM_ERROR, QPACK_ENCODER_STREAM_ERROR));
    assert_eq!(client.ends.waiting(), 0);
    println!("client and server: closed with code {:#x}: {error}", QPACK_ENCODER_STREAM_ERROR);
    Ok(())
}

fn main() -> Outcome<()> {
    let runtime = tokio::runtime::Builder::new_multi_thread().worker_threads(2).enable_all().build()?;
    runtime.block_on(async { run(endpoints::from_words()?).await })
}
