//! A small framing of HTTP/3 (RFC 9114: SETTINGS, HEADERS, DATA, and the three streams that each side opens), with the
//! crate for QPACK, the dynamic table on. It moves no bytes: what arrived is handed in, and what is to be sent is
//! taken.

mod wire;

use h3_qpack::connection::{
    ConnectionDecoder, ConnectionEncoder, DecoderSettings, EncoderSettings, FieldLine, Reading,
};
use std::collections::{BTreeMap, BTreeSet};
use std::error::Error;
use wire::{
    add_frame, add_number, take_frame, take_number, BLOCKED_STREAMS, CONTROL_STREAM, DATA, DECODER_STREAM,
    ENCODER_STREAM, HEADERS, MAX_FIELD_SECTION_SIZE, MAX_TABLE_CAPACITY, SETTINGS,
};

/// A value, or whatever went wrong.
pub type Outcome<T> = Result<T, Box<dyn Error + Send + Sync>>;

/// What each side sends as its settings.
const OWN: DecoderSettings = DecoderSettings::new(4096, 16).with_max_section_size(16_384);

/// A message as it was received.
#[derive(Default)]
pub struct Message {
    pub fields: Vec<(String, String)>,
    pub body: Vec<u8>,
}

/// What arrived on a stream and was not read yet, and the type of one that a side opened.
#[derive(Default)]
struct Incoming {
    unread: Vec<u8>,
    kind: Option<u64>,
}

/// One side of the connection. Streams whose second bit is set have one direction (RFC 9000, section 2.1).
pub struct Side {
    pub name: &'static str,
    /// The lowest bit of the streams that it opens.
    parity: u64,
    pub encoder: Option<ConnectionEncoder>,
    pub decoder: ConnectionDecoder,
    incoming: BTreeMap<u64, Incoming>,
    /// Bytes to be sent, by their streams.
    pub outgoing: BTreeMap<u64, Vec<u8>>,
    pub messages: BTreeMap<u64, Message>,
    /// Streams of which a section waits.
    waiting: BTreeSet<u64>,
    pub waited: usize,
}

impl Side {
    /// A side that has its settings, and the types of its streams, to send.
    pub fn new(name: &'static str, parity: u64) -> Outcome<Side> {
        let mut settings = Vec::new();
        for (id, value) in [
            (MAX_TABLE_CAPACITY, OWN.max_capacity as u64),
            (BLOCKED_STREAMS, OWN.max_blocked as u64),
            (MAX_FIELD_SECTION_SIZE, OWN.max_section_size),
        ] {
            add_number(&mut settings, id);
            add_number(&mut settings, value);
        }
        let mut control = vec![CONTROL_STREAM as u8];
        add_frame(&mut control, SETTINGS, &settings);
        let outgoing = BTreeMap::from([
            (2 + parity, control),
            (6 + parity, vec![ENCODER_STREAM as u8]),
            (10 + parity, vec![DECODER_STREAM as u8]),
        ]);
        let decoder = ConnectionDecoder::new(OWN)?;
        Ok(Side {
            name,
            parity,
            encoder: None,
            decoder,
            incoming: BTreeMap::new(),
            outgoing,
            messages: BTreeMap::new(),
            waiting: BTreeSet::new(),
            waited: 0,
        })
    }

    fn send(&mut self, stream_id: u64, bytes: &[u8]) {
        self.outgoing.entry(stream_id).or_default().extend(bytes);
    }

    /// Sends what both ends of QPACK have for their streams.
    fn send_instructions(&mut self) -> Outcome<()> {
        if let Some(encoder) = &mut self.encoder {
            encoder.take_encoder_stream(self.outgoing.entry(6 + self.parity).or_default())?;
        }
        self.decoder.take_decoder_stream(self.outgoing.entry(10 + self.parity).or_default())?;
        Ok(())
    }

    /// Sends a message on a stream, once the peer's settings are there.
    pub fn send_message(&mut self, stream_id: u64, fields: &[FieldLine<'_>], body: &[u8]) -> Outcome<()> {
        let encoder = self.encoder.as_mut().ok_or("the peer's settings did not come")?;
        let (mut section, mut frames) = (Vec::new(), Vec::new());
        encoder.encode(stream_id, fields, &mut section)?;
        add_frame(&mut frames, HEADERS, &section);
        if !body.is_empty() {
            add_frame(&mut frames, DATA, body);
        }
        self.send(stream_id, &frames);
        self.send_instructions()
    }

    /// Takes bytes that arrived on a stream.
    pub fn arrive(&mut self, stream_id: u64, bytes: &[u8]) -> Outcome<()> {
        self.incoming.entry(stream_id).or_default().unread.extend(bytes);
        if stream_id & 2 != 0 {
            self.read_own_stream(stream_id)?;
        } else if !self.waiting.contains(&stream_id) {
            self.read_message(stream_id)?;
        }
        while let Some(ready) = self.decoder.next_ready() {
            self.waiting.remove(&ready);
            self.read_message(ready)?;
        }
        self.send_instructions()
    }

    /// Reads a stream that the peer opened for itself.
    fn read_own_stream(&mut self, stream_id: u64) -> Outcome<()> {
        let mut incoming = self.incoming.remove(&stream_id).unwrap_or_default();
        let mut rest = &incoming.unread[..];
        if incoming.kind.is_none() {
            incoming.kind = take_number(&mut rest);
        }
        match incoming.kind {
            Some(CONTROL_STREAM) => {
                while let Some((kind, payload)) = take_frame(&mut rest) {
                    if kind == SETTINGS {
                        self.take_settings(payload)?;
                    }
                }
            }
            Some(ENCODER_STREAM) => {
                self.decoder.receive(rest)?;
                rest = &[];
            }
            Some(DECODER_STREAM) => {
                self.encoder.as_mut().ok_or("instructions before the settings")?.receive(rest)?;
                rest = &[];
            }
            _ => {}
        }
        incoming.unread = rest.to_vec();
        self.incoming.insert(stream_id, incoming);
        Ok(())
    }

    /// Makes the encoder from the peer's settings.
    fn take_settings(&mut self, mut payload: &[u8]) -> Outcome<()> {
        let mut settings = EncoderSettings::new(0, 0);
        while let (Some(id), Some(value)) = (take_number(&mut payload), take_number(&mut payload)) {
            match id {
                MAX_TABLE_CAPACITY => settings.max_capacity = value as usize,
                BLOCKED_STREAMS => settings.max_blocked = value as usize,
                _ => {}
            }
        }
        self.encoder = Some(ConnectionEncoder::new(settings)?);
        Ok(())
    }

    /// Reads the frames of a message that are whole, up to a section that waits.
    fn read_message(&mut self, stream_id: u64) -> Outcome<()> {
        let mut incoming = self.incoming.remove(&stream_id).unwrap_or_default();
        let mut rest = &incoming.unread[..];
        loop {
            let before = rest;
            match take_frame(&mut rest) {
                Some((HEADERS, section)) => {
                    if !self.take_section(stream_id, section)? {
                        rest = before;
                        break;
                    }
                }
                Some((DATA, data)) => self.messages.entry(stream_id).or_default().body.extend(data),
                Some(_) => {}
                None => break,
            }
        }
        incoming.unread = rest.to_vec();
        self.incoming.insert(stream_id, incoming);
        Ok(())
    }

    /// Decodes a section; whether it did not wait.
    fn take_section(&mut self, stream_id: u64, section: &[u8]) -> Outcome<bool> {
        if let Reading::Blocked { required } = self.decoder.decode(stream_id, section)? {
            println!("{}: stream {stream_id} is blocked until insertion {required}", self.name);
            self.waiting.insert(stream_id);
            self.waited += 1;
            return Ok(false);
        }
        let text = |bytes| String::from_utf8_lossy(bytes).into_owned();
        let fields = self.decoder.fields()?.map(|field| (text(field.name), text(field.value)));
        self.messages.entry(stream_id).or_default().fields.extend(fields);
        Ok(true)
    }

    /// Sends a GET on a stream.
    pub fn ask(&mut self, stream_id: u64, path: &str) -> Outcome<()> {
        let request = [
            FieldLine::new(":method", "GET"),
            FieldLine::new(":scheme", "https"),
            FieldLine::new(":authority", "example.org"),
            FieldLine::new(":path", path),
            FieldLine::new("user-agent", "h3_qpack"),
            FieldLine::never_indexed("authorization", "Basic Og=="),
        ];
        self.send_message(stream_id, &request, b"")
    }

    /// Answers the GET that came on a stream, if its section was decoded; whether it was.
    pub fn answer(&mut self, stream_id: u64) -> Outcome<bool> {
        let Message { fields, body } = match self.messages.remove(&stream_id) {
            Some(message) => message,
            None => return Ok(false),
        };
        assert_eq!((fields.len(), fields[0].1.as_str(), body.len()), (6, "GET", 0));
        let body = format!("{} has {}", self.name, fields[3].1);
        let response = [
            FieldLine::new(":status", "200"),
            FieldLine::new("content-type", "text/plain"),
            FieldLine::new("server", self.name),
        ];
        self.send_message(stream_id, &response, body.as_bytes())?;
        Ok(true)
    }

    /// The answer that came on a stream has to be that of this server to this path.
    pub fn check_answer(&mut self, stream_id: u64, server: &str, path: &str) -> Outcome<()> {
        let Message { fields, body } = self.messages.remove(&stream_id).ok_or("no answer came")?;
        assert_eq!((fields.len(), fields[0].1.as_str()), (3, "200"));
        let body = String::from_utf8(body)?;
        assert_eq!(body, format!("{server} has {path}"));
        println!("{}: {path} on stream {stream_id}: {body}", self.name);
        Ok(())
    }

    /// Insertions were received, and nothing waits any more.
    pub fn check_end(&self) {
        assert!(self.decoder.insert_count() > 0 && self.waiting.is_empty());
        assert_eq!((self.decoder.blocked(), self.encoder.as_ref().map(|end| end.blocked())), (0, Some(0)));
        println!("{}: {} insertions received, {} sections waited", self.name, self.decoder.insert_count(), self.waited);
    }
}
