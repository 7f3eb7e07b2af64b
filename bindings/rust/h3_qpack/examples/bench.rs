//! `bench ROUNDS`: nanoseconds a field over the repository's corpus, the best of so many rounds: the stateless pair,
//! and both ends of a connection with a table of 4,096 bytes, each section acknowledged. Nothing is promised of time.

use h3_qpack::connection::{
    ConnectionDecoder, ConnectionEncoder, DecoderSettings, EncoderSettings, FieldLine, Reading,
};
use h3_qpack::{decode_stateless, encode_stateless, HeaderField};
use std::error::Error;
use std::path::Path;
use std::time::{Duration, Instant};

type Outcome<T> = Result<T, Box<dyn Error>>;
type Lists = Vec<Vec<HeaderField>>;

/// How long it took to encode, and to decode.
#[derive(Clone, Copy)]
struct Times {
    encode: Duration,
    decode: Duration,
}

impl Times {
    fn least(self, other: Times) -> Times {
        Times { encode: self.encode.min(other.encode), decode: self.decode.min(other.decode) }
    }
}

/// The lists of the corpus: a field a line, its name and its value parted by a TAB, and an empty line behind each list.
fn read_corpus() -> Outcome<Lists> {
    let path = Path::new(env!("CARGO_MANIFEST_DIR")).join("tests/data/corpus.qif");
    let text = std::fs::read_to_string(path)?;
    let field_of = |line: &str| line.split_once('\t').map(HeaderField::from);
    Ok(text.trim_end().split("\n\n").map(|list| list.lines().filter_map(field_of).collect()).collect())
}

/// Every list, encoded and decoded without a table.
fn time_stateless(lists: &Lists) -> Outcome<Times> {
    let mut times = Times { encode: Duration::ZERO, decode: Duration::ZERO };
    let mut section = Vec::new();
    for list in lists {
        section.clear();
        let begun = Instant::now();
        encode_stateless(&mut section, list)?;
        let encoded = Instant::now();
        let decoded = decode_stateless(&section, u64::MAX)?;
        times.decode += encoded.elapsed();
        times.encode += encoded - begun;
        assert_eq!(&decoded.fields, list);
    }
    Ok(times)
}

/// The ends of a connection, and what goes between them.
struct Connection {
    encoder: ConnectionEncoder,
    decoder: ConnectionDecoder,
    section: Vec<u8>,
    stream: Vec<u8>,
}

impl Connection {
    fn new(capacity: usize) -> Outcome<Connection> {
        let settings = DecoderSettings::new(capacity, 100).with_max_section_size(1 << 20);
        Ok(Connection {
            encoder: ConnectionEncoder::new(EncoderSettings::new(capacity, 100).with_capacity(capacity))?,
            decoder: ConnectionDecoder::new(settings)?,
            section: Vec::new(),
            stream: Vec::new(),
        })
    }

    /// A list is encoded.
    fn send(&mut self, stream_id: u64, list: &[HeaderField]) -> Outcome<()> {
        self.section.clear();
        self.stream.clear();
        self.encoder.encode(stream_id, list, &mut self.section)?;
        self.encoder.take_encoder_stream(&mut self.stream)?;
        Ok(())
    }

    /// It is decoded; answers how many bytes its names and values have.
    fn take(&mut self, stream_id: u64) -> Outcome<usize> {
        self.decoder.receive(&self.stream)?;
        if let Reading::Blocked { .. } = self.decoder.decode(stream_id, &self.section)? {
            return Err("a section waits".into());
        }
        let bytes = self.decoder.fields()?.map(|FieldLine { name, value, .. }| name.len() + value.len()).sum();
        self.stream.clear();
        self.decoder.take_decoder_stream(&mut self.stream)?;
        Ok(bytes)
    }
}

/// Every list over one connection.
fn time_connection(lists: &Lists, capacity: usize) -> Outcome<Times> {
    let mut times = Times { encode: Duration::ZERO, decode: Duration::ZERO };
    let mut connection = Connection::new(capacity)?;
    for (at, list) in lists.iter().enumerate() {
        let begun = Instant::now();
        connection.send(4 * at as u64, list)?;
        let sent = Instant::now();
        let bytes = connection.take(4 * at as u64)?;
        let taken = Instant::now();
        connection.encoder.receive(&connection.stream)?;
        times.encode += (sent - begun) + taken.elapsed();
        times.decode += taken - sent;
        assert_eq!(bytes, list.iter().map(|field| field.name.len() + field.value.len()).sum());
    }
    Ok(times)
}

fn print_times(what: &str, times: Times, fields: usize) {
    let each = |time: Duration| time.as_nanos() as f64 / fields as f64;
    println!("{what}: encode {:.0} ns a field, decode {:.0}", each(times.encode), each(times.decode));
}

fn main() -> Outcome<()> {
    let rounds: usize = std::env::args().nth(1).ok_or("bench ROUNDS")?.parse()?;
    let lists = read_corpus()?;
    let fields = lists.iter().map(Vec::len).sum();
    let (mut stateless, mut connection) = (time_stateless(&lists)?, time_connection(&lists, 4096)?);
    for _ in 1..rounds {
        stateless = stateless.least(time_stateless(&lists)?);
        connection = connection.least(time_connection(&lists, 4096)?);
    }
    println!("{} lists, {fields} fields, the best of {rounds} rounds", lists.len());
    print_times("without a table", stateless, fields);
    print_times("capacity 4096", connection, fields);
    Ok(())
}
