//! Both ends with one another: the corpus and lists at random, at five capacities and three limits, streams cut at
//! random, sections behind their instructions and before them, streams that are given up; and ends in other threads.

mod common;

use common::{corpus, decoder, Random};
use h3_qpack::connection::{ConnectionDecoder, ConnectionEncoder, EncoderSettings, FieldLine, Reading, Wish};
use h3_qpack::{decode_stateless, encode_stateless, HeaderField};
use std::collections::BTreeMap;
use std::thread;

type List = Vec<(HeaderField, bool)>;

/// What is asked for a field that may be indexed.
const WISHES: [Wish; 4] = [Wish::Unmarked, Wish::Unmarked, Wish::Reuse, Wish::Insert];

/// The corpus, and lists at random.
fn lists(random: &mut Random) -> Vec<List> {
    let plain = corpus().into_iter().map(|list| list.into_iter().map(|field| (field, false)).collect());
    let mut lists: Vec<List> = plain.collect();
    lists.extend((0..200).map(|_| random.list()));
    lists
}

fn lines(list: &List) -> Vec<FieldLine<'_>> {
    list.iter().map(|(field, never_indexed)| FieldLine { never_indexed: *never_indexed, ..field.into() }).collect()
}

/// What happened in a connection.
#[derive(Debug, Default)]
struct Counts {
    dynamic: usize,
    waited: usize,
    given_up: usize,
}

struct Connection<'a> {
    lists: &'a [List],
    encoder: ConnectionEncoder,
    decoder: ConnectionDecoder,
    /// Sections that wait, by their streams.
    waiting: BTreeMap<u64, Vec<u8>>,
    max_blocked: usize,
    counts: Counts,
}

impl<'a> Connection<'a> {
    fn new(lists: &'a [List], capacity: usize, max_blocked: usize) -> Connection<'a> {
        let settings = EncoderSettings::new(capacity, max_blocked).with_capacity(capacity);
        Connection {
            lists,
            encoder: ConnectionEncoder::new(settings).unwrap(),
            decoder: decoder(capacity, max_blocked),
            waiting: BTreeMap::new(),
            max_blocked,
            counts: Counts::default(),
        }
    }

    /// The fields that the decoder has are those of a stream's list.
    fn check_fields(&mut self, stream_id: u64) {
        let list = lines(&self.lists[stream_id as usize / 4]);
        let fields = self.decoder.fields().unwrap();
        assert_eq!(fields.len(), list.len());
        assert!(fields.eq(list.iter().copied()));
        let len: usize = list.iter().map(|line| line.name.len() + line.value.len()).sum();
        assert_eq!(self.decoder.decoded_len(), len);
    }

    /// Hands in a section; whether it did not wait.
    fn hand_in(&mut self, stream_id: u64, section: &[u8]) -> bool {
        match self.decoder.decode(stream_id, section).unwrap() {
            Reading::Fields { required, .. } => {
                self.counts.dynamic += usize::from(required > 0);
                self.check_fields(stream_id);
                true
            }
            Reading::Blocked { required } => {
                assert!(required > self.decoder.insert_count() && self.decoder.blocked() <= self.max_blocked);
                false
            }
            other => panic!("the section was neither decoded nor blocked: {other:?}"),
        }
    }

    /// A list goes over, each field with a wish at random; with `late` its instructions may come behind it.
    fn send(&mut self, stream_id: u64, is_late: bool, random: &mut Random) {
        let mut section = Vec::new();
        let list = lines(&self.lists[stream_id as usize / 4]);
        let list = list.iter().map(|line| line.wish(WISHES[random.below(WISHES.len())]));
        self.encoder.encode(stream_id, list, &mut section).unwrap();
        let size: usize = self.lists[stream_id as usize / 4].iter().map(|(field, _)| field.mem_size()).sum();
        assert_eq!(self.encoder.encoded_size(), size);
        if !is_late || random.below(4) == 0 {
            self.deliver(random);
        }
        if self.hand_in(stream_id, &section) {
            return;
        }
        self.counts.waited += 1;
        if random.below(5) == 0 {
            self.counts.given_up += 1;
            self.decoder.cancel_stream(stream_id).unwrap();
        } else {
            self.waiting.insert(stream_id, section);
        }
    }

    /// The encoder stream is delivered, and what waits no more is decoded.
    fn deliver(&mut self, random: &mut Random) {
        let mut stream = Vec::new();
        self.encoder.take_encoder_stream(&mut stream).unwrap();
        for piece in random.pieces(&stream) {
            self.decoder.receive(piece).unwrap();
        }
        while let Some(stream_id) = self.decoder.next_ready() {
            let section = self.waiting.remove(&stream_id).expect("a section that waits");
            assert!(self.hand_in(stream_id, &section));
        }
    }

    /// The decoder stream is delivered.
    fn answer(&mut self, random: &mut Random) {
        let (mut stream, mut room) = (Vec::new(), [0; 64]);
        while self.decoder.decoder_stream_len() > 0 {
            let many = 1 + random.below(room.len());
            let taken = self.decoder.write_decoder_stream(&mut room[..many]);
            stream.extend_from_slice(&room[..taken]);
        }
        for piece in random.pieces(&stream) {
            self.encoder.receive(piece).unwrap();
        }
    }
}

/// Both ends have the same table, and the encoder knows that the decoder has all of it.
fn check_tables(encoder: &ConnectionEncoder, decoder: &ConnectionDecoder) {
    let sizes = encoder.entries().map(|entry| entry.unwrap().mem_size());
    assert_eq!(sizes.sum::<usize>(), encoder.table_size());
    assert!(encoder.entries().eq(decoder.entries()));
    assert_eq!(encoder.table_size(), decoder.table_size());
    assert_eq!(encoder.capacity(), decoder.capacity());
    assert_eq!(encoder.insert_count(), decoder.insert_count());
    assert_eq!((encoder.known_received_count(), encoder.unacknowledged()), (encoder.insert_count(), 0));
}

/// A whole connection.
fn connect(lists: &[List], capacity: usize, max_blocked: usize, is_late: bool, random: &mut Random) -> Counts {
    let mut connection = Connection::new(lists, capacity, max_blocked);
    for at in 0..lists.len() {
        connection.send(4 * at as u64, is_late, random);
        if random.below(2) == 0 {
            connection.answer(random);
        }
    }
    connection.deliver(random);
    connection.answer(random);
    assert!(connection.waiting.is_empty() && connection.decoder.blocked() == 0);
    assert_eq!(connection.encoder.blocked(), 0);
    check_tables(&connection.encoder, &connection.decoder);
    connection.counts
}

#[test]
fn connections() {
    let mut random = Random::new(0x9e37_79b9_7f4a_7c15);
    let lists = lists(&mut random);
    for capacity in [0, 64, 256, 4096, 65_536] {
        for max_blocked in [0, 1, 100] {
            for is_late in [false, true] {
                let counts = connect(&lists, capacity, max_blocked, is_late, &mut random);
                check_counts(&counts, capacity, max_blocked, is_late);
            }
        }
    }
}

/// Without a table nothing is referenced; with a large table much is; and sections wait where they may and come before
/// their instructions.
fn check_counts(counts: &Counts, capacity: usize, max_blocked: usize, is_late: bool) {
    let can_wait = is_late && capacity > 0 && max_blocked > 0;
    assert!(capacity > 0 || counts.dynamic == 0);
    assert!(can_wait || counts.waited == 0);
    if capacity >= 4096 && max_blocked == 100 {
        assert!(counts.dynamic > 100, "{counts:?}");
        assert_eq!((counts.waited > 0, counts.given_up > 0), (can_wait, can_wait));
    }
}

#[test]
fn sections_without_a_table() {
    let mut random = Random::new(0x2545_f491_4f6c_dd1d);
    for list in lists(&mut random) {
        let fields: Vec<HeaderField> = list.into_iter().map(|(field, _)| field).collect();
        let mut section = vec![0xee];
        let size = encode_stateless(&mut section, &fields).unwrap();
        let decoded = decode_stateless(&section[1..], size).unwrap();
        assert_eq!((decoded.fields, decoded.mem_size, section[0]), (fields, size, 0xee));
    }
}

#[test]
fn ends_in_two_threads() {
    let lists = lists(&mut Random::new(7));
    thread::scope(|scope| {
        for seed in 1..3 {
            let lists = &lists;
            scope.spawn(move || connect(lists, 4096, 100, true, &mut Random::new(seed)));
        }
    });
}

#[test]
fn an_end_is_moved_to_a_thread_and_dropped_there() {
    let mut encoder = ConnectionEncoder::new(EncoderSettings::new(4096, 16)).unwrap();
    let mut section = Vec::new();
    assert_eq!(encoder.encode(0, [("foo", "bar")], &mut section), Ok(1));
    let mut stream = Vec::new();
    let answered = thread::spawn(move || encoder.take_encoder_stream(&mut stream).map(|_| stream)).join().unwrap();
    let mut decoder = decoder(4096, 16);
    decoder.receive(&answered.unwrap()).unwrap();
    assert_eq!(decoder.decode(0, &section), Ok(Reading::Fields { count: 1, required: 1 }));
}

/// The older names are there until a break.
#[test]
#[allow(deprecated)]
fn older_names() {
    let mut encoder = ConnectionEncoder::new(EncoderSettings::default()).unwrap();
    let (mut decoder, mut section) = (decoder(4096, 1), Vec::new());
    encoder.encode(0, [("a", "bc")], &mut section).unwrap();
    decoder.decode(0, &section).unwrap();
    assert_eq!((encoder.list_size(), decoder.fields_len(), decoder.cancel(0)), (35, 3, Ok(())));
    assert_eq!(decoder.decoder_stream_len(), 1);
}

#[test]
fn no_byte_depends_on_the_seed() {
    let settings = EncoderSettings::new(4096, 100);
    let mut encoders = [settings.with_seed(0), settings.with_seed(u64::MAX), settings]
        .map(|settings| ConnectionEncoder::new(settings).unwrap());
    for (list, stream) in lists(&mut Random::new(11)).iter().zip((0..).step_by(4)) {
        let mut encode = |encoder: &mut ConnectionEncoder| {
            let (mut section, mut instructions) = (Vec::new(), Vec::new());
            encoder.encode(stream, lines(list), &mut section).unwrap();
            encoder.take_encoder_stream(&mut instructions).unwrap();
            (section, instructions)
        };
        let written: Vec<_> = encoders.iter_mut().map(&mut encode).collect();
        assert!(written.iter().all(|other| *other == written[0]), "{written:?}");
    }
}
