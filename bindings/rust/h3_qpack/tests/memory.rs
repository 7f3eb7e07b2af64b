//! Each allocation is refused in turn: the call says so, leaves what it was lent as it was, and can be made again. With the
//! feature `global-allocator` these are those of the library too. Otherwise it asks malloc, which the tests in C refuse. Not
//! on Windows: what belongs to a thread is allocated there, also within this allocator.
#![cfg(not(windows))]

use h3_qpack::connection::{
    ConnectionDecoder, ConnectionEncoder, DecoderSettings, DecodingError, EncoderSettings, EncodingError, FieldLine,
    Reading,
};
use h3_qpack::{decode_stateless, encode_stateless, DecoderError, EncoderError, HeaderField};
use std::alloc::{GlobalAlloc, Layout, System};
use std::cell::Cell;
use std::ptr;
#[cfg(feature = "std")]
use {
    h3_qpack::poll::{Ends, Error, Settings},
    std::sync::Arc,
    std::task::{Context, Poll, Wake, Waker},
};

thread_local! {
    /// How many allocations of this thread are granted until one is refused; below 0 all are.
    static GRANTED: Cell<isize> = const { Cell::new(-1) };

    /// How many allocations of this thread were refused.
    static REFUSED: Cell<usize> = const { Cell::new(0) };

    /// The most bytes that one allocation of this thread asked for.
    static LARGEST: Cell<usize> = const { Cell::new(0) };
}

/// The system's allocator, which refuses one allocation.
struct Refusing;

#[global_allocator]
static ALLOCATOR: Refusing = Refusing;

// SAFETY: what is granted is the system's, and null is what a refusal answers.
unsafe impl GlobalAlloc for Refusing {
    unsafe fn alloc(&self, layout: Layout) -> *mut u8 {
        LARGEST.with(|largest| largest.set(largest.get().max(layout.size())));
        let granted = GRANTED.with(|granted| granted.replace(granted.get().max(0) - 1));
        if granted == 0 {
            REFUSED.with(|refused| refused.set(refused.get() + 1));
            return ptr::null_mut();
        }
        System.alloc(layout)
    }

    unsafe fn dealloc(&self, memory: *mut u8, layout: Layout) {
        System.dealloc(memory, layout)
    }
}

/// A task that nobody runs.
#[cfg(feature = "std")]
struct Nobody;

#[cfg(feature = "std")]
impl Wake for Nobody {
    fn wake(self: Arc<Self>) {}
}

/// A call, made again behind a refusal; how often it was refused is added.
fn again<T, E>(refused: &mut usize, mut call: impl FnMut() -> Result<T, E>, is_refusal: fn(&E) -> bool) -> T
where
    E: std::fmt::Debug,
{
    loop {
        match call() {
            Err(error) if is_refusal(&error) => *refused += 1,
            answer => return answer.unwrap(),
        }
    }
}

/// Passes a decoder bytes of the encoder stream, and again the rest behind a refusal.
fn receive_again(refused: &mut usize, decoder: &mut ConnectionDecoder, mut bytes: &[u8]) {
    while let Err(error) = decoder.receive(bytes) {
        match error {
            DecodingError::NoMemory { taken } => bytes = &bytes[taken..],
            error => panic!("{error}"),
        }
        *refused += 1;
    }
}

/// The ends of a connection, made while all is granted.
fn ends() -> (ConnectionEncoder, ConnectionDecoder) {
    let encoder = ConnectionEncoder::new(EncoderSettings::new(4096, 16)).unwrap();
    (encoder, ConnectionDecoder::new(DecoderSettings::new(4096, 16)).unwrap())
}

/// A section goes over a connection whose allocation of this number is refused; how many refusals were told.
fn connect(number: isize) -> usize {
    // The code of a line feed has 30 bits, so the value is written plain.
    let fields = [FieldLine::new("foo", "bar"), FieldLine::never_indexed("x", &[b'\n'; 900]), FieldLine::new("y", "z")];
    let ((mut encoder, mut decoder), mut refused) = (ends(), 0);
    let (mut section, mut stream) = (Vec::new(), Vec::new());
    GRANTED.with(|granted| granted.set(number));
    let is_refusal = |error: &EncodingError| *error == EncodingError::NoMemory;
    assert_eq!(again(&mut refused, || encoder.encode(4, &fields, &mut section), is_refusal), 2);
    again(&mut refused, || encoder.take_encoder_stream(&mut stream), |_| true);
    receive_again(&mut refused, &mut decoder, &stream);
    let is_refusal = |error: &DecodingError| matches!(error, DecodingError::NoMemory { .. });
    let reading = again(&mut refused, || decoder.decode(4, &section), is_refusal);
    assert_eq!(reading, Reading::Fields { count: 3, required: 2 });
    again(&mut refused, || decoder.fields().map(|lent| assert!(lent.eq(fields))), |_| true);
    again(&mut refused, || encoder.entries().try_for_each(|entry| entry.map(drop)), |_| true);
    let mut answers = Vec::new();
    assert_eq!(again(&mut refused, || decoder.take_decoder_stream(&mut answers), |_| true), 1);
    GRANTED.with(|granted| granted.set(-1));
    assert_eq!((encoder.receive(&answers), encoder.blocked()), (Ok(()), 0));
    assert!(section.len() > 900 && section.len() < 950);
    assert_eq!(encoder.set_capacity(0), Ok(()), "no section that was refused references an entry");
    assert_eq!(DecodingError::from(h3_qpack::connection::NoMemory), DecodingError::NoMemory { taken: 0 });
    refused
}

/// The stateless pair, of which the allocation of this number is refused; how many refusals were told.
fn encode_and_decode(number: isize) -> usize {
    let fields = [HeaderField::new("foo", "bar"), HeaderField::new(":path", "/index.html")];
    let (mut section, mut refused) = (Vec::with_capacity(256), 0);
    GRANTED.with(|granted| granted.set(number));
    let is_refusal = |error: &EncoderError| *error == EncoderError::Memory;
    assert_eq!(again(&mut refused, || encode_stateless(&mut section, &fields), is_refusal), 86);
    let is_refusal = |error: &DecoderError| *error == DecoderError::Memory;
    let decoded = again(&mut refused, || decode_stateless(&section, 86), is_refusal);
    GRANTED.with(|granted| granted.set(-1));
    assert_eq!((&decoded.fields[..], decoded.mem_size), (&fields[..], 86));
    refused
}

/// What a poll came to: `None` if it is pending.
#[cfg(feature = "std")]
fn result_of<T, E>(poll: Poll<Result<T, E>>) -> Result<Option<T>, E> {
    match poll {
        Poll::Ready(result) => result.map(Some),
        Poll::Pending => Ok(None),
    }
}

/// A section that is polled before its insertion arrives, and after it. The allocation of this number is refused; how many
/// refusals were told. The section is acknowledged once.
#[cfg(feature = "std")]
fn poll_section(number: isize) -> usize {
    let ends = || Ends::new(Settings::new(DecoderSettings::new(4096, 16))).unwrap();
    let (client, server, mut refused, mut section, mut piece) = (ends(), ends(), 0, Vec::new(), [0; 64]);
    client.set_peer_settings(4096, 16).unwrap();
    let waker = Waker::from(Arc::new(Nobody));
    let cx = &mut Context::from_waker(&waker);
    GRANTED.with(|granted| granted.set(number));
    let is_refusal = |error: &Error| *error == Error::Encoding(EncodingError::NoMemory);
    assert_eq!(again(&mut refused, || client.encode(4, [("foo", "bar")], &mut section), is_refusal), 1);
    let is_refusal = |error: &Error| matches!(error, Error::Decoding(DecodingError::NoMemory { .. }));
    let blocked = again(&mut refused, || result_of(server.poll_decode(cx, 4, &section)), is_refusal);
    assert!(blocked.is_none() && server.waiting() == 1);
    let len = result_of(client.poll_encoder_stream(cx, &mut piece)).unwrap().unwrap();
    let mut rest = &piece[..len];
    while let Err(error) = result_of(server.poll_receive_encoder_stream(cx, rest)) {
        match error {
            Error::Decoding(DecodingError::NoMemory { taken }) => rest = &rest[taken..],
            error => panic!("{error}"),
        }
        refused += 1;
    }
    let decoded = again(&mut refused, || result_of(server.poll_decode(cx, 4, &section)), is_refusal).unwrap();
    GRANTED.with(|granted| granted.set(-1));
    assert!(decoded.fields().eq([FieldLine::new("foo", "bar")]) && server.waiting() == 0);
    let len = result_of(server.poll_decoder_stream(cx, &mut piece)).unwrap().unwrap();
    client.receive_decoder_stream(&piece[..len]).unwrap();
    refused
}

/// Between a copy that is refused and the next try, the fields of another section do not take the place of the first's.
#[cfg(feature = "std")]
#[test]
fn fields_that_were_not_copied_stay() {
    let server = Ends::new(Settings::default()).unwrap();
    let no_memory = Error::Decoding(DecodingError::NoMemory { taken: 0 });
    let (first, second): (&[u8], &[u8]) = (b"\0\0\xd1", b"\0\0\xc1");
    let decode = |stream_id, section: &[u8]| {
        let waker = Waker::from(Arc::new(Nobody));
        result_of(server.poll_decode(&mut Context::from_waker(&waker), stream_id, section)).map(Option::unwrap)
    };
    let is_refused = |number| {
        let waker = Waker::from(Arc::new(Nobody));
        let cx = &mut Context::from_waker(&waker);
        GRANTED.with(|granted| granted.set(number));
        let decoded = server.poll_decode(cx, 0, first);
        GRANTED.with(|granted| granted.set(-1));
        result_of(decoded).is_err()
    };
    assert!(!is_refused(-1), "the library has its buffers now");
    let many = (0..).take_while(|number| is_refused(*number)).count() as isize;
    assert!(is_refused(many - 1), "the last allocation is that of the copy");
    assert_eq!(decode(4, second).err(), Some(no_memory));
    assert!(decode(0, first).unwrap().fields().eq([FieldLine::new(":method", "GET")]));
    assert!(decode(4, second).unwrap().fields().eq([FieldLine::new(":path", "/")]));

    assert!(is_refused(many - 1));
    server.cancel_stream(0).unwrap();
    assert!(decode(4, second).unwrap().fields().eq([FieldLine::new(":path", "/")]));
}

/// Refuses one allocation after the other, until none is left; how many there were. Each refusal is told. The library may do
/// without an allocation of its own.
fn refuse_each(run: fn(isize) -> usize) -> usize {
    let is_refused = |number: &isize| {
        REFUSED.with(|refused| refused.set(0));
        let told = run(*number);
        let refused = REFUSED.with(Cell::get);
        assert!(
            told == refused || cfg!(feature = "global-allocator") && told < refused,
            "number {number}: {told} told"
        );
        refused > 0
    };
    let many = (0..).take_while(is_refused).count();
    assert_eq!(run(-1), 0);
    many
}

#[test]
fn a_connection() {
    let many = refuse_each(connect);
    assert!(many >= if cfg!(feature = "global-allocator") { 30 } else { 11 }, "{many} allocations were refused");
}

#[cfg(feature = "std")]
#[test]
fn a_polled_section() {
    let many = refuse_each(poll_section);
    assert!(many >= if cfg!(feature = "global-allocator") { 20 } else { 6 }, "{many} allocations were refused");
}

#[test]
fn the_stateless_pair() {
    let many = refuse_each(encode_and_decode);
    assert!(many >= if cfg!(feature = "global-allocator") { 11 } else { 8 }, "{many} allocations were refused");
}

#[test]
fn a_long_section_takes_no_more_memory_than_the_limit_allows() {
    let mut section = vec![0xd1; 1 << 20];
    section[..2].fill(0);
    LARGEST.with(|largest| largest.set(0));
    assert_eq!(decode_stateless(&section, 100), Err(DecoderError::HeaderTooLong(101)));
    assert!(LARGEST.with(Cell::get) <= 200);
}
