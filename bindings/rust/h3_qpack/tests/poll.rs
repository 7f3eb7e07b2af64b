//! Both ends of a connection as tasks poll them: who is woken when, and which wakers are kept.

use h3_qpack::connection::{DecoderSettings, DecodingError, EncoderSettings, EncodingError, FieldLine, Wish};
use h3_qpack::poll::{Ends, Error, Section, Settings, H3_EXCESSIVE_LOAD};
use std::sync::atomic::{AtomicUsize, Ordering};
use std::sync::{mpsc, Arc};
use std::task::{Context, Poll, Wake, Waker};
use std::thread::{self, JoinHandle, Thread};
use std::time::{Duration, Instant};

/// A task that counts how often it is woken.
#[derive(Default)]
struct Task {
    woken: AtomicUsize,
}

impl Wake for Task {
    fn wake(self: Arc<Self>) {
        self.woken.fetch_add(1, Ordering::SeqCst);
    }
}

impl Task {
    fn new() -> Arc<Task> {
        Arc::new(Task::default())
    }

    fn woken(&self) -> usize {
        self.woken.load(Ordering::SeqCst)
    }
}

/// Makes a call in the context of a task. It alone holds the task afterwards, if no waker of it is kept.
fn within<T>(task: &Arc<Task>, call: impl FnOnce(&mut Context<'_>) -> T) -> T {
    let waker = Waker::from(Arc::clone(task));
    call(&mut Context::from_waker(&waker))
}

/// Whether a waker of a task is kept.
fn is_kept(task: &Arc<Task>) -> bool {
    Arc::strong_count(task) > 1
}

/// The value of a poll that is ready.
fn ready<T>(poll: Poll<T>) -> T {
    match poll {
        Poll::Ready(value) => value,
        Poll::Pending => panic!("pending"),
    }
}

fn ends_with(settings: Settings) -> Ends {
    Ends::new(settings).unwrap()
}

/// A client whose peer's settings have arrived, and a server.
fn pair() -> (Ends, Ends) {
    let settings = Settings::new(DecoderSettings::new(4096, 100));
    let (client, server) = (ends_with(settings), ends_with(settings));
    client.set_peer_settings(4096, 100).unwrap();
    (client, server)
}

/// A section with one field that is inserted.
fn encode(client: &Ends, stream_id: u64) -> Vec<u8> {
    let (mut section, value) = (Vec::new(), stream_id.to_string());
    client.encode(stream_id, [("x-stream", value.as_str())], &mut section).unwrap();
    section
}

/// All bytes of a stream that are to be sent, taken in small pieces.
fn take(mut poll: impl FnMut(&mut Context<'_>, &mut [u8]) -> Poll<Result<usize, Error>>) -> Vec<u8> {
    let (mut taken, mut piece) = (Vec::new(), [0; 7]);
    while let Poll::Ready(len) = within(&Task::new(), |cx| poll(cx, &mut piece)) {
        taken.extend(&piece[..len.unwrap()]);
    }
    taken
}

fn instructions(client: &Ends) -> Vec<u8> {
    take(|cx, out| client.poll_encoder_stream(cx, out))
}

fn answers(server: &Ends) -> Vec<u8> {
    take(|cx, out| server.poll_decoder_stream(cx, out))
}

fn receive(server: &Ends, bytes: &[u8]) -> Result<(), Error> {
    ready(within(&Task::new(), |cx| server.poll_receive_encoder_stream(cx, bytes)))
}

fn poll_decode(server: &Ends, task: &Arc<Task>, stream_id: u64, section: &[u8]) -> Poll<Result<Section, Error>> {
    within(task, |cx| server.poll_decode(cx, stream_id, section))
}

fn value_of(section: &Section) -> String {
    let field = section.fields().next().unwrap();
    String::from_utf8(field.value.to_vec()).unwrap()
}

#[test]
fn the_settings_are_those_to_send() {
    let ends = ends_with(Settings::new(DecoderSettings::new(4096, 16).with_max_section_size(9000)));
    assert_eq!(ends.settings(), [(0x01, 4096), (0x07, 16), (0x06, 9000)]);
    let defaults = Settings::default();
    assert_eq!((defaults.decoder, defaults.most_unsent), (DecoderSettings::default(), 16_384));
    let too_much = Settings::default().with_encoder(EncoderSettings::new(1 << 30, 0));
    assert!(Ends::new(too_much).is_err());
}

/// Before the peer's settings nothing is inserted, and afterwards something is.
#[test]
fn settings_may_arrive_late() {
    let settings = Settings::new(DecoderSettings::new(4096, 16));
    let (client, task) = (ends_with(settings), Task::new());
    encode(&client, 0);
    let mut piece = [0; 64];
    assert!(within(&task, |cx| client.poll_encoder_stream(cx, &mut piece)).is_pending());
    client.set_peer_settings(4096, 16).unwrap();
    encode(&client, 4);
    assert_eq!(task.woken(), 1);
    assert!(ready(within(&task, |cx| client.poll_encoder_stream(cx, &mut piece))).unwrap() > 0);
}

#[test]
fn an_insertion_wakes_the_sections_that_required_it() {
    let (client, server) = pair();
    let (mut sections, mut pieces, mut tasks) = (Vec::new(), Vec::new(), Vec::new());
    for stream_id in [0, 4, 8] {
        sections.push((stream_id, encode(&client, stream_id)));
        pieces.push(instructions(&client));
        tasks.push(Task::new());
    }
    for ((stream_id, section), task) in sections.iter().zip(&tasks) {
        assert!(poll_decode(&server, task, *stream_id, section).is_pending());
    }
    for arrived in 0..3 {
        assert_eq!(server.waiting(), 3 - arrived);
        receive(&server, &pieces[arrived]).unwrap();
        let woken: Vec<usize> = tasks.iter().map(|task| task.woken()).collect();
        assert_eq!(woken, (0..3).map(|number| usize::from(number <= arrived)).collect::<Vec<_>>());
        assert!(!is_kept(&tasks[arrived]));
        let (stream_id, section) = &sections[arrived];
        let decoded = ready(poll_decode(&server, &tasks[arrived], *stream_id, section)).unwrap();
        assert_eq!((value_of(&decoded), decoded.required()), (stream_id.to_string(), arrived + 1));
        assert!(!is_kept(&tasks[arrived]));
    }
    client.receive_decoder_stream(&answers(&server)).unwrap();
    assert_eq!(client.encode(12, [("x-stream", "8")], &mut Vec::new()), Ok(3));
}

#[test]
fn a_section_polled_in_vain_keeps_one_waker() {
    let (client, server) = pair();
    let (section, task) = (encode(&client, 0), Task::new());
    for _ in 0..1000 {
        assert!(poll_decode(&server, &task, 0, &section).is_pending());
        assert_eq!((Arc::strong_count(&task), server.waiting()), (2, 1));
    }
    receive(&server, &instructions(&client)).unwrap();
    assert_eq!(task.woken(), 1);
}

#[test]
fn the_last_waker_of_a_stream_is_woken() {
    let (client, server) = pair();
    let (section, first, second) = (encode(&client, 0), Task::new(), Task::new());
    assert!(poll_decode(&server, &first, 0, &section).is_pending());
    assert!(poll_decode(&server, &second, 0, &section).is_pending());
    assert!(!is_kept(&first) && is_kept(&second));
    receive(&server, &instructions(&client)).unwrap();
    assert_eq!((first.woken(), second.woken()), (0, 1));

    for task in [&first, &second] {
        ready(within(task, |cx| server.poll_decoder_stream(cx, &mut [0; 64]))).unwrap_or(0);
        assert!(within(task, |cx| server.poll_decoder_stream(cx, &mut [0; 64])).is_pending());
        assert!(within(task, |cx| client.poll_encoder_stream(cx, &mut [0; 64])).is_pending());
        if Arc::ptr_eq(task, &first) {
            ready(poll_decode(&server, &second, 0, &section)).unwrap();
            assert_eq!((first.woken(), second.woken()), (1, 1));
        }
    }
    assert!(!is_kept(&first), "the second task writes both streams now");
    encode(&client, 4);
    assert_eq!((first.woken(), second.woken()), (1, 2));
}

#[test]
fn a_cancelled_stream_keeps_no_waker() {
    let (client, server) = pair();
    let (section, task, sender) = (encode(&client, 0), Task::new(), Task::new());
    assert!(poll_decode(&server, &task, 0, &section).is_pending());
    assert!(within(&sender, |cx| server.poll_decoder_stream(cx, &mut [0; 8])).is_pending());
    server.cancel_stream(0).unwrap();
    assert!(!is_kept(&task) && server.waiting() == 0);
    assert_eq!((task.woken(), sender.woken()), (0, 1), "the cancellation is to be sent");
    let cancellation = answers(&server);
    assert_eq!(cancellation, [0x40]);
    client.receive_decoder_stream(&cancellation).unwrap();
    receive(&server, &instructions(&client)).unwrap();
    assert_eq!(task.woken(), 0);
}

/// Tasks that wait for everything there is to wait for.
struct Everyone {
    tasks: [Arc<Task>; 3],
}

impl Everyone {
    fn wait(ends: &Ends, blocked: &[u8]) -> Everyone {
        let tasks = [Task::new(), Task::new(), Task::new()];
        assert!(poll_decode(ends, &tasks[0], 40, blocked).is_pending());
        assert!(within(&tasks[1], |cx| ends.poll_encoder_stream(cx, &mut [0; 8])).is_pending());
        assert!(within(&tasks[2], |cx| ends.poll_decoder_stream(cx, &mut [0; 8])).is_pending());
        Everyone { tasks }
    }

    /// Each was woken once, no waker is kept, and each call returns the error.
    fn have_heard(&self, ends: &Ends, expected: Error) {
        assert!(self.tasks.iter().all(|task| task.woken() == 1 && !is_kept(task)));
        assert_eq!(ends.waiting(), 0);
        let task = &self.tasks[0];
        assert_eq!(ready(poll_decode(ends, task, 40, b"\0\0")).err(), Some(expected));
        for poll in [
            within(task, |cx| ends.poll_encoder_stream(cx, &mut [0; 8])),
            within(task, |cx| ends.poll_decoder_stream(cx, &mut [0; 8])),
        ] {
            assert_eq!(ready(poll), Err(expected));
        }
        assert_eq!(receive(ends, b""), Err(expected));
        for result in [ends.receive_decoder_stream(b""), ends.set_peer_settings(0, 0), ends.cancel_stream(0)] {
            assert_eq!(result, Err(expected));
        }
        assert_eq!(ends.encode(0, [("a", "b")], &mut Vec::new()), Err(expected));
        assert!(!is_kept(task));
    }
}

#[test]
fn an_error_ends_both_ends() {
    let (client, server) = pair();
    let section = encode(&client, 40);
    let everyone = Everyone::wait(&server, &section);
    let error = receive(&server, &[0x3f, 0xff, 0xff, 0xff, 0x7f]).unwrap_err(); // a capacity above the maximum
    assert!(matches!(error, Error::Decoding(DecodingError::EncoderStream { .. })) && error.code() == Some(0x201));
    everyone.have_heard(&server, error);

    let (_, server) = pair();
    let everyone = Everyone::wait(&server, &section);
    let error = server.receive_decoder_stream(&[0x00]).unwrap_err(); // an increment of 0
    assert!(matches!(error, Error::Encoding(EncodingError::DecoderStream { .. })) && error.code() == Some(0x202));
    everyone.have_heard(&server, error);

    let (_, server) = pair();
    let everyone = Everyone::wait(&server, &section);
    let error = ready(poll_decode(&server, &Task::new(), 4, b"\0\0\xff\xff\xff\x7f")).unwrap_err(); // no such index
    assert_eq!(error.code(), Some(0x200));
    everyone.have_heard(&server, error);
    server.close();
    everyone.have_heard(&server, error);
}

#[test]
fn close_wakes_everyone() {
    let (client, server) = pair();
    let section = encode(&client, 40);
    let everyone = Everyone::wait(&server, &section);
    server.clone().close();
    everyone.have_heard(&server, Error::Closed);
    assert_eq!(Error::Closed.code(), None);
}

/// An error without a code is that of one call.
#[test]
fn other_errors_end_nothing() {
    let (client, server) = pair();
    let too_large = ends_with(Settings::new(DecoderSettings::new(0, 0).with_max_section_size(33)));
    let error = ready(poll_decode(&too_large, &Task::new(), 0, b"\0\0\xd1")).unwrap_err();
    assert_eq!((error, error.code()), (Error::Decoding(DecodingError::TooLarge), None));
    assert!(ready(poll_decode(&too_large, &Task::new(), 4, b"\0\0")).is_ok());
    assert_eq!(client.encode(1 << 62, [("a", "b")], &mut Vec::new()), Err(EncodingError::StreamId.into()));
    assert!(client.encode(0, [("a", "b")], &mut Vec::new()).is_ok());
    assert_eq!(server.cancel_stream(1 << 62), Err(DecodingError::StreamId.into()));
    assert!(server.cancel_stream(0).is_ok());
}

/// The transport takes nothing of the encoder stream, so sections come to insert nothing, and still arrive.
#[test]
fn an_encoder_stream_that_does_not_move_stays_short() {
    let settings = Settings::new(DecoderSettings::new(65_536, 100)).with_most_unsent(200);
    let (client, server) = (ends_with(settings), ends_with(settings));
    client.set_peer_settings(65_536, 100).unwrap();
    let secret = FieldLine::never_indexed("authorization", "Basic Og==");
    let (mut plain, mut late) = (0, Vec::new());
    for stream_id in (0..40_000).step_by(4) {
        let (mut section, value) = (Vec::new(), format!("value {stream_id}"));
        let line = FieldLine::new("x-stream", &value);
        let wishes = [line.wish(Wish::Insert), secret.wish(Wish::Insert)];
        if client.encode(stream_id, wishes, &mut section).unwrap() == 0 {
            let decoded = ready(poll_decode(&server, &Task::new(), stream_id, &section)).unwrap();
            assert!(decoded.fields().eq([line, secret]));
            plain += 1;
        } else {
            late.push((stream_id, section));
        }
    }
    let unsent = instructions(&client);
    assert!(plain > 9_000 && (200..400).contains(&unsent.len()), "{plain} sections, {} bytes", unsent.len());
    receive(&server, &unsent).unwrap();
    for (stream_id, section) in late {
        let decoded = ready(poll_decode(&server, &Task::new(), stream_id, &section)).unwrap();
        assert_eq!(value_of(&decoded), format!("value {stream_id}"));
        client.receive_decoder_stream(&answers(&server)).unwrap();
    }
    let line = FieldLine::new("x-stream", "40000").wish(Wish::Insert);
    let required = client.encode(40_000, [line], &mut Vec::new()).unwrap();
    assert!(required > 0 && !instructions(&client).is_empty(), "it inserts again");
}

/// A server whose decoder stream has as many bytes as it may, and a section that needs no insertion.
fn full_server() -> (Ends, Ends, Vec<u8>) {
    let settings = Settings::new(DecoderSettings::new(4096, 100)).with_most_unsent(8);
    let (client, server) = (ends_with(settings), ends_with(settings));
    client.set_peer_settings(4096, 100).unwrap();
    let section = encode(&client, 0);
    receive(&server, &instructions(&client)).unwrap();
    for stream_id in 0..8 {
        assert!(ready(poll_decode(&server, &Task::new(), stream_id, &section)).is_ok());
    }
    (client, server, section)
}

#[test]
fn a_decoder_stream_that_does_not_move_stays_short() {
    let (client, server, section) = full_server();
    let (tasks, reader): (Vec<_>, _) = ((0..3).map(|_| Task::new()).collect(), Task::new());
    encode(&client, 4);
    let more = instructions(&client);
    for (task, stream_id) in tasks.iter().zip(100..) {
        assert!(poll_decode(&server, task, stream_id, &section).is_pending());
    }
    assert!(within(&reader, |cx| server.poll_receive_encoder_stream(cx, &more)).is_pending());
    server.cancel_stream(102).unwrap();
    assert!(is_kept(&tasks[0]) && is_kept(&tasks[1]) && !is_kept(&tasks[2]) && is_kept(&reader));

    let mut piece = [0; 1];
    assert_eq!(ready(within(&Task::new(), |cx| server.poll_decoder_stream(cx, &mut piece))), Ok(1));
    assert_eq!(tasks[0].woken() + reader.woken(), 0, "there are still as many as there may be");
    answers(&server);
    let woken: Vec<usize> = tasks.iter().chain([&reader]).map(|task| task.woken()).collect();
    assert_eq!(woken, [1, 1, 0, 1]);
    assert!(ready(poll_decode(&server, &tasks[0], 100, &section)).is_ok());
    receive(&server, &more).unwrap();
    assert!(ready(poll_decode(&server, &tasks[1], 101, &section)).is_ok());
}

/// A section that was blocked may come to wait for the decoder stream, and has one waker in all.
#[test]
fn a_section_waits_in_one_place() {
    let (client, server, _) = full_server();
    let (blocked, first, second) = (encode(&client, 8), Task::new(), Task::new());
    answers(&server);
    assert!(poll_decode(&server, &first, 8, &blocked).is_pending());
    (0..8).for_each(|stream_id| server.cancel_stream(stream_id).unwrap());
    assert!(poll_decode(&server, &second, 8, &blocked).is_pending());
    assert!(!is_kept(&first) && is_kept(&second) && server.waiting() == 1);
    answers(&server);
    assert_eq!(second.woken(), 1);
    assert!(poll_decode(&server, &second, 8, &blocked).is_pending());
    receive(&server, &instructions(&client)).unwrap();
    assert_eq!((first.woken(), second.woken()), (0, 2));
}

#[test]
fn a_peer_that_resets_streams_and_reads_nothing_is_refused() {
    let (_, server, _) = full_server();
    let cancelled = (100..).map(|stream_id| server.cancel_stream(stream_id)).take_while(Result::is_ok).count();
    assert!((4..8).contains(&cancelled), "{cancelled} cancellations of two bytes");
    let error = server.cancel_stream(0).unwrap_err();
    assert_eq!((error, error.code()), (Error::ExcessiveLoad, Some(H3_EXCESSIVE_LOAD)));
}

/// A waker that cancels its stream when it is dropped, as a task does that goes with its last waker.
struct Cancels {
    ends: Ends,
    stream_id: u64,
}

impl Wake for Cancels {
    fn wake(self: Arc<Self>) {}
}

impl Drop for Cancels {
    fn drop(&mut self) {
        let _ = self.ends.cancel_stream(self.stream_id);
    }
}

#[test]
fn a_waker_may_call_the_ends_when_it_is_dropped() {
    let (client, server) = pair();
    let (section, (done, is_done)) = (encode(&client, 0), mpsc::channel());
    let thread = thread::spawn(move || {
        let poll = |stream_id, cancelled| {
            let waker = Waker::from(Arc::new(Cancels { ends: server.clone(), stream_id: cancelled }));
            assert!(server.poll_decode(&mut Context::from_waker(&waker), stream_id, &section).is_pending());
            assert!(server.poll_decoder_stream(&mut Context::from_waker(&waker), &mut []).is_ready());
        };
        poll(0, 4); // its waker goes when stream 0 is polled again, and with it stream 4
        poll(4, 8);
        poll(0, 12); // its waker goes when stream 0 is cancelled
        server.cancel_stream(0).unwrap();
        assert_eq!(server.waiting(), 0);
        poll(16, 20);
        server.close();
        done.send(()).unwrap();
    });
    is_done.recv_timeout(Duration::from_secs(60)).expect("no call waits for itself");
    thread.join().unwrap();
}

/// A thread as a task, which sleeps until it is woken.
struct Sleeper(Thread);

impl Wake for Sleeper {
    fn wake(self: Arc<Self>) {
        self.0.unpark();
    }
}

/// The longest that a thread may sleep: no task works that long.
const LONGEST_SLEEP: Duration = Duration::from_secs(300);

/// Polls until the call is ready, and sleeps between. A wake-up that is lost leaves it asleep, which is a failure.
fn block_on<T>(mut poll: impl FnMut(&mut Context<'_>) -> Poll<T>) -> T {
    let waker = Waker::from(Arc::new(Sleeper(thread::current())));
    loop {
        if let Poll::Ready(value) = poll(&mut Context::from_waker(&waker)) {
            return value;
        }
        let begun = Instant::now();
        thread::park_timeout(LONGEST_SLEEP);
        assert!(begun.elapsed() < LONGEST_SLEEP, "a wake-up was lost");
    }
}

/// Carries the encoder stream of one to the other, a few bytes at a time, until a connection is closed.
fn carry_instructions(from: Ends, to: Ends) -> JoinHandle<Error> {
    thread::spawn(move || loop {
        let mut piece = [0; 5];
        let carried = block_on(|cx| from.poll_encoder_stream(cx, &mut piece))
            .and_then(|len| block_on(|cx| to.poll_receive_encoder_stream(cx, &piece[..len])));
        if let Err(error) = carried {
            return error;
        }
    })
}

/// The same of the decoder stream.
fn carry_answers(from: Ends, to: Ends) -> JoinHandle<Error> {
    thread::spawn(move || loop {
        let mut piece = [0; 3];
        let carried = block_on(|cx| from.poll_decoder_stream(cx, &mut piece))
            .and_then(|len| to.receive_decoder_stream(&piece[..len]));
        if let Err(error) = carried {
            return error;
        }
    })
}

/// Sends and receives sections on every fourth request stream, and returns how many required insertions.
fn exchange(client: &Ends, server: &Ends, streams: impl Iterator<Item = u64>) -> usize {
    let decode = |stream_id| {
        let section = encode(client, stream_id);
        let decoded = block_on(|cx| server.poll_decode(cx, stream_id, &section)).unwrap();
        assert_eq!(value_of(&decoded), stream_id.to_string());
        decoded.required() > 0
    };
    streams.filter(|stream_id| decode(*stream_id)).count()
}

/// Threads decode sections that overtake their insertions, while others carry both instruction streams. Every section comes
/// through, in whatever order the threads run.
#[test]
fn no_wake_up_is_lost() {
    const THREADS: u64 = 4;
    const SECTIONS: usize = 500;
    let settings = Settings::new(DecoderSettings::new(256, 100)).with_most_unsent(40);
    let (client, server) = (ends_with(settings), ends_with(settings));
    client.set_peer_settings(256, 100).unwrap();
    let carriers = [carry_instructions(client.clone(), server.clone()), carry_answers(server.clone(), client.clone())];
    let readers: Vec<_> = (0..THREADS)
        .map(|thread| {
            let (client, server) = (client.clone(), server.clone());
            let streams = (4 * thread..).step_by(4 * THREADS as usize).take(SECTIONS);
            thread::spawn(move || exchange(&client, &server, streams))
        })
        .collect();
    let required: usize = readers.into_iter().map(|reader| reader.join().unwrap()).sum();
    assert!(required > 100, "{required} sections required insertions");
    assert_eq!(server.waiting(), 0);
    client.close();
    server.close();
    assert!(carriers.into_iter().all(|carrier| carrier.join().unwrap() == Error::Closed));
}
