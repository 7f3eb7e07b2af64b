//! Both ends of a connection for a stack whose tasks are polled, as h3 is: a blocked section is [`Poll::Pending`], and its
//! task is woken when the insertions that it requires have arrived.
//!
//! Make [`Ends`] when the connection begins, and give each task a clone. Nothing here sends or receives: your tasks move the
//! bytes between the ends and the streams of the transport.
//!
//! | a task that | calls |
//! |---|---|
//! | opens the connection | [`Ends::settings`], and sends them in SETTINGS |
//! | writes this side's encoder stream | writes [`ENCODER_STREAM`], then what [`Ends::poll_encoder_stream`] returns |
//! | writes this side's decoder stream | writes [`DECODER_STREAM`], then what [`Ends::poll_decoder_stream`] returns |
//! | reads the peer's SETTINGS | [`Ends::set_peer_settings`] |
//! | reads the peer's encoder stream | [`Ends::poll_receive_encoder_stream`] with each piece |
//! | reads the peer's decoder stream | [`Ends::receive_decoder_stream`] with each piece |
//! | sends fields on a request stream | [`Ends::encode`], and writes the section |
//! | receives fields on a request stream | [`Ends::poll_decode`] with the whole section, until it is ready |
//! | stops reading a request stream | [`Ends::cancel_stream`] |
//! | ends the connection | [`Ends::close`] |
//!
//! **Errors.** The first error with a [`code`](Error::code) ends both ends. Each task that waits is woken, and each call
//! returns that error from then on. Close the connection with its code.
//!
//! **Back-pressure.** Where the transport takes no more bytes of an instruction stream, do not take them from the ends. From
//! [`Settings::most_unsent`] unsent bytes on, an encoder inserts nothing, and a decoder decodes and reads nothing until its
//! stream moves. So neither stream grows without limit.
//!
//! **Wakers.** A call that returns [`Poll::Pending`] keeps the waker of its task: one for each instruction stream, and one
//! for each request stream. A later waker takes the place of an earlier one. None is kept once its stream is decoded or
//! cancelled, or the connection has ended. Wakers are called and dropped outside the lock that the clones share.
//!
//! ```
//! use h3_qpack::connection::DecoderSettings;
//! use h3_qpack::poll::{Ends, Settings};
//! use std::task::Poll;
//! # use std::sync::Arc;
//! # use std::task::{Context, Wake, Waker};
//! # struct Task;
//! # impl Wake for Task { fn wake(self: Arc<Self>) {} }
//! # let waker = Waker::from(Arc::new(Task));
//! # let cx = &mut Context::from_waker(&waker);
//!
//! let ends = || Ends::new(Settings::new(DecoderSettings::new(4096, 16)));
//! let (client, server) = (ends()?, ends()?);
//! client.set_peer_settings(4096, 16)?;
//!
//! let mut section = Vec::new();
//! client.encode(0, [("x-tenant", "17")], &mut section)?;
//!
//! // The section overtakes its insertion, so the task of its stream waits. `cx` is the context of the task that polls.
//! assert!(server.poll_decode(cx, 0, &section).is_pending());
//!
//! let mut instructions = [0; 64];
//! if let Poll::Ready(taken) = client.poll_encoder_stream(cx, &mut instructions) {
//!     assert!(server.poll_receive_encoder_stream(cx, &instructions[..taken?]).is_ready()); // wakes that task
//! }
//! match server.poll_decode(cx, 0, &section) {
//!     Poll::Ready(section) => assert_eq!(section?.fields().next(), Some(("x-tenant", "17").into())),
//!     Poll::Pending => unreachable!("the insertion has arrived"),
//! }
//! # Ok::<(), Box<dyn std::error::Error>>(())
//! ```

mod waiting;

use crate::connection::{
    ConnectionDecoder, ConnectionEncoder, DecoderSettings, DecodingError, EncoderSettings, EncodingError, Fields,
    NoMemory, Reading, SettingsError, WishedField,
};
use crate::copied::Copied;
use std::fmt;
use std::sync::{Arc, Mutex, MutexGuard, PoisonError};
use std::task::{Context, Poll, Waker};
use waiting::Waiting;

/// The type of an encoder stream (RFC 9204, section 4.2): its first byte.
pub const ENCODER_STREAM: u8 = 0x02;

/// The type of a decoder stream (RFC 9204, section 4.2): its first byte.
pub const DECODER_STREAM: u8 = 0x03;

/// The identifier of the setting (RFC 9204, section 5).
pub const SETTINGS_QPACK_MAX_TABLE_CAPACITY: u64 = 0x01;

/// The identifier of the setting (RFC 9114, section 7.2.4.1).
pub const SETTINGS_MAX_FIELD_SECTION_SIZE: u64 = 0x06;

/// The identifier of the setting (RFC 9204, section 5).
pub const SETTINGS_QPACK_BLOCKED_STREAMS: u64 = 0x07;

/// The peer makes this side keep too much (RFC 9114, section 8.1).
pub const H3_EXCESSIVE_LOAD: u64 = 0x107;

/// The settings of both ends.
#[derive(Debug, Clone, Copy, PartialEq, Eq)]
#[non_exhaustive]
pub struct Settings {
    /// Those of the decoder, which this side sends.
    pub decoder: DecoderSettings,
    /// Those of the encoder. The peer's two are 0 until its SETTINGS arrive, or for 0-RTT those that were remembered.
    pub encoder: EncoderSettings,
    /// The number of unsent bytes of an instruction stream, from 1 on, at which an end holds back.
    pub most_unsent: usize,
}

impl Settings {
    /// Returns the settings with these for the decoder, [`EncoderSettings::default`], and a `most_unsent` of 16,384 bytes.
    pub fn new(decoder: DecoderSettings) -> Settings {
        Settings { decoder, encoder: EncoderSettings::default(), most_unsent: 16_384 }
    }

    /// Returns the settings with these for the encoder.
    pub fn with_encoder(self, encoder: EncoderSettings) -> Settings {
        Settings { encoder, ..self }
    }

    /// Returns the settings with another `most_unsent`, in bytes. 0 is taken as 1.
    pub fn with_most_unsent(self, most_unsent: usize) -> Settings {
        Settings { most_unsent, ..self }
    }
}

impl Default for Settings {
    /// Returns the settings of a side without a dynamic table, `new(DecoderSettings::default())`.
    fn default() -> Settings {
        Settings::new(DecoderSettings::default())
    }
}

/// The errors of [`Ends`].
#[derive(Debug, Clone, Copy, PartialEq, Eq)]
#[non_exhaustive]
pub enum Error {
    /// An error of the encoder.
    Encoding(EncodingError),
    /// An error of the decoder.
    Decoding(DecodingError),
    /// The peer lets this side send so little of its decoder stream that twice [`Settings::most_unsent`] bytes wait, and
    /// goes on to reset streams. Close the connection.
    ExcessiveLoad,
    /// [`Ends::close`] was called. Stop the task.
    Closed,
}

impl Error {
    /// Returns the code to close the connection with (RFC 9204, section 6, and RFC 9114, section 8.1). `None` if the
    /// connection goes on, or is closed already.
    pub fn code(&self) -> Option<u64> {
        match self {
            Error::Encoding(error) => error.code(),
            Error::Decoding(error) => error.code(),
            Error::ExcessiveLoad => Some(H3_EXCESSIVE_LOAD),
            Error::Closed => None,
        }
    }
}

impl fmt::Display for Error {
    fn fmt(&self, f: &mut fmt::Formatter<'_>) -> fmt::Result {
        match self {
            Error::Encoding(error) => error.fmt(f),
            Error::Decoding(error) => error.fmt(f),
            Error::ExcessiveLoad => f.write_str("too many bytes of the decoder stream wait"),
            Error::Closed => f.write_str("the connection is closed"),
        }
    }
}

impl std::error::Error for Error {}

impl From<EncodingError> for Error {
    fn from(error: EncodingError) -> Error {
        Error::Encoding(error)
    }
}

impl From<DecodingError> for Error {
    fn from(error: DecodingError) -> Error {
        Error::Decoding(error)
    }
}

/// The fields of a decoded section.
pub struct Section {
    copied: Copied,
    required: usize,
}

impl Section {
    /// Returns the fields, in order.
    pub fn fields(&self) -> Fields<'_> {
        self.copied.fields()
    }

    /// Returns the Required Insert Count (RFC 9204, section 4.5.1.1). If it is above 0, the section was acknowledged.
    pub fn required(&self) -> usize {
        self.required
    }
}

impl fmt::Debug for Section {
    fn fmt(&self, f: &mut fmt::Formatter<'_>) -> fmt::Result {
        f.debug_list().entries(self.fields()).finish()
    }
}

/// Both ends of one side of a connection. A clone is another handle of the same ends, for another task or thread.
///
/// ```
/// fn is_shared<T: Clone + Send + Sync>() {}
/// is_shared::<h3_qpack::poll::Ends>();
/// ```
#[derive(Clone)]
pub struct Ends {
    state: Arc<Mutex<State>>,
    settings: DecoderSettings,
}

/// The ends, and the tasks that wait for them. Between two calls no waker is kept whose task could go on.
struct State {
    encoder: ConnectionEncoder,
    decoder: ConnectionDecoder,
    most_unsent: usize,
    /// Tasks whose sections require insertions.
    blocked: Waiting,
    /// Tasks whose sections wait until the decoder stream moves.
    held: Waiting,
    /// The stream whose section was decoded last, while there is no memory for a copy of its fields.
    uncopied: Option<(u64, usize)>,
    /// The task that writes the encoder stream, the one that writes the decoder stream, and the one that reads the peer's
    /// encoder stream.
    encoder_stream: Option<Waker>,
    decoder_stream: Option<Waker>,
    reading: Option<Waker>,
    /// A waker that the call replaced. It is dropped outside the lock: with it may go a task that calls the ends.
    outdated: Option<Waker>,
    /// Why the connection has ended.
    ended: Option<Error>,
}

impl Ends {
    /// Makes both ends.
    ///
    /// # Errors
    /// Those of [`ConnectionEncoder::new`] and [`ConnectionDecoder::new`].
    pub fn new(settings: Settings) -> Result<Ends, SettingsError> {
        let state = State {
            encoder: ConnectionEncoder::new(settings.encoder)?,
            decoder: ConnectionDecoder::new(settings.decoder)?,
            most_unsent: settings.most_unsent.max(1),
            blocked: Waiting::default(),
            held: Waiting::default(),
            uncopied: None,
            encoder_stream: None,
            decoder_stream: None,
            reading: None,
            outdated: None,
            ended: None,
        };
        Ok(Ends { state: Arc::new(Mutex::new(state)), settings: settings.decoder })
    }

    /// Returns the identifiers and values to send in the SETTINGS frame (RFC 9114, section 7.2.4).
    pub fn settings(&self) -> [(u64, u64); 3] {
        let DecoderSettings { max_capacity, max_blocked, max_section_size } = self.settings;
        [
            (SETTINGS_QPACK_MAX_TABLE_CAPACITY, max_capacity as u64),
            (SETTINGS_QPACK_BLOCKED_STREAMS, max_blocked as u64),
            (SETTINGS_MAX_FIELD_SECTION_SIZE, max_section_size),
        ]
    }

    /// Applies the peer's SETTINGS: its SETTINGS_QPACK_MAX_TABLE_CAPACITY in bytes, and its SETTINGS_QPACK_BLOCKED_STREAMS,
    /// 0 for one that is missing (RFC 9204, section 3.2.3). Until then sections reference only the static table.
    ///
    /// # Errors
    /// Those of [`ConnectionEncoder::set_peer_settings`], and the error that ended the connection.
    pub fn set_peer_settings(&self, max_capacity: u64, max_blocked: u64) -> Result<(), Error> {
        let as_size = |value: u64| usize::try_from(value).unwrap_or(usize::MAX);
        self.call(|state| Ok(state.encoder.set_peer_settings(as_size(max_capacity), as_size(max_blocked))?))
    }

    /// Encodes fields for a stream, and appends the section to `section`, as [`ConnectionEncoder::encode`] does. Returns its
    /// Required Insert Count. Wakes the task that writes the encoder stream.
    ///
    /// While `most_unsent` bytes of the encoder stream are unsent, the section inserts nothing.
    ///
    /// # Errors
    /// Those of [`ConnectionEncoder::encode`], and the error that ended the connection. `section` is unchanged.
    pub fn encode<'f, I>(&self, stream_id: u64, fields: I, section: &mut Vec<u8>) -> Result<usize, Error>
    where
        I: IntoIterator,
        I::Item: Into<WishedField<'f>>,
    {
        let mut lines = ConnectionEncoder::lend(fields).map_err(EncodingError::from)?; // before the lock: it may panic
        self.call(|state| {
            if state.encoder.encoder_stream_len() >= state.most_unsent {
                lines.insert_nothing();
            }
            Ok(state.encoder.encode_lent(stream_id, &lines, section)?)
        })
    }

    /// Moves bytes to send on the encoder stream to `out`, as many as fit. Returns how many, above 0 unless `out` is empty.
    /// Pending while there are none.
    ///
    /// # Errors
    /// The error that ended the connection.
    pub fn poll_encoder_stream(&self, cx: &mut Context<'_>, out: &mut [u8]) -> Poll<Result<usize, Error>> {
        self.poll(|state| {
            let taken = state.encoder.write_encoder_stream(out);
            if taken > 0 || out.is_empty() {
                return Poll::Ready(Ok(taken));
            }
            state.outdated = state.encoder_stream.replace(cx.waker().clone());
            Poll::Pending
        })
    }

    /// Moves bytes to send on the decoder stream to `out`, as many as fit. Returns how many, above 0 unless `out` is empty.
    /// Pending while there are none.
    ///
    /// # Errors
    /// The error that ended the connection.
    pub fn poll_decoder_stream(&self, cx: &mut Context<'_>, out: &mut [u8]) -> Poll<Result<usize, Error>> {
        self.poll(|state| {
            let taken = state.decoder.write_decoder_stream(out);
            if taken > 0 || out.is_empty() {
                return Poll::Ready(Ok(taken));
            }
            state.outdated = state.decoder_stream.replace(cx.waker().clone());
            Poll::Pending
        })
    }

    /// Receives the next bytes of the peer's decoder stream, without the stream type, in pieces of any size.
    ///
    /// # Errors
    /// Those of [`ConnectionEncoder::receive`], and the error that ended the connection.
    pub fn receive_decoder_stream(&self, bytes: &[u8]) -> Result<(), Error> {
        self.call(|state| Ok(state.encoder.receive(bytes)?))
    }

    /// Receives the next bytes of the peer's encoder stream, without the stream type, in pieces of any size. Wakes the tasks
    /// whose sections are no longer blocked.
    ///
    /// Pending while `most_unsent` bytes of the decoder stream are unsent. Then no byte was read: pass the same bytes again.
    ///
    /// # Errors
    /// Those of [`ConnectionDecoder::receive`], and the error that ended the connection.
    pub fn poll_receive_encoder_stream(&self, cx: &mut Context<'_>, bytes: &[u8]) -> Poll<Result<(), Error>> {
        self.poll(|state| {
            if state.is_held() {
                state.outdated = state.reading.replace(cx.waker().clone());
                return Poll::Pending;
            }
            Poll::Ready(state.decoder.receive(bytes).map_err(Error::from))
        })
    }

    /// Decodes a whole section of a stream (RFC 9204, section 4.5). Pass the sections of a stream in order.
    ///
    /// Pending while the section is blocked, or `most_unsent` bytes of the decoder stream are unsent. Keep the section, and
    /// pass it again when the task is woken. Call [`cancel_stream`](Self::cancel_stream) if you will not.
    ///
    /// # Errors
    /// - Those of [`ConnectionDecoder::decode`], and the error that ended the connection.
    /// - [`DecodingError::NoMemory`]: pass the section again later, or call `cancel_stream`. If the fields could not be
    ///   copied, there is no memory for other sections until then.
    pub fn poll_decode(&self, cx: &mut Context<'_>, stream_id: u64, section: &[u8]) -> Poll<Result<Section, Error>> {
        self.poll(|state| state.poll_decode(cx, stream_id, section))
    }

    /// Gives up the sections of a stream, forgets its waker, and adds a Stream Cancellation to the decoder stream (RFC 9204,
    /// section 2.2.2.2). Call this when a stream is reset, or when you stop reading it. It is allowed for any stream.
    ///
    /// # Errors
    /// - Those of [`ConnectionDecoder::cancel_stream`], and the error that ended the connection.
    /// - [`Error::ExcessiveLoad`] if twice `most_unsent` bytes of the decoder stream are unsent.
    pub fn cancel_stream(&self, stream_id: u64) -> Result<(), Error> {
        self.call(|state| {
            state.forget(stream_id);
            if state.decoder.decoder_stream_len() >= state.most_unsent.saturating_mul(2) {
                return Err(Error::ExcessiveLoad);
            }
            Ok(state.decoder.cancel_stream(stream_id)?)
        })
    }

    /// Ends the connection: wakes each task that waits, and each call returns [`Error::Closed`] from then on, or the error
    /// that ended it before.
    pub fn close(&self) {
        let _ = self.call(|state| -> Result<(), Error> {
            state.ended = Some(Error::Closed);
            Ok(())
        });
    }

    /// Returns the number of request streams whose tasks wait for their sections.
    pub fn waiting(&self) -> usize {
        let state = self.lock();
        state.blocked.len() + state.held.len()
    }

    /// Makes a call of the ends, unless the connection has ended. An error with a code ends it. Then wakes each task that
    /// can go on.
    fn call<T>(&self, call: impl FnOnce(&mut State) -> Result<T, Error>) -> Result<T, Error> {
        let (result, outdated) = self.lock().run(call);
        drop(outdated);
        self.wake();
        result
    }

    /// The same of a call that may be pending.
    fn poll<T>(&self, call: impl FnOnce(&mut State) -> Poll<Result<T, Error>>) -> Poll<Result<T, Error>> {
        let result = self.call(|state| match call(state) {
            Poll::Ready(result) => result.map(Poll::Ready),
            Poll::Pending => Ok(Poll::Pending),
        });
        match result {
            Ok(Poll::Ready(value)) => Poll::Ready(Ok(value)),
            Ok(Poll::Pending) => Poll::Pending,
            Err(error) => Poll::Ready(Err(error)),
        }
    }

    /// Wakes each task that can go on, outside the lock.
    fn wake(&self) {
        loop {
            let waker = self.lock().take_ready();
            match waker {
                Some(waker) => waker.wake(),
                None => return,
            }
        }
    }

    /// Returns the state. A panic of another task within it is one of this crate's assertions, and leaves it usable.
    fn lock(&self) -> MutexGuard<'_, State> {
        self.state.lock().unwrap_or_else(PoisonError::into_inner)
    }
}

impl fmt::Debug for Ends {
    fn fmt(&self, f: &mut fmt::Formatter<'_>) -> fmt::Result {
        f.debug_struct("Ends").field("settings", &self.settings).finish_non_exhaustive()
    }
}

impl State {
    /// Makes a call, unless the connection has ended. Returns what it returned, and the waker that it replaced.
    fn run<T>(&mut self, call: impl FnOnce(&mut State) -> Result<T, Error>) -> (Result<T, Error>, Option<Waker>) {
        if let Some(error) = self.ended {
            return (Err(error), None);
        }
        let result = call(self);
        if let Err(error) = &result {
            self.ended = error.code().map(|_| *error);
        }
        (result, self.outdated.take())
    }

    /// Whether so much of the decoder stream is unsent that nothing is decoded.
    fn is_held(&self) -> bool {
        self.decoder.decoder_stream_len() >= self.most_unsent
    }

    /// Forgets the task of a stream, which waits in one place at most.
    fn forget(&mut self, stream_id: u64) {
        self.outdated = self.blocked.forget(stream_id).or_else(|| self.held.forget(stream_id));
        if matches!(self.uncopied, Some((uncopied, _)) if uncopied == stream_id) {
            self.uncopied = None;
        }
    }

    fn poll_decode(&mut self, cx: &mut Context<'_>, stream_id: u64, section: &[u8]) -> Poll<Result<Section, Error>> {
        match self.decode(cx, stream_id, section) {
            Ok(Some(required)) => Poll::Ready(self.copy(stream_id, required)),
            Ok(None) => Poll::Pending,
            Err(error) => Poll::Ready(Err(error.into())),
        }
    }

    /// Decodes a section, and returns its Required Insert Count, or keeps the waker of its task and returns `None`.
    fn decode(&mut self, cx: &Context<'_>, stream_id: u64, section: &[u8]) -> Result<Option<usize>, DecodingError> {
        match self.uncopied {
            Some((uncopied, required)) if uncopied == stream_id => return Ok(Some(required)),
            Some(_) => return Err(NoMemory.into()),
            None => {}
        }
        self.forget(stream_id);
        if self.is_held() {
            self.held.keep(stream_id, 0, cx.waker())?;
            return Ok(None);
        }
        match self.decoder.decode(stream_id, section)? {
            Reading::Fields { required, .. } => Ok(Some(required)),
            Reading::Blocked { required } => {
                self.blocked.keep(stream_id, required, cx.waker())?;
                Ok(None)
            }
        }
    }

    /// Copies the fields of the section that was decoded last. Without memory they stay with the decoder.
    fn copy(&mut self, stream_id: u64, required: usize) -> Result<Section, Error> {
        let copied = self.decoder.take_fields();
        self.uncopied = copied.as_ref().err().map(|_| (stream_id, required));
        Ok(Section { copied: copied.map_err(DecodingError::from)?, required })
    }

    /// Takes the waker of a task that can go on.
    fn take_ready(&mut self) -> Option<Waker> {
        let has_ended = self.ended.is_some();
        let insert_count = if has_ended { usize::MAX } else { self.decoder.insert_count() };
        if let Some(waker) = self.blocked.take_ready(insert_count) {
            return Some(waker);
        }
        if has_ended || !self.is_held() {
            if let Some(waker) = self.held.take_ready(usize::MAX).or_else(|| self.reading.take()) {
                return Some(waker);
            }
        }
        if self.encoder_stream.is_some() && (has_ended || self.encoder.encoder_stream_len() > 0) {
            return self.encoder_stream.take();
        }
        if self.decoder_stream.is_some() && (has_ended || self.decoder.decoder_stream_len() > 0) {
            return self.decoder_stream.take();
        }
        None
    }
}
