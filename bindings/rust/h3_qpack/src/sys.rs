//! Safe calls of the exports of the proved library, as `dist/h3_qpack.h` declares them. Besides, only `heap` has unsafe
//! code, and `generated` the assembly. This module keeps what the header asks of a caller:
//!
//! - An end is what its `_new` wrote. `Drop` frees it once, and it is never copied, for its handle is private.
//! - All memory that is passed is a slice, or the room of a vector. So it is not null, it is as long as it says, and no
//!   length is above `isize::MAX`.
//! - Memory that a call writes is passed by `&mut`, so it overlaps nothing else.
//! - One thread at a time uses an end, for the ends are `Send` and not `Sync`.

use crate::field::{FieldLine, Wish};
use crate::view::FieldView;
use alloc::vec::Vec;
use core::cell::UnsafeCell;
use core::ffi::c_void;
use core::marker::PhantomData;
use core::ptr;
use core::slice;

/// The call did what it was asked to.
pub(crate) const OK: i32 = 0;
/// The allocator refused; the call can be made again.
pub(crate) const NO_MEMORY: i32 = -1;
/// The memory that was passed is too small.
pub(crate) const NO_ROOM: i32 = -2;
/// The section waits for insertions.
pub(crate) const BLOCKED: i32 = -3;
/// An argument is out of its range.
pub(crate) const INVALID: i32 = -4;
/// The section passes the limit on its fields' sizes.
pub(crate) const TOO_LARGE: i32 = -5;
/// Entries would have to go that may still be referenced.
pub(crate) const HELD: i32 = -6;

/// The next field of a section in pieces.
pub(crate) const FIELD: i32 = -8;
/// The end of a section in pieces.
pub(crate) const END: i32 = -9;
/// The prefix of a section in pieces; the call is to be made again.
const PREFIX: i32 = -10;

/// The flag of a field that is never to be indexed.
const NEVER_INDEX: u8 = 0x01;

/// The flag of a field that is to be inserted.
const INSERT: u8 = 0x08;

/// The flag of a field for which nothing is to be inserted.
const REUSE: u8 = 0x10;

/// A borrowed field: `h3_qpack_nv`.
#[repr(C)]
pub(crate) struct Lent<'a> {
    name: *const u8,
    name_len: usize,
    value: *const u8,
    value_len: usize,
    flags: u8,
    lent: PhantomData<&'a [u8]>,
}

impl<'a> Lent<'a> {
    /// A field of these parts.
    pub(crate) fn new(name: &'a [u8], value: &'a [u8], wish: Wish) -> Lent<'a> {
        Lent {
            name: name.as_ptr(),
            name_len: name.len(),
            value: value.as_ptr(),
            value_len: value.len(),
            flags: match wish {
                Wish::Unmarked => 0,
                Wish::Never => NEVER_INDEX,
                Wish::Reuse => REUSE,
                Wish::Insert => INSERT,
            },
            lent: PhantomData,
        }
    }

    /// Has the field reference an equal entry, and insert nothing, unless it is never to be indexed.
    #[cfg(feature = "std")]
    pub(crate) fn insert_nothing(&mut self) {
        if self.flags != NEVER_INDEX {
            self.flags = REUSE;
        }
    }
}

/// What encoding answers: `h3_qpack_encoded`.
#[repr(C)]
pub(crate) struct Encoded {
    pub(crate) status: i32,
    pub(crate) len: usize,
    pub(crate) required: usize,
    pub(crate) size: usize,
}

/// A status and a number of bytes: `h3_qpack_written`.
#[repr(C)]
pub(crate) struct Written {
    pub(crate) status: i32,
    pub(crate) len: usize,
}

/// What receiving answers: `h3_qpack_received`.
#[repr(C)]
pub(crate) struct Received {
    pub(crate) status: i32,
    pub(crate) taken: usize,
    pub(crate) number: u64,
    pub(crate) offset: u64,
}

/// What decoding answers: `h3_qpack_decoded`.
#[repr(C)]
pub(crate) struct Decoded {
    pub(crate) status: i32,
    pub(crate) fields: usize,
    pub(crate) len: usize,
    pub(crate) required: usize,
    pub(crate) number: u64,
    pub(crate) offset: u64,
}

/// What reading a prefix answers: `h3_qpack_prefix`.
#[repr(C)]
pub(crate) struct Prefixed {
    pub(crate) status: i32,
    pub(crate) required: usize,
    pub(crate) base: usize,
    pub(crate) len: usize,
}

/// What reading a piece of a section answers: `h3_qpack_piece`.
#[repr(C)]
pub(crate) struct Piece {
    pub(crate) status: i32,
    pub(crate) taken: usize,
    pub(crate) required: usize,
    pub(crate) number: u64,
    pub(crate) offset: u64,
}

/// What decoding without an end answers: `h3_qpack_decoded_alone`.
#[repr(C)]
pub(crate) struct DecodedAlone {
    pub(crate) status: i32,
    pub(crate) fields: usize,
    pub(crate) len: usize,
    pub(crate) number: u64,
    pub(crate) offset: u64,
}

/// A field's lengths and flags: `h3_qpack_field`.
#[repr(C)]
#[derive(Clone, Copy)]
pub(crate) struct Given {
    pub(crate) status: i32,
    flags: u32,
    pub(crate) name_len: usize,
    pub(crate) value_len: usize,
}

impl Given {
    /// Whether the field is never to be indexed.
    pub(crate) fn is_never_indexed(&self) -> bool {
        self.flags & u32::from(NEVER_INDEX) != 0
    }
}

/// Where a field lies in the text of its section: `h3q_view`.
#[repr(C)]
struct Seen {
    text: *const u8,
    start: usize,
    name_len: usize,
    value_len: usize,
    flags: u32,
    static_name: i16,
    static_field: i16,
}

impl Seen {
    /// What a call is passed to write to.
    fn nowhere() -> Seen {
        Seen { text: ptr::null(), start: 0, name_len: 0, value_len: 0, flags: 0, static_name: -1, static_field: -1 }
    }

    /// Returns the field.
    ///
    /// # Safety
    /// A call wrote it, and for `'a` no call changes the text.
    unsafe fn view<'a>(&self) -> FieldView<'a> {
        // SAFETY: the name begins at `start` of the text, and the value behind it. The text is not null, whatever its
        // length, and the caller says that it stays.
        let (name, value) = unsafe {
            let name = self.text.add(self.start);
            let value = name.add(self.name_len);
            (slice::from_raw_parts(name, self.name_len), slice::from_raw_parts(value, self.value_len))
        };
        let never_indexed = self.flags & u32::from(NEVER_INDEX) != 0;
        FieldView::new(FieldLine { name, value, never_indexed }, self.static_name, self.static_field)
    }
}

/// `h3_qpack_encoder`, `h3_qpack_decoder` and `h3_qpack_section_reader`, which are alike.
#[repr(C)]
#[derive(Clone, Copy)]
struct Handle {
    at: *mut c_void,
}

/// Declares exports. build.rs puts a prefix before the names of those that the crate includes as assembly, so that a
/// program can link the library in C too. On Windows they are called as on the other systems of the processor, for they
/// are the same assembly.
macro_rules! declare {
    ($($declarations:tt)*) => {
        #[cfg(not(windows))]
        declare_as! { "C" $($declarations)* }
        #[cfg(windows)]
        declare_as! { "sysv64" $($declarations)* }
    };
}

macro_rules! declare_as {
    ($abi:literal $(fn $name:ident($($argument:ident: $kind:ty),* $(,)?) $(-> $result:ty)?;)*) => {
        extern $abi {
            $(
                #[link_name = concat!(env!("H3_QPACK_PREFIX"), stringify!($name))]
                fn $name($($argument: $kind),*) $(-> $result)?;
            )*
        }
    };
}

declare! {
    fn h3q_version() -> u32;
    fn h3q_encoder_new(
        max_capacity: usize,
        max_blocked: usize,
        capacity: usize,
        most_unacknowledged: usize,
        seed: u64,
        at: *mut *mut c_void,
    ) -> i32;
    fn h3q_encoder_free(encoder: Handle);
    fn h3q_encoder_encode(
        encoder: *mut Handle,
        stream_id: u64,
        fields: *const Lent<'_>,
        fields_len: usize,
        section: *mut u8,
        section_len: usize,
    ) -> Encoded;
    fn h3q_encoder_stream(encoder: *mut Handle, out: *mut u8, out_len: usize) -> usize;
    fn h3q_encoder_stream_len(encoder: *mut Handle) -> usize;
    fn h3q_encoder_read(encoder: *mut Handle, bytes: *const u8, bytes_len: usize) -> Received;
    fn h3q_encoder_set_peer_settings(encoder: *mut Handle, max_capacity: usize, max_blocked: usize) -> i32;
    fn h3q_encoder_set_capacity(encoder: *mut Handle, capacity: usize) -> i32;
    fn h3q_encoder_shrink(encoder: *mut Handle, capacity: usize) -> i32;
    fn h3q_encoder_pending_capacity(encoder: *mut Handle, capacity: *mut usize) -> u32;
    fn h3q_encoder_blocked(encoder: *mut Handle) -> usize;
    fn h3q_encoder_unacknowledged(encoder: *mut Handle) -> usize;
    fn h3q_encoder_insert_count(encoder: *mut Handle) -> usize;
    fn h3q_encoder_known_received_count(encoder: *mut Handle) -> usize;
    fn h3q_encoder_capacity(encoder: *mut Handle) -> usize;
    fn h3q_encoder_table_size(encoder: *mut Handle) -> usize;
    fn h3q_encoder_entries(encoder: *mut Handle) -> usize;
    fn h3q_encoder_entry(encoder: *mut Handle, index: usize, out: *mut u8, out_len: usize) -> Given;
    fn h3q_decoder_new(max_capacity: usize, max_blocked: usize, max_section_size: u64, at: *mut *mut c_void) -> i32;
    fn h3q_decoder_free(decoder: Handle);
    fn h3q_decoder_prefix(decoder: *mut Handle, section: *const u8, section_len: usize) -> Prefixed;
    fn h3q_decoder_decode(decoder: *mut Handle, stream_id: u64, section: *const u8, section_len: usize) -> Decoded;
    fn h3q_decoder_fields(
        decoder: *mut Handle,
        fields: *mut Given,
        fields_len: usize,
        out: *mut u8,
        out_len: usize,
    ) -> Written;
    fn h3q_decoder_view(decoder: *mut Handle, index: usize, view: *mut Seen) -> i32;
    fn h3q_decoder_read(decoder: *mut Handle, bytes: *const u8, bytes_len: usize) -> Received;
    fn h3q_decoder_insert_count(decoder: *mut Handle) -> usize;
    fn h3q_decoder_blocked(decoder: *mut Handle) -> usize;
    fn h3q_decoder_capacity(decoder: *mut Handle) -> usize;
    fn h3q_decoder_table_size(decoder: *mut Handle) -> usize;
    fn h3q_decoder_entries(decoder: *mut Handle) -> usize;
    fn h3q_decoder_entry(decoder: *mut Handle, index: usize, out: *mut u8, out_len: usize) -> Given;
    fn h3q_decoder_next_ready(decoder: *mut Handle, stream_id: *mut u64) -> u32;
    fn h3q_decoder_stream(decoder: *mut Handle, out: *mut u8, out_len: usize) -> usize;
    fn h3q_decoder_stream_len(decoder: *mut Handle) -> usize;
    fn h3q_decoder_cancel(decoder: *mut Handle, stream_id: u64) -> i32;
    fn h3q_decoder_read_section(
        decoder: *mut Handle,
        reader: *mut Handle,
        bytes: *const u8,
        bytes_len: usize,
        last: u32,
    ) -> Piece;
    fn h3q_reader_new(stream_id: u64, at: *mut *mut c_void) -> i32;
    fn h3q_reader_free(reader: Handle);
    fn h3q_reader_view(reader: *mut Handle, view: *mut Seen) -> i32;
    fn h3q_reader_waiting(reader: *mut Handle) -> usize;
    fn h3q_encode_stateless(
        fields: *const Lent<'_>,
        fields_len: usize,
        section: *mut u8,
        section_len: usize,
    ) -> Written;
    fn h3q_decode_stateless(
        section: *const u8,
        section_len: usize,
        max_section_size: u64,
        fields: *mut Given,
        fields_len: usize,
        out: *mut u8,
        out_len: usize,
    ) -> DecodedAlone;
}

/// The version of the archive: 65,536 for each breaking change, and 1 for each addition.
pub(crate) fn version() -> u32 {
    // SAFETY: the call takes nothing, and reads nothing but a constant.
    unsafe { h3q_version() }
}

/// Returns the room after the items of a vector, which a call writes. It may not be initialised; no call reads it.
fn room_of<T>(items: &mut Vec<T>) -> (*mut T, usize) {
    let room = items.spare_capacity_mut();
    (room.as_mut_ptr().cast(), room.len())
}

/// Counts items as written that a call wrote to the spare room of a vector.
///
/// # Safety
/// The first `len` items of that room are initialised.
unsafe fn take_written<T>(items: &mut Vec<T>, len: usize) {
    let len = items.len() + len;
    assert!(len <= items.capacity(), "a call wrote past its room");
    // SAFETY: so many lie within the capacity, and the caller says that they are initialised.
    unsafe { items.set_len(len) }
}

/// Takes a name and a value for written, if a call wrote them to the spare room of a vector.
///
/// # Safety
/// At status OK the bytes of both are initialised there.
unsafe fn take_given(bytes: &mut Vec<u8>, given: &Given) {
    if given.status == OK {
        // SAFETY: the caller says that they are initialised.
        unsafe { take_written(bytes, given.name_len + given.value_len) }
    }
}

/// Encodes fields without a table, to the room after the items of a vector.
pub(crate) fn encode_stateless(fields: &[Lent<'_>], section: &mut Vec<u8>) -> Written {
    let (room, room_len) = room_of(section);
    // SAFETY: the fields and the room are lent for the length of the call, and do not overlap. At status OK the call
    // wrote `len` bytes to the room.
    unsafe {
        let written = h3q_encode_stateless(fields.as_ptr(), fields.len(), room, room_len);
        if written.status == OK {
            take_written(section, written.len);
        }
        written
    }
}

/// Decodes a section without a table, to the spare room of two vectors: each field's lengths and flags, and the names and
/// values without gaps.
pub(crate) fn decode_stateless(
    section: &[u8],
    max_section_size: u64,
    told: &mut Vec<Given>,
    bytes: &mut Vec<u8>,
) -> DecodedAlone {
    let ((fields, fields_len), (room, room_len)) = (room_of(told), room_of(bytes));
    // SAFETY: the section and both rooms are lent for the length of the call, and do not overlap. At status OK the call
    // wrote `fields` items and `len` bytes to the rooms.
    unsafe {
        let decoded =
            h3q_decode_stateless(section.as_ptr(), section.len(), max_section_size, fields, fields_len, room, room_len);
        if decoded.status == OK {
            take_written(told, decoded.fields);
            take_written(bytes, decoded.len);
        }
        decoded
    }
}

/// An end whose table can be read.
pub(crate) trait Table {
    /// Returns how many entries the table has.
    fn entries(&self) -> usize;

    /// Writes the name and the value of an entry to the spare room of a vector, if both fit. Index 0 is the newest entry.
    fn entry(&self, index: usize, bytes: &mut Vec<u8>) -> Given;
}

/// An encoding end. Its cell makes it no `Sync`: a call that only reads also has the end to itself.
pub(crate) struct Encoder {
    handle: UnsafeCell<Handle>,
}

// SAFETY: an end owns what lies behind its pointer, which came of malloc, and free may be called by another thread. The
// library has no state beside its ends, and nothing that belongs to a thread.
unsafe impl Send for Encoder {}

impl Encoder {
    /// Makes an end, or returns the status of the error.
    pub(crate) fn new(
        max_capacity: usize,
        max_blocked: usize,
        capacity: usize,
        most_unacknowledged: usize,
        seed: u64,
    ) -> Result<Encoder, i32> {
        let mut at = ptr::null_mut();
        // SAFETY: `at` is there for the call, which writes to it.
        match unsafe { h3q_encoder_new(max_capacity, max_blocked, capacity, most_unacknowledged, seed, &mut at) } {
            OK => Ok(Encoder { handle: UnsafeCell::new(Handle { at }) }),
            status => Err(status),
        }
    }

    /// Encodes fields for a stream, to the room after the items of a vector.
    pub(crate) fn encode(&mut self, stream_id: u64, fields: &[Lent<'_>], section: &mut Vec<u8>) -> Encoded {
        let (room, room_len) = room_of(section);
        let handle = self.handle.get_mut();
        // SAFETY: the end is one that `new` made; the fields and the room are lent for the length of the call, and do
        // not overlap. At status OK the call wrote `len` bytes to the room.
        unsafe {
            let encoded = h3q_encoder_encode(handle, stream_id, fields.as_ptr(), fields.len(), room, room_len);
            if encoded.status == OK {
                take_written(section, encoded.len);
            }
            encoded
        }
    }

    /// Takes bytes of the encoder stream, as many as there is room for.
    pub(crate) fn stream(&mut self, out: &mut [u8]) -> usize {
        // SAFETY: the end is one that `new` made, and `out` is lent for the length of the call.
        unsafe { h3q_encoder_stream(self.handle.get_mut(), out.as_mut_ptr(), out.len()) }
    }

    /// How many bytes of the encoder stream are to be taken.
    pub(crate) fn stream_len(&self) -> usize {
        // SAFETY: the end is one that `new` made; it is no `Sync`, so no other call has it, and this one keeps it as
        // it is.
        unsafe { h3q_encoder_stream_len(self.handle.get()) }
    }

    /// Takes bytes of the decoder stream.
    pub(crate) fn read(&mut self, bytes: &[u8]) -> Received {
        // SAFETY: the end is one that `new` made, and the bytes are lent for the length of the call.
        unsafe { h3q_encoder_read(self.handle.get_mut(), bytes.as_ptr(), bytes.len()) }
    }

    /// Applies the settings of the peer, and returns a status.
    pub(crate) fn set_peer_settings(&mut self, max_capacity: usize, max_blocked: usize) -> i32 {
        // SAFETY: the end is one that `new` made.
        unsafe { h3q_encoder_set_peer_settings(self.handle.get_mut(), max_capacity, max_blocked) }
    }

    /// Sets the capacity, and answers a status.
    pub(crate) fn set_capacity(&mut self, capacity: usize) -> i32 {
        // SAFETY: the end is one that `new` made.
        unsafe { h3q_encoder_set_capacity(self.handle.get_mut(), capacity) }
    }

    /// Sets the capacity now or has it wait, and answers a status.
    pub(crate) fn shrink(&mut self, capacity: usize) -> i32 {
        // SAFETY: the end is one that `new` made.
        unsafe { h3q_encoder_shrink(self.handle.get_mut(), capacity) }
    }

    /// Returns the capacity that waits, in bytes.
    pub(crate) fn pending_capacity(&self) -> Option<usize> {
        let mut capacity = 0;
        // SAFETY: as for `stream_len`; `capacity` is there for the call, which may write to it.
        let is_one = unsafe { h3q_encoder_pending_capacity(self.handle.get(), &mut capacity) } != 0;
        is_one.then_some(capacity)
    }

    /// Returns how many streams may be blocked.
    pub(crate) fn blocked(&self) -> usize {
        // SAFETY: as for `stream_len`.
        unsafe { h3q_encoder_blocked(self.handle.get()) }
    }

    /// Returns how many sections wait for acknowledgments.
    pub(crate) fn unacknowledged(&self) -> usize {
        // SAFETY: as for `stream_len`.
        unsafe { h3q_encoder_unacknowledged(self.handle.get()) }
    }

    /// Returns how many insertions were made.
    pub(crate) fn insert_count(&self) -> usize {
        // SAFETY: as for `stream_len`.
        unsafe { h3q_encoder_insert_count(self.handle.get()) }
    }

    /// Returns how many insertions the peer is known to have received.
    pub(crate) fn known_received_count(&self) -> usize {
        // SAFETY: as for `stream_len`.
        unsafe { h3q_encoder_known_received_count(self.handle.get()) }
    }

    /// Returns the capacity of the table, in bytes.
    pub(crate) fn capacity(&self) -> usize {
        // SAFETY: as for `stream_len`.
        unsafe { h3q_encoder_capacity(self.handle.get()) }
    }

    /// Returns the size of the table, in bytes.
    pub(crate) fn table_size(&self) -> usize {
        // SAFETY: as for `stream_len`.
        unsafe { h3q_encoder_table_size(self.handle.get()) }
    }
}

impl Table for Encoder {
    fn entries(&self) -> usize {
        // SAFETY: as for `stream_len`.
        unsafe { h3q_encoder_entries(self.handle.get()) }
    }

    fn entry(&self, index: usize, bytes: &mut Vec<u8>) -> Given {
        let (room, room_len) = room_of(bytes);
        // SAFETY: as for `stream_len`; the room is lent for the length of the call. At status OK the call wrote both
        // lengths to the room.
        unsafe {
            let given = h3q_encoder_entry(self.handle.get(), index, room, room_len);
            take_given(bytes, &given);
            given
        }
    }
}

impl Drop for Encoder {
    fn drop(&mut self) {
        // SAFETY: the end is one that `new` made, and nothing can use it behind its `drop`.
        unsafe { h3q_encoder_free(*self.handle.get_mut()) }
    }
}

/// A decoding end. Its cell makes it no `Sync`: a call that only reads also has the end to itself.
pub(crate) struct Decoder {
    handle: UnsafeCell<Handle>,
    /// The number of fields of the section that was decoded last, and the bytes of their names and values.
    fields: usize,
    fields_len: usize,
}

// SAFETY: as for `Encoder`.
unsafe impl Send for Decoder {}

impl Decoder {
    /// Makes an end, or returns the status of the error.
    pub(crate) fn new(max_capacity: usize, max_blocked: usize, max_section_size: u64) -> Result<Decoder, i32> {
        let mut at = ptr::null_mut();
        // SAFETY: `at` is there for the call, which writes to it.
        match unsafe { h3q_decoder_new(max_capacity, max_blocked, max_section_size, &mut at) } {
            OK => Ok(Decoder { handle: UnsafeCell::new(Handle { at }), fields: 0, fields_len: 0 }),
            status => Err(status),
        }
    }

    /// Reads the prefix of a section.
    pub(crate) fn peek_prefix(&self, section: &[u8]) -> Prefixed {
        // SAFETY: the end is one that `new` made, and the section is lent for the length of the call.
        unsafe { h3q_decoder_prefix(self.handle.get(), section.as_ptr(), section.len()) }
    }

    /// Decodes a section of a stream.
    pub(crate) fn decode(&mut self, stream_id: u64, section: &[u8]) -> Decoded {
        // SAFETY: the end is one that `new` made, and the section is lent for the length of the call.
        let decoded = unsafe { h3q_decoder_decode(self.handle.get_mut(), stream_id, section.as_ptr(), section.len()) };
        (self.fields, self.fields_len) = if decoded.status == OK { (decoded.fields, decoded.len) } else { (0, 0) };
        decoded
    }

    /// Returns the number of fields of the section that was decoded last.
    pub(crate) fn field_count(&self) -> usize {
        self.fields
    }

    /// Returns the number of bytes of their names and values.
    pub(crate) fn fields_len(&self) -> usize {
        self.fields_len
    }

    /// Writes the fields of the section that was decoded last to the spare room of two vectors, if all fit: each field's
    /// lengths and flags, and the names and values without gaps.
    pub(crate) fn fields(&mut self, told: &mut Vec<Given>, bytes: &mut Vec<u8>) -> Written {
        let ((fields, fields_len), (room, room_len)) = (room_of(told), room_of(bytes));
        // SAFETY: the end is one that `new` made, and both rooms are lent for the length of the call, and do not overlap.
        // At status OK the call wrote an item for each field, as many as its last decode returned, and `len` bytes.
        unsafe {
            let written = h3q_decoder_fields(self.handle.get_mut(), fields, fields_len, room, room_len);
            if written.status == OK {
                take_written(told, self.fields);
                take_written(bytes, written.len);
            }
            written
        }
    }

    /// Returns the field at an index of the section that was decoded last, where it lies.
    pub(crate) fn view(&self, index: usize) -> Option<FieldView<'_>> {
        let mut seen = Seen::nowhere();
        // SAFETY: as for `insert_count`; `seen` is there for the call, which may write to it. At status OK it did. The text
        // is the end's, and only calls that borrow the end by `&mut` change it.
        unsafe {
            let status = h3q_decoder_view(self.handle.get(), index, &mut seen);
            (status == OK).then(|| seen.view())
        }
    }

    /// Takes bytes of the encoder stream.
    pub(crate) fn read(&mut self, bytes: &[u8]) -> Received {
        // SAFETY: the end is one that `new` made, and the bytes are lent for the length of the call.
        unsafe { h3q_decoder_read(self.handle.get_mut(), bytes.as_ptr(), bytes.len()) }
    }

    /// How many insertions were ever received.
    pub(crate) fn insert_count(&self) -> usize {
        // SAFETY: the end is one that `new` made; it is no `Sync`, so no other call has it, and this one keeps it as
        // it is.
        unsafe { h3q_decoder_insert_count(self.handle.get()) }
    }

    /// How many streams are blocked.
    pub(crate) fn blocked(&self) -> usize {
        // SAFETY: as for `insert_count`.
        unsafe { h3q_decoder_blocked(self.handle.get()) }
    }

    /// Returns the capacity of the table, in bytes.
    pub(crate) fn capacity(&self) -> usize {
        // SAFETY: as for `insert_count`.
        unsafe { h3q_decoder_capacity(self.handle.get()) }
    }

    /// Returns the size of the table, in bytes.
    pub(crate) fn table_size(&self) -> usize {
        // SAFETY: as for `insert_count`.
        unsafe { h3q_decoder_table_size(self.handle.get()) }
    }

    /// A stream whose section waits no more.
    pub(crate) fn next_ready(&self) -> Option<u64> {
        let mut stream_id = 0;
        // SAFETY: as for `insert_count`; `stream_id` is there for the call, which may write to it.
        let is_one = unsafe { h3q_decoder_next_ready(self.handle.get(), &mut stream_id) } != 0;
        is_one.then_some(stream_id)
    }

    /// Takes bytes of the decoder stream, as many as there is room for.
    pub(crate) fn stream(&mut self, out: &mut [u8]) -> usize {
        // SAFETY: the end is one that `new` made, and `out` is lent for the length of the call.
        unsafe { h3q_decoder_stream(self.handle.get_mut(), out.as_mut_ptr(), out.len()) }
    }

    /// How many bytes of the decoder stream are to be taken.
    pub(crate) fn stream_len(&self) -> usize {
        // SAFETY: as for `insert_count`.
        unsafe { h3q_decoder_stream_len(self.handle.get()) }
    }

    /// Gives a stream up, and answers a status.
    pub(crate) fn cancel(&mut self, stream_id: u64) -> i32 {
        // SAFETY: the end is one that `new` made.
        unsafe { h3q_decoder_cancel(self.handle.get_mut(), stream_id) }
    }
}

impl Table for Decoder {
    fn entries(&self) -> usize {
        // SAFETY: as for `insert_count`.
        unsafe { h3q_decoder_entries(self.handle.get()) }
    }

    fn entry(&self, index: usize, bytes: &mut Vec<u8>) -> Given {
        let (room, room_len) = room_of(bytes);
        // SAFETY: as for `insert_count`; the room is lent for the length of the call. At status OK the call wrote both
        // lengths to the room.
        unsafe {
            let given = h3q_decoder_entry(self.handle.get(), index, room, room_len);
            take_given(bytes, &given);
            given
        }
    }
}

impl Drop for Decoder {
    fn drop(&mut self) {
        // SAFETY: the end is one that `new` made, and nothing can use it behind its `drop`.
        unsafe { h3q_decoder_free(*self.handle.get_mut()) }
    }
}

/// A reader of a stream's sections in pieces. Its cell makes it no `Sync`, as an end's does.
pub(crate) struct Reader {
    handle: UnsafeCell<Handle>,
}

// SAFETY: as for `Encoder`.
unsafe impl Send for Reader {}

impl Reader {
    /// Makes a reader, or returns the status of the error.
    pub(crate) fn new(stream_id: u64) -> Result<Reader, i32> {
        let mut at = ptr::null_mut();
        // SAFETY: `at` is there for the call, which writes to it.
        match unsafe { h3q_reader_new(stream_id, &mut at) } {
            OK => Ok(Reader { handle: UnsafeCell::new(Handle { at }) }),
            status => Err(status),
        }
    }

    /// Reads bytes of a section up to its next field.
    pub(crate) fn read(&mut self, decoder: &mut Decoder, bytes: &[u8], last: bool) -> Piece {
        let mut taken = 0;
        loop {
            let rest = &bytes[taken..];
            let (end, handle) = (decoder.handle.get_mut(), self.handle.get_mut());
            // SAFETY: the end and the reader are those that their `new` made, and the bytes are lent for the length of
            // the call.
            let piece = unsafe { h3q_decoder_read_section(end, handle, rest.as_ptr(), rest.len(), u32::from(last)) };
            taken += piece.taken;
            if piece.status != PREFIX {
                return Piece { taken, ..piece };
            }
        }
    }

    /// Returns the field that was read last, where it lies, if the last call of `read` gave one.
    pub(crate) fn view(&self) -> Option<FieldView<'_>> {
        let mut seen = Seen::nowhere();
        // SAFETY: the reader is one that `new` made; it is no `Sync`, so no other call has it, and this one keeps it as it
        // is; `seen` is there for the call, which may write to it. At status OK it did. The text is the reader's, and only
        // calls that borrow the reader by `&mut` change it.
        unsafe {
            let status = h3q_reader_view(self.handle.get(), &mut seen);
            (status == OK).then(|| seen.view())
        }
    }

    /// Returns how many bytes it keeps.
    pub(crate) fn waiting(&self) -> usize {
        // SAFETY: as for `view`.
        unsafe { h3q_reader_waiting(self.handle.get()) }
    }
}

impl Drop for Reader {
    fn drop(&mut self) {
        // SAFETY: the reader is one that `new` made, and nothing can use it behind its `drop`.
        unsafe { h3q_reader_free(*self.handle.get_mut()) }
    }
}

#[cfg(test)]
mod tests {
    use super::{Decoded, DecodedAlone, Encoded, Given, Handle, Lent, Piece, Prefixed, Received, Seen, Written, OK};
    use crate::field::Wish;
    use alloc::format;
    use alloc::vec;
    use alloc::vec::Vec;
    use core::mem::size_of_val;
    use core::ptr;

    /// The structs of the header, as a C compiler lays them out.
    const TABLE: &str = include_str!("../tests/layout.txt");

    /// The rows that the table has of a struct of the header.
    fn rows_of(name: &str) -> Vec<&'static str> {
        TABLE.lines().filter(|line| line.split(' ').next() == Some(name)).collect()
    }

    /// Asserts that a value and its fields have the sizes and offsets that the table has of a struct of the header. Each
    /// field is followed by its name in C.
    macro_rules! assert_laid_out {
        ($name:literal, $value:expr, $($field:ident is $c_name:literal),*) => {{
            let value = $value;
            let start = ptr::addr_of!(value) as usize;
            let mut rows = vec![format!("{} - 0 {}", $name, size_of_val(&value))];
            $(
                let offset = ptr::addr_of!(value.$field) as usize - start;
                rows.push(format!("{} {} {} {}", $name, $c_name, offset, size_of_val(&value.$field)));
            )*
            assert_eq!(rows, rows_of($name));
        }};
    }

    #[test]
    fn arguments_are_laid_out_as_in_c() {
        assert_laid_out!(
            "h3_qpack_nv", Lent::new(b"", b"", Wish::Unmarked),
            name is "name", name_len is "namelen", value is "value", value_len is "valuelen", flags is "flags"
        );
        assert_laid_out!("h3_qpack_encoder", Handle { at: ptr::null_mut() }, at is "at");
        assert_laid_out!("h3_qpack_decoder", Handle { at: ptr::null_mut() }, at is "at");
        assert_laid_out!("h3_qpack_section_reader", Handle { at: ptr::null_mut() }, at is "at");
    }

    #[test]
    fn results_of_encoding_are_laid_out_as_in_c() {
        assert_laid_out!(
            "h3_qpack_encoded", Encoded { status: OK, len: 0, required: 0, size: 0 },
            status is "status", len is "len", required is "required", size is "size"
        );
        assert_laid_out!("h3_qpack_written", Written { status: OK, len: 0 }, status is "status", len is "len");
    }

    #[test]
    fn results_of_decoding_are_laid_out_as_in_c() {
        assert_laid_out!(
            "h3_qpack_received", Received { status: OK, taken: 0, number: 0, offset: 0 },
            status is "status", taken is "taken", number is "number", offset is "offset"
        );
        assert_laid_out!(
            "h3_qpack_decoded", Decoded { status: OK, fields: 0, len: 0, required: 0, number: 0, offset: 0 },
            status is "status", fields is "fields", len is "len", required is "required", number is "number",
            offset is "offset"
        );
        assert_laid_out!(
            "h3_qpack_prefix", Prefixed { status: OK, required: 0, base: 0, len: 0 },
            status is "status", required is "required", base is "base", len is "len"
        );
        assert_laid_out!(
            "h3_qpack_piece", Piece { status: OK, taken: 0, required: 0, number: 0, offset: 0 },
            status is "status", taken is "taken", required is "required", number is "number", offset is "offset"
        );
        assert_laid_out!(
            "h3_qpack_decoded_alone", DecodedAlone { status: OK, fields: 0, len: 0, number: 0, offset: 0 },
            status is "status", fields is "fields", len is "len", number is "number", offset is "offset"
        );
        assert_laid_out!(
            "h3_qpack_field", Given { status: OK, flags: 0, name_len: 0, value_len: 0 },
            status is "status", flags is "flags", name_len is "namelen", value_len is "valuelen"
        );
        assert_laid_out!(
            "h3q_view", Seen::nowhere(),
            text is "text", start is "start", name_len is "namelen", value_len is "valuelen", flags is "flags",
            static_name is "static_name", static_field is "static_field"
        );
    }
}
