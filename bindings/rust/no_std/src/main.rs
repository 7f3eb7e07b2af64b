//! Both ends of a connection, and a section without one, in a program without the standard library. All memory comes from
//! an allocator over one array, which refuses what does not fit. Ends with status 0 if each field arrived and the allocator
//! has all memory back, and otherwise with the number of the step that failed.
#![no_std]
#![no_main]

use core::alloc::{GlobalAlloc, Layout};
use core::cell::UnsafeCell;
use core::panic::PanicInfo;
use core::ptr;
use core::sync::atomic::{AtomicUsize, Ordering};
use h3_qpack::connection::{
    ConnectionDecoder, ConnectionEncoder, DecoderSettings, EncoderSettings, FieldLine, Reading, SettingsError,
};
use h3_qpack::{decode_stateless, encode_stateless, HeaderField};

extern crate alloc;
use alloc::vec::Vec;

/// The memory of the program, in bytes.
const ROOM: usize = 1 << 20;

/// An allocator that takes blocks one after the other, and starts anew when none is left.
#[repr(align(64))]
struct Arena {
    room: UnsafeCell<[u8; ROOM]>,
    taken: AtomicUsize,
    blocks: AtomicUsize,
}

// SAFETY: the program has one thread.
unsafe impl Sync for Arena {}

// SAFETY: each block lies behind those before it, aligned, and within the array, which is aligned to 64.
unsafe impl GlobalAlloc for Arena {
    unsafe fn alloc(&self, layout: Layout) -> *mut u8 {
        let start = (self.taken.load(Ordering::Relaxed) + layout.align() - 1) & !(layout.align() - 1);
        if layout.align() > 64 || layout.size() > ROOM - start.min(ROOM) {
            return ptr::null_mut();
        }
        self.taken.store(start + layout.size(), Ordering::Relaxed);
        self.blocks.fetch_add(1, Ordering::Relaxed);
        self.room.get().cast::<u8>().add(start)
    }

    unsafe fn dealloc(&self, _: *mut u8, _: Layout) {
        if self.blocks.fetch_sub(1, Ordering::Relaxed) == 1 {
            self.taken.store(0, Ordering::Relaxed);
        }
    }
}

#[global_allocator]
static ARENA: Arena =
    Arena { room: UnsafeCell::new([0; ROOM]), taken: AtomicUsize::new(0), blocks: AtomicUsize::new(0) };

/// The number of a step that failed.
struct Failed(i32);

/// Has a step fail with its number, unless it is as it must be.
fn check(step: i32, is_right: bool) -> Result<(), Failed> {
    if is_right {
        Ok(())
    } else {
        Err(Failed(step))
    }
}

/// A section is blocked, its insertion arrives, and the acknowledgment goes back.
fn connect() -> Result<(), Failed> {
    let fields = [FieldLine::new(":path", "/"), FieldLine::new("x-tenant", "17")];
    let settings = EncoderSettings::new(4096, 16).with_seed(0x5eed);
    let mut encoder = ConnectionEncoder::new(settings).map_err(|_| Failed(1))?;
    let mut decoder = ConnectionDecoder::new(DecoderSettings::new(4096, 16)).map_err(|_| Failed(2))?;
    let (mut section, mut instructions, mut answers) = (Vec::new(), Vec::new(), Vec::new());
    check(3, encoder.encode(4, fields, &mut section) == Ok(1))?;
    check(4, decoder.decode(4, &section) == Ok(Reading::Blocked { required: 1 }))?;
    encoder.take_encoder_stream(&mut instructions).map_err(|_| Failed(5))?;
    check(6, decoder.receive(&instructions).is_ok() && decoder.next_ready() == Some(4))?;
    check(7, decoder.decode(4, &section) == Ok(Reading::Fields { count: 2, required: 1 }))?;
    check(8, decoder.fields().map_err(|_| Failed(8))?.eq(fields))?;
    decoder.take_decoder_stream(&mut answers).map_err(|_| Failed(9))?;
    check(10, encoder.receive(&answers).is_ok() && encoder.known_received_count() == 1)
}

/// A section without a connection; and without a random number there is no seed.
fn decode_alone() -> Result<(), Failed> {
    let (fields, mut section) = ([HeaderField::new("a", "b")], Vec::new());
    check(20, encode_stateless(&mut section, &fields) == Ok(34))?;
    check(21, decode_stateless(&section, 34).map_err(|_| Failed(21))?.fields == fields)?;
    check(22, ConnectionEncoder::new(EncoderSettings::new(0, 0)).err() == Some(SettingsError::NoSeed))
}

/// An end that finds no memory says so.
fn exhaust() -> Result<(), Failed> {
    let rest = ROOM - ARENA.taken.load(Ordering::Relaxed);
    let held = Vec::<u8>::with_capacity(rest);
    let refused = ConnectionDecoder::new(DecoderSettings::new(4096, 16));
    drop(held);
    check(30, refused.err() == Some(SettingsError::NoMemory))
}

fn run() -> Result<(), Failed> {
    connect()?;
    decode_alone()?;
    exhaust()?;
    check(40, ARENA.blocks.load(Ordering::Relaxed) == 0)
}

// The C library, for copying bytes and for the start of the program.
#[link(name = "c")]
extern "C" {}

/// The program, as the C library starts it.
#[no_mangle]
pub extern "C" fn main(_: i32, _: *const *const u8) -> i32 {
    match run() {
        Ok(()) => 0,
        Err(Failed(step)) => step,
    }
}

#[panic_handler]
fn stop(_: &PanicInfo<'_>) -> ! {
    loop {}
}
