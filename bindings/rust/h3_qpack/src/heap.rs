//! The functions that the library calls for memory, over the program's global allocator. They keep to the contracts of
//! `dist/heap.c`, in whose place they are. Nothing proves that they do: they are part of what you trust.
//!
//! The library frees a block without its length, which the allocator asks for. So each block has a head that holds it.

use alloc::alloc::{alloc, dealloc, realloc, Layout};
use core::ptr;
use core::sync::atomic::AtomicU8;

/// The length of a block's head, in bytes, and the alignment of every block. The library asks for divisors of it.
const HEAD: usize = 16;

/// What a request for memory came to: the block, or if there is none, a byte of nobody's. `rattle_tried` in C.
#[repr(C)]
pub(crate) struct Tried {
    is_there: bool,
    block: *mut u8,
}

impl Tried {
    /// Returns what a request came to that the allocator answered with `start`, for a block of `len` bytes.
    ///
    /// # Safety
    /// `start` is null, or begins a block of `HEAD + len` bytes that nobody else uses.
    unsafe fn of(start: *mut u8, len: usize) -> Tried {
        static NOTHING: AtomicU8 = AtomicU8::new(0);
        if start.is_null() {
            return Tried { is_there: false, block: &NOTHING as *const AtomicU8 as *mut u8 };
        }
        // SAFETY: the head has room for a length, and is aligned for one.
        unsafe {
            start.cast::<usize>().write(len);
            Tried { is_there: true, block: start.add(HEAD) }
        }
    }
}

/// Returns the layout of a block of `len` bytes behind its head, unless it is too long for any allocator.
fn layout_of(len: usize) -> Option<Layout> {
    Layout::from_size_align(len.checked_add(HEAD)?, HEAD).ok()
}

/// Returns where a block begins for the allocator, and its layout there.
///
/// # Safety
/// `block` is of [`allocate`] or [`reallocate`].
unsafe fn start_of(block: *mut u8) -> (*mut u8, Layout) {
    // SAFETY: the head lies before the block, and holds the length with which the block was asked for. That had a layout.
    unsafe {
        let start = block.sub(HEAD);
        let len = start.cast::<usize>().read();
        (start, Layout::from_size_align_unchecked(len + HEAD, HEAD))
    }
}

/// Allocates `len` bytes, or `align` bytes if `len` is 0. The alignment divides [`HEAD`].
#[export_name = concat!(env!("H3_QPACK_PREFIX"), "rattle_alloc")]
pub(crate) extern "C" fn allocate(len: usize, align: usize) -> Tried {
    let len = if len == 0 { align } else { len };
    // SAFETY: a layout is not empty, for it has the head; what the allocator returned is the block's.
    unsafe { Tried::of(layout_of(len).map_or(ptr::null_mut(), |layout| alloc(layout)), len) }
}

/// Makes the block one of `len` bytes, or of `align` if `len` is 0. It may move, and keeps the bytes that fit. Without
/// memory it stays as it is.
///
/// # Safety
/// `block` is of [`allocate`] or of this function, and is not used afterwards if another one is returned.
#[export_name = concat!(env!("H3_QPACK_PREFIX"), "rattle_realloc")]
pub(crate) unsafe extern "C" fn reallocate(block: *mut u8, _kept: usize, len: usize, align: usize) -> Tried {
    let len = if len == 0 { align } else { len };
    // SAFETY: the caller says that the block is one; the new length has a layout, so it is below `isize::MAX`.
    unsafe {
        let (start, layout) = start_of(block);
        Tried::of(layout_of(len).map_or(ptr::null_mut(), |new| realloc(start, layout, new.size())), len)
    }
}

/// Frees a block.
///
/// # Safety
/// `block` is of [`allocate`] or [`reallocate`], and is not used afterwards.
#[export_name = concat!(env!("H3_QPACK_PREFIX"), "rattle_dealloc")]
pub(crate) unsafe extern "C" fn deallocate(block: *mut u8) {
    // SAFETY: the caller says that the block is one.
    unsafe {
        let (start, layout) = start_of(block);
        dealloc(start, layout);
    }
}
