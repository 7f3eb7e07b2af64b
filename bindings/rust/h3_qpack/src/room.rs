//! Memory of this crate's own, asked for so that a refusal is an error.

use crate::connection::NoMemory;
use alloc::vec::Vec;

/// Makes room for `many` more items.
pub(crate) fn make_room<T>(items: &mut Vec<T>, many: usize) -> Result<(), NoMemory> {
    items.try_reserve(many).map_err(|_| NoMemory)
}

/// What an iterator gives, in a vector.
pub(crate) fn gather<T>(items: impl Iterator<Item = T>) -> Result<Vec<T>, NoMemory> {
    let mut gathered = Vec::new();
    make_room(&mut gathered, items.size_hint().0)?;
    for item in items {
        make_room(&mut gathered, 1)?;
        gathered.push(item);
    }
    Ok(gathered)
}

/// A copy of bytes.
pub(crate) fn copy_of(bytes: &[u8]) -> Result<Vec<u8>, NoMemory> {
    let mut copy = Vec::new();
    copy.try_reserve_exact(bytes.len()).map_err(|_| NoMemory)?;
    copy.extend_from_slice(bytes);
    Ok(copy)
}
