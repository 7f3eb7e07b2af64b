//! The entries of an end's table, as they are read.

use super::error::NoMemory;
use crate::field::HeaderField;
use crate::room::{copy_of, make_room};
use crate::sys::{Table, NO_ROOM, OK};
use alloc::vec::Vec;
use core::fmt;
use core::iter::FusedIterator;
use core::ops::Range;

/// The entries of a table, the newest first; with [`rev`](Iterator::rev), the oldest first. Each is copied when it is
/// asked for. An item is [`NoMemory`] if there is no memory for its copy.
pub struct Entries<'a> {
    table: &'a dyn Table,
    indexes: Range<usize>,
    /// The name and the value of an entry, one after the other.
    bytes: Vec<u8>,
}

impl<'a> Entries<'a> {
    /// Returns the entries of an end's table.
    pub(crate) fn new(table: &'a dyn Table) -> Entries<'a> {
        Entries { table, indexes: 0..table.entries(), bytes: Vec::new() }
    }

    /// Copies the entry at an index.
    fn copy(&mut self, index: usize) -> Result<HeaderField, NoMemory> {
        self.bytes.clear();
        let mut given = self.table.entry(index, &mut self.bytes);
        if given.status == NO_ROOM {
            make_room(&mut self.bytes, given.name_len + given.value_len)?;
            given = self.table.entry(index, &mut self.bytes);
        }
        assert_eq!(given.status, OK, "the entry is there, and fits in the room that the library asked for");
        let (name, value) = self.bytes.split_at(given.name_len);
        Ok(HeaderField::new(copy_of(name)?, copy_of(value)?))
    }
}

impl Iterator for Entries<'_> {
    type Item = Result<HeaderField, NoMemory>;

    fn next(&mut self) -> Option<Result<HeaderField, NoMemory>> {
        let index = self.indexes.next()?;
        Some(self.copy(index))
    }

    fn size_hint(&self) -> (usize, Option<usize>) {
        self.indexes.size_hint()
    }
}

impl DoubleEndedIterator for Entries<'_> {
    fn next_back(&mut self) -> Option<Result<HeaderField, NoMemory>> {
        let index = self.indexes.next_back()?;
        Some(self.copy(index))
    }
}

impl ExactSizeIterator for Entries<'_> {}

impl FusedIterator for Entries<'_> {}

impl fmt::Debug for Entries<'_> {
    fn fmt(&self, f: &mut fmt::Formatter<'_>) -> fmt::Result {
        f.debug_struct("Entries").field("indexes", &self.indexes).finish_non_exhaustive()
    }
}
