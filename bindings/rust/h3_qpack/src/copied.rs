//! The fields of a section, copied out of the library in one call.

use crate::connection::NoMemory;
use crate::field::FieldLine;
use crate::room::make_room;
use crate::sys::Given;
use alloc::vec::Vec;
use core::fmt;
use core::iter::FusedIterator;

/// The lengths and flags of each field, and their names and values one after the other.
#[derive(Default)]
pub(crate) struct Copied {
    pub(crate) told: Vec<Given>,
    pub(crate) bytes: Vec<u8>,
}

impl Copied {
    /// Forgets the fields, and keeps the memory.
    pub(crate) fn clear(&mut self) {
        self.told.clear();
        self.bytes.clear();
    }

    /// Makes room for fields, and for the bytes of their names and values.
    pub(crate) fn make_room(&mut self, fields: usize, bytes: usize) -> Result<(), NoMemory> {
        make_room(&mut self.told, fields)?;
        make_room(&mut self.bytes, bytes)
    }

    /// The fields, in their order.
    pub(crate) fn fields(&self) -> Fields<'_> {
        Fields { told: self.told.iter(), bytes: &self.bytes }
    }
}

/// The fields of a section, in order. They are valid until the next call of the decoder.
#[derive(Clone)]
pub struct Fields<'a> {
    told: core::slice::Iter<'a, Given>,
    /// The names and values of the fields that are left.
    bytes: &'a [u8],
}

impl<'a> Iterator for Fields<'a> {
    type Item = FieldLine<'a>;

    fn next(&mut self) -> Option<FieldLine<'a>> {
        let given = self.told.next()?;
        let (name, rest) = self.bytes.split_at(given.name_len);
        let (value, rest) = rest.split_at(given.value_len);
        self.bytes = rest;
        Some(FieldLine { name, value, never_indexed: given.is_never_indexed() })
    }

    fn size_hint(&self) -> (usize, Option<usize>) {
        self.told.size_hint()
    }
}

impl ExactSizeIterator for Fields<'_> {}

impl FusedIterator for Fields<'_> {}

impl fmt::Debug for Fields<'_> {
    fn fmt(&self, f: &mut fmt::Formatter<'_>) -> fmt::Result {
        f.debug_list().entries(self.clone()).finish()
    }
}
