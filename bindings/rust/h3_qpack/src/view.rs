//! Fields where they lie in the library.

use crate::field::FieldLine;
use crate::sys;
use core::fmt;
use core::iter::FusedIterator;
use core::ops::Range;

/// A field where it lies in a decoder or a reader, with what the static table has of it (RFC 9204, Appendix A).
#[derive(Debug, Clone, Copy, PartialEq, Eq, Hash)]
#[non_exhaustive]
pub struct FieldView<'a> {
    /// The field.
    pub line: FieldLine<'a>,
    /// The first index of its name, and of its name and value.
    static_name: Option<u8>,
    static_field: Option<u8>,
}

impl<'a> FieldView<'a> {
    /// Makes the view of a field. An index that is below 0 is none.
    pub(crate) fn new(line: FieldLine<'a>, static_name: i16, static_field: i16) -> FieldView<'a> {
        FieldView { line, static_name: u8::try_from(static_name).ok(), static_field: u8::try_from(static_field).ok() }
    }

    /// Returns the first index of the static table that has the name, from 0 to 98. Use it in place of a search for the
    /// name.
    pub fn static_name(&self) -> Option<u8> {
        self.static_name
    }

    /// Returns the index of the static table that has the name and the value.
    pub fn static_field(&self) -> Option<u8> {
        self.static_field
    }
}

impl<'a> From<FieldView<'a>> for FieldLine<'a> {
    fn from(view: FieldView<'a>) -> FieldLine<'a> {
        view.line
    }
}

/// The fields of a section where they lie in the decoder, in order. No field is copied.
#[derive(Clone)]
pub struct Views<'a> {
    end: &'a sys::Decoder,
    indexes: Range<usize>,
}

impl<'a> Views<'a> {
    /// Returns the fields of the section that was decoded last.
    pub(crate) fn new(end: &'a sys::Decoder) -> Views<'a> {
        Views { end, indexes: 0..end.field_count() }
    }
}

impl<'a> Iterator for Views<'a> {
    type Item = FieldView<'a>;

    fn next(&mut self) -> Option<FieldView<'a>> {
        self.indexes.next().and_then(|index| self.end.view(index))
    }

    fn size_hint(&self) -> (usize, Option<usize>) {
        self.indexes.size_hint()
    }

    fn nth(&mut self, many: usize) -> Option<FieldView<'a>> {
        self.indexes.nth(many).and_then(|index| self.end.view(index))
    }
}

impl<'a> DoubleEndedIterator for Views<'a> {
    fn next_back(&mut self) -> Option<FieldView<'a>> {
        self.indexes.next_back().and_then(|index| self.end.view(index))
    }
}

impl ExactSizeIterator for Views<'_> {}

impl FusedIterator for Views<'_> {}

impl fmt::Debug for Views<'_> {
    fn fmt(&self, f: &mut fmt::Formatter<'_>) -> fmt::Result {
        f.debug_list().entries(self.clone()).finish()
    }
}
