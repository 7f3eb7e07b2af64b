//! Fields, owned and borrowed.

use alloc::borrow::Cow;
use alloc::format;
use alloc::string::String;
use alloc::vec::Vec;
use core::fmt;

/// The bytes that a field's size counts besides its name and value (RFC 9204, section 3.2.1).
pub const ESTIMATED_OVERHEAD_BYTES: usize = 32;

/// A field: a name and a value, any bytes.
///
/// ```
/// let field = h3_qpack::HeaderField::new(":path", "/");
/// assert_eq!(field.mem_size(), 38);
/// assert_eq!(field.to_string(), r#"":path": "/""#);
/// ```
#[derive(Debug, Clone, PartialEq, Eq, Hash)]
pub struct HeaderField {
    /// The name. HTTP/3 requires lower case.
    pub name: Cow<'static, [u8]>,
    /// The value.
    pub value: Cow<'static, [u8]>,
}

impl HeaderField {
    /// Makes a field of a name and a value.
    pub fn new<N: Into<Vec<u8>>, V: Into<Vec<u8>>>(name: N, value: V) -> HeaderField {
        HeaderField { name: Cow::Owned(name.into()), value: Cow::Owned(value.into()) }
    }

    /// Returns a field of the same name with another value.
    pub fn with_value<V: Into<Vec<u8>>>(&self, value: V) -> HeaderField {
        HeaderField { name: self.name.clone(), value: Cow::Owned(value.into()) }
    }

    /// Returns the size of the field, in bytes: its name, its value, and 32 (RFC 9204, section 3.2.1).
    pub fn mem_size(&self) -> usize {
        self.name.len() + self.value.len() + ESTIMATED_OVERHEAD_BYTES
    }

    /// Returns the name and the value.
    pub fn into_inner(self) -> (Cow<'static, [u8]>, Cow<'static, [u8]>) {
        (self.name, self.value)
    }
}

impl AsRef<HeaderField> for HeaderField {
    fn as_ref(&self) -> &HeaderField {
        self
    }
}

impl fmt::Display for HeaderField {
    fn fmt(&self, f: &mut fmt::Formatter<'_>) -> fmt::Result {
        write!(f, "\"{}\": \"{}\"", text_of(&self.name), text_of(&self.value))
    }
}

impl From<HeaderField> for String {
    fn from(field: HeaderField) -> String {
        format!("{}\t{}", text_of(&field.name), text_of(&field.value))
    }
}

impl<N: AsRef<[u8]>, V: AsRef<[u8]>> From<(N, V)> for HeaderField {
    fn from((name, value): (N, V)) -> HeaderField {
        HeaderField::new(name.as_ref(), value.as_ref())
    }
}

/// Bytes as text, U+FFFD in the place of what is none.
fn text_of(bytes: &[u8]) -> Cow<'_, str> {
    String::from_utf8_lossy(bytes)
}

/// A borrowed field: passed to an encoder, or returned by a decoder.
#[derive(Debug, Clone, Copy, PartialEq, Eq, Hash)]
pub struct FieldLine<'a> {
    /// The name. HTTP/3 requires lower case.
    pub name: &'a [u8],
    /// The value.
    pub value: &'a [u8],
    /// Whether the field stays a literal wherever it is sent on (RFC 9204, section 7.1.3).
    pub never_indexed: bool,
}

impl<'a> FieldLine<'a> {
    /// A field that may be indexed.
    pub fn new<N, V>(name: &'a N, value: &'a V) -> FieldLine<'a>
    where
        N: AsRef<[u8]> + ?Sized,
        V: AsRef<[u8]> + ?Sized,
    {
        FieldLine { name: name.as_ref(), value: value.as_ref(), never_indexed: false }
    }

    /// A field that is never to be indexed, as one that holds a secret (RFC 9204, section 7.1.3).
    pub fn never_indexed<N, V>(name: &'a N, value: &'a V) -> FieldLine<'a>
    where
        N: AsRef<[u8]> + ?Sized,
        V: AsRef<[u8]> + ?Sized,
    {
        FieldLine { never_indexed: true, ..FieldLine::new(name, value) }
    }

    /// Returns the field with what you ask the encoder to do for it.
    ///
    /// ```
    /// # use h3_qpack::connection::{ConnectionEncoder, EncoderSettings, FieldLine, Wish};
    /// let mut encoder = ConnectionEncoder::new(EncoderSettings::new(4096, 16))?;
    /// let fields = [
    ///     FieldLine::new("x-tenant", "17").wish(Wish::Insert),
    ///     FieldLine::new("x-request-id", "9d3f").wish(Wish::Reuse),
    /// ];
    /// assert_eq!(encoder.encode(0, fields, &mut Vec::new())?, 1);
    /// # Ok::<(), Box<dyn std::error::Error>>(())
    /// ```
    pub fn wish(self, wish: Wish) -> WishedField<'a> {
        WishedField { line: self, wish }
    }
}

/// What you ask an encoder to do for a field.
#[derive(Debug, Clone, Copy, PartialEq, Eq, Hash, Default)]
#[non_exhaustive]
pub enum Wish {
    /// Nothing: the encoder chooses.
    #[default]
    Unmarked,
    /// Never index the field: write a literal that says so (RFC 9204, section 7.1.3). Use this for secrets.
    Never,
    /// Reference an equal entry, and insert nothing. Use this for values that do not come again.
    Reuse,
    /// Insert the field where there is room, unless an entry equals it. Use this for values that come again.
    Insert,
}

/// A field for an encoder, with what you ask for it.
#[derive(Debug, Clone, Copy, PartialEq, Eq, Hash)]
pub struct WishedField<'a> {
    /// The field. One that is marked as never indexed stays so, whatever is asked.
    pub line: FieldLine<'a>,
    /// What you ask for it.
    pub wish: Wish,
}

impl<'a, T: Into<FieldLine<'a>>> From<T> for WishedField<'a> {
    fn from(field: T) -> WishedField<'a> {
        field.into().wish(Wish::Unmarked)
    }
}

impl<'a> From<&FieldLine<'a>> for FieldLine<'a> {
    fn from(field: &FieldLine<'a>) -> FieldLine<'a> {
        *field
    }
}

impl<'a, N, V> From<(&'a N, &'a V)> for FieldLine<'a>
where
    N: AsRef<[u8]> + ?Sized,
    V: AsRef<[u8]> + ?Sized,
{
    fn from((name, value): (&'a N, &'a V)) -> FieldLine<'a> {
        FieldLine::new(name, value)
    }
}

impl<'a> From<&'a HeaderField> for FieldLine<'a> {
    fn from(field: &'a HeaderField) -> FieldLine<'a> {
        FieldLine::new(&field.name, &field.value)
    }
}
