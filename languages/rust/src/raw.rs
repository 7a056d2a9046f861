//! Documents that remain bytes, and the values in them.
use crate::call::{self, RawSlice, RawValue};
use crate::explain::of_document;
use crate::{is_document, DateTime, Decimal128, Error, ErrorKind, ObjectId, Timestamp};
use std::fmt;
use std::marker::PhantomData;

/// A document that remains its bytes, which were checked once. It allocates no memory.
///
/// ```
/// let bytes = vbson::encode(Default::default(), br#"{"n": 5, "at": {"ok": true}, "tags": ["a", "b"]}"#)?;
/// let document = vbson::RawDocument::new(&bytes)?;
/// assert_eq!(document.get("n").and_then(|it| it.as_i32()), Some(5));
/// let at = document.get("at").and_then(|it| it.as_document()).unwrap();
/// assert_eq!(at.get("ok").and_then(|it| it.as_bool()), Some(true));
/// let tags = document.get("tags").and_then(|it| it.as_array()).unwrap();
/// assert_eq!(tags.iter().filter_map(|it| it.as_str()).collect::<Vec<_>>(), ["a", "b"]);
/// assert_eq!(document.iter().map(|(key, _)| key).collect::<Vec<_>>(), ["n", "at", "tags"]);
/// # Ok::<(), vbson::Error>(())
/// ```
#[derive(Clone, Copy)]
pub struct RawDocument<'a> {
    // These begin with the document.
    bytes: &'a [u8],
}

/// An array in the bytes of a document.
#[derive(Clone, Copy)]
pub struct RawArray<'a> {
    elements: RawDocument<'a>,
}

/// A document that owns its bytes, which were checked once.
///
/// ```
/// let document = vbson::RawDocumentBuf::new(b"\x0c\0\0\0\x10n\0\x05\0\0\0\0".to_vec())?;
/// assert_eq!(document.as_document().get("n").and_then(|it| it.as_i32()), Some(5));
/// # Ok::<(), vbson::Error>(())
/// ```
#[derive(Clone)]
pub struct RawDocumentBuf {
    bytes: Vec<u8>,
}

/// A value in the bytes of a document. It is read when a method asks for it.
#[derive(Clone, Copy)]
pub struct RawBsonRef<'a> {
    value: RawValue,
    bytes: PhantomData<&'a [u8]>,
}

/// A value of each type of BSON 1.1, which borrows its strings, bytes and documents.
///
/// ```
/// use vbson::Bson;
/// let bytes = vbson::encode(Default::default(), br#"{"n": 5, "name": "x", "none": null}"#)?;
/// for (key, value) in vbson::RawDocument::new(&bytes)? {
///     match value.value() {
///         Bson::Int32(number) => assert_eq!((key, number), ("n", 5)),
///         Bson::String(string) => assert_eq!((key, string), ("name", "x")),
///         other => assert_eq!((key, other), ("none", Bson::Null)),
///     }
/// }
/// # Ok::<(), vbson::Error>(())
/// ```
#[derive(Clone, Copy, Debug, PartialEq)]
#[allow(missing_docs)]
pub enum Bson<'a> {
    Double(f64),
    String(&'a str),
    Document(RawDocument<'a>),
    Array(RawArray<'a>),
    Binary { subtype: u8, bytes: &'a [u8] },
    Undefined,
    ObjectId(ObjectId),
    Boolean(bool),
    DateTime(DateTime),
    Null,
    RegularExpression { pattern: &'a str, options: &'a str },
    DbPointer { namespace: &'a str, id: ObjectId },
    JavaScriptCode(&'a str),
    Symbol(&'a str),
    JavaScriptCodeWithScope { code: &'a str, scope: RawDocument<'a> },
    Int32(i32),
    Timestamp(Timestamp),
    Int64(i64),
    Decimal128(Decimal128),
    MaxKey,
    MinKey,
}

/// An iterator over the keys and values of a document, in the order of the bytes.
#[derive(Clone)]
pub struct RawIter<'a> {
    cursor: RawSlice,
    bytes: PhantomData<&'a [u8]>,
}

// SAFETY: a value and a cursor are shared references to bytes, which nobody changes.
unsafe impl Send for RawBsonRef<'_> {}
// SAFETY: as above.
unsafe impl Sync for RawBsonRef<'_> {}
// SAFETY: as above.
unsafe impl Send for RawIter<'_> {}
// SAFETY: as above.
unsafe impl Sync for RawIter<'_> {}

impl<'a> RawDocument<'a> {
    /// Checks the bytes, all of which must be one document.
    ///
    /// # Errors
    ///
    /// - `NotADocument`, with the offset of the error and the path to it, if the bytes are not a document.
    pub fn new(bytes: &'a [u8]) -> Result<RawDocument<'a>, Error> {
        if is_document(bytes) {
            return Ok(RawDocument { bytes });
        }
        Err(of_document(call::RawOptions::INIT, bytes).unwrap_or_else(|| ErrorKind::NotADocument.into()))
    }

    /// Returns the value of the key, or `None` if the document does not contain the key. The value of a duplicate key is
    /// the last.
    pub fn get(&self, key: &str) -> Option<RawBsonRef<'a>> {
        Some(of(call::raw_get(self.bytes, key.as_bytes())?))
    }

    /// Returns the bytes of the document alone, for example for `decode`.
    pub fn as_bytes(&self) -> &'a [u8] {
        &self.bytes[..number_at(self.bytes, 0) as usize]
    }

    /// Returns an iterator over the keys and values. If a key is duplicated, each of its values occurs.
    pub fn iter(&self) -> RawIter<'a> {
        RawIter { cursor: call::raw_elements(self.bytes), bytes: PhantomData }
    }

    /// Copies the bytes of the document.
    pub fn to_owned(&self) -> RawDocumentBuf {
        RawDocumentBuf { bytes: self.as_bytes().to_vec() }
    }
}

impl<'a> RawArray<'a> {
    /// Returns the value at an index, or `None` if the array is shorter.
    pub fn get(&self, index: usize) -> Option<RawBsonRef<'a>> {
        self.iter().nth(index)
    }

    /// Returns an iterator over the values.
    pub fn iter(&self) -> impl Iterator<Item = RawBsonRef<'a>> + 'a {
        self.elements.iter().map(|(_, value)| value)
    }

    /// Returns the bytes of the array. They are those of a document whose keys have no meaning.
    pub fn as_bytes(&self) -> &'a [u8] {
        self.elements.as_bytes()
    }
}

impl RawDocumentBuf {
    /// Checks the bytes, all of which must be one document.
    ///
    /// # Errors
    ///
    /// - `NotADocument`, with the offset of the error and the path to it, if the bytes are not a document.
    pub fn new(bytes: Vec<u8>) -> Result<RawDocumentBuf, Error> {
        RawDocument::new(&bytes)?;
        Ok(RawDocumentBuf { bytes })
    }

    /// Borrows the document.
    pub fn as_document(&self) -> RawDocument<'_> {
        RawDocument { bytes: &self.bytes }
    }

    /// Returns the bytes of the document.
    pub fn as_bytes(&self) -> &[u8] {
        &self.bytes
    }

    /// Returns the bytes of the document, and keeps nothing.
    pub fn into_bytes(self) -> Vec<u8> {
        self.bytes
    }
}

impl<'a> IntoIterator for RawDocument<'a> {
    type Item = (&'a str, RawBsonRef<'a>);
    type IntoIter = RawIter<'a>;

    fn into_iter(self) -> RawIter<'a> {
        self.iter()
    }
}

impl<'a> From<&'a RawDocumentBuf> for RawDocument<'a> {
    fn from(document: &'a RawDocumentBuf) -> RawDocument<'a> {
        document.as_document()
    }
}

impl<'a> Iterator for RawIter<'a> {
    type Item = (&'a str, RawBsonRef<'a>);

    fn next(&mut self) -> Option<Self::Item> {
        let (key, value) = call::raw_next(&mut self.cursor)?;
        // SAFETY: the slice is a part of the document's bytes.
        Some((text_of(unsafe { call::part(key) }), of(value)))
    }
}

impl<'a> RawBsonRef<'a> {
    /// Returns the number of the type (BSON 1.1), for example 0x10 for an integer of 32 bits.
    pub fn element_type(&self) -> u8 {
        self.value.kind
    }

    /// Returns the bytes of the value, as the document has them.
    pub fn as_bytes(&self) -> &'a [u8] {
        // SAFETY: the slice is a part of the document's bytes.
        unsafe { call::part(RawSlice { bytes: self.value.bytes, len: self.value.len }) }
    }

    /// Returns the value by its type.
    pub fn value(&self) -> Bson<'a> {
        self.common().or_else(|| self.rare()).expect("a document has values of the types of BSON 1.1")
    }

    fn common(&self) -> Option<Bson<'a>> {
        match self.value.kind {
            0x01 => self.as_f64().map(Bson::Double),
            0x02 => self.as_str().map(Bson::String),
            0x03 => self.as_document().map(Bson::Document),
            0x04 => self.as_array().map(Bson::Array),
            0x05 => self.as_binary().map(|(subtype, bytes)| Bson::Binary { subtype, bytes }),
            0x07 => self.as_object_id().map(Bson::ObjectId),
            0x08 => self.as_bool().map(Bson::Boolean),
            0x09 => self.as_datetime().map(Bson::DateTime),
            0x0A => Some(Bson::Null),
            0x10 => self.as_i32().map(Bson::Int32),
            0x11 => self.as_timestamp().map(Bson::Timestamp),
            0x12 => self.as_i64().map(Bson::Int64),
            0x13 => self.as_decimal128().map(Bson::Decimal128),
            _ => None,
        }
    }

    fn rare(&self) -> Option<Bson<'a>> {
        let bytes = self.as_bytes();
        Some(match self.value.kind {
            0x06 => Bson::Undefined,
            0x0B => {
                let mut parts = bytes.split(|it| *it == 0).map(text_of);
                Bson::RegularExpression { pattern: parts.next()?, options: parts.next()? }
            }
            0x0C => Bson::DbPointer { namespace: string_at(bytes, 0), id: ObjectId(bytes[bytes.len() - 12..].try_into().ok()?) },
            0x0D => Bson::JavaScriptCode(string_at(bytes, 0)),
            0x0E => Bson::Symbol(string_at(bytes, 0)),
            0x0F => {
                let code = string_at(bytes, 4);
                Bson::JavaScriptCodeWithScope { code, scope: RawDocument { bytes: &bytes[code.len() + 9..] } }
            }
            0x7F => Bson::MaxKey,
            0xFF => Bson::MinKey,
            _ => return None,
        })
    }

    /// Returns the integer of 32 bits.
    pub fn as_i32(&self) -> Option<i32> {
        call::raw_int32(&self.value)
    }

    /// Returns the integer of 64 bits.
    pub fn as_i64(&self) -> Option<i64> {
        call::raw_int64(&self.value)
    }

    /// Returns the double.
    pub fn as_f64(&self) -> Option<f64> {
        call::raw_double(&self.value)
    }

    /// Returns the boolean.
    pub fn as_bool(&self) -> Option<bool> {
        call::raw_boolean(&self.value)
    }

    /// Returns the string.
    pub fn as_str(&self) -> Option<&'a str> {
        // SAFETY: the slice is a part of the document's bytes.
        Some(text_of(unsafe { call::part(call::raw_string(&self.value)?) }))
    }

    /// Returns the object id.
    pub fn as_object_id(&self) -> Option<ObjectId> {
        Some(ObjectId(call::raw_object_id(&self.value)?))
    }

    /// Returns the date-time.
    pub fn as_datetime(&self) -> Option<DateTime> {
        Some(DateTime(call::raw_date_time(&self.value)?))
    }

    /// Returns the decimal.
    pub fn as_decimal128(&self) -> Option<Decimal128> {
        (self.value.kind == 0x13).then(|| Decimal128(self.as_bytes().try_into().expect("a decimal has 16 bytes")))
    }

    /// Returns the timestamp.
    pub fn as_timestamp(&self) -> Option<Timestamp> {
        let number = |at| number_at(self.as_bytes(), at);
        (self.value.kind == 0x11).then(|| Timestamp { time: number(4), increment: number(0) })
    }

    /// Returns the subtype and the bytes of binary data.
    pub fn as_binary(&self) -> Option<(u8, &'a [u8])> {
        let (subtype, bytes) = call::raw_binary(&self.value)?;
        // SAFETY: as above. (A subtype is a byte.)
        Some((subtype as u8, unsafe { call::part(bytes) }))
    }

    /// Returns the document.
    pub fn as_document(&self) -> Option<RawDocument<'a>> {
        (self.value.kind == 0x03).then(|| RawDocument { bytes: self.as_bytes() })
    }

    /// Returns the array.
    pub fn as_array(&self) -> Option<RawArray<'a>> {
        (self.value.kind == 0x04).then(|| RawArray { elements: RawDocument { bytes: self.as_bytes() } })
    }
}

impl fmt::Debug for RawBsonRef<'_> {
    fn fmt(&self, f: &mut fmt::Formatter<'_>) -> fmt::Result {
        self.value().fmt(f)
    }
}

impl fmt::Debug for RawDocument<'_> {
    fn fmt(&self, f: &mut fmt::Formatter<'_>) -> fmt::Result {
        f.debug_map().entries(self.iter()).finish()
    }
}

impl fmt::Debug for RawArray<'_> {
    fn fmt(&self, f: &mut fmt::Formatter<'_>) -> fmt::Result {
        f.debug_list().entries(self.iter()).finish()
    }
}

impl fmt::Debug for RawDocumentBuf {
    fn fmt(&self, f: &mut fmt::Formatter<'_>) -> fmt::Result {
        self.as_document().fmt(f)
    }
}

impl PartialEq for RawDocument<'_> {
    /// Compares the bytes. [`same_documents`](crate::same_documents) compares the values.
    fn eq(&self, other: &RawDocument<'_>) -> bool {
        self.as_bytes() == other.as_bytes()
    }
}

impl PartialEq for RawArray<'_> {
    /// Compares the bytes.
    fn eq(&self, other: &RawArray<'_>) -> bool {
        self.as_bytes() == other.as_bytes()
    }
}

impl PartialEq for RawDocumentBuf {
    /// Compares the bytes. [`same_documents`](crate::same_documents) compares the values.
    fn eq(&self, other: &RawDocumentBuf) -> bool {
        self.bytes == other.bytes
    }
}

fn of<'a>(value: RawValue) -> RawBsonRef<'a> {
    RawBsonRef { value, bytes: PhantomData }
}

// The library has checked the bytes.
fn text_of(bytes: &[u8]) -> &str {
    std::str::from_utf8(bytes).expect("a document has UTF-8")
}

fn number_at(bytes: &[u8], at: usize) -> u32 {
    u32::from_le_bytes(bytes[at..at + 4].try_into().expect("four bytes"))
}

/// The string whose length, with the 0 at its end, is at an offset.
fn string_at(bytes: &[u8], at: usize) -> &str {
    text_of(&bytes[at + 4..at + 3 + number_at(bytes, at) as usize])
}
