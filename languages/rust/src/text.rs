//! Extended JSON input and output.
use crate::block::Block;
use crate::call::RawOptions;
use crate::explain::of_texts;
use crate::{call, Error};
use std::ops::Deref;
use std::{fmt, str};

/// The form that a call writes.
#[derive(Clone, Copy, Debug, PartialEq, Eq)]
#[repr(u32)]
pub enum Mode {
    /// Canonical Extended JSON v2, which keeps every type.
    Canonical = 0,
    /// Relaxed Extended JSON v2, with JSON numbers, and dates as strings.
    Relaxed = 1,
    /// A form for people to read; it is not JSON.
    Show = 2,
}

/// A string that the library allocated. It is freed when it is dropped.
pub struct Text(Block);

impl Deref for Text {
    type Target = str;

    fn deref(&self) -> &str {
        debug_assert!(str::from_utf8(&self.0).is_ok());
        // SAFETY: `owned` checked the bytes, which nobody changes.
        unsafe { str::from_utf8_unchecked(&self.0) }
    }
}

impl fmt::Display for Text {
    fn fmt(&self, f: &mut fmt::Formatter<'_>) -> fmt::Result {
        f.pad(self)
    }
}

impl fmt::Debug for Text {
    fn fmt(&self, f: &mut fmt::Formatter<'_>) -> fmt::Result {
        fmt::Debug::fmt(&**self, f)
    }
}

/// What is accepted and written. The default is what MongoDB's data need: finite doubles, the order of keys, and the layout of
/// libbson and PyMongo. In a call that only compares, hashes or checks, the order of keys and the layout change nothing.
///
/// ```
/// use vbson::{convert, convert_with, Mode, Options};
/// let text = br#"{"price": 1.5, "a": 2}"#;
/// assert_eq!(&*convert(Mode::Relaxed, text)?, r#"{"price":1.5,"a":2}"#);
/// let sorted = Options { keep_order: false, ..Options::default() };
/// assert_eq!(&*convert_with(Mode::Relaxed, sorted, text)?, r#"{"a":2,"price":1.5}"#);
/// assert!(convert_with(Mode::Relaxed, Options::SPECIFIED, text).is_err());
/// let date = br#"{"$date": {"$numberLong": "500"}}"#;
/// assert_eq!(&*convert(Mode::Relaxed, date)?, r#"{"$date":"1970-01-01T00:00:00.500Z"}"#);
/// let specified = Options { mongodb_layout: false, ..Options::default() };
/// assert_eq!(&*convert_with(Mode::Relaxed, specified, date)?, r#"{"$date":"1970-01-01T00:00:00.5Z"}"#);
/// let v1 = Options { v1: true, ..Options::default() };
/// let binary = convert_with(Mode::Relaxed, v1, br#"{"$binary": "AQI=", "$type": "00"}"#)?;
/// assert_eq!(&*binary, r#"{"$binary":{"base64":"AQI=","subType":"00"}}"#);
/// let strict = Options { reject_duplicate_keys: true, ..Options::default() };
/// assert!(convert_with(Mode::Relaxed, strict, br#"{"a": 1, "a": 2}"#).is_err());
/// # Ok::<(), vbson::Error>(())
/// ```
#[derive(Clone, Copy, Debug, PartialEq, Eq)]
pub struct Options {
    /// Accepts finite doubles. A number that is not an integer of 64 bits is read as the nearest double. A double is
    /// written as its shortest decimal: `{"$numberDouble":"12.5"}` in the canonical form, `12.5` in the relaxed one.
    pub doubles: bool,
    /// Preserves the order of the keys in the input or the document; without it keys are sorted. The last value of a
    /// duplicate key wins, at the position of the first.
    pub keep_order: bool,
    /// Rejects input in which an object or a document has a duplicate key, at any depth.
    pub reject_duplicate_keys: bool,
    /// Accepts Extended JSON v1 too: `{"$binary": .., "$type": ..}`, `{"$regex": .., "$options": ..}`, a `$date` without
    /// seconds or with an offset such as `+0100`, a `$uuid` without hyphens, and the words `NaN`, `Infinity` and
    /// `-Infinity`. Bytes are not Extended JSON: the calls that decode them reject the option.
    pub v1: bool,
    /// Lays out the two forms as libbson and `json_util` of PyMongo do. A fraction of a second has three digits. With
    /// `keep_order`, `t` is before `i`, `pattern` before `options`, and `$ref` before `$id` in their wrappers. Without it a
    /// fraction has no zeros at its end, and the keys of a wrapper ascend. Both layouts denote the same values.
    pub mongodb_layout: bool,
}

impl Default for Options {
    /// Returns the options with finite doubles, the order of keys, and MongoDB's layout.
    fn default() -> Options {
        Options { doubles: true, keep_order: true, mongodb_layout: true, ..Options::SPECIFIED }
    }
}

impl Options {
    /// The defaults of the specification and of the C library: no finite doubles, sorted keys, and the specified layout.
    pub const SPECIFIED: Options =
        Options { doubles: false, keep_order: false, reject_duplicate_keys: false, v1: false, mongodb_layout: false };

    pub(crate) fn raw(self) -> RawOptions {
        RawOptions {
            key_order: if self.keep_order { call::KEYS_AS_GIVEN } else { 0 },
            layout: if self.mongodb_layout { call::LAYOUT_MONGODB } else { 0 },
            ..self.raw_for_reading()
        }
    }

    /// Those of a call that writes nothing, in which the order of keys and the layout change nothing.
    pub(crate) fn raw_for_reading(self) -> RawOptions {
        RawOptions {
            doubles: if self.doubles { call::DOUBLES_FINITE } else { 0 },
            duplicate_keys: if self.reject_duplicate_keys { call::DUPLICATE_KEYS_REJECT } else { 0 },
            v1: if self.v1 { call::V1_ACCEPT } else { 0 },
            ..RawOptions::INIT
        }
    }
}

/// Reads one Extended JSON text (canonical, relaxed or mixed), and writes its value in the mode, with the default options.
///
/// The last value of a duplicate key wins, at the position of the first. The output can denote another value in two cases: a
/// NaN of Decimal128 loses its sign and its payload, and in the relaxed form an Int64 that fits is read again as an Int32.
///
/// # Errors
///
/// - `NotJson`, with line, column and offset, if the input is not UTF-8, is not one JSON text, or nests deeper than 127.
/// - `BadObjectId`, with the path too, if the first error is an invalid object id.
/// - `NotExtendedJson`, with the path too, if the first error is any other.
/// - `OutOfMemory` if an allocation fails.
pub fn convert(mode: Mode, text: &[u8]) -> Result<Text, Error> {
    convert_with(mode, Options::default(), text)
}

/// Reads one Extended JSON text, and writes its value in the mode, with options.
///
/// # Errors
///
/// - `NotJson`, with line, column and offset, if the input is not UTF-8, is not one JSON text, or nests deeper than 127.
/// - `BadObjectId`, with the path too, if the first error is an invalid object id.
/// - `NotExtendedJson`, with the path too, if the first error is any other, a number such as 1.5 or 0.0 while `doubles` is off,
///   or a duplicate key while `reject_duplicate_keys` is on.
/// - `OutOfMemory` if an allocation fails.
pub fn convert_with(mode: Mode, options: Options, text: &[u8]) -> Result<Text, Error> {
    let made = call::convert(mode as u32, options.raw(), text);
    made.map(owned).map_err(|kind| of_texts(kind, options.raw(), &[text]))
}

/// Returns why, and where, `convert_with` rejects the input; `None` if it accepts it.
pub fn explain(options: Options, text: &[u8]) -> Option<Error> {
    convert_with(Mode::Canonical, options, text).err()
}

/// Compares the values of two inputs. The order of the keys of documents doesn't matter.
///
/// ```
/// use vbson::{same, Options};
/// assert!(same(Options::default(), br#"{"a": 1, "b": 2.5}"#, br#"{"b": 2.50, "a": {"$numberInt": "1"}}"#)?);
/// # Ok::<(), vbson::Error>(())
/// ```
///
/// # Errors
///
/// The error is that of `a`, or that of `b` if `a` has none:
///
/// - `NotJson`, with line, column and offset, if the input is not UTF-8, is not one JSON text, or nests deeper than 127.
/// - `BadObjectId`, with the path too, if the first error is an invalid object id.
/// - `NotExtendedJson`, with the path too, if the first error is any other, or a duplicate key while `reject_duplicate_keys`
///   is on.
/// - `OutOfMemory` if an allocation fails.
pub fn same(options: Options, a: &[u8], b: &[u8]) -> Result<bool, Error> {
    call::same(options.raw_for_reading(), a, b).map_err(|kind| of_texts(kind, options.raw(), &[a, b]))
}

/// Returns whether the input is canonical: byte for byte the canonical form of its value, with keys in ascending order at
/// every depth, and without a newline. Values that are equal in normal form have one such text, so it can be signed, hashed or
/// compared in place of its value. The options other than `doubles` change nothing.
///
/// ```
/// use vbson::{is_canonical_text, Options};
/// assert!(is_canonical_text(Options::default(), br#"{"n":{"$numberInt":"5"}}"#)?);
/// assert!(!is_canonical_text(Options::default(), br#"{"n": 5}"#)?);
/// # Ok::<(), vbson::Error>(())
/// ```
///
/// # Errors
///
/// - `OutOfMemory` if an allocation fails.
pub fn is_canonical_text(options: Options, text: &[u8]) -> Result<bool, Error> {
    let raw = RawOptions { doubles: options.raw().doubles, ..RawOptions::INIT };
    Ok(call::is_canonical_text(raw, text)?)
}

/// Computes the hash of the input's value. Inputs that [`same`] finds the same have one hash.
///
/// # Errors
///
/// - `NotJson`, with line, column and offset, if the input is not UTF-8, is not one JSON text, or nests deeper than 127.
/// - `BadObjectId`, with the path too, if the first error is an invalid object id.
/// - `NotExtendedJson`, with the path too, if the first error is any other, or a duplicate key while `reject_duplicate_keys`
///   is on.
/// - `OutOfMemory` if an allocation fails.
pub fn hash(options: Options, text: &[u8]) -> Result<u64, Error> {
    call::hash(options.raw_for_reading(), text).map_err(|kind| of_texts(kind, options.raw(), &[text]))
}

pub(crate) fn owned(raw: call::RawText) -> Text {
    let block = Block::of(raw);
    assert!(str::from_utf8(&block).is_ok(), "the library writes UTF-8");
    Text(block)
}
