//! Values of `serde_json`, with the feature `serde_json`.
//!
//! A `Value` contains Extended JSON as it is written. In the canonical form each type of BSON has its wrapper, for example
//! `{"$numberLong":"5"}`, and in the relaxed form numbers are plain. Objects keep the order of their keys, and so does the
//! text or document that is made of them with `Options::keep_order`.
use crate::path::{Path, PathElement};
use crate::text::Text;
use crate::{convert_with, decode, encode, Bytes, Error, ErrorKind, Mode, Options};
use serde_json::{Deserializer, Value};

/// The form of a value.
#[derive(Clone, Copy, Debug, PartialEq, Eq)]
pub enum Form {
    /// Canonical Extended JSON v2, which keeps every type.
    Canonical,
    /// Relaxed Extended JSON v2, with JSON numbers, and dates as strings.
    Relaxed,
}

impl Form {
    fn mode(self) -> Mode {
        match self {
            Form::Canonical => Mode::Canonical,
            Form::Relaxed => Mode::Relaxed,
        }
    }
}

/// Reads one Extended JSON text, and returns its value in the form.
///
/// # Errors
///
/// - `NotJson`, with line, column and offset, if the input is not UTF-8, is not one JSON text, or nests deeper than 127.
/// - `BadObjectId`, with the path too, if the first error is an invalid object id.
/// - `NotExtendedJson`, with the path too, if the first error is any other, or a finite double while `doubles` is off.
/// - `OutOfMemory` if an allocation fails.
///
/// ```
/// use vbson::{json, Options};
/// let value = json::from_text(json::Form::Relaxed, Options::default(), br#"{"n": {"$numberInt": "5"}}"#)?;
/// assert_eq!(value["n"], 5);
/// # Ok::<(), vbson::Error>(())
/// ```
pub fn from_text(form: Form, options: Options, text: &[u8]) -> Result<Value, Error> {
    convert_with(form.mode(), options, text).map(parsed)
}

/// Writes a value, which is Extended JSON of either form, in the form. Each number is written exactly.
///
/// # Errors
///
/// - `NotJson` if the value nests deeper than 127.
/// - `BadObjectId`, with the path, if the first error is an invalid object id.
/// - `NotExtendedJson`, with the path, if the first error is any other, or a finite double while `doubles` is off. It is also
///   the error of an integer greater than `i64::MAX`, since the nearest double is another number.
/// - `OutOfMemory` if an allocation fails.
///
/// ```
/// use vbson::{json, Options};
/// let value = serde_json::json!({"n": 5});
/// assert_eq!(&*json::to_text(json::Form::Canonical, Options::default(), &value)?, r#"{"n":{"$numberInt":"5"}}"#);
/// # Ok::<(), vbson::Error>(())
/// ```
pub fn to_text(form: Form, options: Options, value: &Value) -> Result<Text, Error> {
    convert_with(form.mode(), options, &written(value)?).map_err(Error::without_position)
}

/// Reads the bytes as one document, and returns its value in the form.
///
/// # Errors
///
/// - `NotADocument`, with the offset of the error and the path to it, if the bytes are not a document.
/// - `NotRepresentable`, with the path, if the document has a finite double other than 0.0, and `doubles` is off.
/// - `OutOfMemory` if an allocation fails.
pub fn from_document(form: Form, options: Options, bytes: &[u8]) -> Result<Value, Error> {
    decode(form.mode(), options, bytes).map(parsed)
}

/// Returns the canonical bytes of the document that a value denotes.
///
/// # Errors
///
/// - `NotJson`, `BadObjectId`, `NotExtendedJson` or `OutOfMemory` as in [`to_text`].
/// - `NotADocument` if the value is not a document.
/// - `ZeroInKey` if a key contains a 0 byte.
/// - `ZeroInRegex` if a regular expression contains a 0 byte.
/// - `TooLong` if a part has 2^31 bytes or more.
pub fn to_document(options: Options, value: &Value) -> Result<Bytes, Error> {
    encode(options, &written(value)?).map_err(Error::without_position)
}

/// The tree of a text that the library has written. (It nests no deeper than the library lets it.)
fn parsed(text: Text) -> Value {
    let mut reader = Deserializer::from_str(&text);
    reader.disable_recursion_limit();
    let found = reader.into_iter().next().expect("the library writes a text");
    found.expect("the library writes JSON")
}

fn written(value: &Value) -> Result<Vec<u8>, Error> {
    match far_number(value) {
        Some(path) => Err(Error::at_path(ErrorKind::NotExtendedJson, Path::reversed(path), "not a 64-bit integer")),
        None => Ok(serde_json::to_vec(value).expect("a value has a text")),
    }
}

/// The path, its end first, to an integer past those of 64 bits.
fn far_number(value: &Value) -> Option<Vec<PathElement>> {
    let (mut path, element) = match value {
        Value::Number(number) if number.is_u64() && !number.is_i64() => return Some(Vec::new()),
        Value::Array(items) => items.iter().enumerate().find_map(|(at, it)| Some((far_number(it)?, at.into()))),
        Value::Object(items) => items.iter().find_map(|(key, it)| Some((far_number(it)?, key.as_str().into()))),
        _ => None,
    }?;
    path.push(element);
    Some(path)
}
