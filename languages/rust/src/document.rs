//! BSON documents (BSON 1.1, bsonspec.org).
use crate::block::Block;
use crate::explain::{of_document, of_double, of_options, of_texts};
use crate::text::owned;
use crate::{call, Error, ErrorKind, Mode, Options, Text};
use std::fmt;
use std::ops::Deref;

/// Bytes that the library allocated. They are freed when they are dropped.
pub struct Bytes(pub(crate) Block);

impl Deref for Bytes {
    type Target = [u8];

    fn deref(&self) -> &[u8] {
        &self.0
    }
}

impl fmt::Debug for Bytes {
    fn fmt(&self, f: &mut fmt::Formatter<'_>) -> fmt::Result {
        fmt::Debug::fmt(&**self, f)
    }
}

/// Returns whether the bytes are exactly one document, in which documents, arrays and scopes nest at most 100 deep. It
/// allocates no memory.
pub fn is_document(bytes: &[u8]) -> bool {
    call::is_document(bytes)
}

/// Returns why, and where, the bytes are not a document; `None` if they are one. If memory runs out, the error has no offset.
///
/// ```
/// let error = vbson::explain_document(b"\x05\0\0\0").unwrap();
/// assert_eq!((error.offset(), error.reason()), (Some(4), "ends too early"));
/// assert_eq!(vbson::explain_document(b"\x05\0\0\0\0"), None);
/// ```
pub fn explain_document(bytes: &[u8]) -> Option<Error> {
    of_document(call::RawOptions::INIT, bytes)
}

/// Compares two documents. The order of their keys doesn't matter.
///
/// # Errors
///
/// - `NotADocument`, with the offset of the error and the path to it, if `a` is not a document, or `b` is not one. If
///   `reject_duplicate_keys` is on, also if a document has a duplicate key, at any depth.
/// - `OutOfMemory` if an allocation fails.
pub fn same_documents(options: Options, a: &[u8], b: &[u8]) -> Result<bool, Error> {
    call::same_documents(options.raw_for_reading(), a, b).map_err(|kind| rejected(kind, options, &[a, b]))
}

/// Computes the hash of a document. It is the hash that [`hash`](crate::hash) returns for Extended JSON with the same
/// value.
///
/// # Errors
///
/// - `NotADocument`, with the offset of the error and the path to it, if the bytes are not a document. If
///   `reject_duplicate_keys` is on, also if the document has a duplicate key, at any depth.
/// - `OutOfMemory` if an allocation fails.
pub fn hash_document(options: Options, bytes: &[u8]) -> Result<u64, Error> {
    call::hash_document(options.raw_for_reading(), bytes).map_err(|kind| rejected(kind, options, &[bytes]))
}

/// The error of the first rejected document.
fn rejected(kind: ErrorKind, options: Options, documents: &[&[u8]]) -> Error {
    let is_rejected = |it: &&&[u8]| call::hash_document(options.raw_for_reading(), it) == Err(ErrorKind::NotADocument);
    match documents.iter().find(is_rejected) {
        Some(it) if kind == ErrorKind::NotADocument => of_document(options.raw_for_reading(), it).unwrap_or_else(|| kind.into()),
        _ => kind.into(),
    }
}

/// Reads the bytes as one document, and writes it in the mode.
///
/// The canonical and relaxed forms have keys in the document's own order, and without `keep_order` in ascending order at
/// every depth. `Mode::Show` always has the document's own order. The last value of a duplicate key wins.
///
/// # Errors
///
/// - `InvalidArgument` if `v1` is on, which has no meaning for bytes.
/// - `NotADocument`, with the offset of the error and the path to it, if the bytes are not a document. If
///   `reject_duplicate_keys` is on, also if the document has a duplicate key, at any depth.
/// - `NotRepresentable` in the two forms, with the path to the value, if the document has a finite double other than 0.0,
///   and `doubles` is off.
/// - `OutOfMemory` if an allocation fails.
pub fn decode(mode: Mode, options: Options, bytes: &[u8]) -> Result<Text, Error> {
    call::decode(mode as u32, options.raw(), bytes).map(owned).map_err(|kind| match kind {
        ErrorKind::NotADocument => of_document(options.raw_for_reading(), bytes).unwrap_or_else(|| kind.into()),
        ErrorKind::NotRepresentable => of_double(bytes),
        _ => of_options(kind),
    })
}

/// Reads one Extended JSON text, and writes the canonical bytes of its document. Keys are in the order of the input, or
/// without `keep_order` in ascending order.
///
/// # Errors
///
/// - `NotJson`, with line, column and offset, if the input is not UTF-8, is not one JSON text, or nests deeper than 127.
/// - `BadObjectId`, with the path too, if the first error is an invalid object id.
/// - `NotExtendedJson`, with the path too, if the first error is any other, a finite double while `doubles` is off, or a
///   duplicate key while `reject_duplicate_keys` is on.
/// - `NotADocument` if the value is not a document.
/// - `ZeroInKey` if a key contains a 0 byte.
/// - `ZeroInRegex` if a regular expression contains a 0 byte.
/// - `TooLong` if a part has 2^31 bytes or more.
/// - `OutOfMemory` if an allocation fails.
pub fn encode(options: Options, text: &[u8]) -> Result<Bytes, Error> {
    let made = call::encode(options.raw(), text);
    made.map(|it| Bytes(Block::of(it))).map_err(|kind| of_texts(kind, options.raw(), &[text]))
}
