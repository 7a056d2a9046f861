//! MongoDB Extended JSON v2, BSON bytes and BSON's scalar types, over `libvbson.a`, whose calls are proved (`vbson.h`
//! documents each of them).
//!
//! It runs only on x86-64 Linux with glibc. The processor must have SSE4.2 and POPCNT; otherwise the first call panics.
//! The deepest input (127 levels) needs 448 KiB of stack, which the threads of `std` have. With `keep_order`, deeply nested
//! objects that begin with the key `$scope` need up to 5 MiB, which they don't have: start a thread with more for such
//! input.
//!
//! The feature `serde_json`, which is off by default, adds the module `json`, which converts to and from its values.
//!
//! ```
//! use vbson::{convert, Mode};
//! let text = convert(Mode::Relaxed, br#"{"at": {"$date": {"$numberLong": "0"}}}"#)?;
//! assert_eq!(&*text, r#"{"at":{"$date":"1970-01-01T00:00:00Z"}}"#);
//! # Ok::<(), vbson::Error>(())
//! ```

#![warn(missing_docs)]

#[cfg(not(all(target_os = "linux", target_arch = "x86_64", target_env = "gnu")))]
compile_error!("libvbson.a is made for x86-64 Linux with glibc alone");

mod block;
mod builder;
mod call;
#[cfg(feature = "serde")]
mod de;
mod document;
mod error;
mod explain;
#[cfg(feature = "serde_json")]
pub mod json;
mod lines;
mod path;
mod raw;
mod scalar;
#[cfg(feature = "serde")]
mod ser;
mod stream;
mod text;

#[cfg(feature = "serde")]
pub use de::from_document;
pub use builder::{DocumentBuilder, Element};
pub use document::{decode, encode, explain_document, hash_document, is_document, same_documents, Bytes};
pub use error::{Error, ErrorKind};
pub use explain::RefusedDocument;
pub use lines::{convert_lines, decode_documents, encode_lines, Documents, EncodedLines, Lines};
pub use path::{Path, PathElement};
pub use raw::{Bson, RawArray, RawBsonRef, RawDocument, RawDocumentBuf, RawIter};
#[cfg(feature = "serde")]
pub use scalar::Binary;
pub use scalar::{DateTime, Decimal128, ObjectId, Timestamp};
#[cfg(feature = "serde")]
pub use ser::to_document;
pub use stream::{DumpReader, DumpWriter, LineReader, LineWriter};
pub use text::{convert, convert_with, explain, hash, is_canonical_text, same, Mode, Options, Text};

/// Returns the version of the library that is linked, for example (0, 3, 0).
pub fn version() -> (u32, u32, u32) {
    let number = call::version();
    (number / 10000, number / 100 % 100, number % 100)
}
