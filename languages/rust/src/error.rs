//! Why a call failed, and where, as data.
use crate::call;
use crate::path::{Path, PathElement};
use std::sync::Arc;
use std::{fmt, io};

/// The kind of an error.
#[derive(Clone, Copy, Debug, PartialEq, Eq, Hash)]
#[non_exhaustive]
pub enum ErrorKind {
    /// An option has no meaning for the call: `v1` for the bytes of a document.
    InvalidArgument,
    /// The input is not UTF-8, is not one JSON text, or nests deeper than 127.
    NotJson,
    /// The first error is an invalid object id.
    BadObjectId,
    /// The first error is any other: the JSON is not valid Extended JSON v2.
    NotExtendedJson,
    /// An allocation failed.
    OutOfMemory,
    /// The string does not have the format that the call parses.
    InvalidString,
    /// The value has no output of the requested format, for example a document with a finite double, if `doubles` is off.
    NotRepresentable,
    /// The bytes are not a BSON document, or the value of the input is not a document.
    NotADocument,
    /// A key of the document contains a 0 byte, which would end it.
    ZeroInKey,
    /// The pattern or the options of a regular expression contain a 0 byte.
    ZeroInRegex,
    /// A part of the document is too long for BSON: 2^31 bytes or more.
    TooLong,
    /// A value of the document has another type than the Rust value that is made of it.
    UnexpectedType,
    /// A reader or a writer of `std::io` failed.
    Io,
}

impl ErrorKind {
    /// Returns the status of the C library (`enum vbson_status` in `vbson.h`), or `None` for [`ErrorKind::Io`].
    ///
    /// ```
    /// assert_eq!(vbson::ErrorKind::NotJson.code(), Some(2));
    /// ```
    pub fn code(self) -> Option<u32> {
        call::status_of(self)
    }

    pub(crate) fn words(self) -> &'static str {
        match self {
            ErrorKind::InvalidArgument => "invalid argument",
            ErrorKind::NotJson => "not JSON",
            ErrorKind::BadObjectId => "bad object id",
            ErrorKind::NotExtendedJson => "not Extended JSON",
            ErrorKind::OutOfMemory => "out of memory",
            ErrorKind::InvalidString => "invalid string",
            ErrorKind::NotRepresentable => "not representable",
            ErrorKind::NotADocument => "not a document",
            ErrorKind::ZeroInKey => "a key has a 0 byte in it",
            ErrorKind::ZeroInRegex => "a regular expression has a 0 byte in it",
            ErrorKind::TooLong => "a part is too long for BSON",
            ErrorKind::UnexpectedType => "unexpected type",
            ErrorKind::Io => "input or output failed",
        }
    }
}

/// Why a call failed, and for Extended JSON and documents also where. It is displayed as
/// `not Extended JSON at orders.0.price (not a 64-bit integer; found 1.5)`.
///
/// ```
/// let error = vbson::convert(vbson::Mode::Relaxed, b"{\"a\": [5,\n{\"$oid\": \"53e3\"}]}").unwrap_err();
/// assert_eq!((error.kind(), error.code()), (vbson::ErrorKind::BadObjectId, Some(3)));
/// assert_eq!(error.reason(), "an object id has 24 digits, but \"53e3\" has 4");
/// assert_eq!(error.path()[..], ["a".into(), 1.into(), "$oid".into()]);
/// assert_eq!((error.line(), error.column(), error.offset()), (Some(2), Some(10), Some(19)));
/// let error = vbson::convert(vbson::Mode::Relaxed, b"{\"a\": 1,\n \"b\": }").unwrap_err();
/// assert_eq!((error.line(), error.column(), error.offset()), (Some(2), Some(7), Some(15)));
/// ```
#[derive(Clone)]
pub struct Error(Box<Parts>);

#[derive(Clone)]
pub(crate) struct Parts {
    pub kind: ErrorKind,
    pub message: String,
    pub reason: String,
    pub path: Path,
    pub line: Option<u64>,
    pub column: Option<u64>,
    pub offset: Option<u64>,
    pub source: Option<Arc<io::Error>>,
}

impl Error {
    /// Returns the kind of the error.
    pub fn kind(&self) -> ErrorKind {
        self.0.kind
    }

    /// Returns the status of the C library, or `None` if a reader or a writer failed.
    pub fn code(&self) -> Option<u32> {
        self.0.kind.code()
    }

    /// Returns all of the error in words, as it is displayed.
    pub fn message(&self) -> &str {
        &self.0.message
    }

    /// Returns what is wrong, for example `not a 64-bit integer; found 1.5`. Without a longer one it is the
    /// message of the kind.
    pub fn reason(&self) -> &str {
        &self.0.reason
    }

    /// Returns the keys and indexes that lead to the wrong value. They are none if the error is that of the whole value, or if
    /// the input is not JSON. With `v1` they lead into the Extended JSON v2 that is read instead.
    pub fn path(&self) -> &Path {
        &self.0.path
    }

    /// Returns the line, from 1, on which the input stops to be JSON, or on which the wrong value begins. It is `None` for
    /// bytes, and with `v1` if the value is not in the input as it is read. An error of a line of several always has the line.
    pub fn line(&self) -> Option<u64> {
        self.0.line
    }

    /// Returns the first byte of the error in its line, from 1, if the line is known.
    pub fn column(&self) -> Option<u64> {
        self.0.column
    }

    /// Returns the number of bytes before the error, if the line is known, or if the input is not a document.
    pub fn offset(&self) -> Option<u64> {
        self.0.offset
    }

    /// An error with a message, whose reason is also the message if it is empty.
    pub(crate) fn new(kind: ErrorKind, message: impl Into<String>, reason: &str) -> Error {
        let message = message.into();
        let reason = if reason.is_empty() { message.clone() } else { reason.to_owned() };
        let (path, source) = (Path::default(), None);
        Error(Box::new(Parts { kind, message, reason, path, line: None, column: None, offset: None, source }))
    }

    /// An error of a value at a path, whose message is made of both.
    pub(crate) fn at_path(kind: ErrorKind, path: Path, reason: &str) -> Error {
        let mut made = Error::new(kind, "", reason);
        made.0.path = path;
        made.0.rewrite();
        made
    }

    /// The error as one of the value that contains this one under a key or an index.
    #[cfg(feature = "serde")]
    pub(crate) fn inside(mut self, element: PathElement) -> Error {
        if self.0.kind != ErrorKind::Io {
            self.0.path.insert(element);
            self.0.rewrite();
        }
        self
    }

    /// The error of the document of this number, from 0, that begins at an offset of a dump.
    pub(crate) fn in_dump(mut self, number: u64, start: u64) -> Error {
        let at = self.0.offset.map_or(String::new(), |it| format!(" at its byte {it}"));
        self.0.message = format!("document {} at byte {start}: {}{at}", number + 1, self.0.reason);
        self.0.path.insert(PathElement::Index(number as usize));
        self.0.offset = Some(start + self.0.offset.unwrap_or(0));
        self
    }

    /// The error of the line of this number, from 1, that begins at an offset of a stream.
    pub(crate) fn in_line(mut self, number: u64, start: u64) -> Error {
        self.0.line = Some(number);
        self.0.offset = self.0.offset.map(|it| start + it);
        self
    }

    /// The error without a position, of a text that the caller does not have.
    #[cfg(any(feature = "serde", feature = "serde_json"))]
    pub(crate) fn without_position(self) -> Error {
        self.with(|it| (it.line, it.column, it.offset) = (None, None, None))
    }

    pub(crate) fn with(mut self, change: impl FnOnce(&mut Parts)) -> Error {
        change(&mut self.0);
        self
    }
}

impl Parts {
    /// Makes the message of the kind, the path and the reason.
    fn rewrite(&mut self) {
        let at = if self.path.is_empty() { String::new() } else { format!(" at {}", self.path) };
        self.message = format!("{}{at} ({})", self.kind, self.reason);
    }
}

impl From<ErrorKind> for Error {
    fn from(kind: ErrorKind) -> Error {
        Error::new(kind, kind.words(), "")
    }
}

impl From<io::Error> for Error {
    /// Keeps an error of a reader or a writer, which `source` returns. An error of this crate inside it is returned.
    fn from(error: io::Error) -> Error {
        if let Some(found) = error.get_ref().and_then(|it| it.downcast_ref::<Error>()) {
            return found.clone();
        }
        Error::new(ErrorKind::Io, error.to_string(), "").with(|it| it.source = Some(Arc::new(error)))
    }
}

impl From<Error> for io::Error {
    /// Makes an error of the same kind if a reader or a writer failed, otherwise one of the kind `InvalidData`.
    fn from(error: Error) -> io::Error {
        let kind = error.0.source.as_ref().map_or(io::ErrorKind::InvalidData, |it| it.kind());
        io::Error::new(kind, error)
    }
}

impl PartialEq for Error {
    /// Compares all that the methods return.
    fn eq(&self, other: &Error) -> bool {
        let (a, b) = (&*self.0, &*other.0);
        let has_same_words = a.message == b.message && a.reason == b.reason && a.path == b.path;
        has_same_words && (a.kind, a.line, a.column, a.offset) == (b.kind, b.line, b.column, b.offset)
    }
}

impl Eq for Error {}

impl fmt::Debug for Error {
    fn fmt(&self, f: &mut fmt::Formatter<'_>) -> fmt::Result {
        f.debug_struct("Error")
            .field("kind", &self.0.kind)
            .field("reason", &self.0.reason)
            .field("path", &self.0.path)
            .field("line", &self.0.line)
            .field("column", &self.0.column)
            .field("offset", &self.0.offset)
            .finish()
    }
}

impl fmt::Display for ErrorKind {
    fn fmt(&self, f: &mut fmt::Formatter<'_>) -> fmt::Result {
        f.write_str(self.words())
    }
}

impl fmt::Display for Error {
    fn fmt(&self, f: &mut fmt::Formatter<'_>) -> fmt::Result {
        f.write_str(&self.0.message)
    }
}

impl std::error::Error for ErrorKind {}

impl std::error::Error for Error {
    fn source(&self) -> Option<&(dyn std::error::Error + 'static)> {
        self.0.source.as_ref().map(|it| &**it as &(dyn std::error::Error + 'static))
    }
}
