//! The errors of rejected input, as the library reports them.
use crate::block::Block;
use crate::call::{self, RawOptions};
use crate::error::{Error, ErrorKind};
use crate::path::{self, Path, PathElement};
use crate::text::owned;
use crate::{Bson, RawDocument};

/// A byte order mark, which is skipped at the start of a block of lines.
const MARK: &[u8] = b"\xef\xbb\xbf";

/// The error of the first rejected text. Only a rejected text is read again; if that runs out of memory, the error has no
/// path.
pub(crate) fn of_texts(kind: ErrorKind, options: RawOptions, texts: &[&[u8]]) -> Error {
    if !matches!(kind, ErrorKind::NotJson | ErrorKind::BadObjectId | ErrorKind::NotExtendedJson) {
        return kind.into();
    }
    let mut explained = texts.iter().map(|it| of_text(options, it));
    match explained.find(|it| !matches!(it, Ok(None))) {
        Some(Ok(Some(error))) => error,
        _ => kind.into(),
    }
}

/// The error of a call that decodes bytes: that of its options, or one without more words.
pub(crate) fn of_options(kind: ErrorKind) -> Error {
    match kind {
        ErrorKind::InvalidArgument => Error::at_path(kind, Path::default(), "v1 has no meaning for BSON bytes"),
        _ => kind.into(),
    }
}

/// The error of a text, or `None` if the text is accepted.
fn of_text(options: RawOptions, text: &[u8]) -> Result<Option<Error>, ErrorKind> {
    let found = call::explain(options, text)?;
    let (path, reason, message) = (Block::of(found.path), owned(found.reason), owned(found.message));
    let Some(kind) = call::kind_of(found.code) else { return Ok(None) };
    let position = |it: usize| (found.line > 0).then_some(it as u64);
    Ok(Some(Error::new(kind, &*message, &reason).with(|it| {
        it.path = elements_of(&path);
        it.line = position(found.line);
        it.column = position(found.column);
        it.offset = position(found.offset);
    })))
}

/// The elements of a path, which is a BSON array of keys and indexes.
fn elements_of(path: &[u8]) -> Path {
    let elements = RawDocument::new(path).expect("a path is an array");
    let element = |it: Bson<'_>| match it {
        Bson::String(key) => PathElement::Key(key.to_owned()),
        Bson::Int64(index) => PathElement::Index(index as usize),
        other => unreachable!("{other:?} in a path"),
    };
    elements.iter().map(|(_, it)| element(it.value())).collect()
}

/// The number and the error of each rejected line of a block, which has `count` of them. `first_of` returns the number of the
/// first one, and `error_of` the error of the line alone.
pub(crate) fn of_lines(
    count: u64,
    block: &[u8],
    first_of: impl Fn(&[u8]) -> Result<u64, ErrorKind>,
    error_of: impl Fn(&[u8]) -> Error,
) -> Result<Vec<(u64, Error)>, Error> {
    let newline = |start: usize| block[start..].iter().position(|it| *it == b'\n').map(|it| start + it);
    let (mut refused, mut number, mut end) = (Vec::new(), 1, 0);
    for _ in 0..count {
        // (the rest begins with the newline of the rejected line, so that a byte order mark after it is not skipped)
        let passed = first_of(&block[end..])? - 1;
        number += passed;
        // (the columns of the first line count from after a byte order mark)
        let mut start = if number == 1 && block.starts_with(MARK) { MARK.len() } else { end };
        for _ in 0..passed {
            start = newline(start).expect("a block has its lines") + 1;
        }
        end = newline(start).unwrap_or(block.len());
        refused.push((number, error_of(&block[start..end]).in_line(number, start as u64)));
    }
    Ok(refused)
}

/// The error of bytes that are not a document, or that have a duplicate key, which the options reject; `None` if they have no
/// such error. If memory runs out, the error has no offset.
pub(crate) fn of_document(options: RawOptions, bytes: &[u8]) -> Option<Error> {
    match call::explain_document(RawOptions { doubles: call::DOUBLES_FINITE, ..options }, bytes) {
        Ok(found) => {
            let (_path, reason, _message) = (Block::of(found.path), owned(found.reason), owned(found.message));
            call::kind_of(found.code).map(|_| of_bytes(&reason, found.offset, bytes))
        }
        Err(_) if call::hash_document(options, bytes) == Err(ErrorKind::NotADocument) => Some(ErrorKind::NotADocument.into()),
        Err(_) => None,
    }
}

/// The error of bytes that are not a document, from what is wrong at an offset.
fn of_bytes(reason: &str, offset: usize, bytes: &[u8]) -> Error {
    Error::new(ErrorKind::NotADocument, format!("not a document at byte {offset} ({reason})"), reason).with(|it| {
        it.offset = Some(offset as u64);
        it.path = path::at_offset(bytes, offset);
    })
}

/// The error of a document with a finite double, which has no text without `doubles`.
pub(crate) fn of_double(document: &[u8]) -> Error {
    Error::at_path(ErrorKind::NotRepresentable, path::of_finite_double(document), "a finite double")
}

/// A rejected document of a block.
#[derive(Clone, Debug, PartialEq, Eq)]
pub struct RefusedDocument {
    /// Its number, from 1.
    pub number: u64,
    /// Its byte offset in the block.
    pub start: u64,
    /// The error that `decode` returns for this document alone.
    pub error: Error,
}

/// The rejected documents among the first `count` of a block, each of which is read again. `error_of` returns the error of
/// the document alone.
pub(crate) fn of_documents(
    count: u64,
    block: &[u8],
    error_of: impl Fn(&[u8]) -> Option<Error>,
) -> Result<Vec<RefusedDocument>, Error> {
    let (mut refused, mut start) = (Vec::new(), 0);
    for number in 1..=count {
        let document = first_document(&block[start..]);
        match error_of(document) {
            Some(error) if error.kind() == ErrorKind::OutOfMemory => return Err(error),
            Some(error) => refused.push(RefusedDocument { number, start: start as u64, error }),
            None => (),
        }
        start += document.len();
    }
    Ok(refused)
}

/// The bytes of the first document: as many as its length says, at least those of the length, and at most all.
fn first_document(bytes: &[u8]) -> &[u8] {
    let length = bytes.get(..4).map_or(0, |it| i32::from_le_bytes(it.try_into().expect("four bytes")));
    &bytes[..bytes.len().min(length.max(4) as usize)]
}
