//! Blocks of Extended JSON lines, and of concatenated documents.
use crate::block::Block;
use crate::explain::{of_documents, of_lines, of_options, RefusedDocument};
use crate::text::owned;
use crate::{call, convert_with, decode, encode, is_document, Bytes, Error, Mode, Options, Text};

/// The result for a block of lines.
#[derive(Debug)]
pub struct Lines {
    /// The output of each line, in their order, each followed by a newline.
    pub text: Text,
    /// The number of lines, with blank and rejected ones.
    pub count: u64,
    /// The number of each rejected line, from 1, and its error, whose line and offset are those in the block.
    pub refused: Vec<(u64, Error)>,
}

/// Converts each line of a block, as `convert_with` does.
///
/// A newline ends a line; bytes after the last newline are a line too. A line of spaces, tabs and carriage returns counts,
/// and has no output. A byte order mark at the start of the block is skipped.
///
/// # Errors
///
/// - `OutOfMemory` if an allocation fails. A rejected line is not an error of the call.
pub fn convert_lines(mode: Mode, options: Options, block: &[u8]) -> Result<Lines, Error> {
    let raw = call::convert_lines(mode as u32, options.raw(), block)?;
    let (text, _diagnostics) = (owned(raw.text), Block::of(raw.diagnostics));
    let first_of = |rest: &[u8]| call::first_rejected_line(mode as u32, options.raw(), rest);
    let error_of = |line: &[u8]| convert_with(mode, options, line).expect_err("the line was rejected");
    Ok(Lines { text, count: raw.lines, refused: of_lines(raw.refused, block, first_of, error_of)? })
}

/// The result for a block of lines that are encoded.
#[derive(Debug)]
pub struct EncodedLines {
    /// The concatenated documents, in the order of the lines.
    pub bytes: Bytes,
    /// The number of lines, with blank and rejected ones.
    pub count: u64,
    /// The number of each rejected line, from 1, and its error, whose line and offset are those in the block.
    pub refused: Vec<(u64, Error)>,
}

/// Encodes each line of a block, as `encode` does. The lines are those of `convert_lines`.
///
/// # Errors
///
/// - `OutOfMemory` if an allocation fails. A rejected line is not an error of the call.
pub fn encode_lines(options: Options, block: &[u8]) -> Result<EncodedLines, Error> {
    let raw = call::encode_lines(options.raw(), block)?;
    let (bytes, _diagnostics) = (Bytes(Block::of(raw.text)), Block::of(raw.diagnostics));
    let first_of = |rest: &[u8]| call::first_unencoded_line(options.raw(), rest);
    let error_of = |line: &[u8]| encode(options, line).expect_err("the line was rejected");
    Ok(EncodedLines { bytes, count: raw.lines, refused: of_lines(raw.refused, block, first_of, error_of)? })
}

/// The result for a block of documents.
#[derive(Debug)]
pub struct Documents {
    /// The output of each document, in their order, each followed by a newline.
    pub text: Text,
    /// The number of documents, with rejected ones.
    pub count: u64,
    /// The bytes of the block that were documents: all, or those before one that the block cuts off.
    pub consumed: u64,
    /// The rejected documents.
    pub refused: Vec<RefusedDocument>,
}

/// Decodes the concatenated documents of a block, each as `decode` does.
///
/// The next document begins where the length of the one before it ends, also if that was rejected. If the block has no
/// valid length there, or fewer bytes, that document is the last, and the rest is not read.
///
/// # Errors
///
/// - `InvalidArgument` if `v1` is on, which has no meaning for bytes.
/// - `OutOfMemory` if an allocation fails. A rejected document is not an error of the call.
pub fn decode_documents(mode: Mode, options: Options, block: &[u8]) -> Result<Documents, Error> {
    let raw = call::decode_documents(mode as u32, options.raw(), block).map_err(of_options)?;
    let (text, diagnostics) = (owned(raw.text), Block::of(raw.diagnostics));
    // (a check takes less time than the output)
    let is_accepted = |it: &[u8]| options.doubles && !options.reject_duplicate_keys && is_document(it);
    let error_of = |it: &[u8]| if is_accepted(it) { None } else { decode(mode, options, it).err() };
    let count = if diagnostics.is_empty() { 0 } else { raw.documents };
    let refused = of_documents(count, block, error_of)?;
    Ok(Documents { text, count: raw.documents, consumed: raw.consumed, refused })
}
