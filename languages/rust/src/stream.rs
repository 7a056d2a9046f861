//! Dumps and lines of any size, by readers and writers of `std::io`, in the memory of the largest document.
use crate::{decode, encode, Error, ErrorKind, Mode, Options, RawDocument, RawDocumentBuf};
use std::io::{BufRead, BufReader, BufWriter, Read, Write};

/// Reads the documents of a dump, which are concatenated, such as a file of mongodump.
///
/// It is an iterator over documents that own their bytes. [`DumpReader::read`] borrows them and copies nothing. The reader
/// needs no buffer of its own.
///
/// ```
/// let dump = b"\x0c\0\0\0\x10n\0\x05\0\0\0\0\x05\0\0\0\0";
/// let mut documents = vbson::DumpReader::new(&dump[..]);
/// assert_eq!(documents.next().unwrap()?.as_document().get("n").and_then(|it| it.as_i32()), Some(5));
/// assert_eq!(documents.next().unwrap()?.as_bytes(), b"\x05\0\0\0\0");
/// assert!(documents.next().is_none());
/// # Ok::<(), vbson::Error>(())
/// ```
///
/// # Errors
///
/// - `NotADocument` for a rejected document. The path begins with its index, and the offset is that in the dump. If all bytes
///   of its length are there, the next document is read after it; otherwise it is the last.
/// - `Io` if the reader fails.
pub struct DumpReader<R> {
    reader: BufReader<R>,
    document: Vec<u8>,
    // Those of the next document.
    number: u64,
    start: u64,
    is_at_end: bool,
}

impl<R: Read> DumpReader<R> {
    /// Makes a reader of the documents of a dump.
    pub fn new(reader: R) -> DumpReader<R> {
        let reader = BufReader::with_capacity(1 << 18, reader);
        DumpReader { reader, document: Vec::new(), number: 0, start: 0, is_at_end: false }
    }

    /// Reads the next document, which is valid until the next call. Returns `None` at the end of the dump.
    ///
    /// # Errors
    ///
    /// - `NotADocument` for a rejected document, with its index and the offset in the dump.
    /// - `Io` if the reader fails.
    pub fn read(&mut self) -> Option<Result<RawDocument<'_>, Error>> {
        if self.is_at_end {
            return None;
        }
        match self.fill() {
            Ok(false) => {
                self.is_at_end = true;
                return None;
            }
            Ok(true) => (),
            Err(error) => {
                self.is_at_end = true;
                return Some(Err(error));
            }
        }
        let (number, start) = (self.number, self.start);
        self.number += 1;
        self.start += self.document.len() as u64;
        Some(RawDocument::new(&self.document).map_err(|it| it.in_dump(number, start)))
    }

    /// Reads the bytes of a document, and returns whether there are any. If its length is invalid or the dump ends early,
    /// these bytes are the last.
    fn fill(&mut self) -> Result<bool, Error> {
        self.document.clear();
        self.reader.by_ref().take(4).read_to_end(&mut self.document)?;
        let length = <[u8; 4]>::try_from(&self.document[..]).map_or(0, i32::from_le_bytes);
        if length >= 5 {
            self.reader.by_ref().take(length as u64 - 4).read_to_end(&mut self.document)?;
        }
        self.is_at_end = length < 5 || self.document.len() < length as usize;
        Ok(!self.document.is_empty())
    }
}

impl<R: Read> Iterator for DumpReader<R> {
    type Item = Result<RawDocumentBuf, Error>;

    fn next(&mut self) -> Option<Self::Item> {
        Some(self.read()?.map(|it| it.to_owned()))
    }
}

/// Writes documents as a dump. The bytes are buffered: end with [`DumpWriter::finish`].
///
/// ```
/// let mut dump = vbson::DumpWriter::new(Vec::new());
/// dump.write_text(vbson::Options::default(), br#"{"n": 5}"#)?;
/// assert_eq!(dump.finish()?, b"\x0c\0\0\0\x10n\0\x05\0\0\0\0");
/// # Ok::<(), vbson::Error>(())
/// ```
pub struct DumpWriter<W: Write> {
    writer: BufWriter<W>,
}

impl<W: Write> DumpWriter<W> {
    /// Makes a writer of a dump.
    pub fn new(writer: W) -> DumpWriter<W> {
        DumpWriter { writer: BufWriter::with_capacity(1 << 18, writer) }
    }

    /// Writes the bytes of a document.
    ///
    /// # Errors
    ///
    /// - `Io` if the writer fails.
    pub fn write<'a>(&mut self, document: impl Into<RawDocument<'a>>) -> Result<(), Error> {
        Ok(self.writer.write_all(document.into().as_bytes())?)
    }

    /// Writes the canonical bytes of the document of an Extended JSON text.
    ///
    /// # Errors
    ///
    /// - `Io` if the writer fails.
    /// - Any other kind as in [`encode`], if the text has no bytes.
    pub fn write_text(&mut self, options: Options, text: &[u8]) -> Result<(), Error> {
        Ok(self.writer.write_all(&encode(options, text)?)?)
    }

    /// Writes what is buffered, and returns the writer.
    ///
    /// # Errors
    ///
    /// - `Io` if the writer fails.
    pub fn finish(self) -> Result<W, Error> {
        finished(self.writer)
    }
}

/// Reads lines of Extended JSON, each of which is a document, such as a file of mongoexport.
///
/// It is an iterator over documents that own their bytes. [`LineReader::read`] borrows the text of a line, and leaves to the
/// caller what is made of it. A newline ends a line, and blank lines are skipped. A byte order mark at the start is skipped.
///
/// ```
/// let lines = b"{\"n\": 5}\n\n{\"n\": }\n{}\n";
/// let found: Vec<_> = vbson::LineReader::new(&lines[..]).collect();
/// assert_eq!(found[0].as_ref().unwrap().as_bytes(), b"\x0c\0\0\0\x10n\0\x05\0\0\0\0");
/// let error = found[1].as_ref().unwrap_err();
/// assert_eq!((error.line(), error.column(), error.offset()), (Some(3), Some(7), Some(16)));
/// assert!(found[2].is_ok() && found.len() == 3);
/// ```
///
/// # Errors
///
/// - `NotADocument` if a line is not a document, or nests deeper than 100.
/// - `Io` if the reader fails.
/// - Any other kind as in [`encode`], if a line has no bytes. Line and offset are those in the input. The next line is read
///   after it.
pub struct LineReader<R> {
    reader: BufReader<R>,
    options: Options,
    line: Vec<u8>,
    // Those of the line that was read last, and where the next line starts.
    number: u64,
    start: u64,
    end: u64,
    is_at_end: bool,
}

impl<R: Read> LineReader<R> {
    /// Makes a reader of lines with the default options.
    pub fn new(reader: R) -> LineReader<R> {
        LineReader::with_options(Options::default(), reader)
    }

    /// Makes a reader of lines.
    pub fn with_options(options: Options, reader: R) -> LineReader<R> {
        let reader = BufReader::with_capacity(1 << 18, reader);
        LineReader { reader, options, line: Vec::new(), number: 0, start: 0, end: 0, is_at_end: false }
    }

    /// Returns the number of the line that was read last, from 1.
    pub fn number(&self) -> u64 {
        self.number
    }

    /// Reads the next line that is not blank, without its newline. It is valid until the next call. Returns `None` at the
    /// end of the input.
    ///
    /// # Errors
    ///
    /// - `Io` if the reader fails.
    pub fn read(&mut self) -> Option<Result<&[u8], Error>> {
        while !self.is_at_end {
            match self.fill() {
                Err(error) => {
                    self.is_at_end = true;
                    return Some(Err(error));
                }
                Ok(0) => self.is_at_end = true,
                Ok(_) if self.line.iter().all(|it| b" \t\r".contains(it)) => (),
                Ok(_) => return Some(Ok(&self.line)),
            }
        }
        None
    }

    /// Reads a line, and returns the number of its bytes.
    fn fill(&mut self) -> Result<usize, Error> {
        self.line.clear();
        let count = self.reader.read_until(b'\n', &mut self.line)?;
        self.start = self.end;
        self.end += count as u64;
        self.number += u64::from(count > 0);
        if self.line.last() == Some(&b'\n') {
            self.line.pop();
        }
        if self.number == 1 && self.line.starts_with(b"\xef\xbb\xbf") {
            self.line.drain(..3);
            self.start += 3;
        }
        Ok(count)
    }

    fn document(&self) -> Result<RawDocumentBuf, Error> {
        let document = encode(self.options, &self.line).map_err(|it| it.in_line(self.number, self.start))?;
        let too_deep = |it: Error| Error::new(ErrorKind::NotADocument, it.message(), it.reason()).with(|it| it.line = Some(self.number));
        RawDocumentBuf::new(document.to_vec()).map_err(too_deep)
    }
}

impl<R: Read> Iterator for LineReader<R> {
    type Item = Result<RawDocumentBuf, Error>;

    fn next(&mut self) -> Option<Self::Item> {
        if let Err(error) = self.read()? {
            return Some(Err(error));
        }
        Some(self.document())
    }
}

/// Writes documents as lines of Extended JSON. The bytes are buffered: end with [`LineWriter::finish`].
///
/// ```
/// let dump = b"\x0c\0\0\0\x10n\0\x05\0\0\0\0\x05\0\0\0\0";
/// let mut lines = vbson::LineWriter::new(vbson::Mode::Relaxed, Vec::new());
/// for document in vbson::DumpReader::new(&dump[..]) {
///     lines.write(&document?)?;
/// }
/// assert_eq!(lines.finish()?, b"{\"n\":5}\n{}\n");
/// # Ok::<(), vbson::Error>(())
/// ```
pub struct LineWriter<W: Write> {
    writer: BufWriter<W>,
    mode: Mode,
    options: Options,
}

impl<W: Write> LineWriter<W> {
    /// Makes a writer of lines in the mode, with the default options.
    pub fn new(mode: Mode, writer: W) -> LineWriter<W> {
        LineWriter::with_options(mode, Options::default(), writer)
    }

    /// Makes a writer of lines in the mode.
    pub fn with_options(mode: Mode, options: Options, writer: W) -> LineWriter<W> {
        LineWriter { writer: BufWriter::with_capacity(1 << 18, writer), mode, options }
    }

    /// Writes a document and a newline.
    ///
    /// # Errors
    ///
    /// - `NotRepresentable`, with the path, if the document has a finite double other than 0.0, and `doubles` is off.
    /// - `OutOfMemory` if an allocation fails.
    /// - `Io` if the writer fails.
    pub fn write<'a>(&mut self, document: impl Into<RawDocument<'a>>) -> Result<(), Error> {
        let text = decode(self.mode, self.options, document.into().as_bytes())?;
        self.writer.write_all(text.as_bytes())?;
        Ok(self.writer.write_all(b"\n")?)
    }

    /// Writes what is buffered, and returns the writer.
    ///
    /// # Errors
    ///
    /// - `Io` if the writer fails.
    pub fn finish(self) -> Result<W, Error> {
        finished(self.writer)
    }
}

fn finished<W: Write>(writer: BufWriter<W>) -> Result<W, Error> {
    writer.into_inner().map_err(|it| it.into_error().into())
}
