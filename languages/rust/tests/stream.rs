//! Readers and writers of dumps and lines.
use std::io::{self, Read, Write};
use vbson::{encode, explain_document, DumpReader, DumpWriter, Error, ErrorKind, LineReader, LineWriter, Mode, Options, PathElement, RawDocumentBuf};

/// A reader of one byte at a time, which fails at its end if it must.
struct Slow<'a>(&'a [u8], bool);

impl Read for Slow<'_> {
    fn read(&mut self, out: &mut [u8]) -> io::Result<usize> {
        if self.0.is_empty() && self.1 {
            return Err(io::Error::new(io::ErrorKind::ConnectionReset, "it is reset"));
        }
        self.0.read(&mut out[..1])
    }
}

/// A writer that accepts so many bytes.
struct Full(usize);

impl Write for Full {
    fn write(&mut self, bytes: &[u8]) -> io::Result<usize> {
        if self.0 == 0 {
            return Err(io::ErrorKind::WriteZero.into());
        }
        let count = bytes.len().min(self.0);
        self.0 -= count;
        Ok(count)
    }

    fn flush(&mut self) -> io::Result<()> {
        Ok(())
    }
}

fn document(text: &str) -> Vec<u8> {
    encode(Options::default(), text.as_bytes()).unwrap().to_vec()
}

fn dump() -> Vec<u8> {
    [document(r#"{"b": 1.5, "a": [1, "x"]}"#), document("{}"), document(r#"{"n": {"$numberLong": "5"}}"#)].concat()
}

fn bytes_of(found: &[Result<RawDocumentBuf, Error>]) -> Vec<u8> {
    found.iter().flat_map(|it| it.as_ref().unwrap().as_bytes().to_vec()).collect()
}

#[test]
fn dumps_are_read_and_written() {
    let dump = dump();
    let found: Vec<_> = DumpReader::new(&dump[..]).collect();
    assert_eq!((found.len(), bytes_of(&found)), (3, dump.clone()));
    assert_eq!(bytes_of(&DumpReader::new(Slow(&dump, false)).collect::<Vec<_>>()), dump);
    assert_eq!(DumpReader::new(&b""[..]).count(), 0);
    let mut written = DumpWriter::new(Vec::new());
    for it in &found {
        written.write(it.as_ref().unwrap()).unwrap();
    }
    written.write_text(Options::default(), br#"{"a": 1}"#).unwrap();
    assert_eq!(written.write_text(Options::default(), b"[1]").unwrap_err().kind(), ErrorKind::NotADocument);
    assert_eq!(written.finish().unwrap(), [dump, document(r#"{"a": 1}"#)].concat());
}

#[test]
fn rejected_documents_of_a_dump_have_their_place() {
    let (first, bad) = (document(r#"{"a": 1}"#), [9, 0, 0, 0, 8, b'a', 0, 2, 0]);
    let dump = [&first[..], &bad, &first].concat();
    let found: Vec<_> = DumpReader::new(&dump[..]).collect();
    assert!(found.len() == 3 && found[0].is_ok() && found[2].is_ok());
    let (error, alone) = (found[1].as_ref().unwrap_err(), explain_document(&bad).unwrap());
    assert_eq!((error.kind(), error.reason()), (ErrorKind::NotADocument, alone.reason()));
    assert_eq!(error.offset(), alone.offset().map(|it| it + first.len() as u64));
    assert_eq!(error.path()[..], [vec![PathElement::Index(1)], alone.path().to_vec()].concat());
    let wanted = format!("document 2 at byte {}: {} at its byte {}", first.len(), alone.reason(), alone.offset().unwrap());
    assert_eq!(error.to_string(), wanted);
    // A dump that is cut off anywhere has a rejected document at its end, unless it is cut between two.
    for len in 0..dump.len() {
        let found: Vec<_> = DumpReader::new(&dump[..len]).collect();
        let is_between = [0, first.len(), first.len() + bad.len()].contains(&len);
        let last_fails = found.last().is_some_and(|it| it.is_err());
        assert_eq!(last_fails, !is_between || len == first.len() + bad.len(), "{len}");
    }
    for length in [4, 0, -1, i32::MAX] {
        let damaged = [&first[..], &length.to_le_bytes(), &[0; 9]].concat();
        let found: Vec<_> = DumpReader::new(&damaged[..]).collect();
        assert_eq!((found.len(), found[1].as_ref().unwrap_err().path()[0].clone()), (2, 1.into()), "{length}");
    }
}

#[test]
fn lines_are_read() {
    let lines = b"\xef\xbb\xbf{\"n\": 5}\r\n \t\r\n{\"n\": }\n[1]\n{\"a\":{\"$oid\":\"5\"}}\n{}";
    for found in [LineReader::new(&lines[..]).collect::<Vec<_>>(), LineReader::new(Slow(lines, false)).collect()] {
        assert_eq!(found.len(), 5);
        assert_eq!((found[0].as_ref().unwrap().as_bytes(), found[4].as_ref().unwrap().as_bytes()), (&document(r#"{"n": 5}"#)[..], &document("{}")[..]));
        let errors: Vec<_> = found[1..4].iter().map(|it| it.as_ref().unwrap_err()).collect();
        let places: Vec<_> = errors.iter().map(|it| (it.kind(), it.line(), it.column())).collect();
        assert_eq!(places, [(ErrorKind::NotJson, Some(3), Some(7)), (ErrorKind::NotADocument, Some(4), None), (ErrorKind::BadObjectId, Some(5), Some(14))]);
        let before = lines.windows(7).position(|it| it == b"{\"n\": }").unwrap() as u64;
        assert_eq!(errors[0].offset(), Some(before + 6));
        assert_eq!(errors[2].path()[..], ["a".into(), "$oid".into()]);
    }
    let mut lines = LineReader::with_options(Options::SPECIFIED, &b"\n{\"b\":1.5}\n5"[..]);
    assert_eq!(lines.read().unwrap().unwrap(), b"{\"b\":1.5}");
    assert_eq!(lines.number(), 2);
    assert_eq!(lines.next().unwrap().unwrap_err().line(), Some(3));
    assert!(lines.next().is_none() && lines.read().is_none());
    assert_eq!(LineReader::with_options(Options::SPECIFIED, &b"{\"b\":1.5}"[..]).next().unwrap().unwrap_err().kind(), ErrorKind::NotExtendedJson);
    let deep = format!("{}{}1{}{}", "{\"a\":", "[".repeat(100), "]".repeat(100), "}");
    let error = LineReader::new(deep.as_bytes()).next().unwrap().unwrap_err();
    assert_eq!((error.kind(), error.reason(), error.line()), (ErrorKind::NotADocument, "nested too deep", Some(1)));
}

#[test]
fn lines_are_written() {
    let dump = dump();
    for (mode, options, wanted) in [
        (Mode::Relaxed, Options::default(), "{\"b\":1.5,\"a\":[1,\"x\"]}\n{}\n{\"n\":5}\n"),
        (Mode::Relaxed, Options { keep_order: false, ..Options::default() }, "{\"a\":[1,\"x\"],\"b\":1.5}\n{}\n{\"n\":5}\n"),
    ] {
        let mut lines = LineWriter::with_options(mode, options, Vec::new());
        let mut documents = DumpReader::new(&dump[..]);
        while let Some(it) = documents.read() {
            lines.write(it.unwrap()).unwrap();
        }
        assert_eq!(String::from_utf8(lines.finish().unwrap()).unwrap(), wanted);
    }
    let mut lines = LineWriter::with_options(Mode::Canonical, Options::SPECIFIED, Vec::new());
    let found: Vec<_> = DumpReader::new(&dump[..]).map(|it| lines.write(&it.unwrap())).collect();
    let error = found[0].as_ref().unwrap_err();
    assert_eq!((error.kind(), error.path()[..].to_vec(), error.reason()), (ErrorKind::NotRepresentable, vec!["b".into()], "a finite double"));
    assert_eq!(lines.finish().unwrap(), b"{}\n{\"n\":{\"$numberLong\":\"5\"}}\n");
}

#[test]
fn readers_and_writers_fail_with_their_errors() {
    let dump = dump();
    let found: Vec<_> = DumpReader::new(Slow(&dump, true)).collect();
    let error = found[3].as_ref().unwrap_err();
    assert_eq!((found.len(), error.kind(), error.code(), error.message()), (4, ErrorKind::Io, None, "it is reset"));
    let back = io::Error::from(error.clone());
    assert_eq!(back.kind(), io::ErrorKind::ConnectionReset);
    assert_eq!(&Error::from(back), error);
    assert_eq!(LineReader::new(Slow(b"{}", true)).map(|it| it.unwrap_err().kind()).collect::<Vec<_>>(), [ErrorKind::Io]);
    let error = io::Error::from(explain_document(b"").unwrap());
    assert_eq!((error.kind(), Error::from(error).kind()), (io::ErrorKind::InvalidData, ErrorKind::NotADocument));
    let mut written = DumpWriter::new(Full(9));
    written.write_text(Options::default(), br#"{"a": 1}"#).unwrap();
    assert_eq!(written.finish().map(|_| ()).unwrap_err().kind(), ErrorKind::Io);
    let mut lines = LineWriter::new(Mode::Relaxed, Full(2));
    lines.write(&RawDocumentBuf::new(b"\x05\0\0\0\0".to_vec()).unwrap()).unwrap();
    assert_eq!(lines.finish().map(|_| ()).unwrap_err().kind(), ErrorKind::Io);
}
