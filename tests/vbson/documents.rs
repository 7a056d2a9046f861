//! Answers lines `CALL HEX` of standard input: documents.py and rust_parts.py say which, and what is written of each.
use std::io::{self, BufRead};
use vbson::{convert_lines, decode, decode_documents, encode, explain, explain_document, is_document, Error, ErrorKind, Mode, Options, PathElement};

fn main() -> io::Result<()> {
    for line in io::stdin().lock().lines() {
        let line = line?;
        let (call, digits) = line.split_once(' ').expect("a line is CALL HEX");
        let (status, left) = answer(call, &bytes_of(digits));
        let left: String = left.iter().map(|byte| format!("{byte:02x}")).collect();
        println!("{status} {left}");
    }
    Ok(())
}

fn bytes_of(digits: &str) -> Vec<u8> {
    let pairs = digits.as_bytes().chunks(2).map(|it| std::str::from_utf8(it).unwrap());
    pairs.map(|it| u8::from_str_radix(it, 16).unwrap()).collect()
}

fn answer(call: &str, given: &[u8]) -> (i32, Vec<u8>) {
    let doubles = Options { doubles: true, ..Options::SPECIFIED };
    let left = match call {
        "text" | "bytes" | "lines" | "dump" => return (0, fields(call, given).join("\n").into_bytes()),
        "is" => return (if is_document(given) { 0 } else { 10 }, Vec::new()),
        "explain" => return (0, explain_document(given).map_or(String::new(), |it| it.to_string()).into_bytes()),
        "encode" => encode(doubles, given).map(|it| it.to_vec()),
        _ => decode(mode_of(call), doubles, given).map(|it| it.as_bytes().to_vec()),
    };
    match left {
        Ok(left) => (0, left),
        Err(error) if call != "encode" && !is_explained(&error, given) => (-1, Vec::new()),
        Err(error) => (status_of(error.kind()), Vec::new()),
    }
}

/// The fields of each error of a text, of bytes, of a block of lines, or of a dump.
fn fields(call: &str, given: &[u8]) -> Vec<String> {
    let (mode, options) = (Mode::Relaxed, Options::SPECIFIED);
    match call {
        "text" => explain(options, given).iter().map(fields_of).collect(),
        "bytes" => explain_document(given).iter().map(fields_of).collect(),
        "lines" => {
            let refused = convert_lines(mode, options, given).expect("there is memory").refused;
            refused.iter().map(|(number, it)| format!("{number}\0{}", fields_of(it))).collect()
        }
        _ => {
            let refused = decode_documents(mode, options, given).expect("there is memory").refused;
            refused.iter().map(|it| format!("{}\0{}\0{}", it.number, it.start, fields_of(&it.error))).collect()
        }
    }
}

fn fields_of(error: &Error) -> String {
    let number = |it: Option<u64>| it.map_or(String::new(), |it| it.to_string());
    let element = |it: &PathElement| match it {
        PathElement::Key(key) => format!("key {key}"),
        PathElement::Index(index) => format!("index {index}"),
    };
    let (code, path) = (error.code().map(u64::from), error.path().iter().map(element).collect::<Vec<_>>().join("\u{1}"));
    let numbers = [code, error.line(), error.column(), error.offset()].map(number).join("\0");
    [&*numbers, error.message(), error.reason(), &*path].join("\0")
}

fn mode_of(call: &str) -> Mode {
    match call {
        "canonical" => Mode::Canonical,
        "relaxed" => Mode::Relaxed,
        "show" => Mode::Show,
        other => panic!("no call {other}"),
    }
}

/// Whether the error is made of the words for these bytes, and place and reason are all of them.
fn is_explained(error: &Error, given: &[u8]) -> bool {
    let words = format!("not a document at byte {} ({})", error.offset().map_or(-1, |it| it as i64), error.reason());
    error.to_string() == words && explain_document(given).as_ref() == Some(error)
}

fn status_of(kind: ErrorKind) -> i32 {
    match kind {
        ErrorKind::NotJson => 2,
        ErrorKind::BadObjectId => 3,
        ErrorKind::NotExtendedJson => 4,
        ErrorKind::NotRepresentable => 7,
        ErrorKind::NotADocument => 10,
        ErrorKind::ZeroInKey => 11,
        ErrorKind::ZeroInRegex => 12,
        other => panic!("{other}"),
    }
}
