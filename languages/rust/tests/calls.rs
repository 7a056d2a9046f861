//! Each call of the wrapper, and each error.
use std::thread;
use vbson::{convert, convert_lines, convert_with, decode, encode, explain, explain_document, hash, is_document, same, version};
use vbson::{decode_documents, encode_lines, hash_document, is_canonical_text, same_documents};
use vbson::{Bson, DateTime, Decimal128, Error, ErrorKind, Mode, ObjectId, Options, PathElement, RawDocument, RawDocumentBuf, Text, Timestamp};

#[test]
fn texts_are_converted() {
    let text = convert(Mode::Canonical, br#"{"b":2147483648,"a":-5}"#).unwrap();
    assert_eq!(&*text, r#"{"b":{"$numberLong":"2147483648"},"a":{"$numberInt":"-5"}}"#);
    assert_eq!(text.to_string(), &*text);
    assert_eq!(format!("{:?}", convert(Mode::Relaxed, b"[ 1 ]").unwrap()), "\"[1]\"");
    assert_eq!(&*convert(Mode::Show, br#"{"$code":""}"#).unwrap(), "");
    assert_eq!(&*convert(Mode::Show, br#""a\u0000b""#).unwrap(), "\"a\0b\"");
}

#[test]
fn finite_doubles_are_an_option() {
    let (text, doubles) = (br#"{"b":1.5,"a":1e2}"#, Options { doubles: true, ..Options::SPECIFIED });
    assert_eq!(Options::default(), Options { doubles: true, keep_order: true, mongodb_layout: true, ..Options::SPECIFIED });
    assert_eq!(&*convert(Mode::Relaxed, text).unwrap(), r#"{"b":1.5,"a":100.0}"#);
    let canonical = r#"{"a":{"$numberDouble":"100.0"},"b":{"$numberDouble":"1.5"}}"#;
    for (mode, wanted) in [(Mode::Canonical, canonical), (Mode::Relaxed, r#"{"a":100.0,"b":1.5}"#)] {
        assert_eq!(&*convert_with(mode, doubles, text).unwrap(), wanted);
        let kind = convert_with(mode, Options::SPECIFIED, text).map_err(|it| it.kind()).err();
        assert_eq!(kind, Some(ErrorKind::NotExtendedJson));
    }
    assert_eq!(&*convert_with(Mode::Relaxed, Options::SPECIFIED, b"[ 1 ]").unwrap(), "[1]");
    assert_eq!(explain(doubles, text), None);
    assert!(explain(Options::SPECIFIED, text).is_some());
    assert_eq!(explain(doubles, b"1e400").map(|it| it.kind()), Some(ErrorKind::NotJson));
}

#[test]
fn the_order_of_keys_is_an_option() {
    let (text, keeps) = (br#"{"b":{"d":1,"c":2},"a":3,"b":4}"#, Options { keep_order: true, ..Options::SPECIFIED });
    assert_eq!(&*convert_with(Mode::Relaxed, keeps, text).unwrap(), r#"{"b":4,"a":3}"#);
    assert_eq!(&*convert_with(Mode::Relaxed, Options::SPECIFIED, text).unwrap(), r#"{"a":3,"b":4}"#);
    assert_eq!(&*convert_with(Mode::Show, keeps, br#"{"b":1,"a":2}"#).unwrap(), r#"{ "b": 1, "a": 2 }"#);
    let both = Options { doubles: true, keep_order: true, ..Options::SPECIFIED };
    let bytes = encode(both, br#"{"b":1.5,"a":2}"#).unwrap();
    assert_eq!(&*decode(Mode::Relaxed, both, &bytes).unwrap(), r#"{"b":1.5,"a":2}"#);
    let doubles = Options { doubles: true, ..Options::SPECIFIED };
    assert_eq!(&*decode(Mode::Relaxed, doubles, &bytes).unwrap(), r#"{"a":2,"b":1.5}"#);
    let lines = convert_lines(Mode::Relaxed, keeps, b"{\"b\":1,\"a\":2}\n[1.5]\n").unwrap();
    assert_eq!((&*lines.text, lines.refused.len()), ("{\"b\":1,\"a\":2}\n", 1));
    assert_eq!(explain(keeps, b"[1.5]"), explain(Options::SPECIFIED, b"[1.5]"));
}

#[test]
fn the_layout_is_an_option() {
    let (mongodb, specified) = (Options::default(), Options { mongodb_layout: false, ..Options::default() });
    let sorted = Options { keep_order: false, ..mongodb };
    let (date, stamp) = (r#"{"at":{"$date":{"$numberLong":"500"}}}"#, r#"{"$timestamp":{"t":1,"i":2}}"#);
    let (relaxed, other) = (r#"{"at":{"$date":"1970-01-01T00:00:00.500Z"}}"#, r#"{"at":{"$date":"1970-01-01T00:00:00.5Z"}}"#);
    for (options, date_text, stamp_text) in [(mongodb, relaxed, stamp), (specified, other, r#"{"$timestamp":{"i":2,"t":1}}"#), (sorted, relaxed, r#"{"$timestamp":{"i":2,"t":1}}"#)] {
        assert_eq!(&*convert_with(Mode::Relaxed, options, date.as_bytes()).unwrap(), date_text);
        assert_eq!(&*convert_with(Mode::Canonical, options, date.as_bytes()).unwrap(), date);
        for mode in [Mode::Canonical, Mode::Relaxed] {
            assert_eq!(&*convert_with(mode, options, stamp.as_bytes()).unwrap(), stamp_text);
            let bytes = encode(options, format!(r#"{{"t":{stamp}}}"#).as_bytes()).unwrap();
            assert_eq!(&*decode(mode, options, &bytes).unwrap(), format!(r#"{{"t":{stamp_text}}}"#));
            assert_eq!(&*decode_documents(mode, options, &bytes).unwrap().text, format!("{{\"t\":{stamp_text}}}\n"));
        }
        let lines = convert_lines(Mode::Relaxed, options, format!("{date}\n{stamp}\n").as_bytes()).unwrap();
        assert_eq!(&*lines.text, format!("{date_text}\n{stamp_text}\n"));
        assert_eq!(explain(options, b"1"), None);
        assert_eq!(explain(options, b"["), explain(Options::SPECIFIED, b"["));
    }
    assert_eq!(&*convert(Mode::Relaxed, date.as_bytes()).unwrap(), relaxed);
    assert_eq!(same(Options::default(), relaxed.as_bytes(), other.as_bytes()), Ok(true));
    assert_eq!(&*encode(mongodb, relaxed.as_bytes()).unwrap(), &*encode(specified, relaxed.as_bytes()).unwrap());
}

#[test]
fn canonical_texts_are_told() {
    let (doubles, specified) = (Options::default(), Options { v1: true, ..Options::SPECIFIED });
    for text in [r#"{"a":{"$numberDouble":"1.5"},"b":[true]}"#, r#"{"a":1,"a":2}"#, r#"{"b":1,"a":{"$numberInt":"2"}}"#, "null ", "[1.5]", "", "{"] {
        for options in [doubles, specified] {
            let writes = Options { doubles: options.doubles, ..Options::SPECIFIED };
            let wanted = convert_with(Mode::Canonical, writes, text.as_bytes()).is_ok_and(|it| &*it == text);
            assert_eq!(is_canonical_text(options, text.as_bytes()), Ok(wanted), "{text}");
        }
    }
    assert_eq!(is_canonical_text(doubles, br#"{"a":{"$numberDouble":"1.5"},"b":[true]}"#), Ok(true));
}

fn kind<T>(answer: Result<T, Error>) -> Option<ErrorKind> {
    answer.err().map(|it| it.kind())
}

#[test]
fn faults_are_told() {
    assert_eq!(kind(convert(Mode::Canonical, b"")), Some(ErrorKind::NotJson));
    assert_eq!(kind(convert(Mode::Canonical, b"\"\xff\"")), Some(ErrorKind::NotJson));
    assert_eq!(kind(convert_with(Mode::Canonical, Options::SPECIFIED, b"1.5")), Some(ErrorKind::NotExtendedJson));
    assert_eq!(kind(convert(Mode::Relaxed, br#"{"$oid":"zz"}"#)), Some(ErrorKind::BadObjectId));
    assert_eq!(kind(same(Options::SPECIFIED, b"1", b"{")), Some(ErrorKind::NotJson));
    assert_eq!(kind(hash(Options::SPECIFIED, b"1.5")), Some(ErrorKind::NotExtendedJson));
    assert_eq!(kind("1.2.3".parse::<Decimal128>()), Some(ErrorKind::InvalidString));
    assert_eq!(kind("53e3".parse::<ObjectId>()), Some(ErrorKind::InvalidString));
    assert_eq!(kind("2020".parse::<DateTime>()), Some(ErrorKind::InvalidString));
    assert_eq!(DateTime(i64::MAX).to_rfc3339(), Err(ErrorKind::NotRepresentable.into()));
    assert_eq!(ErrorKind::NotExtendedJson.to_string(), "not Extended JSON");
}

#[test]
fn places_of_texts_that_are_not_json_are_told() {
    let (early, quotes) = ("unexpected end of input", "keys and strings must be in double quotes");
    for (text, line, column, offset, why) in [
        ("[1, 2", 1, 5, 4, early),
        ("{'a':1}", 1, 2, 1, quotes),
        ("", 1, 1, 0, early),
        ("[1e400]", 1, 2, 1, "number out of range"),
        ("[1,\n2,\n 1e400\n]", 3, 2, 8, "number out of range"),
        ("{\"a\": 1,\n \"b\": }", 2, 7, 15, "expected a colon and a value after the key"),
        ("{\n'a':1}\n", 2, 1, 2, quotes),
        ("[1,\n2", 2, 1, 4, early),
    ] {
        let error = convert(Mode::Relaxed, text.as_bytes()).unwrap_err();
        assert_eq!((error.kind(), error.code(), error.reason()), (ErrorKind::NotJson, Some(2), why), "{text}");
        assert_eq!((error.line(), error.column(), error.offset()), (Some(line), Some(column), Some(offset)), "{text}");
        assert_eq!((error.to_string(), error.path().len()), (format!("not JSON at column {column} ({why})"), 0));
        assert_eq!(error.message(), error.to_string());
        assert_eq!(explain(Options::default(), text.as_bytes()).as_ref(), Some(&error));
        assert_eq!(same(Options::SPECIFIED, b"1", text.as_bytes()).as_ref(), Err(&error));
        assert_eq!(hash(Options::SPECIFIED, text.as_bytes()).as_ref(), Err(&error));
    }
}

#[test]
fn places_are_told() {
    let number = "not a 64-bit integer; found 1.5";
    let date = r#"`$date` must be an RFC 3339 string, an integer or a `$numberLong`; found " (a)""#;
    let digit = "the character ' ' at 4 in \"53e3 (\" is no hexadecimal digit";
    // (the message has 300 characters of a path)
    let (long, cut) = ("a".repeat(1000), "a".repeat(300) + "..");
    let (a, index): (PathElement, PathElement) = ("a (".into(), 0.into());
    for (text, offset, words, path, why) in [
        (r#"{"a (":[{"b":1.5}]}"#, 13, format!("not Extended JSON at a (.0.b ({number})"), vec![a.clone(), index, "b".into()], number),
        ("1.5", 0, format!("not Extended JSON ({number})"), vec![], number),
        (r#"{"a.0":1,"a":{"0":1.5}}"#, 18, format!("not Extended JSON at a.0 ({number})"), vec!["a".into(), "0".into()], number),
        (r#"{"a (":{"$date":" (a)"}}"#, 16, format!("not Extended JSON at a (.$date ({date})"), vec![a, "$date".into()], date),
        (r#"{"a":{"$oid":"53e3 ("}}"#, 13, format!("bad object id at a.$oid ({digit})"), vec!["a".into(), "$oid".into()], digit),
        (r#"{"\u0007":1.5}"#, 10, format!(r"not Extended JSON at \u0007 ({number})"), vec!["\u{7}".into()], number),
        (&*format!(r#"{{"{long}":{{"$oid":"53e3 ("}}}}"#), 1012, format!("bad object id at {cut} ({digit})"), vec![(&*long).into(), "$oid".into()], digit),
    ] {
        let error = convert_with(Mode::Relaxed, Options::SPECIFIED, text.as_bytes()).unwrap_err();
        assert_eq!((error.to_string(), &error.path()[..], error.reason()), (words, &path[..], why));
        assert_eq!((error.line(), error.column(), error.offset()), (Some(1), Some(offset + 1), Some(offset)));
        assert_eq!(explain(Options::SPECIFIED, text.as_bytes()).as_ref(), Some(&error));
        assert_eq!(same(Options::SPECIFIED, b"1", text.as_bytes()).as_ref(), Err(&error));
        assert_eq!(hash(Options::SPECIFIED, text.as_bytes()).as_ref(), Err(&error));
    }
    let (strict, v1) = (Options { reject_duplicate_keys: true, ..Options::default() }, Options { v1: true, ..Options::default() });
    for (options, text, place) in [
        (Options::SPECIFIED, "[\"\u{e9}\",\n \"\u{e9}\", 1.5]", Some((2, 8, 14))),
        (strict, "{\"a\":{\"b\":1,\n\"b\":2,\"b\":3}}", Some((2, 5, 17))),
        (v1, "[{\"$binary\":\"AQI=\",\"$type\":\"00\"},\n{\"$numberInt\":\"x\"}]", Some((2, 15, 48))),
        (v1, r#"{"a":{"$binary":"AQI=","$type":"000"}}"#, None),
    ] {
        let error = explain(options, text.as_bytes()).unwrap();
        let found = (error.line(), error.column(), error.offset());
        assert_eq!(found, (place.map(|it| it.0), place.map(|it| it.1), place.map(|it| it.2)), "{text}");
    }
    let error = "53e3".parse::<ObjectId>().unwrap_err();
    assert_eq!((error.to_string().as_str(), error.path().len(), error.reason()), ("invalid string", 0, "invalid string"));
}

#[test]
fn each_kind_has_the_number_of_c() {
    let kinds = [ErrorKind::NotJson, ErrorKind::BadObjectId, ErrorKind::NotExtendedJson, ErrorKind::OutOfMemory, ErrorKind::InvalidString, ErrorKind::NotRepresentable];
    assert_eq!(kinds.map(|it| it.code().unwrap()), [2, 3, 4, 5, 6, 7]);
    assert_eq!(ErrorKind::InvalidArgument.code(), Some(1));
    let kinds = [ErrorKind::NotADocument, ErrorKind::ZeroInKey, ErrorKind::ZeroInRegex, ErrorKind::TooLong, ErrorKind::UnexpectedType];
    assert_eq!(kinds.map(|it| it.code().unwrap()), [10, 11, 12, 13, 15]);
    assert_eq!(ErrorKind::Io.code(), None);
}

#[test]
fn values_without_a_text_are_named() {
    let bytes = encode(Options::default(), br#"{"a":0.0,"c":{"$code":"","$scope":{"b":[1,{"$numberDouble":"NaN"},2.5]}},"d":1.5}"#).unwrap();
    let error = decode(Mode::Canonical, Options::SPECIFIED, &bytes).unwrap_err();
    assert_eq!((error.kind(), error.reason()), (ErrorKind::NotRepresentable, "a finite double"));
    assert_eq!(error.path()[..], ["c".into(), "$scope".into(), "b".into(), 2.into()]);
    assert_eq!(error.to_string(), "not representable at c.$scope.b.2 (a finite double)");
}

#[test]
fn places_of_damaged_bytes_are_told() {
    let mut bytes = encode(Options::default(), br#"{"a":1,"list":[{"x":"y"},{"flag":true}]}"#).unwrap().to_vec();
    let at = bytes.iter().rposition(|it| *it == 1).unwrap();
    bytes[at] = 2;
    let error = explain_document(&bytes).unwrap();
    assert_eq!((error.kind(), error.offset(), error.reason()), (ErrorKind::NotADocument, Some(at as u64), "a boolean is neither 0 nor 1"));
    assert_eq!(error.path()[..], ["list".into(), 1.into(), "flag".into()]);
    assert_eq!(error.to_string(), format!("not a document at byte {at} (a boolean is neither 0 nor 1)"));
    assert_eq!((error.line(), error.column()), (None, None));
}

#[test]
fn texts_are_compared_by_meaning() {
    let (one, other) = (br#"{"a":1,"b":2}"#, br#"{"b":2,"a":{"$numberInt":"1"}}"#);
    let options = Options::SPECIFIED;
    assert_eq!(same(options, one, other), Ok(true));
    assert_eq!(hash(options, one), hash(options, other));
    assert_eq!(same(options, one, b"{}"), Ok(false));
    assert_ne!(hash(options, one), hash(options, b"{}"));
}

#[test]
fn what_is_compared_has_options() {
    let default = Options::SPECIFIED;
    let doubles = Options { doubles: true, ..default };
    let (one, other) = (br#"{"price":1.5,"a":1}"#, br#"{"a":1,"price":{"$numberDouble":"1.50"}}"#);
    assert_eq!(same(doubles, one, other), Ok(true));
    assert_eq!(hash(doubles, one), hash(doubles, other));
    assert_eq!(same(doubles, b"1.5", b"2.5"), Ok(false));
    assert_eq!(kind(same(default, one, other)), Some(ErrorKind::NotExtendedJson));
    let strict = Options { reject_duplicate_keys: true, ..doubles };
    let twice = br#"{"a":[{"b":1,"b":2}]}"#;
    let error = same(strict, b"1", twice).unwrap_err();
    assert_eq!((error.kind(), error.reason()), (ErrorKind::NotExtendedJson, "duplicate key"));
    assert_eq!(error.path()[..], ["a".into(), 0.into(), "b".into()]);
    assert_eq!(hash(strict, twice), Err(error));
    assert_eq!(same(default, twice, br#"{"a":[{"b":2}]}"#), Ok(true));
    let reads_v1 = Options { v1: true, ..default };
    let (v1, v2) = (br#"{"$binary":"AQI=","$type":"00"}"#, br#"{"$binary":{"base64":"AQI=","subType":"00"}}"#);
    assert_eq!(same(reads_v1, v1, v2), Ok(true));
    assert_eq!(hash(reads_v1, v1), hash(default, v2));
    assert_eq!(kind(same(default, v1, v2)), Some(ErrorKind::NotExtendedJson));
}

#[test]
fn duplicate_keys_are_an_option() {
    let strict = Options { reject_duplicate_keys: true, ..Options::default() };
    let twice = br#"{"a":[{"b":1,"b":2}]}"#;
    let error = convert_with(Mode::Relaxed, strict, twice).unwrap_err();
    assert_eq!((error.kind(), error.reason()), (ErrorKind::NotExtendedJson, "duplicate key"));
    assert_eq!(error.path()[..], ["a".into(), 0.into(), "b".into()]);
    assert_eq!((encode(strict, twice).as_deref(), explain(strict, twice)), (Err(&error), Some(error.clone())));
    assert_eq!(&*convert_with(Mode::Relaxed, strict, br#"{"b":{"a":1.5},"a":2}"#).unwrap(), r#"{"b":{"a":1.5},"a":2}"#);
    let block = [&b"{\n"[..], twice, b"\n{}\n"].concat();
    let (lines, documents) = (convert_lines(Mode::Relaxed, strict, &block).unwrap(), encode_lines(strict, &block).unwrap());
    assert_eq!((&*lines.text, &*documents.bytes), ("{}\n", &[5, 0, 0, 0, 0][..]));
    let wanted = [(1, convert(Mode::Relaxed, b"{").unwrap_err()), (2, error)];
    same_but_for_line(&lines.refused, wanted.clone());
    same_but_for_line(&documents.refused, wanted);
    let twice = b"\x13\0\0\0\x10b\0\x05\0\0\0\x10b\0\x06\0\0\0\0";
    for mode in [Mode::Canonical, Mode::Relaxed, Mode::Show] {
        let error = decode(mode, strict, twice).unwrap_err();
        assert_eq!((error.kind(), error.offset(), error.reason()), (ErrorKind::NotADocument, Some(12), "duplicate key"));
        let found = decode_documents(mode, strict, &[&twice[..], b"\x05\0\0\0\0"].concat()).unwrap();
        assert_eq!((&*found.text, found.count, found.refused.len()), ("{}\n", 2, 1));
        assert_eq!((found.refused[0].number, found.refused[0].start, &found.refused[0].error), (1, 0, &error));
    }
    assert_eq!(&*decode(Mode::Relaxed, Options::default(), twice).unwrap(), r#"{"b":6}"#);
}

#[test]
fn v1_is_an_option_of_texts() {
    let v1 = Options { v1: true, ..Options::default() };
    let (older, newer) = (r#"{"b":{"$binary":"AQI=","$type":"00"},"a":1.5}"#, r#"{"b":{"$binary":{"base64":"AQI=","subType":"00"}},"a":1.5}"#);
    assert_eq!(&*convert_with(Mode::Relaxed, v1, older.as_bytes()).unwrap(), newer);
    assert_eq!(&*encode(v1, older.as_bytes()).unwrap(), &*encode(Options::default(), newer.as_bytes()).unwrap());
    assert_eq!(&*convert_with(Mode::Relaxed, v1, b"[-Infinity]").unwrap(), r#"[{"$numberDouble":"-Infinity"}]"#);
    assert_eq!(kind(convert(Mode::Relaxed, older.as_bytes())), Some(ErrorKind::NotExtendedJson));
    assert_eq!(&*convert_lines(Mode::Relaxed, v1, older.as_bytes()).unwrap().text, format!("{newer}\n"));
    assert_eq!((encode_lines(v1, older.as_bytes()).unwrap().refused, explain(v1, older.as_bytes())), (vec![], None));
    for error in [decode(Mode::Relaxed, v1, b"\x05\0\0\0\0").unwrap_err(), decode_documents(Mode::Relaxed, v1, b"").unwrap_err()] {
        assert_eq!((error.kind(), error.reason()), (ErrorKind::InvalidArgument, "v1 has no meaning for BSON bytes"));
        assert_eq!(error.to_string(), "invalid argument (v1 has no meaning for BSON bytes)");
    }
    assert_eq!(same_documents(v1, b"\x05\0\0\0\0", b"\x05\0\0\0\0"), Ok(true));
}

#[test]
fn documents_are_compared_by_their_bytes() {
    let (options, keeps) = (Options::SPECIFIED, Options { doubles: true, keep_order: true, ..Options::SPECIFIED });
    let one = encode(keeps, br#"{"price":1.5,"a":1}"#).unwrap();
    let other = encode(keeps, br#"{"a":1,"price":1.5}"#).unwrap();
    assert_ne!(&*one, &*other);
    assert_eq!(same_documents(options, &one, &other), Ok(true));
    assert_eq!(hash_document(options, &one), hash_document(options, &other));
    let doubles = Options { doubles: true, ..options };
    assert_eq!(hash_document(options, &one), hash(doubles, br#"{"a":1,"price":1.5}"#));
    assert_eq!(same_documents(options, &one, b"\x05\0\0\0\0"), Ok(false));
    let damaged = decode(Mode::Relaxed, keeps, &one[..9]).map_err(Some).err().unwrap();
    assert_eq!(same_documents(options, &one, &one[..9]).err(), damaged);
    assert_eq!(hash_document(options, &one[..9]).err(), damaged);
    let twice = b"\x13\0\0\0\x10b\0\x05\0\0\0\x10b\0\x06\0\0\0\0";
    assert_eq!(hash_document(options, twice), hash(options, br#"{"b":6}"#));
    let strict = Options { reject_duplicate_keys: true, ..options };
    let error = same_documents(strict, twice, &one[..9]).unwrap_err();
    assert_eq!((error.kind(), error.offset(), error.reason()), (ErrorKind::NotADocument, Some(12), "duplicate key"));
    assert_eq!(error.path()[..], ["b".into()]);
    assert_eq!(hash_document(strict, twice), Err(error));
    assert_eq!(same_documents(strict, &one, &other), Ok(true));
}

/// Compares all of the errors except the line, which is that in the block, and the offset.
fn same_but_for_line(found: &[(u64, Error)], wanted: impl IntoIterator<Item = (u64, Error)>) {
    let fields = |number: u64, it: &Error| (number, it.kind(), it.to_string(), it.reason().to_owned(), it.path().clone(), it.column());
    let wanted: Vec<_> = wanted.into_iter().map(|(number, it)| fields(number, &it)).collect();
    assert_eq!(found.iter().map(|(number, it)| fields(*number, it)).collect::<Vec<_>>(), wanted);
    assert!(found.iter().all(|(number, it)| it.line() == Some(*number)));
}

#[test]
fn lines_are_converted_in_one_call() {
    let lines = convert_lines(Mode::Relaxed, Options::SPECIFIED, b"[ 1 ]\n\n{\"a\":[1.5]}\n[2").unwrap();
    assert_eq!((&*lines.text, lines.count), ("[1]\n", 4));
    let wanted = [r#"{"a":[1.5]}"#, "[2"].map(|it| convert_with(Mode::Relaxed, Options::SPECIFIED, it.as_bytes()).unwrap_err());
    same_but_for_line(&lines.refused, [(3, wanted[0].clone()), (4, wanted[1].clone())]);
    assert_eq!(lines.refused[1].1.offset(), Some(20));
    let marked = convert_lines(Mode::Relaxed, Options::SPECIFIED, b"\xef\xbb\xbf[2}\n[}").unwrap();
    let places = marked.refused.iter().map(|(_, it)| (it.line(), it.column(), it.offset())).collect::<Vec<_>>();
    assert_eq!(places, [(Some(1), Some(3), Some(5)), (Some(2), Some(2), Some(8))]);
    let marked = convert_lines(Mode::Relaxed, Options::SPECIFIED, b"[}\n\xef\xbb\xbf[1]\n\n[\n[1]").unwrap();
    assert_eq!(marked.refused.iter().map(|(number, _)| *number).collect::<Vec<_>>(), [1, 2, 4]);
    let lines = convert_lines(Mode::Relaxed, Options { doubles: true, ..Options::SPECIFIED }, b"[1.5]\n").unwrap();
    assert_eq!((&*lines.text, lines.refused.len()), ("[1.5]\n", 0));
}

#[test]
fn lines_are_encoded_in_one_call() {
    let (options, keeps) = (Options::SPECIFIED, Options { doubles: true, keep_order: true, ..Options::SPECIFIED });
    let lines = encode_lines(options, b"{\"n\": 5}\n\n[1]\n{\"a\":[1.5]}\n{\"a\\u0000\":1}\n{}").unwrap();
    assert_eq!(&*lines.bytes, &[12, 0, 0, 0, 0x10, b'n', 0, 5, 0, 0, 0, 0, 5, 0, 0, 0, 0]);
    let wanted = [encode(options, b"[1]").unwrap_err(), encode(options, br#"{"a":[1.5]}"#).unwrap_err(), ErrorKind::ZeroInKey.into()];
    let refused: Vec<_> = [3, 4, 5].into_iter().zip(wanted).collect();
    assert_eq!(lines.count, 6);
    same_but_for_line(&lines.refused, refused);
    let text = br#"{"b":1.5,"a":2}"#;
    assert_eq!(&*encode_lines(keeps, text).unwrap().bytes, &*encode(keeps, text).unwrap());
}

#[test]
fn documents_are_decoded_in_one_call() {
    let (options, keeps) = (Options::SPECIFIED, Options { doubles: true, keep_order: true, ..Options::SPECIFIED });
    let double = encode(keeps, br#"{"b":1.5,"a":2}"#).unwrap();
    let bad = [9, 0, 0, 0, 8, b'a', 0, 2, 0];
    let block = [&double[..], &bad, b"\x05\0\0\0\0", b"\x06\0\0"].concat();
    let found = decode_documents(Mode::Relaxed, keeps, &block).unwrap();
    assert_eq!((&*found.text, found.count, found.consumed), ("{\"b\":1.5,\"a\":2}\n{}\n", 4, 37));
    let refused: Vec<_> = found.refused.iter().map(|it| (it.number, it.start, it.error.to_string())).collect();
    let boolean = explain_document(&bad).unwrap().to_string();
    assert_eq!(refused, [(2, 23, boolean), (4, 37, "not a document at byte 0 (ends too early)".to_owned())]);
    let found = decode_documents(Mode::Canonical, options, &double).unwrap();
    assert_eq!((&*found.text, found.count, found.consumed, found.refused.len()), ("", 1, 23, 1));
    assert_eq!(found.refused[0].error, decode(Mode::Canonical, options, &double).unwrap_err());
    let found = decode_documents(Mode::Show, options, b"").unwrap();
    assert_eq!((&*found.text, found.count, found.consumed, found.refused.len()), ("", 0, 0, 0));
}

#[test]
fn documents_come_back_from_their_bytes() {
    let (options, doubles) = (Options::SPECIFIED, Options { doubles: true, ..Options::SPECIFIED });
    let five = [12, 0, 0, 0, 0x10, b'n', 0, 5, 0, 0, 0, 0];
    assert_eq!(&*decode(Mode::Relaxed, options, &five).unwrap(), r#"{"n":5}"#);
    assert_eq!(&*decode(Mode::Show, options, &five).unwrap(), r#"{ "n": 5 }"#);
    assert_eq!(&*encode(options, br#"{"n": 5}"#).unwrap(), &five);
    assert_eq!(format!("{:?}", encode(options, b"{}").unwrap()), "[5, 0, 0, 0, 0]");
    assert!(is_document(&five) && explain_document(&five).is_none());
    let double = encode(doubles, br#"{"n": 1.5}"#).unwrap();
    assert_eq!(&*decode(Mode::Canonical, doubles, &double).unwrap(), r#"{"n":{"$numberDouble":"1.5"}}"#);
    assert_eq!(kind(decode(Mode::Canonical, options, &double)), Some(ErrorKind::NotRepresentable));
    for len in 0..five.len() {
        assert!(!is_document(&five[..len]));
        let error = decode(Mode::Show, options, &five[..len]).unwrap_err();
        assert_eq!((error.kind(), error.reason()), (ErrorKind::NotADocument, "ends too early"));
        assert_eq!(explain_document(&five[..len]), Some(error));
    }
    let error = decode(Mode::Show, options, &[9, 0, 0, 0, 8, b'a', 0, 2, 0]).unwrap_err();
    assert_eq!(error.to_string(), "not a document at byte 7 (a boolean is neither 0 nor 1)");
    assert_eq!((error.offset(), error.reason()), (Some(7), "a boolean is neither 0 nor 1"));
    assert_eq!(error.path()[..], ["a".into()]);
    for (text, wanted) in [
        ("[]", ErrorKind::NotADocument),
        (r#"{"a\u0000":1}"#, ErrorKind::ZeroInKey),
        (r#"{"a":{"$regularExpression":{"pattern":"\u0000","options":""}}}"#, ErrorKind::ZeroInRegex),
        ("{", ErrorKind::NotJson),
    ] {
        assert_eq!(kind(encode(options, text.as_bytes())), Some(wanted));
    }
    let error = encode(options, br#"{"a":[1.5]}"#).unwrap_err();
    assert_eq!((error.kind(), &error.path()[..]), (ErrorKind::NotExtendedJson, &["a".into(), 0.into()][..]));
}

#[test]
fn small_values_come_back_from_their_texts() {
    assert_eq!("19.90".parse::<Decimal128>().unwrap().to_string(), "19.90");
    assert_eq!(format!("{:>6}", "5".parse::<Decimal128>().unwrap()), "     5");
    let id: ObjectId = "53E37d08776f724e42000000".parse().unwrap();
    assert_eq!((id.0[0], id.to_string().as_str()), (0x53, "53e37d08776f724e42000000"));
    let moment: DateTime = "2020-06-01T00:42:40.292Z".parse().unwrap();
    assert_eq!((moment.0, moment.to_rfc3339().as_deref().ok()), (1590972160292, Some("2020-06-01T00:42:40.292Z")));
    assert_eq!(format!("{moment:>26}"), "  2020-06-01T00:42:40.292Z");
    assert_eq!(DateTime(253402300800000).to_string(), "253402300800000 ms");
    assert_eq!(DateTime(-1).to_string(), "1969-12-31T23:59:59.999Z");
}

#[test]
fn the_version_is_the_packages() {
    let (major, minor, patch) = version();
    assert_eq!(format!("{major}.{minor}.{patch}"), env!("CARGO_PKG_VERSION"));
}

#[test]
fn eight_threads_convert_at_once() {
    let threads: Vec<_> = (0..8).map(|i| thread::spawn(move || (i, rounds(i)))).collect();
    for it in threads {
        let (i, last) = it.join().unwrap();
        assert_eq!(&*last, format!("[{i},1999]"));
    }
}

/// The last of 2000 texts, which is then read on another thread.
fn rounds(i: usize) -> Text {
    (0..2000).map(|n| convert(Mode::Relaxed, format!("[{i}, {n}]").as_bytes()).unwrap()).last().unwrap()
}

const SOME: &str = r#"{"at":{"$date":{"$numberLong":"-1"}},"big":{"$numberLong":"-7"},"double":1.5,"flag":true,
    "id":{"$oid":"0102030405060708090a0b0c"},"inner":{"list":[null,{"x":1}],"n":6},"key":{"$binary":{"base64":"AAE=","subType":"05"}},
    "n":5,"none":null,"string":"\u00e9\u0000"}"#;

fn some() -> vbson::Bytes {
    encode(Options { doubles: true, ..Options::SPECIFIED }, SOME.as_bytes()).unwrap()
}

#[test]
fn raw_documents_have_their_values() {
    let bytes = some();
    let document = RawDocument::new(&bytes).unwrap();
    let get = |key| document.get(key).unwrap();
    assert_eq!((get("n").as_i32(), get("big").as_i64(), get("double").as_f64(), get("flag").as_bool()), (Some(5), Some(-7), Some(1.5), Some(true)));
    assert_eq!((get("string").as_str(), get("key").as_binary()), (Some("\u{e9}\0"), Some((5, &[0, 1][..]))));
    assert_eq!(get("at").as_datetime(), Some(DateTime(-1)));
    assert_eq!(get("id").as_object_id(), Some(ObjectId([1, 2, 3, 4, 5, 6, 7, 8, 9, 10, 11, 12])));
    assert_eq!(get("none").element_type(), 0x0A);
    assert!(document.get("absent").is_none() && document.get("").is_none() && document.get("n\0").is_none());
    // Each value is of its own type alone.
    for (key, value) in document.iter() {
        let are = [value.as_i32().is_some(), value.as_i64().is_some(), value.as_f64().is_some(), value.as_bool().is_some(),
            value.as_str().is_some(), value.as_object_id().is_some(), value.as_datetime().is_some(), value.as_binary().is_some(),
            value.as_document().is_some(), value.as_array().is_some()];
        assert_eq!(are.iter().filter(|it| **it).count(), usize::from(key != "none"), "{key}");
        assert_eq!(value.element_type(), get(key).element_type());
    }
}

#[test]
fn raw_documents_nest() {
    let bytes = some();
    let document = RawDocument::new(&bytes).unwrap();
    let keys: Vec<_> = document.iter().map(|(key, _)| key).collect();
    assert_eq!(keys, ["at", "big", "double", "flag", "id", "inner", "key", "n", "none", "string"]);
    let inner = document.get("inner").and_then(|it| it.as_document()).unwrap();
    assert_eq!(inner.get("n").and_then(|it| it.as_i32()), Some(6));
    assert!(inner.get("none").is_none() && inner.get("list").unwrap().as_document().is_none());
    let list: Vec<_> = inner.get("list").and_then(|it| it.as_array()).unwrap().iter().collect();
    assert_eq!((list.len(), list[0].element_type()), (2, 0x0A));
    assert_eq!(list[1].as_document().unwrap().iter().next().and_then(|(_, it)| it.as_i32()), Some(1));
    assert_eq!(document.as_bytes(), &*bytes);
    assert_eq!(&*decode(Mode::Relaxed, Options::SPECIFIED, inner.as_bytes()).unwrap(), r#"{"list":[null,{"x":1}],"n":6}"#);
}

#[test]
fn raw_documents_are_checked_once() {
    let bytes = some();
    for len in 0..bytes.len() {
        assert_eq!(kind(RawDocument::new(&bytes[..len])), Some(ErrorKind::NotADocument));
    }
    let more = [&bytes[..], &[0]].concat();
    assert_eq!(kind(RawDocument::new(&more)), Some(ErrorKind::NotADocument));
    // {"a": 1, "a": 2, "b": true}
    let twice = [0x17, 0, 0, 0, 0x10, b'a', 0, 1, 0, 0, 0, 0x10, b'a', 0, 2, 0, 0, 0, 8, b'b', 0, 1, 0];
    let document = RawDocument::new(&twice).unwrap();
    assert_eq!(document.get("a").and_then(|it| it.as_i32()), Some(2));
    let numbers: Vec<_> = document.iter().map(|(key, value)| (key, value.as_i32())).collect();
    assert_eq!(numbers, [("a", Some(1)), ("a", Some(2)), ("b", None)]);
    let empty = RawDocument::new(&[5, 0, 0, 0, 0]).unwrap();
    assert!(empty.get("a").is_none() && empty.iter().next().is_none());
}

/// A value of each type, by its type.
#[test]
fn values_have_their_types() {
    let text = br#"{"01":1.5,"02":"s","03":{"a":1},"04":[1,"b"],"05":{"$binary":{"base64":"AQI=","subType":"80"}},"06":{"$undefined":true},
        "07":{"$oid":"0102030405060708090a0b0c"},"08":false,"09":{"$date":{"$numberLong":"-7"}},"0a":null,
        "0b":{"$regularExpression":{"pattern":"p\u00e9","options":"im"}},"0c":{"$dbPointer":{"$ref":"r","$id":{"$oid":"0102030405060708090a0b0c"}}},
        "0d":{"$code":"c"},"0e":{"$symbol":"y"},"0f":{"$code":"d\u0000","$scope":{"x":1}},"10":-5,"11":{"$timestamp":{"t":4294967295,"i":6}},
        "12":{"$numberLong":"5"},"13":{"$numberDecimal":"1.50"},"7f":{"$maxKey":1},"ff":{"$minKey":1}}"#;
    let bytes = encode(Options::default(), text).unwrap();
    let document = RawDocument::new(&bytes).unwrap();
    let inner = |key: &str| document.get(key).unwrap();
    let id = ObjectId([1, 2, 3, 4, 5, 6, 7, 8, 9, 10, 11, 12]);
    let scope = encode(Options::default(), br#"{"x":1}"#).unwrap();
    let wanted = [
        Bson::Double(1.5), Bson::String("s"), Bson::Document(inner("03").as_document().unwrap()), Bson::Array(inner("04").as_array().unwrap()),
        Bson::Binary { subtype: 128, bytes: &[1, 2] }, Bson::Undefined, Bson::ObjectId(id), Bson::Boolean(false), Bson::DateTime(DateTime(-7)), Bson::Null,
        Bson::RegularExpression { pattern: "p\u{e9}", options: "im" }, Bson::DbPointer { namespace: "r", id }, Bson::JavaScriptCode("c"), Bson::Symbol("y"),
        Bson::JavaScriptCodeWithScope { code: "d\0", scope: RawDocument::new(&scope).unwrap() }, Bson::Int32(-5),
        Bson::Timestamp(Timestamp { time: u32::MAX, increment: 6 }), Bson::Int64(5), Bson::Decimal128("1.50".parse().unwrap()), Bson::MaxKey, Bson::MinKey,
    ];
    assert_eq!(document.iter().count(), 21);
    for ((key, value), wanted) in document.into_iter().zip(wanted) {
        assert_eq!((key, value.value()), (&*format!("{:02x}", value.element_type()), wanted));
        let is_scalar = [value.as_decimal128().is_some(), value.as_timestamp().is_some()];
        assert_eq!(is_scalar, [key == "13", key == "11"]);
        assert_eq!(format!("{value:?}"), format!("{wanted:?}"));
    }
    // (the bytes of the values, with their types and keys, are those of the document)
    let parts: Vec<_> = document.iter().map(|(key, it)| [&[it.element_type()], key.as_bytes(), &[0], it.as_bytes()].concat()).collect();
    assert_eq!([&bytes[..4], &parts.concat(), &[0]].concat(), &bytes[..]);
    assert_eq!(inner("04").as_array().unwrap().get(1).and_then(|it| it.as_str()), Some("b"));
    assert!(inner("04").as_array().unwrap().get(2).is_none());
    assert_eq!(format!("{:?}", inner("04").as_array().unwrap()), r#"[Int32(1), String("b")]"#);
    assert_eq!(format!("{:?}", inner("03").as_document().unwrap()), r#"{"a": Int32(1)}"#);
    let owned: RawDocumentBuf = inner("03").as_document().unwrap().to_owned();
    assert_eq!((owned.as_bytes(), owned.clone().into_bytes()), (inner("03").as_bytes(), inner("03").as_bytes().to_vec()));
    assert_eq!(kind(RawDocumentBuf::new(vec![5, 0, 0, 0])), Some(ErrorKind::NotADocument));
}
