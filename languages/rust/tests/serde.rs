//! Structs, with the feature `serde`.
#![cfg(feature = "serde")]
use serde::{Deserialize, Serialize};
use std::collections::BTreeMap;
use vbson::{decode, encode, from_document, to_document, Binary, DateTime, Decimal128, ErrorKind, Mode, ObjectId, Options, Timestamp};

#[derive(Clone, Debug, PartialEq, Serialize, Deserialize)]
struct Order {
    _id: ObjectId,
    at: DateTime,
    price: Decimal128,
    content: Binary,
    stamp: Timestamp,
    total: f64,
    small: i32,
    large: i64,
    #[serde(default, skip_serializing_if = "Option::is_none")]
    coupon: Option<String>,
    none: Option<i32>,
    tags: Vec<String>,
    lines: Vec<Line>,
    kinds: Vec<Kind>,
    counts: BTreeMap<String, u8>,
}

#[derive(Clone, Debug, PartialEq, Serialize, Deserialize)]
struct Line {
    sku: String,
    count: u32,
}

#[derive(Clone, Debug, PartialEq, Serialize, Deserialize)]
enum Kind {
    Plain,
    One(i32),
    Two(bool, i64),
    Named { x: f32 },
}

fn order() -> Order {
    Order {
        _id: "53e37d08776f724e42000000".parse().unwrap(),
        at: DateTime(-5),
        price: "19.90".parse().unwrap(),
        content: Binary { subtype: 5, bytes: (0..=255).collect() },
        stamp: Timestamp { time: 7, increment: u32::MAX },
        total: 12.5,
        small: -5,
        large: 5,
        coupon: Some("\u{e9}\u{2028}\"\\\n\0".to_owned()),
        none: None,
        tags: vec![String::new()],
        lines: vec![Line { sku: "a".to_owned(), count: 9 }],
        kinds: vec![Kind::Plain, Kind::One(1), Kind::Two(true, 2), Kind::Named { x: 0.5 }],
        counts: BTreeMap::from([("b".to_owned(), 1), ("a".to_owned(), 2)]),
    }
}

#[test]
fn structs_have_the_types_of_their_fields() {
    let text = decode(Mode::Canonical, Options::default(), &to_document(&order()).unwrap()).unwrap();
    let has = |part: &str| assert!(text.contains(part), "{part} is not in {text}");
    has(r#"{"_id":{"$oid":"53e37d08776f724e42000000"},"at":{"$date":{"$numberLong":"-5"}},"price":{"$numberDecimal":"19.90"},"#);
    has(r#","subType":"05"}},"stamp":{"$timestamp":{"t":7,"i":4294967295}},"total":{"$numberDouble":"12.5"},"#);
    has(r#""small":{"$numberInt":"-5"},"large":{"$numberLong":"5"},"#);
    has(r#""none":null,"tags":[""],"lines":[{"sku":"a","count":{"$numberLong":"9"}}],"#);
    has(r#""kinds":["Plain",{"One":{"$numberInt":"1"}},{"Two":[true,{"$numberLong":"2"}]},{"Named":{"x":{"$numberDouble":"0.5"}}}],"#);
    has(r#""counts":{"a":{"$numberInt":"2"},"b":{"$numberInt":"1"}}}"#);
}

#[test]
fn structs_round_trip() {
    let order = order();
    assert_eq!(from_document::<Order>(&to_document(&order).unwrap()), Ok(order.clone()));
    let other = Order { coupon: None, none: Some(3), content: Binary { subtype: 0, bytes: Vec::new() }, ..order };
    assert_eq!(from_document::<Order>(&to_document(&other).unwrap()), Ok(other));
    for len in 0..9 {
        let content = Binary { subtype: 128, bytes: vec![250; len] };
        let again: BTreeMap<String, Binary> = from_document(&to_document(&BTreeMap::from([("a", content.clone())])).unwrap()).unwrap();
        assert_eq!(again["a"], content);
    }
}

#[test]
fn numbers_have_their_types() {
    #[derive(Serialize)]
    struct All {
        a: i8,
        b: i16,
        c: u8,
        d: u16,
        e: u32,
        f: u64,
        g: f32,
        h: f64,
        i: f64,
        j: f64,
        k: char,
        l: (),
    }
    let all = All { a: -1, b: -2, c: 3, d: 4, e: 5, f: 6, g: 0.1, h: -0.0, i: f64::NEG_INFINITY, j: f64::NAN, k: '"', l: () };
    let text = decode(Mode::Canonical, Options::default(), &to_document(&all).unwrap()).unwrap();
    let wanted = r#"{"a":{"$numberInt":"-1"},"b":{"$numberInt":"-2"},"c":{"$numberInt":"3"},"d":{"$numberInt":"4"},"e":{"$numberLong":"5"},"f":{"$numberLong":"6"},"g":{"$numberDouble":"0.10000000149011612"},"h":{"$numberDouble":"-0.0"},"i":{"$numberDouble":"-Infinity"},"j":{"$numberDouble":"NaN"},"k":"\"","l":null}"#;
    assert_eq!(&*text, wanted);
    for number in [i64::MIN, -1, 0, 1 << 40, i64::MAX] {
        let again: BTreeMap<String, i64> = from_document(&to_document(&BTreeMap::from([("a", number)])).unwrap()).unwrap();
        assert_eq!(again["a"], number);
    }
    for number in [f64::NAN, -f64::NAN, 5e-324, 1.7976931348623157e308, 0.1, 100.0, 9007199254740993.0, 1e23] {
        let again: BTreeMap<String, f64> = from_document(&to_document(&BTreeMap::from([("a", number)])).unwrap()).unwrap();
        assert_eq!(again["a"].to_bits(), f64::to_bits(number));
    }
}

#[test]
fn values_without_a_document_are_rejected_with_their_path() {
    #[derive(Serialize)]
    struct Outer<T> {
        list: Vec<T>,
    }
    let error = to_document(&Outer { list: vec![1, u64::MAX] }).unwrap_err();
    assert_eq!((error.kind(), error.code()), (ErrorKind::NotRepresentable, Some(7)));
    assert_eq!((&error.path()[..], error.reason()), (&["list".into(), 1.into()][..], "not a 64-bit integer"));
    let error = to_document(&Outer { list: vec![BTreeMap::from([(5, 6)])] }).unwrap_err();
    assert_eq!((error.kind(), error.path().to_string()), (ErrorKind::NotRepresentable, "list.0".to_owned()));
    assert_eq!(to_document(&Outer { list: vec![i128::MAX] }).unwrap_err().kind(), ErrorKind::NotRepresentable);
    assert_eq!(to_document(&5).unwrap_err().kind(), ErrorKind::NotADocument);
    let error = to_document(&Outer { list: vec![BTreeMap::from([("$oid", "5")])] }).unwrap_err();
    assert_eq!((error.kind(), error.path().to_string()), (ErrorKind::BadObjectId, "list.0.$oid".to_owned()));
    assert_eq!(to_document(&BTreeMap::from([("a\0", 1)])).unwrap_err().kind(), ErrorKind::ZeroInKey);
}

#[test]
fn documents_of_another_shape_are_rejected_with_their_path() {
    #[derive(Debug, Deserialize)]
    #[allow(dead_code)]
    struct Outer {
        list: Vec<Line>,
    }
    let failed = |text: &str| from_document::<Outer>(&encode(Options::default(), text.as_bytes()).unwrap()).unwrap_err();
    let error = failed(r#"{"list": [{"sku": "a", "count": 1}, {"sku": "b", "count": "c"}]}"#);
    assert_eq!((error.kind(), error.code()), (ErrorKind::UnexpectedType, Some(15)));
    assert_eq!(error.path()[..], ["list".into(), 1.into(), "count".into()]);
    assert_eq!(error.reason(), "invalid type: string \"c\", expected u32");
    assert_eq!(error.to_string(), "unexpected type at list.1.count (invalid type: string \"c\", expected u32)");
    assert_eq!(failed(r#"{"list": [{"sku": "a", "count": -1}]}"#).path().to_string(), "list.0.count");
    assert_eq!(failed(r#"{"list": [{"sku": "a", "count": 1.5}]}"#).path().to_string(), "list.0.count");
    assert_eq!(failed(r#"{"list": [{"sku": "a"}]}"#).path().to_string(), "list.0");
    assert_eq!(failed("{}").path().len(), 0);
    assert_eq!(from_document::<Outer>(b"\x05\0\0\0").unwrap_err().offset(), Some(4));
    let bad: Result<BTreeMap<String, ObjectId>, _> = from_document(&encode(Options::default(), br#"{"a": {"b": 1}}"#).unwrap());
    assert_eq!(bad.unwrap_err().path().to_string(), "a");
}

/// The wrapper of each type, as a struct of the user's own sees it.
#[test]
fn other_types_are_their_wrappers() {
    #[derive(Debug, PartialEq, Serialize, Deserialize)]
    #[serde(untagged)]
    enum Any {
        Text(String),
        Number(i64),
        True(bool),
        Map(BTreeMap<String, Any>),
    }
    for wrapper in [
        r#"{"$oid":"53e37d08776f724e42000000"}"#,
        r#"{"$date":{"$numberLong":"5"}}"#,
        r#"{"$numberDecimal":"1.5"}"#,
        r#"{"$binary":{"base64":"AQID","subType":"80"}}"#,
        r#"{"$timestamp":{"t":1,"i":4294967295}}"#,
        r#"{"$regularExpression":{"pattern":"a","options":"im"}}"#,
        r#"{"$dbPointer":{"$ref":"a","$id":{"$oid":"53e37d08776f724e42000000"}}}"#,
        r#"{"$code":"a"}"#,
        r#"{"$code":"a","$scope":{"b":{"$code":""}}}"#,
        r#"{"$symbol":"a"}"#,
        r#"{"$undefined":true}"#,
        r#"{"$minKey":1}"#,
        r#"{"$maxKey":1}"#,
    ] {
        let text = format!(r#"{{"a":{wrapper}}}"#);
        let bytes = encode(Options::default(), text.as_bytes()).unwrap();
        let found: BTreeMap<String, Any> = from_document(&bytes).unwrap();
        // (numbers of 64 bits are another type, so the text is the judge and not the bytes)
        assert!(matches!(&found["a"], Any::Map(it) if it.keys().all(|key| key.starts_with('$'))), "{wrapper}: {found:?}");
        let written = written(&found["a"]);
        assert_eq!(written, sorted(wrapper), "{wrapper}");
    }

    /// The keys of a map are sorted.
    fn written(value: &Any) -> String {
        match value {
            Any::Text(text) => format!("{text:?}"),
            Any::Number(number) => number.to_string(),
            Any::True(is_true) => is_true.to_string(),
            Any::Map(map) => {
                let parts: Vec<_> = map.iter().map(|(key, it)| format!("{key:?}:{}", written(it))).collect();
                format!("{{{}}}", parts.join(","))
            }
        }
    }

    fn sorted(wrapper: &str) -> String {
        let moved = wrapper.replace(r#""t":1,"i":4294967295"#, r#""i":4294967295,"t":1"#).replace(r#""pattern":"a","options":"im""#, r#""options":"im","pattern":"a""#);
        moved.replace(r#""$ref":"a","$id":{"$oid":"53e37d08776f724e42000000"}"#, r#""$id":{"$oid":"53e37d08776f724e42000000"},"$ref":"a""#)
    }
}

#[test]
fn strings_and_bytes_are_borrowed() {
    #[derive(Deserialize)]
    struct Borrowed<'a> {
        name: &'a str,
        #[serde(borrow)]
        content: &'a [u8],
    }
    let bytes = encode(Options::default(), br#"{"name": "x", "content": {"$binary": {"base64": "AQI=", "subType": "00"}}}"#).unwrap();
    let found: Borrowed = from_document(&bytes).unwrap();
    assert_eq!((found.name, found.content), ("x", &[1, 2][..]));
    assert!(bytes.as_ptr_range().contains(&found.content.as_ptr()));
}
