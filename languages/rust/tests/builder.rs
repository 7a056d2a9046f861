//! Documents that are built.
use vbson::{encode, is_document, Bson, DateTime, DocumentBuilder, Element, Error, ErrorKind, Options, RawDocument, Timestamp};

/// A value of each type, in the order of the types.
const ALL: &str = r#"{"01":1.5,"02":"s\u0000","03":{"a":1},"04":[1,"b",[]],"05":{"$binary":{"base64":"AQI=","subType":"80"}},"06":{"$undefined":true},
    "07":{"$oid":"0102030405060708090a0b0c"},"08":false,"09":{"$date":{"$numberLong":"-7"}},"0a":null,
    "0b":{"$regularExpression":{"pattern":"p\u00e9","options":"im"}},"0c":{"$dbPointer":{"$ref":"r","$id":{"$oid":"0102030405060708090a0b0c"}}},
    "0d":{"$code":"c"},"0e":{"$symbol":"y"},"0f":{"$code":"d","$scope":{"x":1}},"10":-5,"11":{"$timestamp":{"t":4294967295,"i":6}},
    "12":{"$numberLong":"5"},"13":{"$numberDecimal":"1.50"},"7f":{"$maxKey":1},"ff":{"$minKey":1}}"#;

fn encoded(text: &str) -> Vec<u8> {
    encode(Options::default(), text.as_bytes()).unwrap().to_vec()
}

#[test]
fn each_value_is_appended() {
    let bytes = encoded(ALL);
    let document = RawDocument::new(&bytes).unwrap();
    let mut builder = DocumentBuilder::new();
    for by_type in [true, false] {
        for (key, value) in document {
            builder.append(key, if by_type { Element::from(value.value()) } else { value.into() }).unwrap();
        }
        assert_eq!(builder.finish().unwrap().as_bytes(), bytes);
    }
}

#[test]
fn values_of_rust_are_appended() {
    let mut builder = DocumentBuilder::new();
    builder.append("a", 5).unwrap().append("b", 5i64).unwrap().append("c", 1.5).unwrap().append("d", true).unwrap();
    builder.append("e", "x").unwrap().append("f", DateTime(-7)).unwrap().append("g", Timestamp { time: 1, increment: 2 }).unwrap();
    let wanted = r#"{"a":5,"b":{"$numberLong":"5"},"c":1.5,"d":true,"e":"x","f":{"$date":{"$numberLong":"-7"}},"g":{"$timestamp":{"t":1,"i":2}}}"#;
    assert_eq!(builder.finish().unwrap().as_bytes(), encoded(wanted));
    assert_eq!(builder.finish().unwrap().as_bytes(), encoded("{}"));
    assert_eq!(DocumentBuilder::new().finish().unwrap().as_bytes(), encoded("{}"));
}

#[test]
fn documents_and_arrays_nest() {
    let mut builder = DocumentBuilder::new();
    builder.begin_array("list").unwrap();
    for number in 0..12 {
        builder.push(number).unwrap();
    }
    builder.push_document().unwrap().append("x", 1).unwrap().begin_document("y").unwrap().end().unwrap().end().unwrap();
    builder.push_array().unwrap().push("z").unwrap().end().unwrap().push(Bson::Null).unwrap().end().unwrap();
    builder.append("after", 1).unwrap().begin_document("open").unwrap().begin_array("all").unwrap().push(1).unwrap();
    let wanted = r#"{"list":[0,1,2,3,4,5,6,7,8,9,10,11,{"x":1,"y":{}},["z"],null],"after":1,"open":{"all":[1]}}"#;
    assert_eq!(builder.finish().unwrap().as_bytes(), encoded(wanted));
}

#[test]
fn memory_grows() {
    let (long, mut builder) = ("x".repeat(100_000), DocumentBuilder::new());
    for number in 0..1000 {
        builder.append(&number.to_string(), number).unwrap();
    }
    builder.append("long", &*long).unwrap();
    let made = builder.finish().unwrap();
    assert!(is_document(made.as_bytes()) && made.iter().count() == 1001);
    assert_eq!((made.get("999").unwrap().as_i32(), made.get("long").unwrap().as_str()), (Some(999), Some(&*long)));
}

fn kind<T>(answer: Result<T, Error>) -> ErrorKind {
    answer.map(|_| ()).unwrap_err().kind()
}

#[test]
fn what_has_no_bytes_is_rejected_and_changes_nothing() {
    let mut builder = DocumentBuilder::new();
    builder.append("a", 1).unwrap();
    assert_eq!(kind(builder.append("b\0", 1)), ErrorKind::ZeroInKey);
    assert_eq!(kind(builder.begin_document("\0")), ErrorKind::ZeroInKey);
    assert_eq!(kind(builder.append("b", Bson::RegularExpression { pattern: "\0", options: "" })), ErrorKind::ZeroInRegex);
    assert_eq!(kind(builder.append("b", Bson::RegularExpression { pattern: "", options: "\0" })), ErrorKind::ZeroInRegex);
    assert_eq!(builder.append("c", 2).unwrap().finish().unwrap().as_bytes(), encoded(r#"{"a":1,"c":2}"#));
    for depth in [99, 100] {
        for _ in 0..depth {
            builder.begin_document("a").unwrap();
        }
        assert_eq!(builder.finish().is_ok(), depth == 99);
    }
    assert_eq!(builder.finish().unwrap().as_bytes(), encoded("{}"));
}

#[test]
#[should_panic(expected = "an array was begun last")]
fn values_are_pushed_to_arrays_alone() {
    let _ = DocumentBuilder::new().push(5);
}

#[test]
#[should_panic(expected = "no document or array is begun")]
fn what_is_not_begun_is_not_ended() {
    let _ = DocumentBuilder::new().append("a", 1).unwrap().end();
}
