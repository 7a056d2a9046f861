//! Values of `serde_json`.
#![cfg(feature = "serde_json")]
use serde_json::{json, Value};
use vbson::json::{from_document, from_text, to_document, to_text, Form};
use vbson::{ErrorKind, Options};

const ALL: Options = Options { doubles: true, keep_order: true, mongodb_layout: true, ..Options::SPECIFIED };

#[test]
fn texts_become_values_and_come_back() {
    let text = br#"{"b": {"$numberLong": "5"}, "a": [1.5, null, {"$date": {"$numberLong": "0"}}]}"#;
    let relaxed = json!({"b": 5, "a": [1.5, null, {"$date": "1970-01-01T00:00:00Z"}]});
    assert_eq!(from_text(Form::Relaxed, ALL, text), Ok(relaxed.clone()));
    let canonical = from_text(Form::Canonical, ALL, text).unwrap();
    assert_eq!(canonical["b"], json!({"$numberLong": "5"}));
    let keys: Vec<_> = canonical.as_object().unwrap().keys().collect();
    assert_eq!(keys, ["b", "a"]);
    assert_eq!(&*to_text(Form::Relaxed, ALL, &canonical).unwrap(), r#"{"b":5,"a":[1.5,null,{"$date":"1970-01-01T00:00:00Z"}]}"#);
    let sorted = Options { keep_order: false, ..ALL };
    assert_eq!(&*to_text(Form::Canonical, sorted, &json!({"b": 1, "a": 2})).unwrap(), r#"{"a":{"$numberInt":"2"},"b":{"$numberInt":"1"}}"#);
    let bytes = to_document(ALL, &canonical).unwrap();
    assert_eq!(from_document(Form::Canonical, ALL, &bytes), Ok(canonical));
    assert_eq!(from_document(Form::Relaxed, ALL, &bytes), Ok(relaxed));
}

#[test]
fn numbers_are_kept() {
    for text in ["5e-324", "1.7976931348623157e308", "0.1", "-0.0", "100.0", "9007199254740993", "-9223372036854775808",
                 "123456789012345680.0", "1.1754943508222875e-38", "2.2250738585072011e-308"] {
        let value = from_text(Form::Relaxed, ALL, text.as_bytes()).unwrap();
        let again = to_text(Form::Relaxed, ALL, &value).unwrap();
        assert_eq!(from_text(Form::Relaxed, ALL, again.as_bytes()).unwrap().to_string(), value.to_string());
        if text.contains(['.', 'e']) {
            assert_eq!(value.as_f64().unwrap().to_bits(), text.parse::<f64>().unwrap().to_bits());
        }
    }
    for (value, at) in [(json!(u64::MAX), ""), (json!({"a": [0, {"b": 1u64 << 63}]}), "a.1.b")] {
        for options in [ALL, Options::SPECIFIED] {
            let error = to_text(Form::Relaxed, options, &value).unwrap_err();
            assert_eq!((error.kind(), error.path().to_string(), error.reason()), (ErrorKind::NotExtendedJson, at.to_owned(), "not a 64-bit integer"));
        }
    }
    assert_eq!(&*to_text(Form::Relaxed, ALL, &json!(i64::MAX)).unwrap(), "9223372036854775807");
}

#[test]
fn faults_are_those_of_texts() {
    let error = from_text(Form::Relaxed, Options::SPECIFIED, br#"{"a":[1.5]}"#).unwrap_err();
    assert_eq!((error.line(), error.column(), error.offset()), (Some(1), Some(7), Some(6)));
    // (a value has no text of the caller's)
    let of_value = to_text(Form::Relaxed, Options::SPECIFIED, &json!({"a": [1.5]})).unwrap_err();
    assert_eq!((of_value.to_string(), of_value.path()), (error.to_string(), error.path()));
    assert_eq!((of_value.line(), of_value.column(), of_value.offset()), (None, None, None));
    let error = to_document(ALL, &json!([1])).unwrap_err();
    assert_eq!(error.kind(), ErrorKind::NotADocument);
    assert_eq!(from_document(Form::Relaxed, ALL, &[5, 0, 0, 0]).unwrap_err().kind(), ErrorKind::NotADocument);
    assert_eq!(to_text(Form::Relaxed, ALL, &json!({"$oid": "5"})).unwrap_err().kind(), ErrorKind::BadObjectId);
}

#[test]
fn deep_values_come_back() {
    let text = "[".repeat(127) + &"]".repeat(127);
    let value = from_text(Form::Canonical, ALL, text.as_bytes()).unwrap();
    assert_eq!(&*to_text(Form::Relaxed, ALL, &value).unwrap(), text);
    let deep = "[".repeat(126) + "5" + &"]".repeat(126);
    assert!(from_text(Form::Canonical, ALL, deep.as_bytes()).is_ok());
    assert_eq!(from_text(Form::Relaxed, ALL, b"{}").unwrap(), Value::Object(Default::default()));
}
