//! Documents to values of Rust.
use crate::ser::base64;
use crate::{Bson, Error, ErrorKind, ObjectId, PathElement, RawBsonRef, RawDocument, RawIter};
use serde::de::value::{MapAccessDeserializer, MapDeserializer};
use serde::de::{self, Deserialize, DeserializeSeed, IntoDeserializer, Visitor};
use serde::forward_to_deserialize_any;
use std::borrow::Cow;
use std::fmt::Display;

/// Reads the bytes as one document, and returns its value, for example a struct with `#[derive(Deserialize)]`.
///
/// Strings and binary data can be borrowed from the bytes. A number is accepted for each type of Rust that has it. Null is
/// `None` or `()`, and binary data are bytes for `deserialize_bytes`. The types that JSON lacks are read as their Extended JSON
/// wrappers, for example by [`ObjectId`](crate::ObjectId), [`DateTime`](crate::DateTime), [`Decimal128`](crate::Decimal128),
/// [`Timestamp`](crate::Timestamp), [`Binary`](crate::Binary), and the types of the crate `bson`.
///
/// ```
/// #[derive(serde::Deserialize)]
/// struct Order<'a> { name: &'a str, at: vbson::DateTime, coupon: Option<String> }
/// let bytes = vbson::encode(Default::default(), br#"{"name": "x", "at": {"$date": "1970-01-01T00:00:01Z"}}"#)?;
/// let order: Order = vbson::from_document(&bytes)?;
/// assert_eq!((order.name, order.at, order.coupon), ("x", vbson::DateTime(1000), None));
/// # Ok::<(), vbson::Error>(())
/// ```
///
/// # Errors
///
/// - `NotADocument`, with the offset of the error and the path to it, if the bytes are not a document.
/// - `UnexpectedType`, with the path to the value, if the type of Rust rejects it, or a field is missing or duplicated.
pub fn from_document<'de, T: Deserialize<'de>>(bytes: &'de [u8]) -> Result<T, Error> {
    RawDocument::new(bytes)?.deserialize()
}

impl<'de> RawDocument<'de> {
    /// Returns the value of the document, as [`from_document`] does, with the feature `serde`.
    ///
    /// # Errors
    ///
    /// - `UnexpectedType`, with the path to the value, if the type of Rust rejects it, or a field is missing or duplicated.
    pub fn deserialize<T: Deserialize<'de>>(&self) -> Result<T, Error> {
        T::deserialize(Reader(Bson::Document(*self)))
    }
}

impl de::Error for Error {
    fn custom<T: Display>(message: T) -> Error {
        Error::at_path(ErrorKind::UnexpectedType, Default::default(), &message.to_string())
    }
}

#[derive(Clone, Copy)]
struct Reader<'de>(Bson<'de>);

impl<'de> de::Deserializer<'de> for Reader<'de> {
    type Error = Error;

    fn deserialize_any<V: Visitor<'de>>(self, visitor: V) -> Result<V::Value, Error> {
        match self.0 {
            Bson::Double(number) => visitor.visit_f64(number),
            Bson::String(string) => visitor.visit_borrowed_str(string),
            Bson::Document(document) => visitor.visit_map(Entries { elements: document.iter(), current: None }),
            Bson::Array(array) => visitor.visit_seq(Items { values: array.iter(), index: 0 }),
            Bson::Boolean(value) => visitor.visit_bool(value),
            Bson::Null => visitor.visit_unit(),
            Bson::Int32(number) => visitor.visit_i32(number),
            Bson::Int64(number) => visitor.visit_i64(number),
            other => visitor.visit_map(MapDeserializer::new(wrapper(other).into_iter())),
        }
    }

    fn deserialize_option<V: Visitor<'de>>(self, visitor: V) -> Result<V::Value, Error> {
        match self.0 {
            Bson::Null => visitor.visit_none(),
            _ => visitor.visit_some(self),
        }
    }

    fn deserialize_bytes<V: Visitor<'de>>(self, visitor: V) -> Result<V::Value, Error> {
        match self.0 {
            Bson::Binary { bytes, .. } => visitor.visit_borrowed_bytes(bytes),
            _ => self.deserialize_any(visitor),
        }
    }

    fn deserialize_byte_buf<V: Visitor<'de>>(self, visitor: V) -> Result<V::Value, Error> {
        self.deserialize_bytes(visitor)
    }

    fn deserialize_newtype_struct<V: Visitor<'de>>(self, _: &'static str, visitor: V) -> Result<V::Value, Error> {
        visitor.visit_newtype_struct(self)
    }

    /// A variant without a value is a string; another is a document with its name as the only key.
    fn deserialize_enum<V: Visitor<'de>>(
        self, _: &'static str, _: &'static [&'static str], visitor: V,
    ) -> Result<V::Value, Error> {
        match self.0 {
            Bson::String(string) => visitor.visit_enum(string.into_deserializer()),
            Bson::Document(document) if document.iter().count() == 1 => {
                let entries = Entries { elements: document.iter(), current: None };
                visitor.visit_enum(MapAccessDeserializer::new(entries))
            }
            _ => Err(de::Error::custom("a variant is a string, or a document with one key")),
        }
    }

    forward_to_deserialize_any! {
        bool i8 i16 i32 i64 i128 u8 u16 u32 u64 u128 f32 f64 char str string unit unit_struct seq tuple tuple_struct map struct
        identifier ignored_any
    }
}

struct Entries<'de> {
    elements: RawIter<'de>,
    current: Option<(&'de str, RawBsonRef<'de>)>,
}

impl<'de> de::MapAccess<'de> for Entries<'de> {
    type Error = Error;

    fn next_key_seed<K: DeserializeSeed<'de>>(&mut self, seed: K) -> Result<Option<K::Value>, Error> {
        self.current = self.elements.next();
        match self.current {
            Some((key, _)) => seed.deserialize(Reader(Bson::String(key))).map(Some),
            None => Ok(None),
        }
    }

    fn next_value_seed<V: DeserializeSeed<'de>>(&mut self, seed: V) -> Result<V::Value, Error> {
        let (key, value) = self.current.take().expect("next_key_seed comes before next_value_seed");
        seed.deserialize(Reader(value.value())).map_err(|it| it.inside(key.into()))
    }
}

struct Items<I> {
    values: I,
    index: usize,
}

impl<'de, I: Iterator<Item = RawBsonRef<'de>>> de::SeqAccess<'de> for Items<I> {
    type Error = Error;

    fn next_element_seed<T: DeserializeSeed<'de>>(&mut self, seed: T) -> Result<Option<T::Value>, Error> {
        let Some(value) = self.values.next() else { return Ok(None) };
        let index = PathElement::Index(self.index);
        self.index += 1;
        seed.deserialize(Reader(value.value())).map(Some).map_err(|it| it.inside(index))
    }
}

/// A value in an Extended JSON wrapper.
enum Part<'de> {
    Text(Cow<'de, str>),
    Number(u32),
    True,
    Value(Bson<'de>),
    Parts(Vec<(&'static str, Part<'de>)>),
}

/// The Extended JSON wrapper of a value of a type that JSON lacks.
fn wrapper(value: Bson<'_>) -> Vec<(&'static str, Part<'_>)> {
    let text = |it: String| Part::Text(it.into());
    let oid = |id: ObjectId| vec![("$oid", text(id.to_string()))];
    match value {
        Bson::ObjectId(id) => oid(id),
        Bson::DateTime(date) => vec![("$date", Part::Parts(vec![("$numberLong", text(date.0.to_string()))]))],
        Bson::Decimal128(decimal) => vec![("$numberDecimal", text(decimal.to_string()))],
        Bson::Binary { subtype, bytes } => {
            let parts = vec![("base64", text(base64(bytes))), ("subType", text(format!("{subtype:02x}")))];
            vec![("$binary", Part::Parts(parts))]
        }
        Bson::Timestamp(it) => vec![("$timestamp", Part::Parts(vec![("t", Part::Number(it.time)), ("i", Part::Number(it.increment))]))],
        Bson::RegularExpression { pattern, options } => {
            let parts = vec![("pattern", Part::Text(pattern.into())), ("options", Part::Text(options.into()))];
            vec![("$regularExpression", Part::Parts(parts))]
        }
        Bson::DbPointer { namespace, id } => {
            vec![("$dbPointer", Part::Parts(vec![("$ref", Part::Text(namespace.into())), ("$id", Part::Parts(oid(id)))]))]
        }
        Bson::JavaScriptCode(code) => vec![("$code", Part::Text(code.into()))],
        Bson::JavaScriptCodeWithScope { code, scope } => {
            vec![("$code", Part::Text(code.into())), ("$scope", Part::Value(Bson::Document(scope)))]
        }
        Bson::Symbol(symbol) => vec![("$symbol", Part::Text(symbol.into()))],
        Bson::Undefined => vec![("$undefined", Part::True)],
        Bson::MinKey => vec![("$minKey", Part::Number(1))],
        Bson::MaxKey => vec![("$maxKey", Part::Number(1))],
        other => unreachable!("{other:?} has a value of JSON"),
    }
}

impl<'de> IntoDeserializer<'de, Error> for Part<'de> {
    type Deserializer = Part<'de>;

    fn into_deserializer(self) -> Part<'de> {
        self
    }
}

impl<'de> de::Deserializer<'de> for Part<'de> {
    type Error = Error;

    fn deserialize_any<V: Visitor<'de>>(self, visitor: V) -> Result<V::Value, Error> {
        match self {
            Part::Text(Cow::Borrowed(text)) => visitor.visit_borrowed_str(text),
            Part::Text(Cow::Owned(text)) => visitor.visit_string(text),
            Part::Number(number) => visitor.visit_u32(number),
            Part::True => visitor.visit_bool(true),
            Part::Value(value) => Reader(value).deserialize_any(visitor),
            Part::Parts(parts) => visitor.visit_map(MapDeserializer::new(parts.into_iter())),
        }
    }

    fn deserialize_option<V: Visitor<'de>>(self, visitor: V) -> Result<V::Value, Error> {
        visitor.visit_some(self)
    }

    fn deserialize_newtype_struct<V: Visitor<'de>>(self, _: &'static str, visitor: V) -> Result<V::Value, Error> {
        visitor.visit_newtype_struct(self)
    }

    forward_to_deserialize_any! {
        bool i8 i16 i32 i64 i128 u8 u16 u32 u64 u128 f32 f64 char str string bytes byte_buf unit unit_struct seq tuple
        tuple_struct map struct enum identifier ignored_any
    }
}
