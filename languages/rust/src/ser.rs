//! Values of Rust to documents, by their Extended JSON.
use crate::{encode, Bytes, Error, ErrorKind, Options, PathElement};
use serde::ser::{self, Serialize};
use std::fmt::{self, Display, Write};

/// Returns the canonical bytes of the document of a value, for example of a struct with `#[derive(Serialize)]`.
///
/// The types are those of the crate `bson`: `i8`, `i16`, `i32`, `u8` and `u16` are integers of 32 bits, other integers are of
/// 64 bits, and floats are doubles. `None` and `()` are null, and `serialize_bytes` makes binary data. Fields keep their order.
/// [`ObjectId`](crate::ObjectId), [`DateTime`](crate::DateTime), [`Decimal128`](crate::Decimal128),
/// [`Timestamp`](crate::Timestamp) and [`Binary`](crate::Binary) are written as their Extended JSON wrappers, and so is each
/// struct or map that is one, for example those of the crate `bson`. A NaN loses its payload.
///
/// ```
/// #[derive(serde::Serialize)]
/// struct Order { _id: vbson::ObjectId, total: f64, count: i64 }
/// let order = Order { _id: "53e37d08776f724e42000000".parse()?, total: 12.5, count: 5 };
/// let bytes = vbson::to_document(&order)?;
/// let text = vbson::decode(vbson::Mode::Canonical, Default::default(), &bytes)?;
/// assert_eq!(&*text, concat!(r#"{"_id":{"$oid":"53e37d08776f724e42000000"},"#,
///     r#""total":{"$numberDouble":"12.5"},"count":{"$numberLong":"5"}}"#));
/// # Ok::<(), vbson::Error>(())
/// ```
///
/// # Errors
///
/// - `NotRepresentable` if an integer has more than 64 bits, a key of a map is not a string, or the value's own `serialize`
///   fails. The error has a path.
/// - `NotADocument` if the value is not a document.
/// - `BadObjectId` or `NotExtendedJson`, with the path, if an object begins with the key of a wrapper and is not one.
/// - `NotJson` if the value nests deeper than 127.
/// - `ZeroInKey`, `ZeroInRegex` or `TooLong` if the document has no bytes.
/// - `OutOfMemory` if an allocation of the library fails.
pub fn to_document<T: Serialize + ?Sized>(value: &T) -> Result<Bytes, Error> {
    let mut text = String::new();
    value.serialize(Writer { text: &mut text, is_plain: false })?;
    encode(Options::default(), text.as_bytes()).map_err(Error::without_position)
}

impl ser::Error for Error {
    fn custom<T: Display>(message: T) -> Error {
        Error::at_path(ErrorKind::NotRepresentable, Default::default(), &message.to_string())
    }
}

/// Writes a value as canonical Extended JSON. The numbers of a timestamp are plain.
struct Writer<'a> {
    text: &'a mut String,
    is_plain: bool,
}

/// Writes the elements of an array or an object, and what closes it.
struct Elements<'a> {
    text: &'a mut String,
    is_plain: bool,
    count: usize,
    key: Option<String>,
    end: &'static str,
}

impl<'a> Writer<'a> {
    fn wrapped(self, key: &str, value: impl Display) -> Result<(), Error> {
        if self.is_plain {
            return write_to(self.text, format_args!("{value}"));
        }
        write_to(self.text, format_args!("{{\"{key}\":\"{value}\"}}"))
    }

    fn elements(self, begin: &str, end: &'static str) -> Result<Elements<'a>, Error> {
        self.text.push_str(begin);
        Ok(Elements { text: self.text, is_plain: self.is_plain, count: 0, key: None, end })
    }

    /// The elements of a variant that has some, which is an object with its name as the only key.
    fn variant(self, name: &str, begin: &str, end: &'static str) -> Result<Elements<'a>, Error> {
        self.text.push('{');
        write_string(self.text, name);
        self.text.push(':');
        self.elements(begin, end)
    }
}

fn write_to(text: &mut String, words: fmt::Arguments<'_>) -> Result<(), Error> {
    text.write_fmt(words).expect("a string can be written to");
    Ok(())
}

fn write_string(text: &mut String, string: &str) {
    text.push('"');
    for it in string.chars() {
        match it {
            '"' | '\\' => text.extend(['\\', it]),
            '\0'..='\x1f' => write!(text, "\\u{:04x}", u32::from(it)).expect("a string can be written to"),
            _ => text.push(it),
        }
    }
    text.push('"');
}

/// The base64 of RFC 4648.
pub(crate) fn base64(bytes: &[u8]) -> String {
    const DIGITS: &[u8; 64] = b"ABCDEFGHIJKLMNOPQRSTUVWXYZabcdefghijklmnopqrstuvwxyz0123456789+/";
    let mut text = String::new();
    for part in bytes.chunks(3) {
        let bits = part.iter().fold(0, |bits, it| bits << 8 | u32::from(*it)) << (8 * (3 - part.len()));
        let digit = |at: usize| char::from(DIGITS[(bits >> (18 - 6 * at) & 63) as usize]);
        text.extend((0..4).map(|at| if at <= part.len() { digit(at) } else { '=' }));
    }
    text
}

impl<'a> ser::Serializer for Writer<'a> {
    type Ok = ();
    type Error = Error;
    type SerializeSeq = Elements<'a>;
    type SerializeTuple = Elements<'a>;
    type SerializeTupleStruct = Elements<'a>;
    type SerializeTupleVariant = Elements<'a>;
    type SerializeMap = Elements<'a>;
    type SerializeStruct = Elements<'a>;
    type SerializeStructVariant = Elements<'a>;

    fn serialize_bool(self, value: bool) -> Result<(), Error> {
        write_to(self.text, format_args!("{value}"))
    }

    fn serialize_i8(self, value: i8) -> Result<(), Error> {
        self.serialize_i32(value.into())
    }

    fn serialize_i16(self, value: i16) -> Result<(), Error> {
        self.serialize_i32(value.into())
    }

    fn serialize_i32(self, value: i32) -> Result<(), Error> {
        write_to(self.text, format_args!("{value}"))
    }

    fn serialize_i64(self, value: i64) -> Result<(), Error> {
        self.wrapped("$numberLong", value)
    }

    fn serialize_u8(self, value: u8) -> Result<(), Error> {
        self.serialize_i32(value.into())
    }

    fn serialize_u16(self, value: u16) -> Result<(), Error> {
        self.serialize_i32(value.into())
    }

    fn serialize_u32(self, value: u32) -> Result<(), Error> {
        self.serialize_i64(value.into())
    }

    fn serialize_u64(self, value: u64) -> Result<(), Error> {
        match value.try_into() {
            Ok(number) => self.serialize_i64(number),
            Err(_) => Err(ser::Error::custom("not a 64-bit integer")),
        }
    }

    fn serialize_f32(self, value: f32) -> Result<(), Error> {
        self.serialize_f64(value.into())
    }

    fn serialize_f64(self, value: f64) -> Result<(), Error> {
        let text = match value {
            _ if value.is_nan() => if value.is_sign_negative() { "-NaN" } else { "NaN" }.to_owned(),
            _ if value.is_infinite() => if value > 0.0 { "Infinity" } else { "-Infinity" }.to_owned(),
            _ => format!("{value:?}"),
        };
        Writer { is_plain: false, ..self }.wrapped("$numberDouble", text)
    }

    fn serialize_char(self, value: char) -> Result<(), Error> {
        self.serialize_str(value.encode_utf8(&mut [0; 4]))
    }

    fn serialize_str(self, value: &str) -> Result<(), Error> {
        write_string(self.text, value);
        Ok(())
    }

    fn serialize_bytes(self, value: &[u8]) -> Result<(), Error> {
        write_to(self.text, format_args!(r#"{{"$binary":{{"base64":"{}","subType":"00"}}}}"#, base64(value)))
    }

    fn serialize_none(self) -> Result<(), Error> {
        self.serialize_unit()
    }

    fn serialize_some<T: Serialize + ?Sized>(self, value: &T) -> Result<(), Error> {
        value.serialize(self)
    }

    fn serialize_unit(self) -> Result<(), Error> {
        self.text.push_str("null");
        Ok(())
    }

    fn serialize_unit_struct(self, _: &'static str) -> Result<(), Error> {
        self.serialize_unit()
    }

    fn serialize_unit_variant(self, _: &'static str, _: u32, variant: &'static str) -> Result<(), Error> {
        self.serialize_str(variant)
    }

    fn serialize_newtype_struct<T: Serialize + ?Sized>(self, _: &'static str, value: &T) -> Result<(), Error> {
        value.serialize(self)
    }

    fn serialize_newtype_variant<T: Serialize + ?Sized>(
        self, _: &'static str, _: u32, variant: &'static str, value: &T,
    ) -> Result<(), Error> {
        let mut elements = self.elements("{", "}")?;
        elements.entry(variant, value)?;
        elements.ended()
    }

    fn serialize_seq(self, _: Option<usize>) -> Result<Elements<'a>, Error> {
        self.elements("[", "]")
    }

    fn serialize_tuple(self, _: usize) -> Result<Elements<'a>, Error> {
        self.elements("[", "]")
    }

    fn serialize_tuple_struct(self, _: &'static str, _: usize) -> Result<Elements<'a>, Error> {
        self.elements("[", "]")
    }

    fn serialize_tuple_variant(self, _: &'static str, _: u32, variant: &'static str, _: usize) -> Result<Elements<'a>, Error> {
        self.variant(variant, "[", "]}")
    }

    fn serialize_map(self, _: Option<usize>) -> Result<Elements<'a>, Error> {
        self.elements("{", "}")
    }

    fn serialize_struct(self, _: &'static str, _: usize) -> Result<Elements<'a>, Error> {
        self.elements("{", "}")
    }

    fn serialize_struct_variant(self, _: &'static str, _: u32, variant: &'static str, _: usize) -> Result<Elements<'a>, Error> {
        self.variant(variant, "{", "}}")
    }
}

impl Elements<'_> {
    fn separate(&mut self) {
        if self.count > 0 {
            self.text.push(',');
        }
        self.count += 1;
    }

    fn item<T: Serialize + ?Sized>(&mut self, value: &T) -> Result<(), Error> {
        let index = self.count;
        self.separate();
        let writer = Writer { text: self.text, is_plain: self.is_plain };
        value.serialize(writer).map_err(|it| it.inside(PathElement::Index(index)))
    }

    fn entry<T: Serialize + ?Sized>(&mut self, key: &str, value: &T) -> Result<(), Error> {
        self.separate();
        write_string(self.text, key);
        self.text.push(':');
        let writer = Writer { text: self.text, is_plain: self.is_plain || key == "$timestamp" };
        value.serialize(writer).map_err(|it| it.inside(key.into()))
    }

    fn ended(self) -> Result<(), Error> {
        self.text.push_str(self.end);
        Ok(())
    }
}

/// The key of a map, which must be a string.
fn key_of<T: Serialize + ?Sized>(key: &T) -> Result<String, Error> {
    let mut text = String::new();
    key.serialize(Writer { text: &mut text, is_plain: false })?;
    if !text.starts_with('"') {
        return Err(ser::Error::custom("a key of a map must be a string"));
    }
    Ok(Unquoted(key).to_string())
}

struct Unquoted<'a, T: ?Sized>(&'a T);

impl<T: Serialize + ?Sized> Display for Unquoted<'_, T> {
    fn fmt(&self, f: &mut fmt::Formatter<'_>) -> fmt::Result {
        self.0.serialize(f)
    }
}

impl ser::SerializeSeq for Elements<'_> {
    type Ok = ();
    type Error = Error;

    fn serialize_element<T: Serialize + ?Sized>(&mut self, value: &T) -> Result<(), Error> {
        self.item(value)
    }

    fn end(self) -> Result<(), Error> {
        self.ended()
    }
}

impl ser::SerializeTuple for Elements<'_> {
    type Ok = ();
    type Error = Error;

    fn serialize_element<T: Serialize + ?Sized>(&mut self, value: &T) -> Result<(), Error> {
        self.item(value)
    }

    fn end(self) -> Result<(), Error> {
        self.ended()
    }
}

impl ser::SerializeTupleStruct for Elements<'_> {
    type Ok = ();
    type Error = Error;

    fn serialize_field<T: Serialize + ?Sized>(&mut self, value: &T) -> Result<(), Error> {
        self.item(value)
    }

    fn end(self) -> Result<(), Error> {
        self.ended()
    }
}

impl ser::SerializeTupleVariant for Elements<'_> {
    type Ok = ();
    type Error = Error;

    fn serialize_field<T: Serialize + ?Sized>(&mut self, value: &T) -> Result<(), Error> {
        self.item(value)
    }

    fn end(self) -> Result<(), Error> {
        self.ended()
    }
}

impl ser::SerializeMap for Elements<'_> {
    type Ok = ();
    type Error = Error;

    fn serialize_key<T: Serialize + ?Sized>(&mut self, key: &T) -> Result<(), Error> {
        self.key = Some(key_of(key)?);
        Ok(())
    }

    fn serialize_value<T: Serialize + ?Sized>(&mut self, value: &T) -> Result<(), Error> {
        let key = self.key.take().expect("serialize_key comes before serialize_value");
        self.entry(&key, value)
    }

    fn end(self) -> Result<(), Error> {
        self.ended()
    }
}

impl ser::SerializeStruct for Elements<'_> {
    type Ok = ();
    type Error = Error;

    fn serialize_field<T: Serialize + ?Sized>(&mut self, key: &'static str, value: &T) -> Result<(), Error> {
        self.entry(key, value)
    }

    fn end(self) -> Result<(), Error> {
        self.ended()
    }
}

impl ser::SerializeStructVariant for Elements<'_> {
    type Ok = ();
    type Error = Error;

    fn serialize_field<T: Serialize + ?Sized>(&mut self, key: &'static str, value: &T) -> Result<(), Error> {
        self.entry(key, value)
    }

    fn end(self) -> Result<(), Error> {
        self.ended()
    }
}
