//! Decimals, object ids, date-times and timestamps.
use crate::call::{self, Printed};
use crate::Error;
use std::fmt;
use std::str::{self, FromStr};

/// A Decimal128 of BSON: 16 bytes, the lowest first. Equality compares the bytes, so `1.5` is not `1.50`.
#[derive(Clone, Copy, Debug, PartialEq, Eq, Hash)]
#[cfg_attr(feature = "serde", derive(serde::Serialize, serde::Deserialize))]
#[cfg_attr(feature = "serde", serde(try_from = "wrapper::Decimal128", into = "wrapper::Decimal128"))]
pub struct Decimal128(pub [u8; 16]);

/// An object id of 12 bytes.
#[derive(Clone, Copy, Debug, PartialEq, Eq, PartialOrd, Ord, Hash)]
#[cfg_attr(feature = "serde", derive(serde::Serialize, serde::Deserialize))]
#[cfg_attr(feature = "serde", serde(try_from = "wrapper::ObjectId", into = "wrapper::ObjectId"))]
pub struct ObjectId(pub [u8; 12]);

/// A date-time in milliseconds since 1970-01-01T00:00:00Z.
#[derive(Clone, Copy, Debug, PartialEq, Eq, PartialOrd, Ord, Hash)]
#[cfg_attr(feature = "serde", derive(serde::Serialize, serde::Deserialize))]
#[cfg_attr(feature = "serde", serde(try_from = "wrapper::DateTime", into = "wrapper::DateTime"))]
pub struct DateTime(pub i64);

/// A timestamp of BSON, which MongoDB uses for its own log. `DateTime` is the type for dates.
#[derive(Clone, Copy, Debug, PartialEq, Eq, PartialOrd, Ord, Hash)]
#[cfg_attr(feature = "serde", derive(serde::Serialize, serde::Deserialize))]
#[cfg_attr(feature = "serde", serde(try_from = "wrapper::Timestamp", into = "wrapper::Timestamp"))]
pub struct Timestamp {
    /// The seconds since 1970-01-01T00:00:00Z.
    pub time: u32,
    /// The number of the operation in this second.
    pub increment: u32,
}

impl FromStr for Decimal128 {
    type Err = Error;

    /// Parses a decimal, which is never rounded.
    ///
    /// # Errors
    ///
    /// - `InvalidString` if it has too many digits, or is not a decimal.
    fn from_str(text: &str) -> Result<Decimal128, Error> {
        Ok(Decimal128(call::decimal128_parse(text.as_bytes())?))
    }
}

impl FromStr for ObjectId {
    type Err = Error;

    /// Parses 24 hexadecimal digits of either case.
    ///
    /// # Errors
    ///
    /// - `InvalidString` if the string is not 24 digits.
    fn from_str(text: &str) -> Result<ObjectId, Error> {
        Ok(ObjectId(call::object_id_parse(text.as_bytes())?))
    }
}

impl FromStr for DateTime {
    type Err = Error;

    /// Parses a date-time of RFC 3339 (section 5.6).
    ///
    /// # Errors
    ///
    /// - `InvalidString` if the string is not a date-time.
    fn from_str(text: &str) -> Result<DateTime, Error> {
        Ok(DateTime(call::date_time_parse(text.as_bytes())?))
    }
}

impl DateTime {
    /// Formats the date-time by RFC 3339, in UTC.
    ///
    /// ```
    /// assert_eq!(vbson::DateTime(-1).to_rfc3339()?, "1969-12-31T23:59:59.999Z");
    /// # Ok::<(), vbson::Error>(())
    /// ```
    ///
    /// # Errors
    ///
    /// - `NotRepresentable` outside the years 0000 to 9999.
    pub fn to_rfc3339(self) -> Result<String, Error> {
        let printed = call::date_time_print(self.0)?;
        Ok(text_of(&printed).to_owned())
    }
}

/// `fmt::Error` if an allocation fails.
impl fmt::Display for Decimal128 {
    fn fmt(&self, f: &mut fmt::Formatter<'_>) -> fmt::Result {
        let printed = call::decimal128_print(&self.0).map_err(|_| fmt::Error)?;
        f.pad(text_of(&printed))
    }
}

impl fmt::Display for ObjectId {
    fn fmt(&self, f: &mut fmt::Formatter<'_>) -> fmt::Result {
        let printed = call::object_id_print(&self.0).map_err(|_| fmt::Error)?;
        f.pad(text_of(&printed))
    }
}

/// Formats by RFC 3339, in UTC, or as milliseconds, for example `253402300800000 ms`, if `to_rfc3339` fails.
impl fmt::Display for DateTime {
    fn fmt(&self, f: &mut fmt::Formatter<'_>) -> fmt::Result {
        match call::date_time_print(self.0) {
            Ok(printed) => f.pad(text_of(&printed)),
            Err(_) => f.pad(&format!("{} ms", self.0)),
        }
    }
}

fn text_of((room, len): &Printed) -> &str {
    str::from_utf8(&room[..*len]).expect("the library writes UTF-8")
}

/// Binary data with its subtype, for structs with the feature `serde`.
///
/// ```
/// #[derive(serde::Serialize, serde::Deserialize)]
/// struct Upload { name: String, content: vbson::Binary }
/// let upload = Upload { name: "x".to_owned(), content: vbson::Binary { subtype: 0, bytes: vec![1, 2] } };
/// let again: Upload = vbson::from_document(&vbson::to_document(&upload)?)?;
/// assert_eq!(again.content, upload.content);
/// # Ok::<(), vbson::Error>(())
/// ```
#[cfg(feature = "serde")]
#[derive(Clone, Debug, PartialEq, Eq, Hash, serde::Serialize, serde::Deserialize)]
#[serde(try_from = "wrapper::Binary", into = "wrapper::Binary")]
pub struct Binary {
    /// The subtype, for example 0 for bytes and 4 for a UUID.
    pub subtype: u8,
    /// The bytes.
    pub bytes: Vec<u8>,
}

/// The Extended JSON wrappers of the scalars.
#[cfg(feature = "serde")]
mod wrapper {
    use crate::{encode, ser::base64, Error, ErrorKind, Options, RawDocument};
    use serde::{Deserialize, Serialize};

    #[derive(Serialize, Deserialize)]
    pub struct ObjectId {
        #[serde(rename = "$oid")]
        digits: String,
    }

    #[derive(Serialize, Deserialize)]
    pub struct Decimal128 {
        #[serde(rename = "$numberDecimal")]
        decimal: String,
    }

    #[derive(Serialize, Deserialize)]
    pub struct DateTime {
        #[serde(rename = "$date")]
        date: Date,
    }

    #[derive(Serialize, Deserialize)]
    #[serde(untagged)]
    enum Date {
        Millis {
            #[serde(rename = "$numberLong")]
            millis: String,
        },
        Rfc3339(String),
    }

    #[derive(Serialize, Deserialize)]
    pub struct Timestamp {
        #[serde(rename = "$timestamp")]
        parts: Parts,
    }

    #[derive(Serialize, Deserialize)]
    struct Parts {
        t: u32,
        i: u32,
    }

    #[derive(Serialize, Deserialize)]
    pub struct Binary {
        #[serde(rename = "$binary")]
        content: Content,
    }

    #[derive(Serialize, Deserialize)]
    struct Content {
        base64: String,
        #[serde(rename = "subType")]
        subtype: String,
    }

    impl From<super::ObjectId> for ObjectId {
        fn from(id: super::ObjectId) -> ObjectId {
            ObjectId { digits: id.to_string() }
        }
    }

    impl TryFrom<ObjectId> for super::ObjectId {
        type Error = Error;

        fn try_from(id: ObjectId) -> Result<super::ObjectId, Error> {
            id.digits.parse()
        }
    }

    impl From<super::Decimal128> for Decimal128 {
        fn from(decimal: super::Decimal128) -> Decimal128 {
            Decimal128 { decimal: decimal.to_string() }
        }
    }

    impl TryFrom<Decimal128> for super::Decimal128 {
        type Error = Error;

        fn try_from(decimal: Decimal128) -> Result<super::Decimal128, Error> {
            decimal.decimal.parse()
        }
    }

    impl From<super::DateTime> for DateTime {
        fn from(date: super::DateTime) -> DateTime {
            DateTime { date: Date::Millis { millis: date.0.to_string() } }
        }
    }

    impl TryFrom<DateTime> for super::DateTime {
        type Error = Error;

        fn try_from(date: DateTime) -> Result<super::DateTime, Error> {
            match date.date {
                Date::Millis { millis } => millis.parse().map(super::DateTime).map_err(|_| ErrorKind::InvalidString.into()),
                Date::Rfc3339(text) => text.parse(),
            }
        }
    }

    impl From<super::Timestamp> for Timestamp {
        fn from(it: super::Timestamp) -> Timestamp {
            Timestamp { parts: Parts { t: it.time, i: it.increment } }
        }
    }

    // (each number of 32 bits is one of a timestamp, so that nothing fails; `try_from` is that of all wrappers)
    impl From<Timestamp> for super::Timestamp {
        fn from(it: Timestamp) -> super::Timestamp {
            super::Timestamp { time: it.parts.t, increment: it.parts.i }
        }
    }

    impl From<super::Binary> for Binary {
        fn from(it: super::Binary) -> Binary {
            Binary { content: Content { base64: base64(&it.bytes), subtype: format!("{:02x}", it.subtype) } }
        }
    }

    impl TryFrom<Binary> for super::Binary {
        type Error = Error;

        /// Reads base64 by the library.
        fn try_from(it: Binary) -> Result<super::Binary, Error> {
            let Content { base64, subtype } = it.content;
            if !base64.bytes().chain(subtype.bytes()).all(|it| it.is_ascii_alphanumeric() || b"+/=".contains(&it)) {
                return Err(ErrorKind::InvalidString.into());
            }
            let text = format!(r#"{{"it":{{"$binary":{{"base64":"{base64}","subType":"{subtype}"}}}}}}"#);
            let document = encode(Options::default(), text.as_bytes())?;
            let found = RawDocument::new(&document)?.get("it").and_then(|it| it.as_binary());
            let (subtype, bytes) = found.ok_or(ErrorKind::InvalidString)?;
            Ok(super::Binary { subtype, bytes: bytes.to_vec() })
        }
    }
}
