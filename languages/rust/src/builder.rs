//! Documents that are built element by element.
use crate::call::{self, Memory};
use crate::{Bson, DateTime, Decimal128, Error, ErrorKind, ObjectId, RawArray, RawBsonRef, RawDocument, Timestamp};

/// Builds documents element by element. The bytes are canonical if no key of a document is appended twice.
///
/// [`DocumentBuilder::finish`] returns the document. After it the builder is empty, and its memory is used again.
///
/// ```
/// use vbson::{decode, Bson, DocumentBuilder, Mode, Options};
/// let mut builder = DocumentBuilder::new();
/// builder.append("n", 5)?.append("name", "x")?.append("none", Bson::Null)?;
/// builder.begin_array("tags")?.push("a")?.push(1.5)?.end()?;
/// builder.begin_document("at")?.append("ok", true)?.end()?;
/// let text = decode(Mode::Relaxed, Options::default(), builder.finish()?.as_bytes())?;
/// assert_eq!(&*text, r#"{"n":5,"name":"x","none":null,"tags":["a",1.5],"at":{"ok":true}}"#);
/// # Ok::<(), vbson::Error>(())
/// ```
///
/// A changed document is a copy of the other elements:
///
/// ```
/// # use vbson::{decode, encode, DocumentBuilder, Mode, Options, RawDocument};
/// let bytes = encode(Options::default(), br#"{"a": 1, "coupon": "x", "b": {"c": []}}"#)?;
/// let mut builder = DocumentBuilder::new();
/// for (key, value) in RawDocument::new(&bytes)?.iter().filter(|(key, _)| *key != "coupon") {
///     builder.append(key, value)?;
/// }
/// let changed = builder.append("paid", true)?.finish()?;
/// assert_eq!(&*decode(Mode::Relaxed, Options::default(), changed.as_bytes())?, r#"{"a":1,"b":{"c":[]},"paid":true}"#);
/// # Ok::<(), vbson::Error>(())
/// ```
#[derive(Default)]
pub struct DocumentBuilder {
    memory: Memory,
    // The document and the parts of it that are not ended.
    open: Vec<Open>,
    is_finished: bool,
}

struct Open {
    start: usize,
    // That of the next value of an array.
    index: Option<usize>,
}

/// A value that a [`DocumentBuilder`] appends: each type with `From`, and values of other documents.
#[derive(Clone, Copy, Debug)]
pub struct Element<'a>(Value<'a>);

#[derive(Clone, Copy, Debug)]
enum Value<'a> {
    Made(Bson<'a>),
    Raw(RawBsonRef<'a>),
}

impl DocumentBuilder {
    /// Makes a builder of an empty document.
    pub fn new() -> DocumentBuilder {
        DocumentBuilder::default()
    }

    /// Appends a key and a value. In an array, keys have no meaning: use [`DocumentBuilder::push`].
    ///
    /// # Errors
    ///
    /// - `ZeroInKey` if the key contains a 0 byte.
    /// - `ZeroInRegex` if the pattern or the options of a regular expression contain a 0 byte.
    /// - `TooLong` if a part has 2^31 bytes or more.
    /// - `OutOfMemory` if an allocation fails.
    pub fn append<'a>(&mut self, key: &str, value: impl Into<Element<'a>>) -> Result<&mut DocumentBuilder, Error> {
        self.begin()?;
        match value.into().0 {
            Value::Raw(value) => call::append_value(&mut self.memory, key.as_bytes(), value.element_type(), value.as_bytes())?,
            Value::Made(value) => self.append_made(key.as_bytes(), value)?,
        }
        Ok(self)
    }

    /// Appends a value to the array that was begun last.
    ///
    /// # Errors
    ///
    /// Those of [`DocumentBuilder::append`].
    ///
    /// # Panics
    ///
    /// If it is a document that was begun last.
    pub fn push<'a>(&mut self, value: impl Into<Element<'a>>) -> Result<&mut DocumentBuilder, Error> {
        let key = self.next_index();
        self.append(&key, value)?;
        self.count();
        Ok(self)
    }

    /// Begins a document as the value of a key. [`DocumentBuilder::end`] ends it.
    ///
    /// # Errors
    ///
    /// Those of [`DocumentBuilder::append`].
    pub fn begin_document(&mut self, key: &str) -> Result<&mut DocumentBuilder, Error> {
        self.begin_inside(key, false)
    }

    /// Begins an array as the value of a key. [`DocumentBuilder::end`] ends it.
    ///
    /// # Errors
    ///
    /// Those of [`DocumentBuilder::append`].
    pub fn begin_array(&mut self, key: &str) -> Result<&mut DocumentBuilder, Error> {
        self.begin_inside(key, true)
    }

    /// Begins a document as the next value of the array that was begun last.
    ///
    /// # Errors
    ///
    /// Those of [`DocumentBuilder::append`].
    ///
    /// # Panics
    ///
    /// If it is a document that was begun last.
    pub fn push_document(&mut self) -> Result<&mut DocumentBuilder, Error> {
        self.push_inside(false)
    }

    /// Begins an array as the next value of the array that was begun last.
    ///
    /// # Errors
    ///
    /// Those of [`DocumentBuilder::append`].
    ///
    /// # Panics
    ///
    /// If it is a document that was begun last.
    pub fn push_array(&mut self) -> Result<&mut DocumentBuilder, Error> {
        self.push_inside(true)
    }

    /// Ends the document or the array that was begun last.
    ///
    /// # Errors
    ///
    /// - `TooLong` if it has 2^31 bytes or more.
    /// - `OutOfMemory` if an allocation fails.
    ///
    /// # Panics
    ///
    /// If none is begun.
    pub fn end(&mut self) -> Result<&mut DocumentBuilder, Error> {
        assert!(self.open.len() > 1, "no document or array is begun");
        self.end_last()?;
        Ok(self)
    }

    /// Ends the document, with all that is begun in it, and returns it. It is valid until the next call, which begins another.
    ///
    /// # Errors
    ///
    /// - `TooLong` if it has 2^31 bytes or more.
    /// - `NotADocument` if it nests deeper than 100. The builder is then empty.
    /// - `OutOfMemory` if an allocation fails.
    pub fn finish(&mut self) -> Result<RawDocument<'_>, Error> {
        self.begin()?;
        while !self.open.is_empty() {
            self.end_last()?;
        }
        self.is_finished = true;
        RawDocument::new(self.memory.built())
    }

    /// Begins a document if none is begun.
    fn begin(&mut self) -> Result<(), Error> {
        if self.is_finished {
            self.memory.clear();
            self.is_finished = false;
        }
        if self.open.is_empty() {
            let start = call::document_begin(&mut self.memory)?;
            self.open.push(Open { start, index: None });
        }
        Ok(())
    }

    fn begin_inside(&mut self, key: &str, is_array: bool) -> Result<&mut DocumentBuilder, Error> {
        self.begin()?;
        let start = call::append_begin(&mut self.memory, is_array, key.as_bytes())?;
        self.open.push(Open { start, index: is_array.then_some(0) });
        Ok(self)
    }

    fn push_inside(&mut self, is_array: bool) -> Result<&mut DocumentBuilder, Error> {
        let key = self.next_index();
        self.begin()?;
        let start = call::append_begin(&mut self.memory, is_array, key.as_bytes())?;
        self.count();
        self.open.push(Open { start, index: is_array.then_some(0) });
        Ok(self)
    }

    fn next_index(&self) -> String {
        let index = self.open.last().and_then(|it| it.index);
        index.expect("an array was begun last").to_string()
    }

    fn count(&mut self) {
        if let Some(index) = self.open.last_mut().and_then(|it| it.index.as_mut()) {
            *index += 1;
        }
    }

    fn end_last(&mut self) -> Result<(), Error> {
        if let Some(last) = self.open.last() {
            call::document_end(&mut self.memory, last.start)?;
            self.open.pop();
        }
        Ok(())
    }

    fn append_made(&mut self, key: &[u8], value: Bson<'_>) -> Result<(), ErrorKind> {
        let memory = &mut self.memory;
        match value {
            Bson::Double(number) => call::append_double(memory, key, number),
            Bson::String(string) => call::append_string(memory, key, string.as_bytes()),
            Bson::Document(document) => call::append_document(memory, false, key, document.as_bytes()),
            Bson::Array(array) => call::append_document(memory, true, key, array.as_bytes()),
            Bson::Binary { subtype, bytes } => call::append_binary(memory, key, subtype, bytes),
            Bson::ObjectId(id) => call::append_object_id(memory, key, &id.0),
            Bson::Boolean(value) => call::append_boolean(memory, key, value),
            Bson::DateTime(date) => call::append_date_time(memory, key, date.0),
            Bson::Null => call::append_null(memory, key),
            Bson::Int32(number) => call::append_int32(memory, key, number),
            Bson::Int64(number) => call::append_int64(memory, key, number),
            Bson::Decimal128(decimal) => call::append_decimal128(memory, key, &decimal.0),
            other => {
                let (kind, bytes) = rare(other)?;
                call::append_value(memory, key, kind, &bytes)
            }
        }
    }
}

/// The type and the bytes of a value that the library has no call for.
fn rare(value: Bson<'_>) -> Result<(u8, Vec<u8>), ErrorKind> {
    Ok(match value {
        Bson::Undefined => (0x06, Vec::new()),
        Bson::RegularExpression { pattern, options } => {
            if pattern.contains('\0') || options.contains('\0') {
                return Err(ErrorKind::ZeroInRegex);
            }
            (0x0B, [pattern.as_bytes(), &[0], options.as_bytes(), &[0]].concat())
        }
        Bson::DbPointer { namespace, id } => (0x0C, [&string(namespace)?[..], &id.0].concat()),
        Bson::JavaScriptCode(code) => (0x0D, string(code)?),
        Bson::Symbol(symbol) => (0x0E, string(symbol)?),
        Bson::JavaScriptCodeWithScope { code, scope } => {
            let inside = [&string(code)?[..], scope.as_bytes()].concat();
            (0x0F, [&length(inside.len() + 4)?[..], &inside].concat())
        }
        Bson::Timestamp(it) => (0x11, [it.increment.to_le_bytes(), it.time.to_le_bytes()].concat()),
        Bson::MaxKey => (0x7F, Vec::new()),
        Bson::MinKey => (0xFF, Vec::new()),
        other => unreachable!("there is a call for {other:?}"),
    })
}

fn length(count: usize) -> Result<[u8; 4], ErrorKind> {
    i32::try_from(count).map(i32::to_le_bytes).map_err(|_| ErrorKind::TooLong)
}

/// The length of a string with its 0, the string, and the 0.
fn string(text: &str) -> Result<Vec<u8>, ErrorKind> {
    Ok([&length(text.len() + 1)?[..], text.as_bytes(), &[0]].concat())
}

impl<'a> From<RawBsonRef<'a>> for Element<'a> {
    fn from(value: RawBsonRef<'a>) -> Element<'a> {
        Element(Value::Raw(value))
    }
}

impl<'a> From<Bson<'a>> for Element<'a> {
    fn from(value: Bson<'a>) -> Element<'a> {
        Element(Value::Made(value))
    }
}

macro_rules! element_from {
    ($($kind:ty => $variant:ident),*) => {
        $(impl<'a> From<$kind> for Element<'a> {
            fn from(value: $kind) -> Element<'a> {
                Element(Value::Made(Bson::$variant(value)))
            }
        })*
    };
}

element_from!(i32 => Int32, i64 => Int64, f64 => Double, bool => Boolean, &'a str => String, ObjectId => ObjectId,
    DateTime => DateTime, Decimal128 => Decimal128, Timestamp => Timestamp, RawDocument<'a> => Document, RawArray<'a> => Array);
