//! The calls of `vbson.h` under safe signatures. A slice's pointer is never null, as the header wants it.
use crate::ErrorKind;

/// `vbson_options`.
#[repr(C)]
#[derive(Clone, Copy)]
pub struct RawOptions {
    pub size: usize,
    pub doubles: u32,
    pub key_order: u32,
    pub duplicate_keys: u32,
    pub v1: u32,
    pub layout: u32,
}

impl RawOptions {
    /// `VBSON_OPTIONS_INIT`.
    pub const INIT: RawOptions =
        RawOptions { size: std::mem::size_of::<RawOptions>(), doubles: 0, key_order: 0, duplicate_keys: 0, v1: 0, layout: 0 };
}

/// `vbson_buffer`.
#[repr(C)]
pub struct RawText {
    pub bytes: *const u8,
    pub size: usize,
    pub len: usize,
}

/// `vbson_lines`.
#[repr(C)]
pub struct RawLines {
    pub text: RawText,
    pub diagnostics: RawText,
    pub lines: u64,
    pub refused: u64,
}

/// `vbson_documents`.
#[repr(C)]
pub struct RawDocuments {
    pub text: RawText,
    pub diagnostics: RawText,
    pub documents: u64,
    pub consumed: u64,
}

/// `vbson_error`.
#[repr(C)]
pub struct RawError {
    pub code: u32,
    pub line: usize,
    pub column: usize,
    pub offset: usize,
    pub path: RawText,
    pub reason: RawText,
    pub message: RawText,
}

/// `vbson_slice`.
#[repr(C)]
#[derive(Clone, Copy)]
pub struct RawSlice {
    pub bytes: *const u8,
    pub len: usize,
}

/// `vbson_raw_value`.
#[repr(C)]
#[derive(Clone, Copy)]
pub struct RawValue {
    pub bytes: *const u8,
    pub size: usize,
    pub len: usize,
    pub kind: u8,
}

/// `vbson_builder`.
#[repr(C)]
pub struct RawBuilder {
    pub bytes: *mut u8,
    pub size: usize,
    pub len: usize,
    pub needed: usize,
}

extern "C" {
    fn vbson_version() -> u32;
    fn vbson_convert_nonnull(mode: u32, options: *const RawOptions, text: *const u8, len: usize, out: *mut RawText) -> u32;
    fn vbson_explain_nonnull(options: *const RawOptions, text: *const u8, len: usize, out: *mut RawError) -> u32;
    fn vbson_convert_lines_nonnull(mode: u32, options: *const RawOptions, block: *const u8, len: usize, out: *mut RawLines) -> u32;
    fn vbson_first_rejected_line_nonnull(mode: u32, options: *const RawOptions, block: *const u8, len: usize, number: *mut u64) -> u32;
    fn vbson_is_canonical_text_nonnull(options: *const RawOptions, text: *const u8, len: usize) -> u32;
    fn vbson_same_nonnull(options: *const RawOptions, left_input: *const u8, left_len: usize, right_input: *const u8, right_len: usize) -> u32;
    fn vbson_hash_nonnull(options: *const RawOptions, text: *const u8, len: usize, out: *mut u64) -> u32;
    fn vbson_is_document(bytes: *const u8, len: usize) -> u32;
    fn vbson_explain_document_nonnull(options: *const RawOptions, bytes: *const u8, len: usize, out: *mut RawError) -> u32;
    fn vbson_same_documents_nonnull(options: *const RawOptions, left_input: *const u8, left_len: usize, right_input: *const u8, right_len: usize) -> u32;
    fn vbson_hash_document_nonnull(options: *const RawOptions, bytes: *const u8, len: usize, out: *mut u64) -> u32;
    fn vbson_decode_nonnull(mode: u32, options: *const RawOptions, bytes: *const u8, len: usize, out: *mut RawText) -> u32;
    fn vbson_encode_nonnull(options: *const RawOptions, text: *const u8, len: usize, out: *mut RawText) -> u32;
    fn vbson_encode_lines_nonnull(options: *const RawOptions, block: *const u8, len: usize, out: *mut RawLines) -> u32;
    fn vbson_first_unencoded_line_nonnull(options: *const RawOptions, block: *const u8, len: usize, number: *mut u64) -> u32;
    fn vbson_decode_documents_nonnull(mode: u32, options: *const RawOptions, block: *const u8, len: usize, out: *mut RawDocuments) -> u32;
    fn vbson_raw_get(bytes: *const u8, len: usize, key: *const u8, key_len: usize, out: *mut RawValue) -> u32;
    fn vbson_raw_elements(bytes: *const u8, len: usize, cursor: *mut RawSlice) -> u32;
    fn vbson_raw_next(cursor: *mut RawSlice, key: *mut RawSlice, value: *mut RawValue) -> u32;
    fn vbson_raw_int32(value: *const RawValue, out: *mut i32) -> u32;
    fn vbson_raw_int64(value: *const RawValue, out: *mut i64) -> u32;
    fn vbson_raw_double(value: *const RawValue, out: *mut u64) -> u32;
    fn vbson_raw_boolean(value: *const RawValue, out: *mut u32) -> u32;
    fn vbson_raw_string(value: *const RawValue, out: *mut RawSlice) -> u32;
    fn vbson_raw_object_id(value: *const RawValue, out: *mut [u8; 12]) -> u32;
    fn vbson_raw_date_time(value: *const RawValue, out: *mut i64) -> u32;
    fn vbson_raw_binary(value: *const RawValue, subtype: *mut u32, out: *mut RawSlice) -> u32;
    fn vbson_document_begin(builder: *mut RawBuilder, start_offset: *mut usize) -> u32;
    fn vbson_document_end(builder: *mut RawBuilder, start_offset: usize) -> u32;
    fn vbson_append_document_begin(builder: *mut RawBuilder, key: *const u8, key_len: usize, start_offset: *mut usize) -> u32;
    fn vbson_append_array_begin(builder: *mut RawBuilder, key: *const u8, key_len: usize, start_offset: *mut usize) -> u32;
    fn vbson_append_value(builder: *mut RawBuilder, key: *const u8, key_len: usize, value: *const RawValue) -> u32;
    fn vbson_append_document(builder: *mut RawBuilder, key: *const u8, key_len: usize, bytes: *const u8, len: usize) -> u32;
    fn vbson_append_array(builder: *mut RawBuilder, key: *const u8, key_len: usize, bytes: *const u8, len: usize) -> u32;
    fn vbson_append_int32(builder: *mut RawBuilder, key: *const u8, key_len: usize, value: i32) -> u32;
    fn vbson_append_int64(builder: *mut RawBuilder, key: *const u8, key_len: usize, value: i64) -> u32;
    fn vbson_append_double(builder: *mut RawBuilder, key: *const u8, key_len: usize, value: u64) -> u32;
    fn vbson_append_boolean(builder: *mut RawBuilder, key: *const u8, key_len: usize, value: u32) -> u32;
    fn vbson_append_null(builder: *mut RawBuilder, key: *const u8, key_len: usize) -> u32;
    fn vbson_append_string(builder: *mut RawBuilder, key: *const u8, key_len: usize, text: *const u8, len: usize) -> u32;
    fn vbson_append_object_id(builder: *mut RawBuilder, key: *const u8, key_len: usize, id: *const [u8; 12]) -> u32;
    fn vbson_append_date_time(builder: *mut RawBuilder, key: *const u8, key_len: usize, millis: i64) -> u32;
    fn vbson_append_binary(builder: *mut RawBuilder, key: *const u8, key_len: usize, subtype: u32, bytes: *const u8, len: usize) -> u32;
    fn vbson_append_decimal128(builder: *mut RawBuilder, key: *const u8, key_len: usize, bytes: *const [u8; 16]) -> u32;
    fn vbson_decimal128_parse(text: *const u8, len: usize, out: *mut [u8; 16]) -> u32;
    fn vbson_decimal128_print(bytes: *const [u8; 16], buffer: *mut u8, size: usize, len: *mut usize) -> u32;
    fn vbson_object_id_parse(text: *const u8, len: usize, out: *mut [u8; 12]) -> u32;
    fn vbson_object_id_print(bytes: *const [u8; 12], buffer: *mut u8, size: usize, len: *mut usize) -> u32;
    fn vbson_date_time_parse(text: *const u8, len: usize, out: *mut i64) -> u32;
    fn vbson_date_time_print(millis: i64, buffer: *mut u8, size: usize, len: *mut usize) -> u32;
}

const OK: u32 = 0;
const INVALID_ARGUMENT: u32 = 1;
const NOT_JSON: u32 = 2;
const BAD_OBJECT_ID: u32 = 3;
const NOT_EXTENDED_JSON: u32 = 4;
const OUT_OF_MEMORY: u32 = 5;
const INVALID_STRING: u32 = 6;
const NOT_REPRESENTABLE: u32 = 7;
const BUFFER_TOO_SMALL: u32 = 8;
const DIFFERENT: u32 = 9;
const NOT_A_DOCUMENT: u32 = 10;
const ZERO_IN_KEY: u32 = 11;
const ZERO_IN_REGEX: u32 = 12;
const TOO_LONG: u32 = 13;
const NOT_FOUND: u32 = 14;
const UNEXPECTED_TYPE: u32 = 15;
const NOT_CANONICAL: u32 = 16;

/// The option for finite doubles.
pub const DOUBLES_FINITE: u32 = 1;
/// The option for the order of keys.
pub const KEYS_AS_GIVEN: u32 = 1;
/// The option that rejects duplicate keys.
pub const DUPLICATE_KEYS_REJECT: u32 = 1;
/// The option for Extended JSON v1.
pub const V1_ACCEPT: u32 = 1;
/// The option for MongoDB's layout.
pub const LAYOUT_MONGODB: u32 = 1;

/// No string of a scalar is longer: see the greatest lengths in `vbson.h`.
pub const MAX_LENGTH: usize = 64;

/// Whether the processor has the instructions that the archive uses and does not test for. (`std` caches the answer.)
fn wants_processor() {
    let has_all = std::is_x86_feature_detected!("sse4.2") && std::is_x86_feature_detected!("popcnt");
    assert!(has_all, "vbson needs a processor with SSE4.2 and POPCNT");
}

fn expect_ok(status: u32) -> Result<(), ErrorKind> {
    match status {
        OK => Ok(()),
        INVALID_ARGUMENT => Err(ErrorKind::InvalidArgument),
        NOT_JSON => Err(ErrorKind::NotJson),
        BAD_OBJECT_ID => Err(ErrorKind::BadObjectId),
        NOT_EXTENDED_JSON => Err(ErrorKind::NotExtendedJson),
        OUT_OF_MEMORY => Err(ErrorKind::OutOfMemory),
        INVALID_STRING => Err(ErrorKind::InvalidString),
        NOT_REPRESENTABLE => Err(ErrorKind::NotRepresentable),
        NOT_A_DOCUMENT => Err(ErrorKind::NotADocument),
        ZERO_IN_KEY => Err(ErrorKind::ZeroInKey),
        ZERO_IN_REGEX => Err(ErrorKind::ZeroInRegex),
        TOO_LONG => Err(ErrorKind::TooLong),
        // `MAX_LENGTH` is enough, and `answered` looks for DIFFERENT and NOT_CANONICAL. The calls on raw documents look for the
        // last two.
        BUFFER_TOO_SMALL | DIFFERENT | NOT_CANONICAL | NOT_FOUND | UNEXPECTED_TYPE => unreachable!(),
        other => unreachable!("status {other}"),
    }
}

/// The kind of error of a status; `None` for `OK`.
pub fn kind_of(status: u32) -> Option<ErrorKind> {
    expect_ok(status).err()
}

/// The status of a kind of error, except of input and output.
pub fn status_of(kind: ErrorKind) -> Option<u32> {
    Some(match kind {
        ErrorKind::InvalidArgument => INVALID_ARGUMENT,
        ErrorKind::NotJson => NOT_JSON,
        ErrorKind::BadObjectId => BAD_OBJECT_ID,
        ErrorKind::NotExtendedJson => NOT_EXTENDED_JSON,
        ErrorKind::OutOfMemory => OUT_OF_MEMORY,
        ErrorKind::InvalidString => INVALID_STRING,
        ErrorKind::NotRepresentable => NOT_REPRESENTABLE,
        ErrorKind::NotADocument => NOT_A_DOCUMENT,
        ErrorKind::ZeroInKey => ZERO_IN_KEY,
        ErrorKind::ZeroInRegex => ZERO_IN_REGEX,
        ErrorKind::TooLong => TOO_LONG,
        ErrorKind::UnexpectedType => UNEXPECTED_TYPE,
        ErrorKind::Io => return None,
    })
}

pub fn version() -> u32 {
    wants_processor();
    // SAFETY: the call takes nothing.
    unsafe { vbson_version() }
}

/// The text in a block of its own, which the caller frees by `free`.
pub fn convert(mode: u32, options: RawOptions, text: &[u8]) -> Result<RawText, ErrorKind> {
    // SAFETY: the options and the slice are readable, and `out` is a valid text that overlaps nothing.
    left(|out| unsafe { vbson_convert_nonnull(mode, &options, text.as_ptr(), text.len(), out) })
}

/// Its three texts in blocks of their own, as above.
pub fn explain(options: RawOptions, text: &[u8]) -> Result<RawError, ErrorKind> {
    // SAFETY: the options and the slice are readable, and `out` is a valid struct that overlaps nothing.
    explained(|out| unsafe { vbson_explain_nonnull(&options, text.as_ptr(), text.len(), out) })
}

pub fn is_document(bytes: &[u8]) -> bool {
    wants_processor();
    // SAFETY: the slice is readable.
    unsafe { vbson_is_document(bytes.as_ptr(), bytes.len()) == OK }
}

/// Its three texts in blocks of their own, as above.
pub fn explain_document(options: RawOptions, bytes: &[u8]) -> Result<RawError, ErrorKind> {
    // SAFETY: as above.
    explained(|out| unsafe { vbson_explain_document_nonnull(&options, bytes.as_ptr(), bytes.len(), out) })
}

/// What a call left that explains.
fn explained(call: impl FnOnce(*mut RawError) -> u32) -> Result<RawError, ErrorKind> {
    wants_processor();
    let mut out = RawError { code: OK, line: 0, column: 0, offset: 0, path: none(), reason: none(), message: none() };
    expect_ok(call(&mut out))?;
    Ok(out)
}

/// The text in a block of its own, as above.
pub fn decode(mode: u32, options: RawOptions, bytes: &[u8]) -> Result<RawText, ErrorKind> {
    // SAFETY: as above.
    left(|out| unsafe { vbson_decode_nonnull(mode, &options, bytes.as_ptr(), bytes.len(), out) })
}

/// The bytes in a block of their own, as above.
pub fn encode(options: RawOptions, text: &[u8]) -> Result<RawText, ErrorKind> {
    // SAFETY: as above.
    left(|out| unsafe { vbson_encode_nonnull(&options, text.as_ptr(), text.len(), out) })
}

/// The texts in blocks of their own, as above.
pub fn convert_lines(mode: u32, options: RawOptions, block: &[u8]) -> Result<RawLines, ErrorKind> {
    wants_processor();
    let mut out = RawLines { text: none(), diagnostics: none(), lines: 0, refused: 0 };
    // SAFETY: the options and the slice are readable, and `out` is valid and overlaps nothing.
    expect_ok(unsafe { vbson_convert_lines_nonnull(mode, &options, block.as_ptr(), block.len(), &mut out) })?;
    Ok(out)
}

/// The bytes and the text in blocks of their own, as above.
pub fn encode_lines(options: RawOptions, block: &[u8]) -> Result<RawLines, ErrorKind> {
    wants_processor();
    let mut out = RawLines { text: none(), diagnostics: none(), lines: 0, refused: 0 };
    // SAFETY: as above.
    expect_ok(unsafe { vbson_encode_lines_nonnull(&options, block.as_ptr(), block.len(), &mut out) })?;
    Ok(out)
}

/// The number, from 1, of the first line that `convert_lines` rejects. The block has one.
pub fn first_rejected_line(mode: u32, options: RawOptions, block: &[u8]) -> Result<u64, ErrorKind> {
    // SAFETY: the options and the slice are readable, and `number` overlaps nothing.
    numbered(|number| unsafe { vbson_first_rejected_line_nonnull(mode, &options, block.as_ptr(), block.len(), number) })
}

/// The number, from 1, of the first line that `encode_lines` rejects. The block has one.
pub fn first_unencoded_line(options: RawOptions, block: &[u8]) -> Result<u64, ErrorKind> {
    // SAFETY: as above.
    numbered(|number| unsafe { vbson_first_unencoded_line_nonnull(&options, block.as_ptr(), block.len(), number) })
}

/// The texts in blocks of their own, as above.
pub fn decode_documents(mode: u32, options: RawOptions, block: &[u8]) -> Result<RawDocuments, ErrorKind> {
    wants_processor();
    let mut out = RawDocuments { text: none(), diagnostics: none(), documents: 0, consumed: 0 };
    // SAFETY: as above.
    expect_ok(unsafe { vbson_decode_documents_nonnull(mode, &options, block.as_ptr(), block.len(), &mut out) })?;
    Ok(out)
}

fn none() -> RawText {
    RawText { bytes: b"".as_ptr(), size: 0, len: 0 }
}

fn left(call: impl FnOnce(*mut RawText) -> u32) -> Result<RawText, ErrorKind> {
    wants_processor();
    let mut out = none();
    expect_ok(call(&mut out))?;
    Ok(out)
}

pub fn same(options: RawOptions, a: &[u8], b: &[u8]) -> Result<bool, ErrorKind> {
    // SAFETY: the options and the slices are readable.
    answered(DIFFERENT, || unsafe { vbson_same_nonnull(&options, a.as_ptr(), a.len(), b.as_ptr(), b.len()) })
}

pub fn same_documents(options: RawOptions, a: &[u8], b: &[u8]) -> Result<bool, ErrorKind> {
    // SAFETY: as above.
    answered(DIFFERENT, || unsafe { vbson_same_documents_nonnull(&options, a.as_ptr(), a.len(), b.as_ptr(), b.len()) })
}

pub fn is_canonical_text(options: RawOptions, text: &[u8]) -> Result<bool, ErrorKind> {
    // SAFETY: the options and the slice are readable.
    answered(NOT_CANONICAL, || unsafe { vbson_is_canonical_text_nonnull(&options, text.as_ptr(), text.len()) })
}

fn answered(no: u32, call: impl FnOnce() -> u32) -> Result<bool, ErrorKind> {
    wants_processor();
    match call() {
        status if status == no => Ok(false),
        status => expect_ok(status).map(|()| true),
    }
}

pub fn hash(options: RawOptions, text: &[u8]) -> Result<u64, ErrorKind> {
    // SAFETY: what is passed is readable, and `out` overlaps nothing.
    numbered(|out| unsafe { vbson_hash_nonnull(&options, text.as_ptr(), text.len(), out) })
}

pub fn hash_document(options: RawOptions, bytes: &[u8]) -> Result<u64, ErrorKind> {
    // SAFETY: as above.
    numbered(|out| unsafe { vbson_hash_document_nonnull(&options, bytes.as_ptr(), bytes.len(), out) })
}

fn numbered(call: impl FnOnce(*mut u64) -> u32) -> Result<u64, ErrorKind> {
    wants_processor();
    let mut out = 0;
    expect_ok(call(&mut out))?;
    Ok(out)
}

pub fn decimal128_parse(text: &[u8]) -> Result<[u8; 16], ErrorKind> {
    wants_processor();
    let mut out = [0; 16];
    // SAFETY: what is passed is readable, and `out` overlaps nothing.
    expect_ok(unsafe { vbson_decimal128_parse(text.as_ptr(), text.len(), &mut out) })?;
    Ok(out)
}

pub fn object_id_parse(text: &[u8]) -> Result<[u8; 12], ErrorKind> {
    wants_processor();
    let mut out = [0; 12];
    // SAFETY: what is passed is readable, and `out` overlaps nothing.
    expect_ok(unsafe { vbson_object_id_parse(text.as_ptr(), text.len(), &mut out) })?;
    Ok(out)
}

pub fn date_time_parse(text: &[u8]) -> Result<i64, ErrorKind> {
    wants_processor();
    let mut out = 0;
    // SAFETY: what is passed is readable, and `out` overlaps nothing.
    expect_ok(unsafe { vbson_date_time_parse(text.as_ptr(), text.len(), &mut out) })?;
    Ok(out)
}

/// The buffer, and the length of the string that the call wrote at its start.
pub type Printed = ([u8; MAX_LENGTH], usize);

pub fn decimal128_print(bytes: &[u8; 16]) -> Result<Printed, ErrorKind> {
    // SAFETY: the bytes are readable, and the buffer and the length overlap nothing.
    print(|buffer, len| unsafe { vbson_decimal128_print(bytes, buffer, MAX_LENGTH, len) })
}

pub fn object_id_print(bytes: &[u8; 12]) -> Result<Printed, ErrorKind> {
    // SAFETY: as above.
    print(|buffer, len| unsafe { vbson_object_id_print(bytes, buffer, MAX_LENGTH, len) })
}

pub fn date_time_print(millis: i64) -> Result<Printed, ErrorKind> {
    // SAFETY: as above.
    print(|buffer, len| unsafe { vbson_date_time_print(millis, buffer, MAX_LENGTH, len) })
}

fn print(call: impl FnOnce(*mut u8, *mut usize) -> u32) -> Result<Printed, ErrorKind> {
    wants_processor();
    let mut buffer = [0; MAX_LENGTH];
    let mut len = 0;
    expect_ok(call(buffer.as_mut_ptr(), &mut len))?;
    Ok((buffer, len))
}

/// The slice that begins at an address of a larger one.
///
/// # Safety
///
/// The library returned the address and the length for a slice that lives as long.
pub unsafe fn part<'a>(part: RawSlice) -> &'a [u8] {
    std::slice::from_raw_parts(part.bytes, part.len)
}

const NO_SLICE: RawSlice = RawSlice { bytes: b"".as_ptr(), len: 0 };
const NO_VALUE: RawValue = RawValue { bytes: b"".as_ptr(), size: 0, len: 0, kind: 0 };

/// The value of the key, which points into the bytes.
pub fn raw_get(bytes: &[u8], key: &[u8]) -> Option<RawValue> {
    let mut out = NO_VALUE;
    // SAFETY: the options and the slices are readable. and `out` is a valid value that overlaps nothing.
    let status = unsafe { vbson_raw_get(bytes.as_ptr(), bytes.len(), key.as_ptr(), key.len(), &mut out) };
    (status == OK).then_some(out)
}

/// A cursor at the first element, which points into the bytes.
pub fn raw_elements(bytes: &[u8]) -> RawSlice {
    let mut cursor = NO_SLICE;
    // SAFETY: as above. (If the bytes are too few, the cursor has no elements.)
    unsafe { vbson_raw_elements(bytes.as_ptr(), bytes.len(), &mut cursor) };
    cursor
}

/// The key and the value at the cursor, which moves past them.
pub fn raw_next(cursor: &mut RawSlice) -> Option<(RawSlice, RawValue)> {
    let (mut key, mut value) = (NO_SLICE, NO_VALUE);
    // SAFETY: the cursor is that of `raw_elements`, whose bytes live.
    let status = unsafe { vbson_raw_next(cursor, &mut key, &mut value) };
    (status == OK).then_some((key, value))
}

fn typed<T>(mut out: T, call: impl FnOnce(*mut T) -> u32) -> Option<T> {
    (call(&mut out) == OK).then_some(out)
}

pub fn raw_int32(value: &RawValue) -> Option<i32> {
    // SAFETY: the value is one of the library, whose bytes live. So in the calls below.
    typed(0, |out| unsafe { vbson_raw_int32(value, out) })
}

pub fn raw_int64(value: &RawValue) -> Option<i64> {
    typed(0, |out| unsafe { vbson_raw_int64(value, out) })
}

pub fn raw_double(value: &RawValue) -> Option<f64> {
    typed(0, |out| unsafe { vbson_raw_double(value, out) }).map(f64::from_bits)
}

pub fn raw_boolean(value: &RawValue) -> Option<bool> {
    typed(0, |out| unsafe { vbson_raw_boolean(value, out) }).map(|it| it == 1)
}

pub fn raw_string(value: &RawValue) -> Option<RawSlice> {
    typed(NO_SLICE, |out| unsafe { vbson_raw_string(value, out) })
}

pub fn raw_object_id(value: &RawValue) -> Option<[u8; 12]> {
    typed([0; 12], |out| unsafe { vbson_raw_object_id(value, out) })
}

pub fn raw_date_time(value: &RawValue) -> Option<i64> {
    typed(0, |out| unsafe { vbson_raw_date_time(value, out) })
}

pub fn raw_binary(value: &RawValue) -> Option<(u32, RawSlice)> {
    let mut subtype = 0;
    let bytes = typed(NO_SLICE, |out| unsafe { vbson_raw_binary(value, &mut subtype, out) })?;
    Some((subtype, bytes))
}

/// The memory of a builder, which grows, and the number of bytes in it that are built.
#[derive(Default)]
pub struct Memory {
    bytes: Vec<u8>,
    len: usize,
}

impl Memory {
    pub fn built(&self) -> &[u8] {
        &self.bytes[..self.len]
    }

    pub fn clear(&mut self) {
        self.len = 0;
    }

    /// Makes a call, and makes it again with more memory if it has too little.
    fn call(&mut self, call: impl Fn(*mut RawBuilder) -> u32) -> Result<(), ErrorKind> {
        wants_processor();
        loop {
            let mut builder = RawBuilder { bytes: self.bytes.as_mut_ptr(), size: self.bytes.len(), len: self.len, needed: 0 };
            match call(&mut builder) {
                BUFFER_TOO_SMALL => self.grow(builder.needed)?,
                status => {
                    self.len = builder.len;
                    return expect_ok(status);
                }
            }
        }
    }

    fn grow(&mut self, needed: usize) -> Result<(), ErrorKind> {
        let size = needed.max(2 * self.bytes.len()).max(256);
        self.bytes.try_reserve(size - self.bytes.len()).map_err(|_| ErrorKind::OutOfMemory)?;
        self.bytes.resize(size, 0);
        Ok(())
    }

    /// Makes a call that sets a start.
    fn begin(&mut self, call: impl Fn(*mut RawBuilder, *mut usize) -> u32) -> Result<usize, ErrorKind> {
        let start = std::cell::Cell::new(0);
        self.call(|builder| call(builder, start.as_ptr()))?;
        Ok(start.get())
    }
}

pub fn document_begin(memory: &mut Memory) -> Result<usize, ErrorKind> {
    // SAFETY: the builder has the memory, and the start overlaps nothing. So in the calls below, whose slices are readable
    // and are no part of the memory.
    memory.begin(|builder, start| unsafe { vbson_document_begin(builder, start) })
}

pub fn document_end(memory: &mut Memory, start: usize) -> Result<(), ErrorKind> {
    memory.call(|builder| unsafe { vbson_document_end(builder, start) })
}

pub fn append_begin(memory: &mut Memory, is_array: bool, key: &[u8]) -> Result<usize, ErrorKind> {
    let call = if is_array { vbson_append_array_begin } else { vbson_append_document_begin };
    memory.begin(|builder, start| unsafe { call(builder, key.as_ptr(), key.len(), start) })
}

/// Copies the bytes of a value of this type.
pub fn append_value(memory: &mut Memory, key: &[u8], kind: u8, bytes: &[u8]) -> Result<(), ErrorKind> {
    let value = RawValue { bytes: bytes.as_ptr(), size: bytes.len(), len: bytes.len(), kind };
    memory.call(|builder| unsafe { vbson_append_value(builder, key.as_ptr(), key.len(), &value) })
}

pub fn append_document(memory: &mut Memory, is_array: bool, key: &[u8], bytes: &[u8]) -> Result<(), ErrorKind> {
    let call = if is_array { vbson_append_array } else { vbson_append_document };
    memory.call(|builder| unsafe { call(builder, key.as_ptr(), key.len(), bytes.as_ptr(), bytes.len()) })
}

pub fn append_int32(memory: &mut Memory, key: &[u8], value: i32) -> Result<(), ErrorKind> {
    memory.call(|builder| unsafe { vbson_append_int32(builder, key.as_ptr(), key.len(), value) })
}

pub fn append_int64(memory: &mut Memory, key: &[u8], value: i64) -> Result<(), ErrorKind> {
    memory.call(|builder| unsafe { vbson_append_int64(builder, key.as_ptr(), key.len(), value) })
}

pub fn append_double(memory: &mut Memory, key: &[u8], value: f64) -> Result<(), ErrorKind> {
    memory.call(|builder| unsafe { vbson_append_double(builder, key.as_ptr(), key.len(), value.to_bits()) })
}

pub fn append_boolean(memory: &mut Memory, key: &[u8], value: bool) -> Result<(), ErrorKind> {
    memory.call(|builder| unsafe { vbson_append_boolean(builder, key.as_ptr(), key.len(), value.into()) })
}

pub fn append_null(memory: &mut Memory, key: &[u8]) -> Result<(), ErrorKind> {
    memory.call(|builder| unsafe { vbson_append_null(builder, key.as_ptr(), key.len()) })
}

pub fn append_string(memory: &mut Memory, key: &[u8], text: &[u8]) -> Result<(), ErrorKind> {
    memory.call(|builder| unsafe { vbson_append_string(builder, key.as_ptr(), key.len(), text.as_ptr(), text.len()) })
}

pub fn append_object_id(memory: &mut Memory, key: &[u8], id: &[u8; 12]) -> Result<(), ErrorKind> {
    memory.call(|builder| unsafe { vbson_append_object_id(builder, key.as_ptr(), key.len(), id) })
}

pub fn append_date_time(memory: &mut Memory, key: &[u8], millis: i64) -> Result<(), ErrorKind> {
    memory.call(|builder| unsafe { vbson_append_date_time(builder, key.as_ptr(), key.len(), millis) })
}

pub fn append_binary(memory: &mut Memory, key: &[u8], subtype: u8, bytes: &[u8]) -> Result<(), ErrorKind> {
    memory.call(|builder| unsafe { vbson_append_binary(builder, key.as_ptr(), key.len(), subtype.into(), bytes.as_ptr(), bytes.len()) })
}

pub fn append_decimal128(memory: &mut Memory, key: &[u8], bytes: &[u8; 16]) -> Result<(), ErrorKind> {
    memory.call(|builder| unsafe { vbson_append_decimal128(builder, key.as_ptr(), key.len(), bytes) })
}
