/* vbson.h: MongoDB Extended JSON v2, BSON bytes and BSON's scalar types. Every call of this library is proved (Rattle).
 * For C11 and C++ on x86-64 Linux with glibc. The processor must have SSE4.2 and POPCNT (x86-64-v2).
 *
 * Each call except vbson_version returns a status of the list below: VBSON_OK if it did its work. On every other status
 * its arguments are unchanged, except that VBSON_BUFFER_TOO_SMALL sets *len, or the builder's needed.
 *
 * What the caller must guarantee on every call (nothing checks it):
 *   - A pointer with a length points to that many readable bytes (writable, if not const) for the whole call. The length
 *     is at most PTRDIFF_MAX. The pointer is not null, even if the length is 0.
 *   - Any other pointer is aligned for its type, and points to a valid value of that type, even if the call only writes it.
 *     Start with VBSON_BUFFER_INIT, VBSON_LINES_INIT, a number, or a filled array. Only a pointer to options may be null.
 *   - Memory that a call may write does not overlap any other argument.
 *   - malloc, realloc and free belong to one allocator, whose blocks are aligned to 16 bytes.
 *   - No call is made from a signal handler, or from the child of fork() in a process with several threads.
 *   - 448 KiB of stack are free: the deepest input (127 levels) needs them. With VBSON_KEYS_AS_GIVEN, input with deeply
 *     nested objects that begin with the key "$scope" needs 5 MiB.
 *
 * The library keeps no state between calls, so any number of threads may call it at once.
 *
 * All strings are UTF-8, in both directions. Input needs no NUL at its end.
 */
#ifndef VBSON_H
#define VBSON_H

#include <stddef.h>
#include <stdint.h>
#include <stdlib.h>

#ifdef __cplusplus
#define VBSON_CAST(type, value) (reinterpret_cast<type>(value))
extern "C" {
#else
#define VBSON_CAST(type, value) ((type)(value))
#endif

#define VBSON_VERSION 300 /* 10000 * major + 100 * minor + patch */
#define VBSON_VERSION_TEXT "0.3.0"

/* Returns VBSON_VERSION of the library that is linked. */
uint32_t vbson_version(void);

/* ---- statuses: a number never changes its meaning */

enum vbson_status {
    VBSON_OK = 0,
    VBSON_INVALID_ARGUMENT = 1,  /* the mode is not one of vbson_mode, the options are not accepted, or as its call says */
    VBSON_NOT_JSON = 2,          /* the input is not UTF-8, is not one JSON text, or nests deeper than 127 */
    VBSON_BAD_OBJECT_ID = 3,     /* the first error is an invalid object id */
    VBSON_NOT_EXTENDED_JSON = 4, /* the first error is any other: the JSON is not valid Extended JSON v2 */
    VBSON_OUT_OF_MEMORY = 5,     /* malloc or realloc failed */
    VBSON_INVALID_STRING = 6,    /* the string does not have the format that the call parses */
    VBSON_NOT_REPRESENTABLE = 7, /* the value has no output of the requested format */
    VBSON_BUFFER_TOO_SMALL = 8,  /* the output is longer than the buffer; *len is the length that it needs */
    VBSON_DIFFERENT = 9,         /* the two values are not the same */
    VBSON_NOT_A_DOCUMENT = 10,   /* the bytes are not a BSON document, or the value of the input is not a document */
    VBSON_ZERO_IN_KEY = 11,      /* a key of the document contains a 0 byte, which would end it */
    VBSON_ZERO_IN_REGEX = 12,    /* the pattern or the options of a regular expression contain a 0 byte */
    VBSON_TOO_LONG = 13,         /* a part of the document is too long for BSON: 2^31 bytes or more */
    VBSON_NOT_FOUND = 14,        /* the document does not contain the key, or no element is left */
    VBSON_UNEXPECTED_TYPE = 15,  /* the value has another type */
    VBSON_NOT_CANONICAL = 16     /* the input is not the canonical form of a value, byte for byte */
};

/* Returns a short message for a status. */
static inline const char *vbson_status_text(uint32_t status) {
    switch (status) {
    case VBSON_OK: return "done";
    case VBSON_INVALID_ARGUMENT: return "invalid argument";
    case VBSON_NOT_JSON: return "not JSON";
    case VBSON_BAD_OBJECT_ID: return "bad object id";
    case VBSON_NOT_EXTENDED_JSON: return "not Extended JSON";
    case VBSON_OUT_OF_MEMORY: return "out of memory";
    case VBSON_INVALID_STRING: return "invalid string";
    case VBSON_NOT_REPRESENTABLE: return "not representable";
    case VBSON_BUFFER_TOO_SMALL: return "buffer too small";
    case VBSON_DIFFERENT: return "different";
    case VBSON_NOT_A_DOCUMENT: return "not a document";
    case VBSON_ZERO_IN_KEY: return "a key has a 0 byte in it";
    case VBSON_ZERO_IN_REGEX: return "a regular expression has a 0 byte in it";
    case VBSON_TOO_LONG: return "a part is too long for BSON";
    case VBSON_NOT_FOUND: return "not found";
    case VBSON_UNEXPECTED_TYPE: return "unexpected type";
    case VBSON_NOT_CANONICAL: return "not canonical Extended JSON";
    default: return "no such status";
    }
}

/* ---- JSON input and output */

enum vbson_mode {
    VBSON_CANONICAL = 0, /* canonical Extended JSON v2, which keeps every type */
    VBSON_RELAXED = 1,   /* relaxed Extended JSON v2, with JSON numbers, and dates as strings */
    VBSON_SHOW = 2       /* a form for people to read; it is not JSON */
};

enum vbson_doubles {
    VBSON_DOUBLES_SPECIAL = 0, /* the only doubles are zero, NaN and the infinities */
    VBSON_DOUBLES_FINITE = 1   /* accept and write finite doubles too */
};

enum vbson_key_order {
    VBSON_KEYS_ASCENDING = 0, /* sort keys by their bytes */
    VBSON_KEYS_AS_GIVEN = 1   /* preserve the order of keys */
};

enum vbson_duplicate_keys {
    VBSON_DUPLICATE_KEYS_LAST_WINS = 0, /* the last value of a duplicate key wins */
    VBSON_DUPLICATE_KEYS_REJECT = 1     /* reject input in which an object or a document has a duplicate key */
};

enum vbson_v1 {
    VBSON_V1_REJECT = 0, /* accept Extended JSON v2 only */
    VBSON_V1_ACCEPT = 1  /* accept Extended JSON v1 too */
};

enum vbson_layout {
    VBSON_LAYOUT_SPECIFIED = 0, /* no zeros at the end of a fraction of a second, and ascending keys in wrappers */
    VBSON_LAYOUT_MONGODB = 1    /* dates and wrappers as libbson and PyMongo write them: vbson_convert describes it */
};

/* The options of a call. Start with VBSON_OPTIONS_INIT or with vbson_options_mongodb(), and set the fields that differ. A
 * null pointer to options stands for VBSON_OPTIONS_INIT, which is the behaviour that the specification describes. A call
 * returns VBSON_INVALID_ARGUMENT if the size is not sizeof(vbson_options), if a field is not a value of its enum, or for
 * an option that has no meaning for the call:
 *   - The calls that convert, encode or explain accept every option.
 *   - The calls that decode do not accept VBSON_V1_ACCEPT, since BSON bytes are not Extended JSON.
 *   - The calls that compare or hash do not accept VBSON_KEYS_AS_GIVEN and VBSON_LAYOUT_MONGODB, since they write nothing.
 *   - vbson_is_canonical_text accepts VBSON_DOUBLES_FINITE alone. */
typedef struct vbson_options {
    size_t size;             /* sizeof(vbson_options): a later version can have more fields */
    uint32_t doubles;        /* one of vbson_doubles */
    uint32_t key_order;      /* one of vbson_key_order */
    uint32_t duplicate_keys; /* one of vbson_duplicate_keys */
    uint32_t v1;             /* one of vbson_v1 */
    uint32_t layout;         /* one of vbson_layout */
} vbson_options;

#define VBSON_OPTIONS_INIT { sizeof(vbson_options), VBSON_DOUBLES_SPECIAL, VBSON_KEYS_ASCENDING, \
    VBSON_DUPLICATE_KEYS_LAST_WINS, VBSON_V1_REJECT, VBSON_LAYOUT_SPECIFIED }

/* Returns the options for MongoDB's documents: finite doubles, keys as given, and the layout of libbson and PyMongo. */
static inline vbson_options vbson_options_mongodb(void) {
    vbson_options options = VBSON_OPTIONS_INIT;
    options.doubles = VBSON_DOUBLES_FINITE;
    options.key_order = VBSON_KEYS_AS_GIVEN;
    options.layout = VBSON_LAYOUT_MONGODB;
    return options;
}

/* Each call with options is an inline function, which replaces a null pointer. It calls the function of the library, whose
 * name ends in _nonnull. A language that does not read this header calls that function, with options that are not null. */

static inline const vbson_options *vbson_options_or_init(const vbson_options *options) {
    static const vbson_options specified = VBSON_OPTIONS_INIT;
    return options != NULL ? options : &specified;
}

/* An output buffer of its own: len bytes, followed by a NUL, so that JSON output is a C string too. (A C string ends early
 * at U+0000, which only VBSON_SHOW can write.) vbson_encode writes BSON bytes into it. Free it with vbson_buffer_free. */
typedef struct vbson_buffer {
    const uint8_t *bytes;
    size_t size; /* of the block: len + 1, or 0 if there is no block */
    size_t len;
} vbson_buffer;

#define VBSON_BUFFER_INIT { VBSON_CAST(const uint8_t *, ""), 0, 0 }

/* Returns the bytes of a C string, or of the data of a C++ std::string_view, as the calls expect them. For a null pointer,
 * which an empty view may have, it returns a pointer to no bytes that is not null. */
static inline const uint8_t *vbson_bytes(const char *text) {
    return VBSON_CAST(const uint8_t *, text != NULL ? text : "");
}

/* Returns the output as a C string. */
static inline const char *vbson_chars(const vbson_buffer *text) {
    return VBSON_CAST(const char *, text->bytes);
}

/* Frees the block, if there is one; afterwards the buffer is VBSON_BUFFER_INIT. */
static inline void vbson_buffer_free(vbson_buffer *text) {
    if (text->size != 0) free(VBSON_CAST(void *, VBSON_CAST(uintptr_t, text->bytes)));
    text->bytes = vbson_bytes("");
    text->size = 0;
    text->len = 0;
}

uint32_t vbson_convert_nonnull(uint32_t mode, const vbson_options *options, const uint8_t *text, size_t len,
    vbson_buffer *out);

/* Reads the len bytes as one Extended JSON text (canonical, relaxed or mixed), and writes its value in the mode.
 * VBSON_KEYS_ASCENDING: keys are written in ascending order of their bytes, at every depth. VBSON_KEYS_AS_GIVEN: keys are
 * written in the order of the input, at every depth and in every mode. The last value of a duplicate key wins, as given at
 * the position of the first. The same inputs are rejected in both orders, for the same error.
 * VBSON_DOUBLES_SPECIAL: a finite double is rejected, and so is a number such as 0.0 (write a zero as
 * {"$numberDouble": "0.0"}). VBSON_DOUBLES_FINITE: a number that is not an integer of 64 bits (1.5, 1e2, -0), and any
 * decimal number under $numberDouble, is read as the nearest double, and rejected if that is not finite. A finite double is
 * written as its shortest decimal: {"$numberDouble":"12.5"} in the canonical form, and 12.5 in the relaxed form, in which a
 * zero is a number too.
 * VBSON_LAYOUT_MONGODB: the two forms are laid out as libbson and json_util of PyMongo write them. In the relaxed form the
 * fraction of a second has three digits: "00:00:00.500Z" in place of "00:00:00.5Z". A whole second has no fraction. With
 * VBSON_KEYS_AS_GIVEN "t" is before "i", "pattern" before "options", and "$ref" before "$id" in their wrappers. Both layouts
 * denote the same values. The layout changes nothing in VBSON_SHOW.
 * VBSON_DUPLICATE_KEYS_REJECT: the input is VBSON_NOT_EXTENDED_JSON if one of its objects has a duplicate key, at any depth.
 * VBSON_V1_ACCEPT: the objects {"$binary": .., "$type": ..} and {"$regex": .., "$options": ..}, a $date without seconds or
 * with an offset such as +0100, and a $uuid without hyphens have their value of Extended JSON v1. The words NaN, Infinity
 * and -Infinity are doubles. The output is Extended JSON v2.
 * The output can denote another value in two cases: a NaN of Decimal128 loses its sign and its payload, and in the relaxed
 * form an Int64 that fits is read again as an Int32. *out is overwritten: its old block is not freed.
 * VBSON_INVALID_ARGUMENT, VBSON_NOT_JSON, VBSON_BAD_OBJECT_ID, VBSON_NOT_EXTENDED_JSON, VBSON_OUT_OF_MEMORY. */
static inline uint32_t vbson_convert(uint32_t mode, const vbson_options *options, const uint8_t *text, size_t len,
        vbson_buffer *out) {
    return vbson_convert_nonnull(mode, vbson_options_or_init(options), text, len, out);
}

uint32_t vbson_is_canonical_text_nonnull(const vbson_options *options, const uint8_t *text, size_t len);

/* Checks that the input is canonical: byte for byte the canonical form of its value, with keys in ascending order at every
 * depth, and without a newline. Values that are equal in normal form have one such text, so it can be signed, hashed or
 * compared in place of its value. VBSON_NOT_CANONICAL if the input is anything else, also if it is not Extended JSON.
 * VBSON_DOUBLES_FINITE: finite doubles are accepted, as by vbson_convert. No other option has a meaning here, and none is
 * accepted: the keys and the layout of a canonical text are fixed, it has no duplicate key, and it is not v1.
 * VBSON_INVALID_ARGUMENT, VBSON_NOT_CANONICAL, VBSON_OUT_OF_MEMORY. */
static inline uint32_t vbson_is_canonical_text(const vbson_options *options, const uint8_t *text, size_t len) {
    return vbson_is_canonical_text_nonnull(vbson_options_or_init(options), text, len);
}

/* Why input is rejected, and where. Free path, reason and message with vbson_buffer_free. */
typedef struct vbson_error {
    uint32_t code;        /* the status of the rejection; VBSON_OK if the input is accepted */
    size_t line;          /* the line of the input, from 1, on which it stops to be JSON, or on which the invalid value begins.
                             0 if that is not known, and for a document's bytes */
    size_t column;        /* the byte of that line, from 1; or 0 */
    size_t offset;        /* the number of bytes of the input before that byte; or 0. Of VBSON_NOT_A_DOCUMENT: the number of
                             bytes before the first error */
    vbson_buffer path;    /* the way to the invalid value: the bytes of a BSON array, for vbson_raw_elements. A key is a
                             string, and an array index, from 0, an integer of 64 bits. It is empty if the error is that of
                             the whole input, of JSON, or of a document's bytes */
    vbson_buffer reason;  /* what is wrong: the RULE or the MESSAGE below */
    vbson_buffer message; /* all of this as one line for people, without a newline */
} vbson_error;

#define VBSON_ERROR_INIT { VBSON_OK, 0, 0, 0, VBSON_BUFFER_INIT, VBSON_BUFFER_INIT, VBSON_BUFFER_INIT }

/* Frees the blocks of an error; afterwards it is VBSON_ERROR_INIT. */
static inline void vbson_error_free(vbson_error *error) {
    vbson_buffer_free(&error->path);
    vbson_buffer_free(&error->reason);
    vbson_buffer_free(&error->message);
    error->code = VBSON_OK;
    error->line = error->column = error->offset = 0;
}

uint32_t vbson_explain_nonnull(const vbson_options *options, const uint8_t *text, size_t len, vbson_error *out);

/* Finds why, and where, vbson_convert, vbson_same and vbson_hash reject the input under these options. The code is
 * VBSON_OK if and only if they accept it; then the path is an empty array, and the strings are empty. The order of keys,
 * the layout and the mode change nothing here. The message is that of the status, followed by
 *     " at column N (RULE)"     if the input is not JSON. RULE is the broken rule, for example "expected a comma or a
 *                               closing bracket". It is "number out of range" if the grammar holds, and a number is too
 *                               large for a double
 *     " at PATH (MESSAGE)"      for any other error: the path to the first one, its keys and indexes joined by points, for
 *                               example orders.3._id.$oid. MESSAGE mostly is "EXPECTED; found VALUE", with the first 60
 *                               characters of the value as the input has it, and ".." if it is longer
 *     " (MESSAGE)"              if the error is that of the whole value
 * In PATH and MESSAGE control characters, U+2028 and U+2029 are escaped as in JSON, for example \u001b. After 300
 * characters they are cut off with "..". PATH is ambiguous if a key contains a point or a backslash, or has only digits;
 * the array path is exact. If a key is a duplicate that the options reject, line, column and offset are those of its second
 * value. With VBSON_V1_ACCEPT the path leads into the Extended JSON v2 that is read instead. VALUE, line, column and offset
 * are those of the input; if it has no value or another one at the path, VALUE is left out, and the numbers are 0.
 * The call reads the input as vbson_convert does, so use it only after a rejection. *out is overwritten: its old
 * blocks are not freed. VBSON_TOO_LONG if the array path has 2^31 bytes or more.
 * VBSON_INVALID_ARGUMENT, VBSON_OUT_OF_MEMORY. */
static inline uint32_t vbson_explain(const vbson_options *options, const uint8_t *text, size_t len, vbson_error *out) {
    return vbson_explain_nonnull(vbson_options_or_init(options), text, len, out);
}

/* The result for a block of lines. Free text and diagnostics with vbson_buffer_free. */
typedef struct vbson_lines {
    vbson_buffer text;        /* the output of each line, in their order, each followed by a newline */
    vbson_buffer diagnostics; /* a line for each rejected line: "bson: line 3: " (from 1), and vbson_explain's message */
    uint64_t lines;           /* the number of lines, with blank and rejected ones */
    uint64_t refused;         /* the number of rejected lines */
} vbson_lines;

#define VBSON_LINES_INIT { VBSON_BUFFER_INIT, VBSON_BUFFER_INIT, 0, 0 }

uint32_t vbson_convert_lines_nonnull(uint32_t mode, const vbson_options *options, const uint8_t *block, size_t len,
    vbson_lines *out);

/* Converts each line of the block as vbson_convert does. A newline ends a line; bytes after the last newline are a
 * line too. A line of spaces, tabs and carriage returns has no output, and a byte order mark at the start of the block is
 * skipped. A rejected line adds a diagnostic and no output; the status is VBSON_OK, however many lines are rejected.
 * *out is overwritten: its old blocks are not freed.
 * VBSON_INVALID_ARGUMENT, VBSON_OUT_OF_MEMORY. */
static inline uint32_t vbson_convert_lines(uint32_t mode, const vbson_options *options, const uint8_t *block,
        size_t len, vbson_lines *out) {
    return vbson_convert_lines_nonnull(mode, vbson_options_or_init(options), block, len, out);
}

uint32_t vbson_first_rejected_line_nonnull(uint32_t mode, const vbson_options *options, const uint8_t *block, size_t len,
    uint64_t *number);

/* Finds the first line of the block that vbson_convert_lines rejects, and writes its number, from 1. It reads no line after
 * that. VBSON_NOT_FOUND if no line is rejected. To find the next one, call it again on the rest of the block that begins
 * with the newline after the rejected line. That newline ends an empty line, which has the number 1 in the rest, and a byte
 * order mark after it is not skipped. vbson_explain has the error of a line.
 * VBSON_INVALID_ARGUMENT, VBSON_NOT_FOUND, VBSON_OUT_OF_MEMORY. */
static inline uint32_t vbson_first_rejected_line(uint32_t mode, const vbson_options *options, const uint8_t *block,
        size_t len, uint64_t *number) {
    return vbson_first_rejected_line_nonnull(mode, vbson_options_or_init(options), block, len, number);
}

uint32_t vbson_same_nonnull(const vbson_options *options, const uint8_t *left_input, size_t left_len,
    const uint8_t *right_input, size_t right_len);

/* Compares the values of two inputs. Arrays are compared element by element; documents are the same if they have the same
 * keys with the same values, in any order. VBSON_OK if the values are the same, VBSON_DIFFERENT if not; otherwise the error
 * of the left one, or that of the right one if the left one has none.
 * VBSON_DOUBLES_FINITE, VBSON_DUPLICATE_KEYS_REJECT and VBSON_V1_ACCEPT change what is accepted, as in vbson_convert.
 * VBSON_INVALID_ARGUMENT for VBSON_KEYS_AS_GIVEN and for VBSON_LAYOUT_MONGODB, since nothing is written.
 * VBSON_INVALID_ARGUMENT, VBSON_NOT_JSON, VBSON_BAD_OBJECT_ID, VBSON_NOT_EXTENDED_JSON, VBSON_OUT_OF_MEMORY. */
static inline uint32_t vbson_same(const vbson_options *options, const uint8_t *left_input, size_t left_len,
        const uint8_t *right_input, size_t right_len) {
    return vbson_same_nonnull(vbson_options_or_init(options), left_input, left_len, right_input, right_len);
}

uint32_t vbson_hash_nonnull(const vbson_options *options, const uint8_t *text, size_t len, uint64_t *out);

/* Writes the hash of the input's value, with the options of vbson_same. Inputs that vbson_same finds the same have the same
 * hash, on every run and machine. It is SipHash-1-3 with the key 0, so an attacker can choose inputs with one hash.
 * VBSON_INVALID_ARGUMENT, VBSON_NOT_JSON, VBSON_BAD_OBJECT_ID, VBSON_NOT_EXTENDED_JSON, VBSON_OUT_OF_MEMORY. */
static inline uint32_t vbson_hash(const vbson_options *options, const uint8_t *text, size_t len, uint64_t *out) {
    return vbson_hash_nonnull(vbson_options_or_init(options), text, len, out);
}

/* ---- BSON documents (BSON 1.1, bsonspec.org)
 *
 * Documents, arrays and scopes of code may nest at most 100 deep, with the document itself, as in MongoDB's server. JSON
 * input may nest deeper, so bytes that vbson_encode writes can be too deep for vbson_decode. */

/* Checks that the bytes are exactly one document. Allocates no memory. VBSON_NOT_A_DOCUMENT. */
uint32_t vbson_is_document(const uint8_t *bytes, size_t len);

uint32_t vbson_explain_document_nonnull(const vbson_options *options, const uint8_t *bytes, size_t len, vbson_error *out);

/* Finds why, and where, vbson_decode rejects the bytes under these options, in the canonical and relaxed forms. The code is
 * VBSON_OK if and only if it accepts them; then the path is an empty array, and the strings are empty. Otherwise the code is
 * the status of vbson_decode, and the message is one of
 *     "not a document at byte N (REASON)"     N is the offset of the first error in the bytes. REASON is "nested too deep",
 *                                             "ends too early", "invalid length", "unknown element type", "missing NUL after a
 *                                             string", "invalid UTF-8", "a boolean is neither 0 nor 1", "trailing bytes after
 *                                             the document" or "duplicate key"
 *     "not representable (a finite double)"   the document has one other than 0.0, without VBSON_DOUBLES_FINITE
 * The path is an empty array in both cases. With VBSON_DUPLICATE_KEYS_REJECT, bytes with a duplicate key in a document, at
 * any depth, are not a document; the offset is that of the second key. With VBSON_DOUBLES_FINITE the call also explains
 * vbson_same_documents and vbson_hash_document under these options, and with VBSON_DUPLICATE_KEYS_LAST_WINS too
 * vbson_is_document. The order of keys, VBSON_V1_ACCEPT and the layout change nothing. The call reads the bytes again, so use
 * it only after a rejection. *out is overwritten: its old blocks are not freed. VBSON_INVALID_ARGUMENT, VBSON_OUT_OF_MEMORY. */
static inline uint32_t vbson_explain_document(const vbson_options *options, const uint8_t *bytes, size_t len,
        vbson_error *out) {
    return vbson_explain_document_nonnull(vbson_options_or_init(options), bytes, len, out);
}

uint32_t vbson_same_documents_nonnull(const vbson_options *options, const uint8_t *left_input, size_t left_len,
    const uint8_t *right_input, size_t right_len);

/* Compares two documents, as vbson_same compares values, with the same options. BSON bytes have their doubles and no v1, so
 * VBSON_DOUBLES_FINITE and VBSON_V1_ACCEPT change nothing here. VBSON_DUPLICATE_KEYS_REJECT: bytes with a duplicate key in a
 * document, at any depth, are VBSON_NOT_A_DOCUMENT. VBSON_DIFFERENT if they are not the same.
 * VBSON_INVALID_ARGUMENT, VBSON_NOT_A_DOCUMENT, VBSON_OUT_OF_MEMORY. */
static inline uint32_t vbson_same_documents(const vbson_options *options, const uint8_t *left_input, size_t left_len,
        const uint8_t *right_input, size_t right_len) {
    return vbson_same_documents_nonnull(vbson_options_or_init(options), left_input, left_len, right_input, right_len);
}

uint32_t vbson_hash_document_nonnull(const vbson_options *options, const uint8_t *bytes, size_t len, uint64_t *out);

/* Writes the hash of a document, with the options of vbson_same_documents. It is the hash that vbson_hash returns for JSON
 * input with the same value. VBSON_INVALID_ARGUMENT, VBSON_NOT_A_DOCUMENT, VBSON_OUT_OF_MEMORY. */
static inline uint32_t vbson_hash_document(const vbson_options *options, const uint8_t *bytes, size_t len, uint64_t *out) {
    return vbson_hash_document_nonnull(vbson_options_or_init(options), bytes, len, out);
}

uint32_t vbson_decode_nonnull(uint32_t mode, const vbson_options *options, const uint8_t *bytes, size_t len,
    vbson_buffer *out);

/* Reads the bytes as one document, and writes it in the mode, with the options of vbson_convert. In the canonical and
 * relaxed forms keys are in ascending order, at every depth, and with VBSON_KEYS_AS_GIVEN in the document's own order, which
 * VBSON_SHOW always has. The last value of a duplicate key wins, at the position of the first; the keys of an array are
 * dropped. VBSON_DUPLICATE_KEYS_REJECT: bytes with a duplicate key in a document, at any depth, are VBSON_NOT_A_DOCUMENT.
 * VBSON_INVALID_ARGUMENT for VBSON_V1_ACCEPT, since bytes are not Extended JSON. VBSON_NOT_REPRESENTABLE in both forms if the
 * document has a finite double other than 0.0, without VBSON_DOUBLES_FINITE. The output can nest deeper than input may.
 * *out is overwritten: its old block is not freed.
 * VBSON_INVALID_ARGUMENT, VBSON_NOT_A_DOCUMENT, VBSON_NOT_REPRESENTABLE, VBSON_OUT_OF_MEMORY. */
static inline uint32_t vbson_decode(uint32_t mode, const vbson_options *options, const uint8_t *bytes, size_t len,
        vbson_buffer *out) {
    return vbson_decode_nonnull(mode, vbson_options_or_init(options), bytes, len, out);
}

uint32_t vbson_encode_nonnull(const vbson_options *options, const uint8_t *text, size_t len, vbson_buffer *out);

/* Reads the len bytes as one Extended JSON text, with the options of vbson_convert, and writes the canonical bytes of its
 * document: out->len bytes, followed by a NUL. Keys are in ascending order, or with VBSON_KEYS_AS_GIVEN in that of the
 * input. The layout changes nothing in bytes. *out is overwritten: its old block is not freed. vbson_explain reports where
 * input is not Extended JSON.
 * VBSON_INVALID_ARGUMENT, VBSON_NOT_JSON, VBSON_BAD_OBJECT_ID, VBSON_NOT_EXTENDED_JSON, VBSON_NOT_A_DOCUMENT,
 * VBSON_ZERO_IN_KEY, VBSON_ZERO_IN_REGEX, VBSON_TOO_LONG, VBSON_OUT_OF_MEMORY. */
static inline uint32_t vbson_encode(const vbson_options *options, const uint8_t *text, size_t len, vbson_buffer *out) {
    return vbson_encode_nonnull(vbson_options_or_init(options), text, len, out);
}

uint32_t vbson_encode_lines_nonnull(const vbson_options *options, const uint8_t *block, size_t len, vbson_lines *out);

/* Encodes each line of the block as vbson_encode does: out->text has the concatenated documents, followed by a NUL. Lines
 * and diagnostics are those of vbson_convert_lines; the diagnostic of a value that has no bytes is the message of
 * vbson_status_text alone. *out is overwritten: its old blocks are not freed.
 * VBSON_INVALID_ARGUMENT, VBSON_OUT_OF_MEMORY. */
static inline uint32_t vbson_encode_lines(const vbson_options *options, const uint8_t *block, size_t len,
        vbson_lines *out) {
    return vbson_encode_lines_nonnull(vbson_options_or_init(options), block, len, out);
}

uint32_t vbson_first_unencoded_line_nonnull(const vbson_options *options, const uint8_t *block, size_t len, uint64_t *number);

/* Finds the first line of the block that vbson_encode_lines rejects, as vbson_first_rejected_line does for
 * vbson_convert_lines.
 * VBSON_INVALID_ARGUMENT, VBSON_NOT_FOUND, VBSON_OUT_OF_MEMORY. */
static inline uint32_t vbson_first_unencoded_line(const vbson_options *options, const uint8_t *block, size_t len,
        uint64_t *number) {
    return vbson_first_unencoded_line_nonnull(vbson_options_or_init(options), block, len, number);
}

/* The result for a block of documents. Free text and diagnostics with vbson_buffer_free. */
typedef struct vbson_documents {
    vbson_buffer text;        /* the output of each document, in their order, each followed by a newline */
    vbson_buffer diagnostics; /* a line for each rejected one: "document 3 at byte 40: ends too early at its byte 4" */
    uint64_t documents;       /* the number of documents, with rejected ones */
    uint64_t consumed;        /* the bytes of the block that were documents: all, or those before one that it cuts off */
} vbson_documents;

#define VBSON_DOCUMENTS_INIT { VBSON_BUFFER_INIT, VBSON_BUFFER_INIT, 0, 0 }

uint32_t vbson_decode_documents_nonnull(uint32_t mode, const vbson_options *options, const uint8_t *block, size_t len,
    vbson_documents *out);

/* Decodes the concatenated documents of the block, each as vbson_decode does. A rejected document adds a diagnostic and no
 * output: its number from 1, its byte offset in the block, and the message of vbson_explain_document with an offset in the
 * document, or "a finite double" if it is not representable. The next document begins where the length of the rejected one
 * ends. If the block has no valid length there, or fewer bytes, that document is the last, and the rest is not read.
 * The status is VBSON_OK in each case. *out is overwritten: its old blocks are not freed.
 * VBSON_INVALID_ARGUMENT, VBSON_OUT_OF_MEMORY. */
static inline uint32_t vbson_decode_documents(uint32_t mode, const vbson_options *options, const uint8_t *block,
        size_t len, vbson_documents *out) {
    return vbson_decode_documents_nonnull(mode, vbson_options_or_init(options), block, len, out);
}

/* ---- values of documents that remain bytes
 *
 * Check the bytes once by vbson_is_document. Then the calls below read single values of the document in place: they copy
 * nothing, allocate no memory, and pass the other values by their lengths. What they return points into the caller's bytes,
 * so keep these. On bytes that are not a document each call is safe, but its results have no meaning. */

/* The types of values (BSON 1.1). */
enum vbson_type {
    VBSON_TYPE_DOUBLE = 0x01,
    VBSON_TYPE_STRING = 0x02,
    VBSON_TYPE_DOCUMENT = 0x03,
    VBSON_TYPE_ARRAY = 0x04,
    VBSON_TYPE_BINARY = 0x05,
    VBSON_TYPE_UNDEFINED = 0x06,
    VBSON_TYPE_OBJECT_ID = 0x07,
    VBSON_TYPE_BOOLEAN = 0x08,
    VBSON_TYPE_DATE_TIME = 0x09,
    VBSON_TYPE_NULL = 0x0A,
    VBSON_TYPE_REGEX = 0x0B,
    VBSON_TYPE_DB_POINTER = 0x0C,
    VBSON_TYPE_CODE = 0x0D,
    VBSON_TYPE_SYMBOL = 0x0E,
    VBSON_TYPE_CODE_WITH_SCOPE = 0x0F,
    VBSON_TYPE_INT32 = 0x10,
    VBSON_TYPE_TIMESTAMP = 0x11,
    VBSON_TYPE_INT64 = 0x12,
    VBSON_TYPE_DECIMAL128 = 0x13,
    VBSON_TYPE_MAX_KEY = 0x7F,
    VBSON_TYPE_MIN_KEY = 0xFF
};

/* A part of the caller's bytes. */
typedef struct vbson_slice {
    const uint8_t *bytes;
    size_t len;
} vbson_slice;

#define VBSON_SLICE_INIT { VBSON_CAST(const uint8_t *, ""), 0 }

/* A value in the caller's bytes. If its type is VBSON_TYPE_DOCUMENT, bytes and size can be passed to vbson_raw_get, and for
 * that type and VBSON_TYPE_ARRAY to vbson_raw_elements. The first len bytes alone are the document, for vbson_decode. */
typedef struct vbson_raw_value {
    const uint8_t *bytes; /* the beginning of the value */
    size_t size;          /* the number of bytes from there to the end of the bytes that were passed */
    size_t len;           /* the number of bytes of the value */
    uint8_t type;         /* one of vbson_type */
} vbson_raw_value;

#define VBSON_RAW_VALUE_INIT { VBSON_CAST(const uint8_t *, ""), 0, 0, 0 }

/* Finds the value of a key in a document, after which other bytes may follow. The value of a duplicate key is the last.
 * VBSON_NOT_FOUND. */
uint32_t vbson_raw_get(const uint8_t *bytes, size_t len, const uint8_t *key, size_t key_len, vbson_raw_value *out);

/* Sets the cursor to the first element of a document or an array, after which other bytes may follow. A cursor is valid as
 * long as the bytes are, and a copy of a cursor keeps its position. VBSON_NOT_A_DOCUMENT if the bytes are too few. */
uint32_t vbson_raw_elements(const uint8_t *bytes, size_t len, vbson_slice *cursor);

/* Reads the key and the value of the element at the cursor, and moves the cursor past it. Elements come in the order of the
 * bytes, and each element of a duplicate key comes. The keys of an array have no meaning. VBSON_NOT_FOUND at the end. */
uint32_t vbson_raw_next(vbson_slice *cursor, vbson_slice *key, vbson_raw_value *value);

/* Reads an integer of 32 bits. VBSON_UNEXPECTED_TYPE. */
uint32_t vbson_raw_int32(const vbson_raw_value *value, int32_t *out);

/* Reads an integer of 64 bits. VBSON_UNEXPECTED_TYPE. */
uint32_t vbson_raw_int64(const vbson_raw_value *value, int64_t *out);

/* Reads a double as its bit pattern; copy it into a double by memcpy. VBSON_UNEXPECTED_TYPE. */
uint32_t vbson_raw_double(const vbson_raw_value *value, uint64_t *out);

/* Reads a boolean as 0 or 1. VBSON_UNEXPECTED_TYPE. */
uint32_t vbson_raw_boolean(const vbson_raw_value *value, uint32_t *out);

/* Reads a string, which is UTF-8 and can contain a 0 byte. VBSON_UNEXPECTED_TYPE. */
uint32_t vbson_raw_string(const vbson_raw_value *value, vbson_slice *out);

/* Reads an object id. VBSON_UNEXPECTED_TYPE. */
uint32_t vbson_raw_object_id(const vbson_raw_value *value, uint8_t out[12]);

/* Reads a date-time, in milliseconds since 1970-01-01T00:00:00Z. VBSON_UNEXPECTED_TYPE. */
uint32_t vbson_raw_date_time(const vbson_raw_value *value, int64_t *out);

/* Reads the subtype and the bytes of binary data. VBSON_UNEXPECTED_TYPE. */
uint32_t vbson_raw_binary(const vbson_raw_value *value, uint32_t *subtype, vbson_slice *out);

/* ---- build documents
 *
 * A builder appends elements to documents in the caller's memory. The calls allocate nothing. If the memory is too small, a
 * call changes nothing but builder->needed, and returns VBSON_BUFFER_TOO_SMALL; vbson_builder_reserve makes it larger.
 * Documents nest: keep the start offset that each begin call sets, and pass it to vbson_document_end. A finished document
 * is the bytes from its start up to builder->len, and the next one can follow it. The bytes are canonical if the keys of each
 * array are "0", "1", "2" .. in this order, and no key of a document is appended twice. */
typedef struct vbson_builder {
    uint8_t *bytes; /* the memory of the caller */
    size_t size;    /* the size of the memory */
    size_t len;     /* the number of bytes that are built */
    size_t needed;  /* after VBSON_BUFFER_TOO_SMALL the size that the call needs */
} vbson_builder;

/* A builder with no memory yet, for vbson_builder_reserve. */
#define VBSON_BUILDER_INIT { VBSON_CAST(uint8_t *, VBSON_CAST(uintptr_t, "")), 0, 0, 0 }

/* Makes room for so many more bytes. Use it only if the memory is from this call. VBSON_OK, or VBSON_OUT_OF_MEMORY. */
static inline uint32_t vbson_builder_reserve(vbson_builder *builder, size_t more) {
    size_t size = builder->size < SIZE_MAX / 4 ? 2 * builder->size : builder->size;
    void *bytes;
    if (more <= builder->size - builder->len) return VBSON_OK;
    if (more > SIZE_MAX / 4 - builder->len) return VBSON_OUT_OF_MEMORY;
    if (size < builder->len + more) size = builder->len + more;
    bytes = realloc(builder->size != 0 ? builder->bytes : NULL, size);
    if (bytes == NULL) return VBSON_OUT_OF_MEMORY;
    builder->bytes = VBSON_CAST(uint8_t *, bytes);
    builder->size = size;
    return VBSON_OK;
}

/* Frees the memory, if it is from vbson_builder_reserve; afterwards the builder is VBSON_BUILDER_INIT. */
static inline void vbson_builder_free(vbson_builder *builder) {
    if (builder->size != 0) free(builder->bytes);
    builder->bytes = VBSON_CAST(uint8_t *, VBSON_CAST(uintptr_t, ""));
    builder->size = builder->len = builder->needed = 0;
}

/* Begins a document, and sets *start_offset to its position. VBSON_BUFFER_TOO_SMALL. */
uint32_t vbson_document_begin(vbson_builder *builder, size_t *start_offset);

/* Ends the document or the array that begins at the start: writes its length. VBSON_INVALID_ARGUMENT if the builder has
 * fewer than four bytes from the start on. VBSON_TOO_LONG, VBSON_BUFFER_TOO_SMALL. */
uint32_t vbson_document_end(vbson_builder *builder, size_t start_offset);

/* Appends a key, and begins a document as its value. *start_offset is set for vbson_document_end.
 * VBSON_INVALID_STRING if the key is not UTF-8. VBSON_ZERO_IN_KEY, VBSON_BUFFER_TOO_SMALL. */
uint32_t vbson_append_document_begin(vbson_builder *builder, const uint8_t *key, size_t key_len, size_t *start_offset);

/* Appends a key, and begins an array as its value. *start_offset is set for vbson_document_end.
 * VBSON_INVALID_STRING if the key is not UTF-8. VBSON_ZERO_IN_KEY, VBSON_BUFFER_TOO_SMALL. */
uint32_t vbson_append_array_begin(vbson_builder *builder, const uint8_t *key, size_t key_len, size_t *start_offset);

/* Appends a key and a value of the caller's bytes, for example of another document. Its first len bytes are copied, and not
 * checked. VBSON_INVALID_ARGUMENT if its type is not one of vbson_type, or its len is greater than its size.
 * VBSON_INVALID_STRING if the key is not UTF-8. VBSON_ZERO_IN_KEY, VBSON_BUFFER_TOO_SMALL. */
uint32_t vbson_append_value(vbson_builder *builder, const uint8_t *key, size_t key_len, const vbson_raw_value *value);

/* Appends a key and a document, which is checked by vbson_is_document: VBSON_NOT_A_DOCUMENT.
 * VBSON_INVALID_STRING if the key is not UTF-8. VBSON_ZERO_IN_KEY, VBSON_BUFFER_TOO_SMALL. */
uint32_t vbson_append_document(vbson_builder *builder, const uint8_t *key, size_t key_len, const uint8_t *bytes, size_t len);

/* Appends a key and an array, whose bytes are those of a document, which is checked by vbson_is_document: VBSON_NOT_A_DOCUMENT.
 * VBSON_INVALID_STRING if the key is not UTF-8. VBSON_ZERO_IN_KEY, VBSON_BUFFER_TOO_SMALL. */
uint32_t vbson_append_array(vbson_builder *builder, const uint8_t *key, size_t key_len, const uint8_t *bytes, size_t len);

/* Appends a key and an integer of 32 bits.
 * VBSON_INVALID_STRING if the key is not UTF-8. VBSON_ZERO_IN_KEY, VBSON_BUFFER_TOO_SMALL. */
uint32_t vbson_append_int32(vbson_builder *builder, const uint8_t *key, size_t key_len, int32_t value);

/* Appends a key and an integer of 64 bits.
 * VBSON_INVALID_STRING if the key is not UTF-8. VBSON_ZERO_IN_KEY, VBSON_BUFFER_TOO_SMALL. */
uint32_t vbson_append_int64(vbson_builder *builder, const uint8_t *key, size_t key_len, int64_t value);

/* Appends a key and a double, by its bit pattern; copy the double into it by memcpy.
 * VBSON_INVALID_STRING if the key is not UTF-8. VBSON_ZERO_IN_KEY, VBSON_BUFFER_TOO_SMALL. */
uint32_t vbson_append_double(vbson_builder *builder, const uint8_t *key, size_t key_len, uint64_t value);

/* Appends a key and a boolean: 0 is false, and any other number is true.
 * VBSON_INVALID_STRING if the key is not UTF-8. VBSON_ZERO_IN_KEY, VBSON_BUFFER_TOO_SMALL. */
uint32_t vbson_append_boolean(vbson_builder *builder, const uint8_t *key, size_t key_len, uint32_t value);

/* Appends a key and the null value.
 * VBSON_INVALID_STRING if the key is not UTF-8. VBSON_ZERO_IN_KEY, VBSON_BUFFER_TOO_SMALL. */
uint32_t vbson_append_null(vbson_builder *builder, const uint8_t *key, size_t key_len);

/* Appends a key and a string, which can contain a 0 byte.
 * VBSON_INVALID_STRING if the key or the string is not UTF-8. VBSON_ZERO_IN_KEY, VBSON_TOO_LONG, VBSON_BUFFER_TOO_SMALL. */
uint32_t vbson_append_string(vbson_builder *builder, const uint8_t *key, size_t key_len, const uint8_t *text, size_t len);

/* Appends a key and an object id.
 * VBSON_INVALID_STRING if the key is not UTF-8. VBSON_ZERO_IN_KEY, VBSON_BUFFER_TOO_SMALL. */
uint32_t vbson_append_object_id(vbson_builder *builder, const uint8_t *key, size_t key_len, const uint8_t id[12]);

/* Appends a key and a date-time, in milliseconds since 1970-01-01T00:00:00Z.
 * VBSON_INVALID_STRING if the key is not UTF-8. VBSON_ZERO_IN_KEY, VBSON_BUFFER_TOO_SMALL. */
uint32_t vbson_append_date_time(vbson_builder *builder, const uint8_t *key, size_t key_len, int64_t millis);

/* Appends a key and binary data with a subtype. VBSON_INVALID_ARGUMENT if the subtype is greater than 255.
 * VBSON_INVALID_STRING if the key is not UTF-8. VBSON_ZERO_IN_KEY, VBSON_TOO_LONG, VBSON_BUFFER_TOO_SMALL. */
uint32_t vbson_append_binary(vbson_builder *builder, const uint8_t *key, size_t key_len, uint32_t subtype, const uint8_t *bytes, size_t len);

/* Appends a key and a decimal of 128 bits, the lowest byte first.
 * VBSON_INVALID_STRING if the key is not UTF-8. VBSON_ZERO_IN_KEY, VBSON_BUFFER_TOO_SMALL. */
uint32_t vbson_append_decimal128(vbson_builder *builder, const uint8_t *key, size_t key_len, const uint8_t bytes[16]);

/* ---- scalars
 *
 * A print call writes a string without a NUL at the start of the buffer, leaves the rest of the buffer as it was, and sets
 * *len to the length of the string. If the buffer is smaller, it writes nothing, sets *len all the same, and returns
 * VBSON_BUFFER_TOO_SMALL. */

/* The greatest length of each string. */
#define VBSON_DECIMAL128_MAX_LENGTH 42
#define VBSON_OBJECT_ID_MAX_LENGTH 24
#define VBSON_DATE_TIME_MAX_LENGTH 24

/* Parses a decimal into BSON's 16 bytes (IEEE 754-2008 decimal128), the lowest byte first. A string whose value would have
 * to be rounded is rejected. VBSON_INVALID_STRING. */
uint32_t vbson_decimal128_parse(const uint8_t *text, size_t len, uint8_t out[16]);

/* Prints a decimal; every 16 bytes have a string. VBSON_BUFFER_TOO_SMALL, VBSON_OUT_OF_MEMORY. */
uint32_t vbson_decimal128_print(const uint8_t bytes[16], uint8_t *buffer, size_t size, size_t *len);

/* Parses an object id: 24 hexadecimal digits of either case. Allocates no memory. VBSON_INVALID_STRING. */
uint32_t vbson_object_id_parse(const uint8_t *text, size_t len, uint8_t out[12]);

/* Prints the 24 lower-case digits of an object id. Allocates no memory. VBSON_BUFFER_TOO_SMALL. */
uint32_t vbson_object_id_print(const uint8_t bytes[12], uint8_t *buffer, size_t size, size_t *len);

/* Parses a date-time of RFC 3339 (section 5.6) into milliseconds since 1970-01-01T00:00:00Z, negative before it. A finer
 * fraction is truncated towards zero. VBSON_INVALID_STRING. */
uint32_t vbson_date_time_parse(const uint8_t *text, size_t len, int64_t *out);

/* Prints the date-time that is so many milliseconds after 1970-01-01T00:00:00Z in the format of RFC 3339, in UTC.
 * VBSON_NOT_REPRESENTABLE outside the years 0000 to 9999; VBSON_BUFFER_TOO_SMALL, VBSON_OUT_OF_MEMORY. */
uint32_t vbson_date_time_print(int64_t millis, uint8_t *buffer, size_t size, size_t *len);

#ifdef __cplusplus
}
#endif
#endif
