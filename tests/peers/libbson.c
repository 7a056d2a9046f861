/* Answers lines `CALL HEX` of standard input by libbson (Debian's libbson-dev), each by a line of hexadecimal digits or `-`:
 *   again        the document that the bytes are, each element read by its type and appended to a new document
 *   canonical    the text of bson_as_canonical_extended_json
 *   relaxed      that of bson_as_relaxed_extended_json
 *   parse        the bytes of bson_new_from_json */
#include <bson/bson.h>
#include <stdio.h>
#include <stdlib.h>
#include <string.h>

static bool copy_all(bson_iter_t *from, bson_t *to, bool is_array);

static bool copy_inside(bson_iter_t *from, bson_t *to, const char *key, bool is_array) {
    bson_t inside;
    bson_iter_t it;
    int len = (int)strlen(key);
    if (!bson_iter_recurse(from, &it)) return false;
    if (!(is_array ? bson_append_array_begin(to, key, len, &inside) : bson_append_document_begin(to, key, len, &inside))) return false;
    if (!copy_all(&it, &inside, is_array)) return false;
    return is_array ? bson_append_array_end(to, &inside) : bson_append_document_end(to, &inside);
}

static bool copy_scoped(const bson_iter_t *from, bson_t *to, const char *key) {
    uint32_t len, size;
    const uint8_t *bytes;
    bson_t scope, copied = BSON_INITIALIZER;
    bson_iter_t it;
    const char *code = bson_iter_codewscope(from, &len, &size, &bytes);
    bool done = bson_init_static(&scope, bytes, size) && bson_iter_init(&it, &scope) && copy_all(&it, &copied, false)
        && bson_append_code_with_scope(to, key, -1, code, &copied);
    bson_destroy(&copied);
    return done;
}

/* One element, by the reader and the writer of its type. */
static bool copy(bson_iter_t *it, bson_t *to, const char *key) {
    uint32_t len, seconds, increment;
    const uint8_t *bytes;
    bson_subtype_t subtype;
    const char *text, *options;
    const bson_oid_t *id;
    bson_decimal128_t decimal;
    switch (bson_iter_type(it)) {
    case BSON_TYPE_DOUBLE: return bson_append_double(to, key, -1, bson_iter_double(it));
    case BSON_TYPE_UTF8: text = bson_iter_utf8(it, &len); return bson_append_utf8(to, key, -1, text, (int)len);
    case BSON_TYPE_DOCUMENT: return copy_inside(it, to, key, false);
    case BSON_TYPE_ARRAY: return copy_inside(it, to, key, true);
    case BSON_TYPE_BINARY: bson_iter_binary(it, &subtype, &len, &bytes); return bson_append_binary(to, key, -1, subtype, bytes, len);
    case BSON_TYPE_UNDEFINED: return bson_append_undefined(to, key, -1);
    case BSON_TYPE_OID: return bson_append_oid(to, key, -1, bson_iter_oid(it));
    case BSON_TYPE_BOOL: return bson_append_bool(to, key, -1, bson_iter_bool(it));
    case BSON_TYPE_DATE_TIME: return bson_append_date_time(to, key, -1, bson_iter_date_time(it));
    case BSON_TYPE_NULL: return bson_append_null(to, key, -1);
    case BSON_TYPE_REGEX: text = bson_iter_regex(it, &options); return bson_append_regex(to, key, -1, text, options);
    case BSON_TYPE_DBPOINTER: bson_iter_dbpointer(it, &len, &text, &id); return bson_append_dbpointer(to, key, -1, text, id);
    case BSON_TYPE_CODE: return bson_append_code(to, key, -1, bson_iter_code(it, &len));
    case BSON_TYPE_SYMBOL: text = bson_iter_symbol(it, &len); return bson_append_symbol(to, key, -1, text, (int)len);
    case BSON_TYPE_CODEWSCOPE: return copy_scoped(it, to, key);
    case BSON_TYPE_INT32: return bson_append_int32(to, key, -1, bson_iter_int32(it));
    case BSON_TYPE_TIMESTAMP: bson_iter_timestamp(it, &seconds, &increment); return bson_append_timestamp(to, key, -1, seconds, increment);
    case BSON_TYPE_INT64: return bson_append_int64(to, key, -1, bson_iter_int64(it));
    case BSON_TYPE_DECIMAL128: return bson_iter_decimal128(it, &decimal) && bson_append_decimal128(to, key, -1, &decimal);
    case BSON_TYPE_MAXKEY: return bson_append_maxkey(to, key, -1);
    case BSON_TYPE_MINKEY: return bson_append_minkey(to, key, -1);
    default: return false;
    }
}

static bool copy_all(bson_iter_t *from, bson_t *to, bool is_array) {
    char number[16];
    for (uint32_t at = 0; bson_iter_next(from); at++) {
        snprintf(number, sizeof number, "%u", at);
        if (!copy(from, to, is_array ? number : bson_iter_key(from))) return false;
    }
    return true;
}

static void print(const uint8_t *bytes, size_t len) {
    for (size_t i = 0; i < len; i++) printf("%02x", bytes[i]);
    printf("\n");
}

static bool again(const bson_t *document) {
    bson_t made = BSON_INITIALIZER;
    bson_iter_t it;
    bool done = bson_iter_init(&it, document) && copy_all(&it, &made, false);
    if (done) print(bson_get_data(&made), made.len);
    bson_destroy(&made);
    return done;
}

static bool as_text(const bson_t *document, bool is_relaxed) {
    size_t len;
    char *text = is_relaxed ? bson_as_relaxed_extended_json(document, &len) : bson_as_canonical_extended_json(document, &len);
    if (text != NULL) print((const uint8_t *)text, len);
    bson_free(text);
    return text != NULL;
}

static bool parse(const uint8_t *text, size_t len) {
    bson_error_t error;
    bson_t *made = bson_new_from_json(text, (ssize_t)len, &error);
    if (made != NULL) print(bson_get_data(made), made->len);
    bson_destroy(made);
    return made != NULL;
}

static bool answer(const char *call, const uint8_t *bytes, size_t len) {
    bson_t document;
    if (strcmp(call, "parse") == 0) return parse(bytes, len);
    if (!bson_init_static(&document, bytes, len)) return false;
    if (strcmp(call, "again") == 0) return bson_validate(&document, BSON_VALIDATE_UTF8 | BSON_VALIDATE_UTF8_ALLOW_NULL, NULL) && again(&document);
    return as_text(&document, strcmp(call, "relaxed") == 0);
}

static unsigned digit(char c) { return (unsigned)(c <= '9' ? c - '0' : c - 'a' + 10); }

int main(void) {
    char *line = NULL;
    size_t room = 0;
    while (getline(&line, &room, stdin) > 0) {
        line[strcspn(line, "\n")] = 0;
        char *digits = strchr(line, ' ');
        if (digits == NULL) return 1;
        *digits++ = 0;
        size_t len = strlen(digits) / 2;
        uint8_t *bytes = malloc(len + 1);
        if (bytes == NULL) return 1;
        for (size_t i = 0; i < len; i++) bytes[i] = (uint8_t)(digit(digits[2 * i]) << 4 | digit(digits[2 * i + 1]));
        if (!answer(line, bytes, len)) printf("-\n");
        free(bytes);
    }
    free(line);
    return 0;
}
