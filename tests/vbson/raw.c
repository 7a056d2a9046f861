/* Values of documents that remain bytes: each call on a value of each type, duplicate keys, nested documents, what is left
 * as it was, and bytes that no document begins. */
#include "check.h"

static void int32_at(uint8_t *bytes, uint32_t number) {
    for (int i = 0; i < 4; i++) bytes[i] = (uint8_t)(number >> 8 * i);
}

/* A document that is made element by element. */
typedef struct {
    uint8_t bytes[1024];
    size_t len;
} maker;

static void start(maker *it) {
    it->len = 4;
}

static void put(maker *it, uint8_t type, const char *key, const void *value, size_t len) {
    it->bytes[it->len++] = type;
    memcpy(it->bytes + it->len, key, strlen(key) + 1);
    it->len += strlen(key) + 1;
    memcpy(it->bytes + it->len, value, len);
    it->len += len;
}

static void finish(maker *it) {
    it->bytes[it->len++] = 0;
    int32_at(it->bytes, (uint32_t)it->len);
}

#define PUT(it, type, key, value) put(it, type, key, value, sizeof(value) - 1)

/* One value of each type under the key of its row. */
static const struct row {
    uint8_t type;
    const char *key, *value;
    size_t len;
} rows[] = {
#define ROW(type, key, value) {type, key, value, sizeof(value) - 1}
    ROW(VBSON_TYPE_DOUBLE, "double", "\0\0\0\0\0\0\xf8\x3f"),
    ROW(VBSON_TYPE_STRING, "string", "\6\0\0\0a\0\xc3\xa9" "b\0"),
    ROW(VBSON_TYPE_DOCUMENT, "document", "\x0c\0\0\0\x10n\0\7\0\0\0\0"),
    ROW(VBSON_TYPE_ARRAY, "array", "\x0c\0\0\0\x08" "0\0\1\x0a" "1\0\0"),
    ROW(VBSON_TYPE_BINARY, "binary", "\3\0\0\0\x80\1\2\3"),
    ROW(VBSON_TYPE_UNDEFINED, "undefined", ""),
    ROW(VBSON_TYPE_OBJECT_ID, "object_id", "abcdefghijkl"),
    ROW(VBSON_TYPE_BOOLEAN, "boolean", "\1"),
    ROW(VBSON_TYPE_DATE_TIME, "date", "\xff\xff\xff\xff\xff\xff\xff\xff"),
    ROW(VBSON_TYPE_NULL, "null", ""),
    ROW(VBSON_TYPE_REGEX, "regex", "a.*\0ix\0"),
    ROW(VBSON_TYPE_DB_POINTER, "pointer", "\2\0\0\0n\0abcdefghijkl"),
    ROW(VBSON_TYPE_CODE, "code", "\2\0\0\0f\0"),
    ROW(VBSON_TYPE_SYMBOL, "symbol", "\2\0\0\0s\0"),
    ROW(VBSON_TYPE_CODE_WITH_SCOPE, "scope", "\x0f\0\0\0\2\0\0\0f\0\5\0\0\0\0"),
    ROW(VBSON_TYPE_INT32, "int32", "\xfb\xff\xff\xff"),
    ROW(VBSON_TYPE_TIMESTAMP, "stamp", "\1\0\0\0\2\0\0\0"),
    ROW(VBSON_TYPE_INT64, "int64", "\0\0\0\0\1\0\0\0"),
    ROW(VBSON_TYPE_DECIMAL128, "decimal", "\5\0\0\0\0\0\0\0\0\0\0\0\0\0\x40\x30"),
    ROW(VBSON_TYPE_MAX_KEY, "max", ""),
    ROW(VBSON_TYPE_MIN_KEY, "min", ""),
};
enum { ROWS = sizeof rows / sizeof *rows };

static void fill(maker *it) {
    start(it);
    for (int i = 0; i < ROWS; i++) put(it, rows[i].type, rows[i].key, rows[i].value, rows[i].len);
    finish(it);
}

static int is_row(const vbson_raw_value *value, const struct row *row) {
    return value->type == row->type && value->len == row->len && value->size >= row->len && memcmp(value->bytes, row->value, row->len) == 0;
}

/* Which of the eight typed calls reads the value, by its number; 0 for none, and -1 if a call that does not read it changes
 * what it was handed. */
static int reader(const vbson_raw_value *value, vbson_slice *text, uint64_t *number) {
    static const uint8_t before[12] = "before......";
    uint8_t id[12];
    memcpy(id, before, 12);
    vbson_slice string = {before, 3}, binary = {before, 4};
    int32_t small = 42;
    int64_t large = 43, millis = 44;
    uint64_t pattern = 45;
    uint32_t boolean = 46, subtype = 47;
    uint32_t of[8] = {
        vbson_raw_int32(value, &small), vbson_raw_int64(value, &large), vbson_raw_double(value, &pattern), vbson_raw_boolean(value, &boolean),
        vbson_raw_string(value, &string), vbson_raw_object_id(value, id), vbson_raw_date_time(value, &millis), vbson_raw_binary(value, &subtype, &binary)};
    int kept[8] = {small == 42, large == 43, pattern == 45, boolean == 46, string.bytes == before && string.len == 3, memcmp(id, before, 12) == 0,
        millis == 44, binary.bytes == before && binary.len == 4 && subtype == 47};
    int which = 0;
    for (int i = 0; i < 8; i++) {
        if (of[i] == VBSON_OK && which == 0) which = i + 1;
        else if (of[i] != VBSON_UNEXPECTED_TYPE || !kept[i]) return -1;
    }
    uint64_t numbers[9] = {0, (uint64_t)small, (uint64_t)large, pattern, boolean, 0, id[0] * 256u + id[11], (uint64_t)millis, subtype};
    *text = which == 5 ? string : which == 8 ? binary : (vbson_slice){before, 0};
    *number = numbers[which];
    return which;
}

static void each_type(void) {
    static const struct {
        int which;
        uint64_t number;
        const char *text;
        size_t len;
    } wanted[ROWS] = {{3, 0x3ff8000000000000, "", 0}, {5, 0, "a\0\xc3\xa9" "b", 5}, {0, 0, "", 0}, {0, 0, "", 0}, {8, 0x80, "\1\2\3", 3}, {0, 0, "", 0},
        {6, 'a' * 256 + 'l', "", 0}, {4, 1, "", 0}, {7, UINT64_MAX, "", 0}, {0, 0, "", 0}, {0, 0, "", 0}, {0, 0, "", 0}, {0, 0, "", 0}, {0, 0, "", 0},
        {0, 0, "", 0}, {1, (uint64_t)-5, "", 0}, {0, 0, "", 0}, {2, 0x100000000, "", 0}, {0, 0, "", 0}, {0, 0, "", 0}, {0, 0, "", 0}};
    maker it;
    fill(&it);
    CHECK(vbson_is_document(it.bytes, it.len) == VBSON_OK);
    vbson_slice cursor = VBSON_SLICE_INIT, key = VBSON_SLICE_INIT;
    CHECK(vbson_raw_elements(it.bytes, it.len, &cursor) == VBSON_OK);
    for (int i = 0; i < ROWS; i++) {
        vbson_raw_value value = VBSON_RAW_VALUE_INIT, next = VBSON_RAW_VALUE_INIT;
        CHECK(vbson_raw_get(it.bytes, it.len, TEXT(rows[i].key), &value) == VBSON_OK && is_row(&value, &rows[i]));
        CHECK(value.bytes + value.size == it.bytes + it.len);
        CHECK(vbson_raw_next(&cursor, &key, &next) == VBSON_OK && memcmp(&next, &value, offsetof(vbson_raw_value, type) + 1) == 0);
        CHECK(key.len == strlen(rows[i].key) && memcmp(key.bytes, rows[i].key, key.len) == 0);
        vbson_slice text;
        uint64_t number;
        CHECK(reader(&value, &text, &number) == wanted[i].which);
        CHECK(number == wanted[i].number && text.len == wanted[i].len && memcmp(text.bytes, wanted[i].text, text.len) == 0);
    }
    vbson_slice cursor_before = cursor, key_before = key;
    vbson_raw_value value = {it.bytes, 1, 2, 3};
    CHECK(vbson_raw_next(&cursor, &key, &value) == VBSON_NOT_FOUND && memcmp(&cursor, &cursor_before, sizeof cursor) == 0);
    CHECK(memcmp(&key, &key_before, sizeof key) == 0 && value.bytes == it.bytes && value.size == 1 && value.len == 2 && value.type == 3);
}

/* The value at the key is this int32, or there is none. */
static int has_int32(const uint8_t *bytes, size_t len, const char *key, size_t key_len, int32_t wanted) {
    vbson_raw_value value = VBSON_RAW_VALUE_INIT;
    int32_t number = 0;
    return vbson_raw_get(bytes, len, vbson_bytes(key), key_len, &value) == VBSON_OK && vbson_raw_int32(&value, &number) == VBSON_OK && number == wanted;
}

static int has_none(const uint8_t *bytes, size_t len, const char *key, size_t key_len) {
    static const uint8_t before[] = "before";
    vbson_raw_value value = {before, 6, 5, 4};
    return vbson_raw_get(bytes, len, vbson_bytes(key), key_len, &value) == VBSON_NOT_FOUND && value.bytes == before && value.size == 6 && value.len == 5
        && value.type == 4;
}

static void keys(void) {
    maker it;
    start(&it);
    PUT(&it, VBSON_TYPE_INT32, "a", "\1\0\0\0");
    PUT(&it, VBSON_TYPE_INT32, "", "\2\0\0\0");
    PUT(&it, VBSON_TYPE_INT32, "ab", "\3\0\0\0");
    PUT(&it, VBSON_TYPE_INT32, "\xc3\xa9", "\4\0\0\0");
    PUT(&it, VBSON_TYPE_STRING, "a", "\2\0\0\0x\0");
    PUT(&it, VBSON_TYPE_INT32, "a", "\5\0\0\0");
    PUT(&it, VBSON_TYPE_INT32, "a key of more than sixteen bytes", "\6\0\0\0");
    finish(&it);
    CHECK(has_int32(it.bytes, it.len, "a", 1, 5) && has_int32(it.bytes, it.len, "", 0, 2) && has_int32(it.bytes, it.len, "ab", 2, 3));
    CHECK(has_int32(it.bytes, it.len, "\xc3\xa9", 2, 4) && has_int32(it.bytes, it.len, "a key of more than sixteen bytes", 32, 6));
    CHECK(has_none(it.bytes, it.len, "b", 1) && has_none(it.bytes, it.len, "abc", 3) && has_none(it.bytes, it.len, "\xc3", 1));
    /* a key with a 0 byte is in no document */
    CHECK(has_none(it.bytes, it.len, "a\0", 2) && has_none(it.bytes, it.len, "a\0\2", 3) && has_none(it.bytes, it.len, "\0", 1));
    /* each element of a duplicate key comes */
    vbson_slice cursor = VBSON_SLICE_INIT, key = VBSON_SLICE_INIT;
    vbson_raw_value value = VBSON_RAW_VALUE_INIT;
    int elements = 0, of_a = 0;
    CHECK(vbson_raw_elements(it.bytes, it.len, &cursor) == VBSON_OK);
    vbson_slice first = cursor;
    for (; vbson_raw_next(&cursor, &key, &value) == VBSON_OK; elements++) of_a += key.len == 1 && key.bytes[0] == 'a';
    CHECK(elements == 7 && of_a == 3);
    /* a copy of a cursor keeps its position */
    CHECK(vbson_raw_next(&first, &key, &value) == VBSON_OK && key.len == 1 && value.bytes == it.bytes + 7);
}

static void nested(void) {
    maker it;
    fill(&it);
    vbson_raw_value value = VBSON_RAW_VALUE_INIT, inner = VBSON_RAW_VALUE_INIT;
    vbson_slice cursor = VBSON_SLICE_INIT, key = VBSON_SLICE_INIT;
    CHECK(vbson_raw_get(it.bytes, it.len, TEXT("document"), &value) == VBSON_OK && vbson_is_document(value.bytes, value.len) == VBSON_OK);
    CHECK(has_int32(value.bytes, value.size, "n", 1, 7) && has_int32(value.bytes, value.len, "n", 1, 7));
    CHECK(has_none(value.bytes, value.size, "array", 5) && has_none(it.bytes, it.len, "n", 1));
    CHECK(vbson_raw_get(it.bytes, it.len, TEXT("array"), &value) == VBSON_OK && vbson_raw_elements(value.bytes, value.size, &cursor) == VBSON_OK);
    uint32_t boolean = 0;
    CHECK(vbson_raw_next(&cursor, &key, &inner) == VBSON_OK && vbson_raw_boolean(&inner, &boolean) == VBSON_OK && boolean == 1);
    CHECK(vbson_raw_next(&cursor, &key, &inner) == VBSON_OK && inner.type == VBSON_TYPE_NULL && inner.len == 0);
    CHECK(vbson_raw_next(&cursor, &key, &inner) == VBSON_NOT_FOUND);
}

static void empty(void) {
    static const uint8_t document[] = {5, 0, 0, 0, 0};
    vbson_slice cursor = VBSON_SLICE_INIT, key = VBSON_SLICE_INIT;
    vbson_raw_value value = VBSON_RAW_VALUE_INIT;
    CHECK(has_none(BYTES(document), "a", 1) && has_none(BYTES(document), "", 0));
    CHECK(vbson_raw_elements(BYTES(document), &cursor) == VBSON_OK && vbson_raw_next(&cursor, &key, &value) == VBSON_NOT_FOUND);
}

/* Whether each call on the bytes is answered, with values within them: the sanitizers see that no byte outside is read. */
static int is_safe(const uint8_t *bytes, size_t len) {
    static const uint8_t before[] = "before";
    vbson_slice cursor = {before, 6}, key = VBSON_SLICE_INIT, text;
    vbson_raw_value value = VBSON_RAW_VALUE_INIT;
    uint64_t number;
    if (vbson_raw_elements(bytes, len, &cursor) != (len < 4 ? VBSON_NOT_A_DOCUMENT : VBSON_OK)) return 0;
    if (len < 4) return cursor.bytes == before && cursor.len == 6;
    while (vbson_raw_next(&cursor, &key, &value) == VBSON_OK)
        if (value.len > value.size || value.bytes + value.size != bytes + len || cursor.bytes != value.bytes + value.len || reader(&value, &text, &number) < 0)
            return 0;
    for (int i = 0; i < ROWS; i++) {
        uint32_t status = vbson_raw_get(bytes, len, TEXT(rows[i].key), &value);
        if (status != VBSON_NOT_FOUND && (status != VBSON_OK || value.len > value.size || value.bytes + value.size != bytes + len)) return 0;
    }
    return 1;
}

/* Each beginning of a document, and each document of which one byte is another. */
static void damaged(void) {
    maker it;
    fill(&it);
    for (size_t len = 0; len < it.len; len++) {
        uint8_t *exact = malloc(len > 0 ? len : 1);
        memcpy(exact, it.bytes, len);
        CHECK(is_safe(exact, len));
        free(exact);
    }
    uint8_t *exact = malloc(it.len);
    memcpy(exact, it.bytes, it.len);
    for (size_t at = 0; at < it.len; at++) {
        int all = 1;
        for (int byte = 0; byte < 256; byte++) {
            exact[at] = (uint8_t)byte;
            all = all && is_safe(exact, it.len);
        }
        exact[at] = it.bytes[at];
        CHECK(all);
    }
    free(exact);
}

/* A value of no bytes, of each type and of none. */
static void wrong_values(void) {
    vbson_slice text;
    uint64_t number;
    for (int type = 0; type < 256; type++) {
        vbson_raw_value value = VBSON_RAW_VALUE_INIT;
        value.type = (uint8_t)type;
        CHECK(reader(&value, &text, &number) == 0);
    }
}

int main(void) {
    each_type();
    keys();
    nested();
    empty();
    damaged();
    wrong_values();
    return end();
}
