/* Every call, on every status that it returns, and what it leaves in its arguments. */
#include "check.h"

/* ---- texts */

static int converts(uint32_t mode, const char *text, const char *wanted) {
    vbson_buffer out = VBSON_BUFFER_INIT;
    int is_right = vbson_convert(mode, NULL, TEXT(text), &out) == VBSON_OK && out.len == strlen(wanted)
        && out.size == out.len + 1 && memcmp(out.bytes, wanted, out.size) == 0;
    vbson_buffer_free(&out);
    return is_right && out.size == 0 && out.len == 0;
}

/* The status, and that `out` is as it was. */
static int refuses(uint32_t mode, const char *text, size_t len, uint32_t status) {
    static const uint8_t before[] = "before";
    vbson_buffer out = {before, 7, 6};
    uint32_t found = vbson_convert(mode, NULL, (const uint8_t *)text, len, &out);
    return found == status && out.bytes == before && out.size == 7 && out.len == 6;
}

static void convert(void) {
    const char *date = "{\"$date\":{\"$numberLong\":\"1590972160292\"}}";
    CHECK(converts(VBSON_CANONICAL, "{\"b\":2147483648,\"a\":-5}",
        "{\"a\":{\"$numberInt\":\"-5\"},\"b\":{\"$numberLong\":\"2147483648\"}}"));
    CHECK(converts(VBSON_CANONICAL, date, date));
    CHECK(converts(VBSON_RELAXED, date, "{\"$date\":\"2020-06-01T00:42:40.292Z\"}"));
    CHECK(converts(VBSON_SHOW, "{\"$code\":\"\"}", ""));
    CHECK(converts(VBSON_SHOW, "\"a\\nb\"", "\"a\nb\""));
    CHECK(converts(VBSON_RELAXED, "\"a\\nb\"", "\"a\\nb\""));
    CHECK(converts(VBSON_RELAXED, "{\"a\":1,\"a\":2}", "{\"a\":2}"));
    CHECK(converts(VBSON_RELAXED, "[]", "[]"));

    /* a text with U+0000 in it, which ends the C string early */
    vbson_buffer out = VBSON_BUFFER_INIT;
    CHECK(vbson_convert(VBSON_SHOW, NULL, TEXT("\"a\\u0000b\""), &out) == VBSON_OK);
    CHECK(out.len == 5 && memcmp(out.bytes, "\"a\0b\"", 6) == 0);
    vbson_buffer_free(&out);
    vbson_buffer_free(&out);

    /* only the bytes of the given length are read */
    CHECK(vbson_convert(VBSON_RELAXED, NULL, (const uint8_t *)"[1]]]", 3, &out) == VBSON_OK && out.len == 3);
    vbson_buffer_free(&out);
}

static void convert_refused(void) {
    CHECK(refuses(3, "{}", 2, VBSON_INVALID_ARGUMENT));
    CHECK(refuses(UINT32_MAX, "not JSON", 8, VBSON_INVALID_ARGUMENT));
    CHECK(refuses(VBSON_CANONICAL, "", 0, VBSON_NOT_JSON));
    CHECK(refuses(VBSON_SHOW, "{}x", 3, VBSON_NOT_JSON));
    CHECK(refuses(VBSON_SHOW, "{} {}", 5, VBSON_NOT_JSON));
    CHECK(refuses(VBSON_RELAXED, "\"\xff\"", 3, VBSON_NOT_JSON));
    CHECK(refuses(VBSON_CANONICAL, "\xef\xbb\xbf{}", 5, VBSON_NOT_JSON));
    CHECK(refuses(VBSON_RELAXED, "{\"$oid\":\"53e3\"}", 15, VBSON_BAD_OBJECT_ID));
    CHECK(refuses(VBSON_RELAXED, "1.5", 3, VBSON_NOT_EXTENDED_JSON));
    CHECK(refuses(VBSON_RELAXED, "[{\"$oid\":5},1]", 14, VBSON_NOT_EXTENDED_JSON));
}

static int converts_with(uint32_t mode, uint32_t fields, const char *text, const char *wanted) {
    vbson_buffer out = VBSON_BUFFER_INIT;
    int is_right = vbson_convert(mode, with(fields), TEXT(text), &out) == VBSON_OK && out.len == strlen(wanted)
        && out.size == out.len + 1 && memcmp(out.bytes, wanted, out.size) == 0;
    vbson_buffer_free(&out);
    return is_right;
}

static int refuses_with(uint32_t mode, uint32_t fields, const char *text, uint32_t status) {
    static const uint8_t before[] = "before";
    vbson_buffer out = {before, 7, 6};
    uint32_t found = vbson_convert(mode, with(fields), TEXT(text), &out);
    return found == status && out.bytes == before && out.size == 7 && out.len == 6;
}

static void convert_options(void) {
    const char *doubles = "{\"b\":1.5,\"a\":[1e2,-0]}";
    const char *written = "{\"a\":[{\"$numberDouble\":\"100.0\"},{\"$numberDouble\":\"-0.0\"}],\"b\":{\"$numberDouble\":\"1.5\"}}";
    CHECK(converts_with(VBSON_CANONICAL, FINITE, doubles, written));
    CHECK(converts_with(VBSON_RELAXED, FINITE, doubles, "{\"a\":[100.0,-0.0],\"b\":1.5}"));
    CHECK(converts_with(VBSON_RELAXED, FINITE, "[1e16,{\"$numberDouble\":\"NaN\"}]", "[1e16,{\"$numberDouble\":\"NaN\"}]"));
    CHECK(converts_with(VBSON_RELAXED, FINITE, "{\"$numberDouble\":\"0.0\"}", "0.0"));
    CHECK(converts_with(VBSON_RELAXED, 0, "{\"$numberDouble\":\"0.0\"}", "{\"$numberDouble\":\"0.0\"}"));
    CHECK(converts_with(VBSON_RELAXED, FINITE, "[5]", "[5]"));
    CHECK(converts_with(VBSON_SHOW, FINITE, "{\"$code\":\"\"}", ""));
    CHECK(converts_with(VBSON_CANONICAL, 0, "[5]", "[{\"$numberInt\":\"5\"}]"));
    CHECK(refuses_with(VBSON_CANONICAL, 0, doubles, VBSON_NOT_EXTENDED_JSON));
    CHECK(refuses_with(VBSON_CANONICAL, FINITE, "{\"$numberDouble\":\"1e400\"}", VBSON_NOT_EXTENDED_JSON));
    CHECK(refuses_with(VBSON_RELAXED, FINITE, "1e400", VBSON_NOT_JSON));
    CHECK(refuses_with(VBSON_RELAXED, FINITE, "[1.5,{\"$oid\":\"5\"}]", VBSON_BAD_OBJECT_ID));
    CHECK(refuses_with(3, 0, "{}", VBSON_INVALID_ARGUMENT));
    CHECK(refuses_with(3, FINITE, "{}", VBSON_INVALID_ARGUMENT));
    CHECK(refuses_with(VBSON_CANONICAL, OTHER_SIZE, "{}", VBSON_INVALID_ARGUMENT));
    CHECK(refuses_with(VBSON_SHOW, UINT32_MAX, "not JSON", VBSON_INVALID_ARGUMENT));
}

/* v1 and duplicate keys, in each order and mode. */
static void convert_preprocessed(void) {
    const char *v1 = "{\"b\":{\"$type\":\"00\",\"$binary\":\"AQI=\"},\"a\":{\"$date\":\"1970-01-01T01:00:00+0100\"}}";
    const char *binary = "{\"$binary\":{\"base64\":\"AQI=\",\"subType\":\"00\"}}", *moment = "{\"$date\":\"1970-01-01T00:00:00Z\"}";
    const char *twice = "{\"b\":1,\"b\":2}", *within = "[{\"b\":{\"\\u0061\":1,\"a\":2}}]";
    char sorted[200], given[200];
    snprintf(sorted, sizeof sorted, "{\"a\":%s,\"b\":%s}", moment, binary), snprintf(given, sizeof given, "{\"b\":%s,\"a\":%s}", binary, moment);
    for (uint32_t fields = 0; fields < OTHER_SIZE; fields++) {
        uint32_t other = fields & ~(uint32_t)(DISTINCT | V1);
        if ((fields & V1) != 0) {
            CHECK(converts_with(VBSON_RELAXED, fields, v1, (fields & AS_GIVEN) != 0 ? given : sorted));
            CHECK(refuses_with(VBSON_RELAXED, fields & ~(uint32_t)V1, v1, VBSON_NOT_EXTENDED_JSON));
            CHECK(converts_with(VBSON_SHOW, fields, "{\"$regex\":\"a\",\"$options\":\"i\"}", "/a/i"));
            CHECK(converts_with(VBSON_RELAXED, fields, "[-Infinity]", "[{\"$numberDouble\":\"-Infinity\"}]"));
            CHECK(refuses_with(VBSON_RELAXED, fields & ~(uint32_t)V1, "[-Infinity]", VBSON_NOT_JSON));
        }
        if ((fields & DISTINCT) != 0) {
            CHECK(refuses_with(VBSON_RELAXED, fields, twice, VBSON_NOT_EXTENDED_JSON) && refuses_with(VBSON_SHOW, fields, within, VBSON_NOT_EXTENDED_JSON));
            CHECK(converts_with(VBSON_RELAXED, other, twice, "{\"b\":2}") && refuses_with(3, fields, twice, VBSON_INVALID_ARGUMENT));
        }
        CHECK(converts_with(VBSON_RELAXED, fields, "{\"b\":1}", "{\"b\":1}") && refuses_with(VBSON_RELAXED, fields, "[1", VBSON_NOT_JSON));
        CHECK(refuses_with(VBSON_CANONICAL, fields, "{\"$oid\":\"5\"}", VBSON_BAD_OBJECT_ID));
    }
}

static void keep_order(void) {
    const char *text = "{\"b\":{\"d\":1,\"c\":[{\"f\":2,\"e\":3}]},\"a\":4}";
    const char *twice = "{\"b\":1,\"a\":1.5,\"b\":2}";
    CHECK(converts_with(VBSON_RELAXED, AS_GIVEN, text, text));
    CHECK(converts_with(VBSON_RELAXED, 0, text, "{\"a\":4,\"b\":{\"c\":[{\"e\":3,\"f\":2}],\"d\":1}}"));
    CHECK(converts_with(VBSON_RELAXED, FINITE, text, "{\"a\":4,\"b\":{\"c\":[{\"e\":3,\"f\":2}],\"d\":1}}"));
    CHECK(converts_with(VBSON_CANONICAL, AS_GIVEN, "{\"b\":1,\"a\":2}", "{\"b\":{\"$numberInt\":\"1\"},\"a\":{\"$numberInt\":\"2\"}}"));
    CHECK(converts_with(VBSON_SHOW, AS_GIVEN, "{\"b\":1,\"a\":2}", "{ \"b\": 1, \"a\": 2 }"));
    CHECK(converts_with(VBSON_SHOW, 0, "{\"b\":1,\"a\":2}", "{ \"a\": 2, \"b\": 1 }"));
    CHECK(converts_with(VBSON_RELAXED, FINITE | AS_GIVEN, twice, "{\"b\":2,\"a\":1.5}"));
    CHECK(converts_with(VBSON_RELAXED, FINITE, twice, "{\"a\":1.5,\"b\":2}"));
    CHECK(refuses_with(VBSON_RELAXED, AS_GIVEN, twice, VBSON_NOT_EXTENDED_JSON));
    CHECK(refuses_with(VBSON_RELAXED, AS_GIVEN, "{\"b\":", VBSON_NOT_JSON));
    CHECK(refuses_with(VBSON_RELAXED, AS_GIVEN, "{\"$oid\":\"5\"}", VBSON_BAD_OBJECT_ID));
    CHECK(refuses_with(3, AS_GIVEN, "{}", VBSON_INVALID_ARGUMENT));
}

static void layout(void) {
    const char *date = "{\"at\":{\"$date\":{\"$numberLong\":\"500\"}}}", *whole = "{\"$date\":{\"$numberLong\":\"-1000\"}}";
    const char *stamp = "{\"$timestamp\":{\"t\":1,\"i\":2}}", *sorted_stamp = "{\"$timestamp\":{\"i\":2,\"t\":1}}";
    const char *regex = "{\"$regularExpression\":{\"pattern\":\"a\",\"options\":\"i\"}}";
    const char *sorted_regex = "{\"$regularExpression\":{\"options\":\"i\",\"pattern\":\"a\"}}";
    const char *pointer = "{\"$dbPointer\":{\"$ref\":\"n\",\"$id\":{\"$oid\":\"53e37d08776f724e42000000\"}}}";
    const char *sorted_pointer = "{\"$dbPointer\":{\"$id\":{\"$oid\":\"53e37d08776f724e42000000\"},\"$ref\":\"n\"}}";
    for (uint32_t order = 0; order <= AS_GIVEN; order += AS_GIVEN)
        for (uint32_t mode = VBSON_CANONICAL; mode <= VBSON_RELAXED; mode++) {
            uint32_t fields = order | LAYOUT;
            CHECK(converts_with(mode, fields, stamp, order ? stamp : sorted_stamp) && converts_with(mode, order, stamp, sorted_stamp));
            CHECK(converts_with(mode, fields, sorted_stamp, order ? stamp : sorted_stamp));
            CHECK(converts_with(mode, fields, regex, order ? regex : sorted_regex) && converts_with(mode, order, regex, sorted_regex));
            CHECK(converts_with(mode, fields, pointer, order ? pointer : sorted_pointer) && converts_with(mode, order, pointer, sorted_pointer));
            CHECK(converts_with(mode, fields, date, mode == VBSON_CANONICAL ? date : "{\"at\":{\"$date\":\"1970-01-01T00:00:00.500Z\"}}"));
            CHECK(converts_with(mode, order, date, mode == VBSON_CANONICAL ? date : "{\"at\":{\"$date\":\"1970-01-01T00:00:00.5Z\"}}"));
            CHECK(converts_with(mode, fields, whole, whole) && converts_with(mode, fields | FINITE, "[5]", mode == VBSON_CANONICAL ? "[{\"$numberInt\":\"5\"}]" : "[5]"));
        }
    CHECK(converts_with(VBSON_RELAXED, LAYOUT, "{\"$date\":\"1970-01-01T00:00:01.000Z\"}", "{\"$date\":\"1970-01-01T00:00:01Z\"}"));
    CHECK(converts_with(VBSON_RELAXED, LAYOUT, "{\"$date\":\"1970-01-01T00:00:01.05Z\"}", "{\"$date\":\"1970-01-01T00:00:01.050Z\"}"));
    CHECK(converts_with(VBSON_SHOW, LAYOUT, "{\"$date\":\"1970-01-01T00:00:01.5Z\"}", "DateTime(\"1970-01-01 0:00:01.5 +00:00:00\")"));
    CHECK(refuses_with(VBSON_RELAXED, LAYOUT, "1.5", VBSON_NOT_EXTENDED_JSON) && refuses_with(3, LAYOUT, "{}", VBSON_INVALID_ARGUMENT));
}

/* The path of an error as its keys and indexes, each after a '/'. */
static void print_path(const vbson_error *error, char *words, size_t size) {
    vbson_slice cursor = VBSON_SLICE_INIT, key = VBSON_SLICE_INIT, name = VBSON_SLICE_INIT;
    vbson_raw_value value = VBSON_RAW_VALUE_INIT;
    int64_t index = 0;
    size_t at = 0, count = 0;
    char number[32];
    words[0] = '\0';
    CHECK(vbson_is_document(error->path.bytes, error->path.len) == VBSON_OK);
    CHECK(vbson_raw_elements(error->path.bytes, error->path.len, &cursor) == VBSON_OK);
    while (vbson_raw_next(&cursor, &key, &value) == VBSON_OK && at < size) {
        CHECK((size_t)snprintf(number, sizeof number, "%zu", count++) == key.len && memcmp(number, key.bytes, key.len) == 0);
        if (vbson_raw_string(&value, &name) == VBSON_OK) at += (size_t)snprintf(words + at, size - at, "/%.*s", (int)name.len, (const char *)name.bytes);
        else if (vbson_raw_int64(&value, &index) == VBSON_OK) at += (size_t)snprintf(words + at, size - at, "/%lld", (long long)index);
        else CHECK(0);
    }
}

static int is_string(const vbson_buffer *found, const char *wanted) {
    return found->len == strlen(wanted) && found->size == found->len + 1 && memcmp(found->bytes, wanted, found->size) == 0;
}

/* The message is the words of the code, the column or the path, and the reason; without them each field says nothing. */
static int is_whole(const vbson_error *it) {
    const char *kind = vbson_status_text(it->code), *message = vbson_chars(&it->message), *reason = vbson_chars(&it->reason);
    size_t len = strlen(kind);
    if (it->code == VBSON_OK)
        return it->message.len == 0 && it->reason.len == 0 && it->path.len == 5 && it->line == 0 && it->column == 0 && it->offset == 0;
    if (strncmp(message, kind, len) != 0 || it->message.len < len + it->reason.len + 3) return 0;
    if (it->code == VBSON_NOT_JSON && (it->line == 0 || it->path.len != 5)) return 0;
    if (it->line == 0 ? it->column != 0 || it->offset != 0 : it->column == 0 || it->offset + 1 < it->column) return 0;
    message += it->message.len - it->reason.len - 1;
    return message[-1] == '(' && strncmp(message, reason, it->reason.len) == 0 && strcmp(message + it->reason.len, ")") == 0;
}

static int explains(uint32_t fields, const char *text, const char *wanted) {
    vbson_error out = VBSON_ERROR_INIT;
    int is_right = vbson_explain(with(fields), TEXT(text), &out) == VBSON_OK && is_string(&out.message, wanted) && is_whole(&out);
    if (!is_right) printf("%s\n", vbson_chars(&out.message));
    vbson_error_free(&out);
    return is_right && out.message.size == 0 && out.code == VBSON_OK;
}

/* The code and the path. */
static int finds(uint32_t fields, const char *text, uint32_t code, const char *path) {
    vbson_error out = VBSON_ERROR_INIT;
    char words[2000];
    int is_right = vbson_explain(with(fields), TEXT(text), &out) == VBSON_OK && out.code == code && is_whole(&out);
    print_path(&out, words, sizeof words);
    if (!is_right || strcmp(words, path) != 0) printf("%u %s\n", out.code, words);
    vbson_error_free(&out);
    return is_right && strcmp(words, path) == 0;
}

/* Where a text stops to be JSON, and the reason. */
static int stops(const char *text, size_t line, size_t column, size_t offset, const char *reason) {
    vbson_error out = VBSON_ERROR_INIT;
    int is_right = vbson_explain(NULL, TEXT(text), &out) == VBSON_OK && out.code == VBSON_NOT_JSON && out.line == line && out.column == column
        && out.offset == offset && is_string(&out.reason, reason) && is_whole(&out);
    if (!is_right) printf("%zu %zu %zu %s\n", out.line, out.column, out.offset, vbson_chars(&out.reason));
    vbson_error_free(&out);
    return is_right;
}

/* Where the wrong value of a text begins. */
static int begins(uint32_t fields, const char *text, size_t line, size_t column, size_t offset) {
    vbson_error out = VBSON_ERROR_INIT;
    int is_right = vbson_explain(with(fields), TEXT(text), &out) == VBSON_OK && out.code != VBSON_OK && out.code != VBSON_NOT_JSON
        && out.line == line && out.column == column && out.offset == offset && is_whole(&out);
    if (!is_right) printf("%u %zu %zu %zu\n", out.code, out.line, out.column, out.offset);
    vbson_error_free(&out);
    return is_right;
}

static void errors(void) {
    char nested[1200], path[1200] = "";
    CHECK(finds(0, "{\"a\":1}", VBSON_OK, "") && finds(0, "1.5", VBSON_NOT_EXTENDED_JSON, "") && finds(0, "[1,]", VBSON_NOT_JSON, ""));
    CHECK(finds(0, "{\"orders\":[1,{\"price\":1.5}]}", VBSON_NOT_EXTENDED_JSON, "/orders/1/price"));
    CHECK(finds(0, "{\"a\":{\"$oid\":\"53e3\"}}", VBSON_BAD_OBJECT_ID, "/a/$oid"));
    CHECK(finds(0, "{\"a.b\":{\"0\":[{\"\":1.5}]}}", VBSON_NOT_EXTENDED_JSON, "/a.b/0/0/"));
    CHECK(finds(0, "{\"a\":{\"b\":1},\"a.b\":1.5}", VBSON_NOT_EXTENDED_JSON, "/a.b"));
    CHECK(finds(0, "{\"\xc3\xa9\":{\"\\u001b\":1.5}}", VBSON_NOT_EXTENDED_JSON, "/\xc3\xa9/\x1b"));
    CHECK(finds(0, "{\"f\":{\"$code\":\"\",\"$scope\":{\"x\":[0,1,2,3,4,5,6,7,8,9,10,1.5]}}}", VBSON_NOT_EXTENDED_JSON, "/f/$scope/x/11"));
    CHECK(finds(DISTINCT, "{\"a\":[{\"b\":1,\"b\":2}]}", VBSON_NOT_EXTENDED_JSON, "/a/0/b"));
    CHECK(finds(V1, "{\"a\":{\"$binary\":\"AQI=\",\"$type\":\"000\"}}", VBSON_NOT_EXTENDED_JSON, "/a/$binary"));
    memset(nested, '[', 127), strcpy(nested + 127, "1.5"), memset(nested + 130, ']', 127), nested[257] = '\0';
    for (int i = 0; i < 127; i++) strcat(path, "/0");
    CHECK(finds(0, nested, VBSON_NOT_EXTENDED_JSON, path));
    memset(nested, 'a', 1001), memcpy(nested, "{\"", 2), strcpy(nested + 1002, "\":1.5}");
    memset(path, 'a', 1000), path[0] = '/', path[1001] = '\0';
    nested[1001] = 'a', path[1000] = 'a';
    CHECK(finds(0, nested, VBSON_NOT_EXTENDED_JSON, path));
    CHECK(stops("", 1, 1, 0, "unexpected end of input"));
    CHECK(stops("[1, 2", 1, 5, 4, "unexpected end of input"));
    CHECK(stops("{\"a\": [1,\n 2}", 2, 3, 12, "expected a comma or a closing bracket"));
    CHECK(stops("[\n[\n\xc3\xa9]]", 3, 1, 4, "expected a value"));
    CHECK(stops("[1,\n\n", 2, 1, 4, "unexpected end of input"));
    CHECK(stops("[1]\n\n x", 3, 2, 6, "unexpected data after the value"));
    CHECK(stops("{\"a\":1,\n\"b\":\n  1e400}", 3, 3, 15, "number out of range"));
    CHECK(stops("[\n\"\xff\"]", 2, 2, 3, "invalid UTF-8"));
    CHECK(begins(0, "1.5", 1, 1, 0) && begins(0, "{\"orders\":[1,{\"price\":1.5}]}", 1, 23, 22));
    CHECK(begins(0, "{\"a\": [5,\n{\"$oid\": \"53e3\"}]}", 2, 10, 19) && begins(0, "[\n\"\xc3\xa9\",\n \"\xc3\xa9\", 1.5]", 3, 8, 15));
    /* (the last value of a duplicate key is the one that is read, and the second one is rejected) */
    CHECK(begins(0, "{\"$oid\":\"53e3\",\"$oid\":5}", 1, 23, 22) && begins(DISTINCT, "{\"a\":{\"b\":1,\n\"b\":2,\"b\":3}}", 2, 5, 17));
    CHECK(begins(DISTINCT | V1, "[{\"b\":{\"\\u0061\":1,\"a\":2}}]", 1, 23, 22));
    /* (a value that was rewritten is not in the input) */
    CHECK(begins(V1, "[{\"$binary\":\"AQI=\",\"$type\":\"00\"},\n{\"$numberInt\":\"x\"}]", 2, 15, 48));
    CHECK(begins(V1, "{\"a\":{\"$binary\":\"AQI=\",\"$type\":\"000\"}}", 0, 0, 0));
}

static void explain(void) {
    static const uint8_t before[] = "before";
    const vbson_error was = {77, 7, 8, 9, {before, 7, 6}, {before, 6, 5}, {before, 5, 4}};
    vbson_error out = was;
    const char *number = "not Extended JSON at orders.1.price (not a 64-bit integer; found 1.5)";
    CHECK(explains(0, "{\"orders\":[1,{\"price\":1.5}]}", number));
    CHECK(explains(FINITE, "{\"orders\":[1,{\"price\":1.5}]}", ""));
    CHECK(explains(0, "1.5", "not Extended JSON (not a 64-bit integer; found 1.5)"));
    CHECK(explains(0, "{\"a\":{\"$oid\":\"53e3\"}}", "bad object id at a.$oid (an object id has 24 digits, but \"53e3\" has 4)"));
    CHECK(explains(0, "[1,]", "not JSON at column 4 (expected an element after the comma)"));
    CHECK(explains(0, "{\"a\" 1}", "not JSON at column 6 (expected a colon and a value after the key)"));
    CHECK(explains(FINITE, "\"\xff\"", "not JSON at column 2 (invalid UTF-8)"));
    CHECK(explains(FINITE, "[1e400]", "not JSON at column 2 (number out of range)"));
    CHECK(explains(0, "{\"a\\u001b\":1.5}", "not Extended JSON at a\\u001b (not a 64-bit integer; found 1.5)"));
    CHECK(explains(0, "{\"$oid\":\"5\\u2028\"}", "bad object id at $oid (the character '\xc3\xa2' at 1 in \"5\\u2028\" is no hexadecimal digit)"));
    CHECK(explains(0, "{\"a\":1}", ""));
    CHECK(explains(AS_GIVEN, "{\"b\":{\"$oid\":\"5\"},\"a\":[1.5]}", "not Extended JSON at a.0 (not a 64-bit integer; found 1.5)"));
    CHECK(explains(FINITE | AS_GIVEN, "[1.5]", ""));
    CHECK(explains(AS_GIVEN | LAYOUT, "[1.5]", "not Extended JSON at 0 (not a 64-bit integer; found 1.5)") && explains(FINITE | LAYOUT, "[1.5]", ""));
    CHECK(vbson_explain(with(OTHER_SIZE), TEXT("{}"), &out) == VBSON_INVALID_ARGUMENT && memcmp(&out, &was, sizeof out) == 0);
    CHECK(explains(DISTINCT, "{\"a\":[{\"b\":1,\"b\":2}]}", "not Extended JSON at a.0.b (duplicate key)"));
    CHECK(explains(0, "{\"a\":[{\"b\":1,\"b\":2}]}", "") && explains(DISTINCT, "{\"a\":[{\"b\":1},{\"b\":2}]}", ""));
    CHECK(explains(DISTINCT | V1, "[{\"b\":{\"\\u0061\":1,\"a\":2}}]", "not Extended JSON at 0.b.a (duplicate key)"));
    CHECK(explains(DISTINCT | V1, "[1.5,", "not JSON at column 5 (unexpected end of input)"));
    CHECK(explains(V1, "{\"$binary\":\"AQI=\",\"$type\":\"00\"}", ""));
    CHECK(explains(0, "{\"$binary\":\"AQI=\",\"$type\":\"00\"}",
        "not Extended JSON (`$binary` must be the only key of its object; found {\"$binary\":\"AQI=\",\"$type\":\"00\"})"));
    CHECK(explains(V1, "{\"a\":{\"$binary\":\"AQI=\",\"$type\":\"000\"}}",
        "not Extended JSON at a.$binary (`subType` must be two hexadecimal digits)"));
    CHECK(vbson_explain(with(UINT32_MAX), TEXT("!"), &out) == VBSON_INVALID_ARGUMENT && memcmp(&out, &was, sizeof out) == 0);
}

/* ---- values */

static void same(void) {
    const char *one = "{\"a\":1,\"b\":[2,3]}";
    CHECK(vbson_same(NULL, TEXT(one), TEXT("{ \"b\": [2, {\"$numberInt\":\"3\"}], \"a\": 1 }")) == VBSON_OK);
    CHECK(vbson_same(NULL, TEXT(one), TEXT(one)) == VBSON_OK);
    CHECK(vbson_same(NULL, TEXT("[1,2]"), TEXT("[2,1]")) == VBSON_DIFFERENT);
    CHECK(vbson_same(NULL, TEXT("1"), TEXT("{\"$numberLong\":\"1\"}")) == VBSON_DIFFERENT);
    CHECK(vbson_same(NULL, TEXT("{\"a\":1}"), TEXT("{\"a\":1,\"b\":1}")) == VBSON_DIFFERENT);
    CHECK(vbson_same(NULL, TEXT("{\"a\":1,\"b\":1}"), TEXT("{\"a\":1}")) == VBSON_DIFFERENT);
    CHECK(vbson_same(NULL, TEXT(""), TEXT("1.5")) == VBSON_NOT_JSON);
    CHECK(vbson_same(NULL, TEXT("1.5"), TEXT("")) == VBSON_NOT_EXTENDED_JSON);
    CHECK(vbson_same(NULL, TEXT("1"), TEXT("{\"$oid\":\"\"}")) == VBSON_BAD_OBJECT_ID);
}

static void canonical(void) {
    static const char *const texts[] = {"{\"a\":{\"$numberInt\":\"1\"},\"b\":[true]}", "{\"b\":[true],\"a\":{\"$numberInt\":\"1\"}}",
        "{\"a\":1,\"b\":[true]}", "{\"$numberDouble\":\"1.5\"}", "{\"$numberDouble\":\"1.50\"}", "null", "null ", " null", "null\n",
        "\"\\u0061\"", "\"a\"", "{\"a\":null,\"a\":null}", "1.5", "", "!", "{\"$oid\":\"\"}", "{\"$numberInt\":1}"};
    static const uint32_t none[] = {AS_GIVEN, DISTINCT, FINITE | V1, LAYOUT, FINITE | LAYOUT, OTHER_SIZE};
    for (size_t i = 0; i < sizeof texts / sizeof *texts; i++)
        for (uint32_t fields = 0; fields <= FINITE; fields++) {
            vbson_buffer out = VBSON_BUFFER_INIT;
            int is_own = vbson_convert(VBSON_CANONICAL, with(fields), TEXT(texts[i]), &out) == VBSON_OK && out.len == strlen(texts[i])
                && memcmp(out.bytes, texts[i], out.len) == 0;
            CHECK(vbson_is_canonical_text(with(fields), TEXT(texts[i])) == (is_own ? VBSON_OK : VBSON_NOT_CANONICAL));
            vbson_buffer_free(&out);
        }
    CHECK(vbson_is_canonical_text(NULL, TEXT(texts[0])) == VBSON_OK && vbson_is_canonical_text(NULL, TEXT(texts[1])) == VBSON_NOT_CANONICAL);
    CHECK(vbson_is_canonical_text(with(FINITE), TEXT(texts[3])) == VBSON_OK);
    CHECK(vbson_is_canonical_text(NULL, TEXT(texts[3])) == VBSON_NOT_CANONICAL);
    CHECK(vbson_is_canonical_text(with(FINITE), TEXT(texts[4])) == VBSON_NOT_CANONICAL);
    for (size_t i = 0; i < sizeof none / sizeof *none; i++) {
        CHECK(vbson_is_canonical_text(with(none[i]), TEXT("null")) == VBSON_INVALID_ARGUMENT);
        CHECK(vbson_is_canonical_text(with(none[i]), TEXT("!")) == VBSON_INVALID_ARGUMENT);
    }
}

static void same_by_options(void) {
    const char *price = "{\"a\":1,\"price\":12.5}", *other = "{\"price\":{\"$numberDouble\":\"12.50\"},\"a\":1}";
    const char *twice = "{\"a\":1,\"a\":2}", *within = "[{\"b\":{\"\\u0061\":1,\"a\":2}}]";
    const char *v1 = "{\"$type\":\"00\",\"$binary\":\"AQI=\"}", *v2 = "{\"$binary\":{\"base64\":\"AQI=\",\"subType\":\"00\"}}";
    uint32_t strict = DISTINCT, all = FINITE | DISTINCT | V1;
    CHECK(vbson_same(NULL, TEXT(price), TEXT(other)) == VBSON_NOT_EXTENDED_JSON);
    CHECK(vbson_same(with(FINITE), TEXT(price), TEXT(other)) == VBSON_OK && vbson_same(with(all), TEXT(price), TEXT(other)) == VBSON_OK);
    CHECK(vbson_same(with(FINITE), TEXT("0.0"), TEXT("-0.0")) == VBSON_DIFFERENT);
    CHECK(vbson_same(with(FINITE), TEXT("1.0"), TEXT("1")) == VBSON_DIFFERENT);
    CHECK(vbson_same(NULL, TEXT(twice), TEXT("{\"a\":2}")) == VBSON_OK && vbson_same(NULL, TEXT(within), TEXT(within)) == VBSON_OK);
    CHECK(vbson_same(with(strict), TEXT(twice), TEXT("{\"a\":2}")) == VBSON_NOT_EXTENDED_JSON);
    CHECK(vbson_same(with(strict), TEXT("1"), TEXT(within)) == VBSON_NOT_EXTENDED_JSON);
    CHECK(vbson_same(with(strict), TEXT("{\"a\":1,\"b\":{\"a\":2}}"), TEXT("{\"b\":{\"a\":2},\"a\":1}")) == VBSON_OK);
    CHECK(vbson_same(with(strict), TEXT("!"), TEXT(twice)) == VBSON_NOT_JSON);
    CHECK(vbson_same(with(V1), TEXT(v1), TEXT(v2)) == VBSON_OK && vbson_same(NULL, TEXT(v1), TEXT(v2)) == VBSON_NOT_EXTENDED_JSON);
    CHECK(vbson_same(with(V1), TEXT("{\"$regex\":\"a\",\"$options\":\"i\"}"),
        TEXT("{\"$regularExpression\":{\"pattern\":\"a\",\"options\":\"i\"}}")) == VBSON_OK);
    CHECK(vbson_same(with(all), TEXT(v1), TEXT(v2)) == VBSON_OK && vbson_same(with(all), TEXT(v1), TEXT(twice)) == VBSON_NOT_EXTENDED_JSON);
    static const uint32_t none[] = {AS_GIVEN, FINITE | AS_GIVEN, 15, LAYOUT, FINITE | LAYOUT, 31, OTHER_SIZE, UINT32_MAX};
    for (size_t i = 0; i < sizeof none / sizeof *none; i++) {
        uint64_t number = 7;
        CHECK(vbson_same(with(none[i]), TEXT("1"), TEXT("1")) == VBSON_INVALID_ARGUMENT && vbson_same(with(none[i]), TEXT("!"), TEXT("!")) == VBSON_INVALID_ARGUMENT);
        CHECK(vbson_hash(with(none[i]), TEXT("1"), &number) == VBSON_INVALID_ARGUMENT && number == 7);
    }
}

static uint64_t hash_by(uint32_t fields, const char *text) {
    uint64_t number = 0;
    CHECK(vbson_hash(with(fields), TEXT(text), &number) == VBSON_OK);
    return number;
}

static uint64_t hash_of(const char *text) { return hash_by(0, text); }

static void hash(void) {
    uint64_t number = 7;
    CHECK(hash_of("{\"a\":1,\"b\":[2,3]}") == hash_of("{ \"b\": [2, {\"$numberInt\":\"3\"}], \"a\": 1 }"));
    CHECK(hash_of("[1,2]") != hash_of("[2,1]"));
    CHECK(hash_of("{\"a\":1}") != hash_of("{\"a\":2}"));
    /* SipHash-1-3 under the key 0 of no bytes; python_calls.py has more */
    CHECK(hash_of("null") == UINT64_C(0xd1fba762150c532c));
    CHECK(vbson_hash(NULL, TEXT("]"), &number) == VBSON_NOT_JSON && number == 7);
    CHECK(vbson_hash(NULL, TEXT("{\"$oid\":\"x\"}"), &number) == VBSON_BAD_OBJECT_ID && number == 7);
    CHECK(vbson_hash(NULL, TEXT("1e400"), &number) == VBSON_NOT_JSON && number == 7);
    CHECK(vbson_hash(NULL, TEXT("{\"$date\":\"x\"}"), &number) == VBSON_NOT_EXTENDED_JSON && number == 7);
    CHECK(vbson_hash(NULL, TEXT("[12.5]"), &number) == VBSON_NOT_EXTENDED_JSON && number == 7);
    CHECK(hash_by(FINITE, "[12.5]") == hash_by(FINITE, "[{\"$numberDouble\":\"1.25e1\"}]"));
    CHECK(hash_by(FINITE, "[12.5]") != hash_by(FINITE, "[-12.5]"));
    CHECK(hash_by(FINITE | DISTINCT | V1, "null") == UINT64_C(0xd1fba762150c532c));
    CHECK(hash_of("{\"a\":1,\"a\":2}") == hash_of("{\"a\":2}"));
    CHECK(vbson_hash(with(DISTINCT), TEXT("{\"a\":1,\"a\":2}"), &number) == VBSON_NOT_EXTENDED_JSON && number == 7);
    CHECK(hash_by(V1, "{\"$date\":\"1970-01-01T01:00:00+0100\"}") == hash_of("{\"$date\":{\"$numberLong\":\"0\"}}"));
    CHECK(vbson_hash(NULL, TEXT("{\"$date\":\"1970-01-01T01:00:00+0100\"}"), &number) == VBSON_NOT_EXTENDED_JSON && number == 7);
}

/* ---- documents */

/* {"b": 5, "a": 1.5} and {"a": 5} */
static const uint8_t pair[] = {0x17, 0, 0, 0, 0x10, 'b', 0, 5, 0, 0, 0, 1, 'a', 0, 0, 0, 0, 0, 0, 0, 0xf8, 0x3f, 0};
static const uint8_t five[] = {12, 0, 0, 0, 0x10, 'a', 0, 5, 0, 0, 0, 0};
static const uint8_t truth_of_two[] = {9, 0, 0, 0, 8, 'a', 0, 2, 0};
/* {"ts": timestamp 1, 2, "at": 500 milliseconds after 1970} */
static const uint8_t stored[] = {29, 0, 0, 0, 0x11, 't', 's', 0, 2, 0, 0, 0, 1, 0, 0, 0, 9, 'a', 't', 0, 0xf4, 1, 0, 0, 0, 0, 0, 0, 0};

static int decodes(uint32_t mode, uint32_t fields, const uint8_t *bytes, size_t len, const char *wanted) {
    vbson_buffer out = VBSON_BUFFER_INIT;
    int is_right = vbson_decode(mode, with(fields), bytes, len, &out) == VBSON_OK && out.len == strlen(wanted)
        && out.size == out.len + 1 && memcmp(out.bytes, wanted, out.size) == 0;
    vbson_buffer_free(&out);
    return is_right && vbson_is_document(bytes, len) == VBSON_OK;
}

static const uint8_t kept[] = "before";

static int is_kept(const vbson_buffer *out) {
    return out->bytes == kept && out->size == 7 && out->len == 6;
}

static int refuses_bytes(uint32_t mode, uint32_t fields, const uint8_t *bytes, size_t len, uint32_t status) {
    vbson_buffer out = {kept, 7, 6};
    return vbson_decode(mode, with(fields), bytes, len, &out) == status && is_kept(&out);
}

/* Whether the buffer has the text, with a NUL in a block of its own. */
static int has(const vbson_buffer *it, const char *wanted) {
    return it->len == strlen(wanted) && it->size == it->len + 1 && memcmp(it->bytes, wanted, it->size) == 0;
}

/* Whether the bytes are explained by the code and the message, and by the parts of which it is made. */
static int explains_bytes(uint32_t fields, const uint8_t *bytes, size_t len, uint32_t code, const char *wanted) {
    vbson_error out = VBSON_ERROR_INIT;
    char message[200] = "";
    int is_right = vbson_explain_document(with(fields), bytes, len, &out) == VBSON_OK && out.code == code && has(&out.message, wanted)
        && out.line == 0 && out.column == 0 && out.path.len == 5 && vbson_is_document(out.path.bytes, 5) == VBSON_OK;
    if (code == VBSON_NOT_A_DOCUMENT) snprintf(message, sizeof message, "not a document at byte %zu (%s)", out.offset, vbson_chars(&out.reason));
    if (code == VBSON_NOT_REPRESENTABLE) snprintf(message, sizeof message, "not representable (%s)", vbson_chars(&out.reason));
    is_right = is_right && strcmp(message, wanted) == 0 && (code == VBSON_NOT_A_DOCUMENT || out.offset == 0);
    if (!is_right) printf("%u %zu %s\n", out.code, out.offset, vbson_chars(&out.message));
    vbson_error_free(&out);
    return is_right;
}

static void decode(void) {
    CHECK(decodes(VBSON_CANONICAL, 0, five, sizeof five, "{\"a\":{\"$numberInt\":\"5\"}}"));
    CHECK(decodes(VBSON_RELAXED, 0, five, sizeof five, "{\"a\":5}"));
    CHECK(decodes(VBSON_SHOW, 0, five, sizeof five, "{ \"a\": 5 }"));
    CHECK(decodes(VBSON_RELAXED, FINITE, pair, sizeof pair, "{\"a\":1.5,\"b\":5}"));
    CHECK(decodes(VBSON_SHOW, 0, pair, sizeof pair, "{ \"b\": 5, \"a\": Double(0x3ff8000000000000) }"));
    CHECK(decodes(VBSON_CANONICAL, 0, (const uint8_t *)"\5\0\0\0", 5, "{}"));
    CHECK(refuses_bytes(VBSON_RELAXED, 0, pair, sizeof pair, VBSON_NOT_REPRESENTABLE));
    CHECK(refuses_bytes(VBSON_CANONICAL, 0, pair, sizeof pair, VBSON_NOT_REPRESENTABLE));
    CHECK(refuses_bytes(3, 0, five, sizeof five, VBSON_INVALID_ARGUMENT));
    CHECK(decodes(VBSON_RELAXED, FINITE | AS_GIVEN, pair, sizeof pair, "{\"b\":5,\"a\":1.5}"));
    CHECK(decodes(VBSON_SHOW, AS_GIVEN, pair, sizeof pair, "{ \"b\": 5, \"a\": Double(0x3ff8000000000000) }"));
    CHECK(refuses_bytes(VBSON_RELAXED, AS_GIVEN, pair, sizeof pair, VBSON_NOT_REPRESENTABLE));
    const char *stamp = "{\"ts\":{\"$timestamp\":{\"t\":1,\"i\":2}},\"at\":{\"$date\":\"1970-01-01T00:00:00.500Z\"}}";
    CHECK(decodes(VBSON_RELAXED, FINITE | AS_GIVEN | LAYOUT, BYTES(stored), stamp) && decodes(VBSON_RELAXED, AS_GIVEN | LAYOUT, BYTES(stored), stamp));
    stamp = "{\"ts\":{\"$timestamp\":{\"i\":2,\"t\":1}},\"at\":{\"$date\":\"1970-01-01T00:00:00.5Z\"}}";
    CHECK(decodes(VBSON_RELAXED, FINITE | AS_GIVEN, BYTES(stored), stamp) && decodes(VBSON_RELAXED, AS_GIVEN, BYTES(stored), stamp));
    stamp = "{\"at\":{\"$date\":\"1970-01-01T00:00:00.500Z\"},\"ts\":{\"$timestamp\":{\"i\":2,\"t\":1}}}";
    CHECK(decodes(VBSON_RELAXED, FINITE | LAYOUT, BYTES(stored), stamp) && decodes(VBSON_RELAXED, LAYOUT, BYTES(stored), stamp));
    stamp = "{\"ts\":{\"$timestamp\":{\"t\":1,\"i\":2}},\"at\":{\"$date\":{\"$numberLong\":\"500\"}}}";
    CHECK(decodes(VBSON_CANONICAL, FINITE | AS_GIVEN | LAYOUT, BYTES(stored), stamp) && decodes(VBSON_CANONICAL, AS_GIVEN | LAYOUT, BYTES(stored), stamp));
    /* {"b": 5, "b": 6}, in each order and mode */
    static const uint8_t twice[] = {0x13, 0, 0, 0, 0x10, 'b', 0, 5, 0, 0, 0, 0x10, 'b', 0, 6, 0, 0, 0, 0};
    for (uint32_t fields = 0; fields < OTHER_SIZE; fields++) {
        uint32_t status = (fields & V1) != 0 ? VBSON_INVALID_ARGUMENT : (fields & DISTINCT) != 0 ? VBSON_NOT_A_DOCUMENT : VBSON_OK;
        for (uint32_t mode = 0; mode < 3; mode++)
            if (status != VBSON_OK) CHECK(refuses_bytes(mode, fields, BYTES(twice), status));
        if (status == VBSON_OK) CHECK(decodes(VBSON_RELAXED, fields, BYTES(twice), "{\"b\":6}"));
        if ((fields & V1) == 0) CHECK(decodes(VBSON_RELAXED, fields | FINITE, BYTES(pair), (fields & AS_GIVEN) != 0 ? "{\"b\":5,\"a\":1.5}" : "{\"a\":1.5,\"b\":5}"));
    }
    CHECK(refuses_bytes(UINT32_MAX, UINT32_MAX, five, 0, VBSON_INVALID_ARGUMENT));
    for (size_t len = 0; len < sizeof five; len++) {
        CHECK(refuses_bytes(VBSON_SHOW, 0, five, len, VBSON_NOT_A_DOCUMENT) && vbson_is_document(five, len) == VBSON_NOT_A_DOCUMENT);
    }
    CHECK(refuses_bytes(VBSON_SHOW, 0, (const uint8_t *)"\5\0\0\0\0", 6, VBSON_NOT_A_DOCUMENT));
    CHECK(refuses_bytes(VBSON_RELAXED, 0, truth_of_two, sizeof truth_of_two, VBSON_NOT_A_DOCUMENT));
}

static void explain_document(void) {
    static const struct { const char *bytes; size_t len; const char *words; } none[] = {
        {"", 0, "not a document at byte 0 (ends too early)"},
        {"\5\0\0", 4, "not a document at byte 4 (ends too early)"},
        {"\6\0\0\0", 5, "not a document at byte 0 (invalid length)"},
        {"\5\0\0\0\0", 6, "not a document at byte 5 (trailing bytes after the document)"},
        {"\10\0\0\0\24a\0", 8, "not a document at byte 4 (unknown element type)"},
        {"\10\0\0\0\12\377\0", 8, "not a document at byte 5 (invalid UTF-8)"},
        {"\16\0\0\0\2a\0\2\0\0\0xy", 14, "not a document at byte 12 (missing NUL after a string)"},
    };
    for (size_t i = 0; i < sizeof none / sizeof *none; i++) {
        CHECK(explains_bytes(i % 2, (const uint8_t *)none[i].bytes, none[i].len, VBSON_NOT_A_DOCUMENT, none[i].words));
    }
    CHECK(explains_bytes(0, truth_of_two, sizeof truth_of_two, VBSON_NOT_A_DOCUMENT, "not a document at byte 7 (a boolean is neither 0 nor 1)"));
    CHECK(explains_bytes(0, five, sizeof five, VBSON_OK, "") && explains_bytes(31, five, sizeof five, VBSON_OK, ""));
    CHECK(explains_bytes(FINITE, pair, sizeof pair, VBSON_OK, ""));
    CHECK(explains_bytes(AS_GIVEN | V1, pair, sizeof pair, VBSON_NOT_REPRESENTABLE, "not representable (a finite double)"));
    static const uint8_t twice[] = {0x13, 0, 0, 0, 0x10, 'b', 0, 5, 0, 0, 0, 0x10, 'b', 0, 6, 0, 0, 0, 0};
    CHECK(explains_bytes(FINITE, twice, sizeof twice, VBSON_OK, ""));
    CHECK(explains_bytes(DISTINCT, twice, sizeof twice, VBSON_NOT_A_DOCUMENT, "not a document at byte 12 (duplicate key)"));
    const vbson_error was = {77, 7, 8, 9, {kept, 7, 6}, {kept, 6, 5}, {kept, 5, 4}};
    vbson_error out = was;
    CHECK(explains_bytes(LAYOUT, pair, sizeof pair, VBSON_NOT_REPRESENTABLE, "not representable (a finite double)"));
    CHECK(vbson_explain_document(with(OTHER_SIZE), BYTES(five), &out) == VBSON_INVALID_ARGUMENT && memcmp(&out, &was, sizeof out) == 0);
    CHECK(vbson_explain_document(with(UINT32_MAX), five, 0, &out) == VBSON_INVALID_ARGUMENT && memcmp(&out, &was, sizeof out) == 0);
}

static int encodes(uint32_t fields, const char *text, const uint8_t *wanted, size_t len) {
    vbson_buffer out = VBSON_BUFFER_INIT;
    int is_right = vbson_encode(with(fields), TEXT(text), &out) == VBSON_OK && out.len == len && out.size == len + 1
        && memcmp(out.bytes, wanted, len) == 0 && out.bytes[len] == 0;
    vbson_buffer_free(&out);
    return is_right;
}

static int refuses_text(uint32_t fields, const char *text, uint32_t status) {
    vbson_buffer out = {kept, 7, 6};
    return vbson_encode(with(fields), TEXT(text), &out) == status && is_kept(&out);
}

static void encode(void) {
    static const uint8_t sorted[] = {0x17, 0, 0, 0, 1, 'a', 0, 0, 0, 0, 0, 0, 0, 0xf8, 0x3f, 0x10, 'b', 0, 5, 0, 0, 0, 0};
    CHECK(encodes(0, "{\"a\":5}", five, sizeof five));
    CHECK(encodes(0, "{\"a\":7,\"a\":{\"$numberInt\":\"5\"}}", five, sizeof five));
    CHECK(encodes(FINITE, "{\"b\":5,\"a\":1.5}", sorted, sizeof sorted));
    CHECK(encodes(0, "{}", (const uint8_t *)"\5\0\0\0", 5));
    CHECK(encodes(FINITE | AS_GIVEN, "{\"b\":5,\"a\":1.5}", pair, sizeof pair));
    CHECK(encodes(AS_GIVEN, "{\"a\":7,\"a\":{\"$numberInt\":\"5\"}}", five, sizeof five));
    CHECK(refuses_text(AS_GIVEN, "{\"b\":5,\"a\":1.5}", VBSON_NOT_EXTENDED_JSON));
    CHECK(refuses_text(AS_GIVEN, "[{}]", VBSON_NOT_A_DOCUMENT));
    CHECK(refuses_text(AS_GIVEN, "{\"b\\u0000\":1,\"a\":{\"$regularExpression\":{\"pattern\":\"\\u0000\",\"options\":\"\"}}}", VBSON_ZERO_IN_KEY));
    CHECK(encodes(FINITE | AS_GIVEN | LAYOUT, "{\"b\":5,\"a\":1.5}", pair, sizeof pair) && encodes(FINITE | LAYOUT, "{\"b\":5,\"a\":1.5}", sorted, sizeof sorted));
    CHECK(encodes(AS_GIVEN | LAYOUT, "{\"ts\":{\"$timestamp\":{\"i\":2,\"t\":1}},\"at\":{\"$date\":\"1970-01-01T00:00:00.5Z\"}}", BYTES(stored)));
    for (uint32_t fields = 0; fields < OTHER_SIZE; fields++) {
        const char *v1 = "{\"a\":{\"$date\":\"1970-01-01T01:00:00+0100\"}}", *twice = "{\"a\":7,\"a\":5}";
        static const uint8_t epoch[] = {0x10, 0, 0, 0, 9, 'a', 0, 0, 0, 0, 0, 0, 0, 0, 0, 0};
        CHECK((fields & V1) != 0 ? encodes(fields, v1, BYTES(epoch)) : refuses_text(fields, v1, VBSON_NOT_EXTENDED_JSON));
        CHECK((fields & DISTINCT) != 0 ? refuses_text(fields, twice, VBSON_NOT_EXTENDED_JSON) : encodes(fields, twice, BYTES(five)));
        CHECK(encodes(fields, "{\"a\":5}", BYTES(five)) && refuses_text(fields, "[5]", VBSON_NOT_A_DOCUMENT) && refuses_text(fields, "{\"a\\u0000\":1}", VBSON_ZERO_IN_KEY));
    }
    CHECK(refuses_text(OTHER_SIZE, "{}", VBSON_INVALID_ARGUMENT));
    CHECK(refuses_text(UINT32_MAX, "!", VBSON_INVALID_ARGUMENT));
    CHECK(refuses_text(0, "{", VBSON_NOT_JSON));
    CHECK(refuses_text(0, "{\"a\":{\"$oid\":\"5\"}}", VBSON_BAD_OBJECT_ID));
    CHECK(refuses_text(0, "{\"b\":5,\"a\":1.5}", VBSON_NOT_EXTENDED_JSON));
    static const char *const others[] = {"5", "[]", "null", "\"a\"", "[{}]", "{\"$numberLong\":\"5\"}", "{\"$code\":\"f\",\"$scope\":{}}"};
    for (size_t i = 0; i < sizeof others / sizeof *others; i++) CHECK(refuses_text(0, others[i], VBSON_NOT_A_DOCUMENT));
    CHECK(refuses_text(0, "{\"a\":[{\"b\\u0000\":1}]}", VBSON_ZERO_IN_KEY));
    CHECK(refuses_text(0, "{\"a\":{\"$regularExpression\":{\"pattern\":\"\\u0000\",\"options\":\"\"}}}", VBSON_ZERO_IN_REGEX));
}

/* Each cut and each turned bit of a document: an answer, and the same from each call that reads one. */
static void damaged(void) {
    const char *text = "{\"a\":[1,{\"$numberLong\":\"5\"},\"xyz\"],\"b\":{\"$oid\":\"53e37d08776f724e42000000\"},\"c\":true,"
        "\"d\":{\"$code\":\"f\",\"$scope\":{\"x\":1}},\"e\":{\"$binary\":{\"base64\":\"AQID\",\"subType\":\"02\"}},"
        "\"f\":{\"$regularExpression\":{\"pattern\":\"a\",\"options\":\"xi\"}},\"g\":{\"$symbol\":\"s\"},"
        "\"h\":{\"$dbPointer\":{\"$ref\":\"n\",\"$id\":{\"$oid\":\"53e37d08776f724e42000000\"}}},\"i\":{\"$minKey\":1}}";
    vbson_buffer whole = VBSON_BUFFER_INIT;
    CHECK(vbson_encode(NULL, TEXT(text), &whole) == VBSON_OK && whole.len > 100);
    size_t others = 0;
    for (size_t bit = 0; bit < 9 * whole.len; bit++) {
        /* (a block of its own, so that the sanitizer reports a byte past the end) */
        size_t len = bit < 8 * whole.len ? whole.len : bit - 8 * whole.len;
        uint8_t *bytes = malloc(len + 1);
        memcpy(bytes, whole.bytes, len);
        if (len == whole.len) bytes[bit / 8] ^= (uint8_t)(1 << bit % 8);
        bytes = realloc(bytes, len > 0 ? len : 1);
        vbson_error error = VBSON_ERROR_INIT;
        vbson_buffer shown = VBSON_BUFFER_INIT;
        uint32_t is_one = vbson_is_document(bytes, len), status = vbson_decode(VBSON_SHOW, NULL, bytes, len, &shown);
        CHECK(vbson_explain_document(with(FINITE), bytes, len, &error) == VBSON_OK && error.code == is_one && error.offset <= len);
        CHECK(status == is_one && (is_one == VBSON_OK || is_one == VBSON_NOT_A_DOCUMENT));
        others += is_one == VBSON_NOT_A_DOCUMENT;
        vbson_error_free(&error);
        vbson_buffer_free(&shown);
        free(bytes);
    }
    CHECK(others > 2 * whole.len && others < 9 * whole.len);
    vbson_buffer_free(&whole);
}

/* ---- small values */

static uint8_t room[64];
static size_t len;

/* The buffer has the text, followed by its old content. */
static int holds(const char *text) {
    size_t i = strlen(text);
    if (len != i || memcmp(room, text, i) != 0) return 0;
    while (i < sizeof room && room[i] == 0xa5) i++;
    return i == sizeof room;
}

static uint8_t *fresh(void) {
    len = 99;
    return memset(room, 0xa5, sizeof room);
}

static int is_fresh(size_t wanted_len) {
    size_t i = 0;
    while (i < sizeof room && room[i] == 0xa5) i++;
    return i == sizeof room && len == wanted_len;
}

static int decimal_prints(const char *text, const char *wanted) {
    uint8_t bytes[16] = {0};
    return vbson_decimal128_parse(TEXT(text), bytes) == VBSON_OK
        && vbson_decimal128_print(bytes, fresh(), sizeof room, &len) == VBSON_OK && holds(wanted);
}

static void decimals(void) {
    static const uint8_t five_bytes[16] = {5, 0, 0, 0, 0, 0, 0, 0, 0, 0, 0, 0, 0, 0, 0x40, 0x30};
    uint8_t bytes[16] = {9, 9};
    CHECK(vbson_decimal128_parse(TEXT("5"), bytes) == VBSON_OK && memcmp(bytes, five_bytes, 16) == 0);
    CHECK(decimal_prints("19.90", "19.90"));
    CHECK(decimal_prints("-inf", "-Infinity"));
    CHECK(decimal_prints("nan", "NaN"));
    CHECK(decimal_prints("1E+3", "1E+3"));
    /* the two longest kinds of texts */
    CHECK(decimal_prints("-1234567890123456789012345678901234E-6176", "-1.234567890123456789012345678901234E-6143"));
    CHECK(len == VBSON_DECIMAL128_MAX_LENGTH);
    CHECK(decimal_prints("-0.000001234567890123456789012345678901234", "-0.000001234567890123456789012345678901234"));
    CHECK(len == VBSON_DECIMAL128_MAX_LENGTH);
    CHECK(vbson_decimal128_print(five_bytes, fresh(), 0, &len) == VBSON_BUFFER_TOO_SMALL && is_fresh(1));
    CHECK(vbson_decimal128_print(five_bytes, fresh(), 1, &len) == VBSON_OK && holds("5"));
    static const char *const none[] = {"", "x", "\xff", "1e", "1.2.3", "12345678901234567890123456789012345", "1E6145"};
    for (size_t i = 0; i < sizeof none / sizeof *none; i++) {
        CHECK(vbson_decimal128_parse(TEXT(none[i]), bytes) == VBSON_INVALID_STRING && memcmp(bytes, five_bytes, 16) == 0);
    }
}

static void object_ids(void) {
    static const uint8_t wanted[12] = {0x53, 0xe3, 0x7d, 0x08, 0x77, 0x6f, 0x72, 0x4e, 0x42};
    uint8_t id[12] = {1, 2, 3};
    CHECK(vbson_object_id_parse(TEXT("53E37d08776f724e42000000"), id) == VBSON_OK && memcmp(id, wanted, 12) == 0);
    CHECK(vbson_object_id_print(id, fresh(), sizeof room, &len) == VBSON_OK && holds("53e37d08776f724e42000000"));
    CHECK(vbson_object_id_print(id, fresh(), 24, &len) == VBSON_OK && holds("53e37d08776f724e42000000"));
    CHECK(vbson_object_id_print(id, fresh(), 23, &len) == VBSON_BUFFER_TOO_SMALL && is_fresh(24));
    static const char *const none[] = {"", "53e3", "53e37d08776f724e4200000g", "53e37d08776f724e420000000", "\xff"};
    for (size_t i = 0; i < sizeof none / sizeof *none; i++) {
        CHECK(vbson_object_id_parse(TEXT(none[i]), id) == VBSON_INVALID_STRING && memcmp(id, wanted, 12) == 0);
    }
}

static void moments(void) {
    int64_t millis = 0;
    CHECK(vbson_date_time_parse(TEXT("2020-06-01T00:42:40.292Z"), &millis) == VBSON_OK);
    CHECK(millis == INT64_C(1590972160292));
    CHECK(vbson_date_time_print(millis, fresh(), 24, &len) == VBSON_OK && holds("2020-06-01T00:42:40.292Z"));
    CHECK(vbson_date_time_print(millis, fresh(), 23, &len) == VBSON_BUFFER_TOO_SMALL && is_fresh(24));
    CHECK(vbson_date_time_print(0, fresh(), 20, &len) == VBSON_OK && holds("1970-01-01T00:00:00Z"));
    CHECK(vbson_date_time_print(INT64_C(-62167219200000), fresh(), 64, &len) == VBSON_OK);
    CHECK(holds("0000-01-01T00:00:00Z"));
    CHECK(vbson_date_time_print(INT64_C(-62167219200001), fresh(), 64, &len) == VBSON_NOT_REPRESENTABLE && is_fresh(99));
    CHECK(vbson_date_time_print(INT64_C(253402300800000), fresh(), 64, &len) == VBSON_NOT_REPRESENTABLE && is_fresh(99));
    CHECK(vbson_date_time_print(INT64_MAX, fresh(), 0, &len) == VBSON_NOT_REPRESENTABLE && is_fresh(99));
    CHECK(vbson_date_time_print(INT64_MIN, fresh(), 64, &len) == VBSON_NOT_REPRESENTABLE && is_fresh(99));
    CHECK(vbson_date_time_parse(TEXT("1969-12-31T23:59:59.9995+00:00"), &millis) == VBSON_OK && millis == 0);
    static const char *const none[] = {"", "2020", "\xff", "2020-02-30T00:00:00Z", "2020-06-01T00:42:60Z"};
    for (size_t i = 0; i < sizeof none / sizeof *none; i++) {
        CHECK(vbson_date_time_parse(TEXT(none[i]), &millis) == VBSON_INVALID_STRING && millis == 0);
    }
}

static void same_documents(void) {
    /* {"a": 1.5, "b": 5}, {"b": 5, "b": 5} */
    static const uint8_t sorted[] = {0x17, 0, 0, 0, 1, 'a', 0, 0, 0, 0, 0, 0, 0, 0xf8, 0x3f, 0x10, 'b', 0, 5, 0, 0, 0, 0};
    static const uint8_t twice[] = {0x13, 0, 0, 0, 0x10, 'b', 0, 5, 0, 0, 0, 0x10, 'b', 0, 5, 0, 0, 0, 0};
    static const uint8_t empty[] = {5, 0, 0, 0, 0};
    uint32_t all = FINITE | DISTINCT | V1, strict = DISTINCT;
    uint64_t number = 0;
    for (uint32_t fields = 0; fields <= OTHER_SIZE; fields++) {
        int is_none = fields == OTHER_SIZE || (fields & (AS_GIVEN | LAYOUT)) != 0;
        CHECK(vbson_same_documents(with(fields), BYTES(pair), BYTES(sorted)) == (is_none ? VBSON_INVALID_ARGUMENT : VBSON_OK));
        CHECK(vbson_same_documents(with(fields), BYTES(pair), BYTES(empty)) == (is_none ? VBSON_INVALID_ARGUMENT : VBSON_DIFFERENT));
        number = 7;
        CHECK(vbson_hash_document(with(fields), BYTES(sorted), &number) == (is_none ? VBSON_INVALID_ARGUMENT : VBSON_OK));
        CHECK(number == (is_none ? 7 : hash_by(FINITE, "{\"b\":5,\"a\":1.5}")));
    }
    CHECK(vbson_same_documents(NULL, BYTES(twice), BYTES(twice)) == VBSON_OK);
    CHECK(vbson_same_documents(with(strict), BYTES(twice), BYTES(empty)) == VBSON_NOT_A_DOCUMENT);
    CHECK(vbson_same_documents(with(all), BYTES(empty), BYTES(twice)) == VBSON_NOT_A_DOCUMENT);
    CHECK(vbson_same_documents(NULL, pair, 4, BYTES(pair)) == VBSON_NOT_A_DOCUMENT && vbson_same_documents(NULL, BYTES(pair), pair, 4) == VBSON_NOT_A_DOCUMENT);
    CHECK(vbson_same_documents(NULL, TEXT("{}"), TEXT("{}")) == VBSON_NOT_A_DOCUMENT);
    CHECK(vbson_hash_document(NULL, BYTES(twice), &number) == VBSON_OK && number == hash_of("{\"b\":5}"));
    number = 7;
    CHECK(vbson_hash_document(with(strict), BYTES(twice), &number) == VBSON_NOT_A_DOCUMENT && number == 7);
    CHECK(vbson_hash_document(NULL, TEXT("{}"), &number) == VBSON_NOT_A_DOCUMENT && number == 7);
    CHECK(vbson_hash_document(NULL, BYTES(empty), &number) == VBSON_OK && number == hash_of("{}"));
}

/* ---- options */

enum { WRITES = 1, READS = 2, EXPLAINS = 4, DECODES = 8, MIXED = 16, ALL = WRITES | READS | EXPLAINS | DECODES };

/* The kind, or MIXED, if some of these calls reject the options and leave everything as it was, and others don't. */
static int all_of(int kind, const uint32_t *statuses, int count, int is_kept) {
    int rejected = 0;
    for (int i = 0; i < count; i++) rejected += statuses[i] == VBSON_INVALID_ARGUMENT;
    return rejected == 0 ? 0 : rejected == count && is_kept ? kind : MIXED;
}

/* The kinds of the calls that reject the options. */
static int rejecting(const vbson_options *it) {
    vbson_buffer out[] = {{kept, 7, 6}, {kept, 7, 6}, {kept, 7, 6}};
    vbson_lines lines[] = {{{kept, 7, 6}, {kept, 7, 6}, 3, 4}, {{kept, 7, 6}, {kept, 7, 6}, 3, 4}};
    vbson_documents documents = {{kept, 7, 6}, {kept, 7, 6}, 3, 4};
    vbson_error errors[] = {{77, 7, 8, 9, {kept, 7, 6}, {kept, 7, 6}, {kept, 7, 6}}, {77, 7, 8, 9, {kept, 7, 6}, {kept, 7, 6}, {kept, 7, 6}}};
    uint64_t numbers[] = {7, 7, 7, 7};
    uint32_t writes[] = {vbson_convert(VBSON_RELAXED, it, TEXT("{}"), &out[0]), vbson_encode(it, TEXT("{}"), &out[1]),
        vbson_convert_lines(VBSON_RELAXED, it, TEXT("{}"), &lines[0]), vbson_encode_lines(it, TEXT("{}"), &lines[1]),
        vbson_first_rejected_line(VBSON_RELAXED, it, TEXT("["), &numbers[2]), vbson_first_unencoded_line(it, TEXT("[]"), &numbers[3])};
    uint32_t decoded[] = {vbson_decode(VBSON_RELAXED, it, BYTES(five), &out[2]), vbson_decode_documents(VBSON_RELAXED, it, BYTES(five), &documents)};
    uint32_t reads[] = {vbson_same(it, TEXT("1"), TEXT("1")), vbson_hash(it, TEXT("1"), &numbers[0]),
        vbson_same_documents(it, BYTES(five), BYTES(five)), vbson_hash_document(it, BYTES(five), &numbers[1])};
    uint32_t explains[] = {vbson_explain(it, TEXT("{}"), &errors[0]), vbson_explain_document(it, BYTES(five), &errors[1])};
    int is_kept_by_writes = is_kept(&out[0]) && is_kept(&out[1]) && is_kept(&lines[0].text) && is_kept(&lines[1].text)
        && lines[0].lines == 3 && lines[1].refused == 4 && numbers[2] == 7 && numbers[3] == 7;
    int found = all_of(WRITES, writes, 6, is_kept_by_writes) | all_of(READS, reads, 4, numbers[0] == 7 && numbers[1] == 7)
        | all_of(EXPLAINS, explains, 2, is_kept(&errors[0].path) && is_kept(&errors[1].message) && errors[0].code == 77)
        | all_of(DECODES, decoded, 2, is_kept(&out[2]) && is_kept(&documents.text) && documents.consumed == 4);
    vbson_buffer *const texts[] = {&out[0], &out[1], &out[2], &lines[0].text, &lines[0].diagnostics, &lines[1].text, &lines[1].diagnostics,
        &documents.text, &documents.diagnostics, &errors[0].path, &errors[0].reason, &errors[0].message, &errors[1].path, &errors[1].reason,
        &errors[1].message};
    for (size_t i = 0; i < sizeof texts / sizeof *texts; i++)
        if (!is_kept(texts[i])) vbson_buffer_free(texts[i]);
    return found;
}

static void options(void) {
    const vbson_options specified = VBSON_OPTIONS_INIT, mongodb = vbson_options_mongodb();
    CHECK(rejecting(NULL) == 0 && rejecting(&specified) == 0 && rejecting(&mongodb) == READS);
    CHECK(mongodb.doubles == VBSON_DOUBLES_FINITE && mongodb.key_order == VBSON_KEYS_AS_GIVEN && mongodb.duplicate_keys == 0 && mongodb.v1 == 0);
    CHECK(mongodb.layout == VBSON_LAYOUT_MONGODB && specified.layout == VBSON_LAYOUT_SPECIFIED && sizeof specified == 32);
    for (uint32_t fields = 0; fields < OTHER_SIZE; fields++) {
        int wanted = ((fields & V1) != 0 ? DECODES : 0) | ((fields & (AS_GIVEN | LAYOUT)) != 0 ? READS : 0);
        CHECK(rejecting(with(fields)) == wanted);
    }
    static const size_t sizes[] = {0, 1, 8, 24, 28, sizeof specified - 1, sizeof specified + 1, 2 * sizeof specified, SIZE_MAX};
    for (size_t i = 0; i < sizeof sizes / sizeof *sizes; i++) {
        vbson_options it = mongodb;
        it.size = sizes[i];
        CHECK(rejecting(&it) == ALL);
    }
    static const uint32_t values[] = {2, 3, 256, 1u << 31, UINT32_MAX};
    for (size_t i = 0; i < 5 * sizeof values / sizeof *values; i++) {
        vbson_options it = VBSON_OPTIONS_INIT;
        uint32_t *const fields[] = {&it.doubles, &it.key_order, &it.duplicate_keys, &it.v1, &it.layout};
        *fields[i % 5] = values[i / 5];
        CHECK(rejecting(&it) == ALL);
    }
}

int main(void) {
    CHECK(vbson_version() == VBSON_VERSION);
    convert();
    convert_refused();
    convert_options();
    convert_preprocessed();
    keep_order();
    layout();
    explain();
    errors();
    same();
    canonical();
    same_by_options();
    hash();
    same_documents();
    decode();
    explain_document();
    encode();
    damaged();
    decimals();
    object_ids();
    moments();
    options();
    CHECK(strcmp(vbson_status_text(VBSON_BUFFER_TOO_SMALL), "buffer too small") == 0);
    return end();
}
