/* Blocks: lines that are converted, lines that become documents, and documents that become lines. */
#include "check.h"

/* ---- lines */

static int is_text(const vbson_buffer *text, const char *wanted) {
    return text->len == strlen(wanted) && text->size == text->len + 1 && memcmp(text->bytes, wanted, text->size) == 0;
}

static int gives(uint32_t mode, uint32_t fields, const char *block, const char *text, const char *told, uint64_t lines, uint64_t refused) {
    vbson_lines out = VBSON_LINES_INIT;
    int is_right = vbson_convert_lines(mode, with(fields), TEXT(block), &out) == VBSON_OK && is_text(&out.text, text)
        && is_text(&out.diagnostics, told) && out.lines == lines && out.refused == refused;
    if (!is_right) printf("%s%s", vbson_chars(&out.text), vbson_chars(&out.diagnostics));
    vbson_buffer_free(&out.text);
    vbson_buffer_free(&out.diagnostics);
    return is_right;
}

static void convert_lines(void) {
    CHECK(gives(VBSON_RELAXED, 0, "", "", "", 0, 0));
    CHECK(gives(VBSON_RELAXED, 0, "[ 1 ]", "[1]\n", "", 1, 0));
    CHECK(gives(VBSON_CANONICAL, 0, "\xef\xbb\xbf[1]\n\n \t\r\n2\n", "[{\"$numberInt\":\"1\"}]\n{\"$numberInt\":\"2\"}\n", "", 4, 0));
    CHECK(gives(VBSON_SHOW, 0, "[1]\n", "[1]\n", "", 1, 0));
    CHECK(gives(VBSON_RELAXED, 0, "[1\n{\"b\":2,\"a\":1}\n[1.5]\n{\"$oid\":\"5\"}", "{\"a\":1,\"b\":2}\n",
        "bson: line 1: not JSON at column 2 (unexpected end of input)\n"
        "bson: line 3: not Extended JSON at 0 (not a 64-bit integer; found 1.5)\n"
        "bson: line 4: bad object id at $oid (an object id has 24 digits, but \"5\" has 1)\n", 4, 3));
    CHECK(gives(VBSON_RELAXED, FINITE, "[1.5]\n", "[1.5]\n", "", 1, 0));
    const char *mixed = "{\"b\":1,\"b\":2}\n{\"$date\":\"1970-01-01T01:00:00+0100\"}\n{\"b\":1}\n", *date = "{\"$date\":\"1970-01-01T00:00:00Z\"}\n";
    const char *twice = "bson: line 1: not Extended JSON at b (duplicate key)\n";
    char written[100];
    snprintf(written, sizeof written, "{\"b\":2}\n%s{\"b\":1}\n", date);
    CHECK(gives(VBSON_RELAXED, V1, mixed, written, "", 3, 0) && gives(VBSON_RELAXED, AS_GIVEN | V1, mixed, written, "", 3, 0));
    CHECK(gives(VBSON_RELAXED, DISTINCT | V1, mixed, written + 8, twice, 3, 1) && gives(VBSON_RELAXED, FINITE | AS_GIVEN | DISTINCT | V1 | LAYOUT, mixed, written + 8, twice, 3, 1));
    CHECK(gives(VBSON_RELAXED, AS_GIVEN, "{\"b\":1,\"a\":2}\n[1.5]\n", "{\"b\":1,\"a\":2}\n",
        "bson: line 2: not Extended JSON at 0 (not a 64-bit integer; found 1.5)\n", 2, 1));
    CHECK(gives(VBSON_RELAXED, FINITE | AS_GIVEN, "{\"b\":1.5,\"a\":2}", "{\"b\":1.5,\"a\":2}\n", "", 1, 0));
    const char *moments = "{\"at\":{\"$date\":{\"$numberLong\":\"500\"}}}\n{\"$timestamp\":{\"i\":2,\"t\":1}}\n";
    CHECK(gives(VBSON_RELAXED, AS_GIVEN | LAYOUT, moments, "{\"at\":{\"$date\":\"1970-01-01T00:00:00.500Z\"}}\n{\"$timestamp\":{\"t\":1,\"i\":2}}\n", "", 2, 0));
    CHECK(gives(VBSON_RELAXED, LAYOUT, moments, "{\"at\":{\"$date\":\"1970-01-01T00:00:00.500Z\"}}\n{\"$timestamp\":{\"i\":2,\"t\":1}}\n", "", 2, 0));
    CHECK(gives(VBSON_RELAXED, AS_GIVEN, moments, "{\"at\":{\"$date\":\"1970-01-01T00:00:00.5Z\"}}\n{\"$timestamp\":{\"i\":2,\"t\":1}}\n", "", 2, 0));
    static const uint8_t before[] = "before";
    vbson_lines out = {{before, 7, 6}, {before, 7, 5}, 3, 4};
    CHECK(vbson_convert_lines(3, NULL, TEXT("1"), &out) == VBSON_INVALID_ARGUMENT);
    CHECK(vbson_convert_lines(VBSON_RELAXED, with(OTHER_SIZE), TEXT("1"), &out) == VBSON_INVALID_ARGUMENT);
    CHECK(out.text.bytes == before && out.text.size == 7 && out.text.len == 6 && out.diagnostics.bytes == before && out.diagnostics.len == 5);
    CHECK(out.lines == 3 && out.refused == 4);

    /* more than a block of the library's own */
    enum { LINES = 50000 };
    char *many = malloc(4 * LINES + 1);
    for (int i = 0; i < LINES; i++) memcpy(many + 4 * i, i % 7 == 3 ? "[!]\n" : "[1]\n", 5);
    vbson_lines all = VBSON_LINES_INIT;
    CHECK(vbson_convert_lines(VBSON_RELAXED, NULL, TEXT(many), &all) == VBSON_OK && all.lines == LINES && all.refused == 7143);
    CHECK(all.text.len == 4 * (LINES - 7143) && strncmp(vbson_chars(&all.diagnostics), "bson: line 4: not JSON at column 2 (expected a value)\n", 54) == 0);
    vbson_buffer_free(&all.text);
    vbson_buffer_free(&all.diagnostics);
    free(many);
}

/* The number of the first line that is rejected, or that has no bytes; 0 if there is none, or 1000 and the status. */
static uint64_t first_of(int is_encoded, uint32_t mode, uint32_t fields, const char *block) {
    uint64_t number = 77;
    uint32_t status = is_encoded ? vbson_first_unencoded_line(with(fields), TEXT(block), &number)
                                 : vbson_first_rejected_line(mode, with(fields), TEXT(block), &number);
    if (status == VBSON_OK) return number;
    CHECK(number == 77);
    return status == VBSON_NOT_FOUND ? 0 : 1000 + status;
}

static void first_lines(void) {
    for (uint32_t mode = 0; mode < 3; mode++) {
        CHECK(first_of(0, mode, 0, "") == 0 && first_of(0, mode, 0, "\n\n") == 0 && first_of(0, mode, 0, "\xef\xbb\xbf[1]\n \t\r\n{}") == 0);
        CHECK(first_of(0, mode, 0, "[1\n[") == 1 && first_of(0, mode, 0, "\xef\xbb\xbf[\n") == 1 && first_of(0, mode, AS_GIVEN, "\n1\n[1.5]\n[\n") == 3);
        CHECK(first_of(0, mode, FINITE, "\n1\n[1.5]\n[\n") == 4 && first_of(0, mode, FINITE | AS_GIVEN, "\n\xef\xbb\xbf[1]") == 2);
        CHECK(first_of(0, mode, AS_GIVEN | LAYOUT, "\n1\n[1.5]\n[\n") == 3 && first_of(0, mode, FINITE | LAYOUT, "\n1\n[1.5]\n[\n") == 4);
        CHECK(first_of(0, mode, DISTINCT, "{}\n{\"a\":1,\"a\":2}") == 2 && first_of(0, mode, 0, "{\"a\":1,\"a\":2}") == 0);
        CHECK(first_of(0, mode, V1, "{\"$date\":\"1970-01-01T01:00:00+0100\"}") == 0 && first_of(0, mode, 0, "{\"$date\":\"1970-01-01T01:00:00+0100\"}") == 1);
        CHECK(first_of(0, mode, OTHER_SIZE, "[") == 1001 && first_of(0, 3 + mode, 0, "[") == 1001);
    }
    CHECK(first_of(1, 0, 0, "{\"n\": 5}\n\n{}") == 0 && first_of(1, 0, 0, "{}\n[1]\n[") == 2 && first_of(1, 0, AS_GIVEN, "{\"a\\u0000\":1}\n[") == 1);
    CHECK(first_of(1, 0, 0, "{}\n[\n[1]") == 2 && first_of(1, 0, AS_GIVEN, "{\"a\":1.5}") == 1 && first_of(1, 0, FINITE | AS_GIVEN, "{\"a\":1.5}") == 0);
    CHECK(first_of(1, 0, AS_GIVEN | LAYOUT, "{\"a\":1.5}") == 1 && first_of(1, 0, FINITE | LAYOUT, "{\"a\":1.5}") == 0);
    CHECK(first_of(1, 0, DISTINCT, "{}\n{\"a\":1,\"a\":2}") == 2 && first_of(1, 0, 0, "{\"a\":1,\"a\":2}") == 0 && first_of(1, 0, OTHER_SIZE, "[") == 1001);
    CHECK(first_of(1, 0, V1, "{\"a\":{\"$date\":\"1970-01-01T01:00:00+0100\"}}\n[") == 2 && first_of(1, 0, 0, "{\"a\":{\"$date\":\"1970-01-01T01:00:00+0100\"}}") == 1);

    /* each, in the rest from the newline of the one before */
    enum { LINES = 50000 };
    char *many = malloc(4 * LINES + 1);
    for (int i = 0; i < LINES; i++) memcpy(many + 4 * i, i % 7 == 3 ? "[!]\n" : "[1]\n", 5);
    uint64_t line = 1, number = 0, found = 0, right = 0, at = 0;
    while (vbson_first_rejected_line(VBSON_RELAXED, NULL, (const uint8_t *)many + at, 4 * LINES - at, &number) == VBSON_OK) {
        line += number - 1, found++;
        right += line % 7 == 4;
        at = 4 * line - 1;
    }
    CHECK(found == 7143 && right == found);
    free(many);
}

/* ---- documents in a block, and lines that become documents */

static const char block[] = "\x0c\0\0\0\x10n\0\5\0\0\0\0" "\x09\0\0\0\x08" "a\0\2\0" "\x05\0\0\0\0";

static int decodes_all(uint32_t mode, uint32_t fields, const char *bytes, size_t len, const char *text, const char *told, uint64_t documents, uint64_t done) {
    vbson_documents out = VBSON_DOCUMENTS_INIT;
    uint8_t *exact = malloc(len > 0 ? len : 1);
    memcpy(exact, bytes, len);
    int is_right = vbson_decode_documents(mode, with(fields), exact, len, &out) == VBSON_OK && is_text(&out.text, text)
        && is_text(&out.diagnostics, told) && out.documents == documents && out.consumed == done;
    if (!is_right) printf("%s%s%d %d\n", vbson_chars(&out.text), vbson_chars(&out.diagnostics), (int)out.documents, (int)out.consumed);
    vbson_buffer_free(&out.text);
    vbson_buffer_free(&out.diagnostics);
    free(exact);
    return is_right;
}

static void decode_documents(void) {
    const char *boolean = "document 2 at byte 12: a boolean is neither 0 nor 1 at its byte 7\n";
    CHECK(decodes_all(VBSON_RELAXED, 0, "", 0, "", "", 0, 0));
    CHECK(decodes_all(VBSON_RELAXED, 0, block, 12, "{\"n\":5}\n", "", 1, 12));
    CHECK(decodes_all(VBSON_CANONICAL, 0, block, 26, "{\"n\":{\"$numberInt\":\"5\"}}\n{}\n", boolean, 3, 26));
    CHECK(decodes_all(VBSON_SHOW, AS_GIVEN, block, 26, "{ \"n\": 5 }\n{}\n", boolean, 3, 26));
    static const char moments[] = "\x10\0\0\0\x11t\0\2\0\0\0\1\0\0\0\0" "\x10\0\0\0\x09t\0\xf4\1\0\0\0\0\0\0";
    const char *laid_out = "{\"t\":{\"$timestamp\":{\"t\":1,\"i\":2}}}\n{\"t\":{\"$date\":\"1970-01-01T00:00:00.500Z\"}}\n";
    CHECK(decodes_all(VBSON_RELAXED, FINITE | AS_GIVEN | LAYOUT, moments, 32, laid_out, "", 2, 32));
    CHECK(decodes_all(VBSON_RELAXED, AS_GIVEN | LAYOUT, moments, 32, laid_out, "", 2, 32));
    laid_out = "{\"t\":{\"$timestamp\":{\"i\":2,\"t\":1}}}\n{\"t\":{\"$date\":\"1970-01-01T00:00:00.500Z\"}}\n";
    CHECK(decodes_all(VBSON_RELAXED, FINITE | LAYOUT, moments, 32, laid_out, "", 2, 32));
    laid_out = "{\"t\":{\"$timestamp\":{\"i\":2,\"t\":1}}}\n{\"t\":{\"$date\":\"1970-01-01T00:00:00.5Z\"}}\n";
    CHECK(decodes_all(VBSON_RELAXED, FINITE | AS_GIVEN, moments, 32, laid_out, "", 2, 32));
    for (size_t len = 13; len < 21; len++) {
        const char *told = len < 16 ? "document 2 at byte 12: ends too early at its byte 0\n" : NULL;
        vbson_documents out = VBSON_DOCUMENTS_INIT;
        CHECK(vbson_decode_documents(VBSON_RELAXED, NULL, (const uint8_t *)block, len, &out) == VBSON_OK);
        CHECK(is_text(&out.text, "{\"n\":5}\n") && out.documents == 2 && out.consumed == 12);
        CHECK(told ? is_text(&out.diagnostics, told) : strncmp(vbson_chars(&out.diagnostics), "document 2 at byte 12: ", 23) == 0);
        vbson_buffer_free(&out.text);
        vbson_buffer_free(&out.diagnostics);
    }
    static const char twice[] = "\x13\0\0\0\x10" "b\0\5\0\0\0\x10" "b\0\6\0\0\0\0" "\x0c\0\0\0\x10n\0\5\0\0\0\0";
    const char *duplicate = "document 1 at byte 0: duplicate key at its byte 12\n";
    CHECK(decodes_all(VBSON_RELAXED, 0, twice, 31, "{\"b\":6}\n{\"n\":5}\n", "", 2, 31));
    CHECK(decodes_all(VBSON_RELAXED, DISTINCT, twice, 31, "{\"n\":5}\n", duplicate, 2, 31) && decodes_all(VBSON_SHOW, DISTINCT, twice, 31, "{ \"n\": 5 }\n", duplicate, 2, 31));
    CHECK(decodes_all(VBSON_CANONICAL, FINITE | AS_GIVEN | DISTINCT, twice, 31, "{\"n\":{\"$numberInt\":\"5\"}}\n", duplicate, 2, 31));
    CHECK(decodes_all(VBSON_RELAXED, 0, "\xff\xff\xff\xff{}", 6, "", "document 1 at byte 0: invalid length at its byte 0\n", 1, 0));
    vbson_buffer one = VBSON_BUFFER_INIT;
    CHECK(vbson_encode(with(FINITE | AS_GIVEN), TEXT("{\"b\":1.5,\"a\":2}"), &one) == VBSON_OK && one.len == 23);
    const char *two = (const char *)one.bytes;
    CHECK(decodes_all(VBSON_RELAXED, FINITE, two, 23, "{\"a\":2,\"b\":1.5}\n", "", 1, 23));
    CHECK(decodes_all(VBSON_RELAXED, FINITE | AS_GIVEN, two, 23, "{\"b\":1.5,\"a\":2}\n", "", 1, 23));
    CHECK(decodes_all(VBSON_RELAXED, 0, two, 23, "", "document 1 at byte 0: a finite double\n", 1, 23));
    CHECK(decodes_all(VBSON_SHOW, 0, two, 23, "{ \"b\": Double(0x3ff8000000000000), \"a\": 2 }\n", "", 1, 23));
    vbson_buffer_free(&one);
    static const uint8_t before[] = "before";
    vbson_documents out = {{before, 7, 6}, {before, 7, 5}, 3, 4};
    CHECK(vbson_decode_documents(3, NULL, (const uint8_t *)block, 12, &out) == VBSON_INVALID_ARGUMENT);
    CHECK(vbson_decode_documents(VBSON_RELAXED, with(V1), (const uint8_t *)block, 12, &out) == VBSON_INVALID_ARGUMENT);
    CHECK(out.text.bytes == before && out.text.size == 7 && out.text.len == 6 && out.diagnostics.bytes == before && out.diagnostics.len == 5);
    CHECK(out.documents == 3 && out.consumed == 4);
}

static void encode_lines(void) {
    static const uint8_t bytes[] = "\x0c\0\0\0\x10n\0\5\0\0\0\0" "\x05\0\0\0";
    vbson_lines out = VBSON_LINES_INIT;
    CHECK(vbson_encode_lines(NULL, TEXT("{\"n\": 5}\n\n[1]\n{\"a\\u0000\":1}\n[1.5\n{}"), &out) == VBSON_OK);
    CHECK(out.text.len == 17 && out.text.size == 18 && memcmp(out.text.bytes, bytes, 17) == 0 && out.text.bytes[17] == 0);
    CHECK(is_text(&out.diagnostics, "bson: line 3: not a document\nbson: line 4: a key has a 0 byte in it\n"
        "bson: line 5: not JSON at column 4 (unexpected end of input)\n") && out.lines == 6 && out.refused == 3);
    vbson_buffer_free(&out.text);
    vbson_buffer_free(&out.diagnostics);
    const char *text = "{\"b\":1.5,\"a\":2}";
    for (uint32_t fields = 1; fields < 4; fields += 2) {
        vbson_buffer one = VBSON_BUFFER_INIT;
        CHECK(vbson_encode(with(fields), TEXT(text), &one) == VBSON_OK && vbson_encode_lines(with(fields), TEXT(text), &out) == VBSON_OK);
        CHECK(one.len == out.text.len && memcmp(one.bytes, out.text.bytes, one.size) == 0 && out.lines == 1 && out.refused == 0);
        vbson_buffer_free(&one);
        vbson_buffer_free(&out.text);
        vbson_buffer_free(&out.diagnostics);
    }
    static const uint8_t before[] = "before";
    vbson_lines kept = {{before, 7, 6}, {before, 7, 5}, 3, 4};
    for (uint32_t fields = 0; fields < OTHER_SIZE; fields++) {
        CHECK(vbson_encode_lines(with(fields), TEXT("{}\n{\"n\":5,\"n\":5}"), &out) == VBSON_OK && out.lines == 2);
        CHECK(out.refused == ((fields & DISTINCT) != 0) && out.text.len == ((fields & DISTINCT) != 0 ? 5 : 17));
        vbson_buffer_free(&out.text);
        vbson_buffer_free(&out.diagnostics);
    }
    CHECK(vbson_encode_lines(with(OTHER_SIZE), TEXT("{}"), &kept) == VBSON_INVALID_ARGUMENT && kept.text.bytes == before && kept.diagnostics.len == 5 && kept.lines == 3);
}

int main(void) {
    convert_lines();
    first_lines();
    decode_documents();
    encode_lines();
    return end();
}
