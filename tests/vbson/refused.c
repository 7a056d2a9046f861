/* Refuses the first request for memory of a call, then the second, up to the first call that meets no refusal; and again
 * with all requests after it. Each answers OUT_OF_MEMORY and leaves what it was handed as it was, or answers as it does with
 * ample memory; and no block is leaked. (A document that is written as it is read is read as a value if one request is
 * refused.) Linked with --wrap=malloc,--wrap=realloc,--wrap=free. */
#include "check.h"

void *__real_malloc(size_t size);
void *__real_realloc(void *old, size_t size);
void __real_free(void *block);

/* How many requests there were since `call`, which one is refused, and how many blocks there are more than then. */
static long requests, refused, live;
/* Whether those after it are refused too. */
static int refuses_all;

static int is_refused(void) { return ++requests == refused || (refuses_all && refused > 0 && requests > refused); }

void *__wrap_malloc(size_t size) {
    void *block = is_refused() ? NULL : __real_malloc(size);
    live += block != NULL;
    return block;
}

void *__wrap_realloc(void *old, size_t size) {
    void *block = is_refused() ? NULL : __real_realloc(old, size);
    live += old == NULL && block != NULL;
    return block;
}

void __wrap_free(void *block) {
    live -= block != NULL;
    __real_free(block);
}

static const char *const texts[] = {
    "{\"a\":[1,{\"$numberLong\":\"5\"},\"xyz\"],\"b\":{\"$date\":\"2020-06-01T00:42:40.292Z\"},"
    "\"c\":{\"$oid\":\"53e37d08776f724e42000000\"},\"d\":{\"$numberDecimal\":\"1.50\"},"
    "\"e\":{\"$code\":\"f\",\"$scope\":{\"x\":1}},\"f\":{\"$binary\":{\"base64\":\"AQID\",\"subType\":\"00\"}},"
    "\"g\":{\"$regularExpression\":{\"pattern\":\"a\",\"options\":\"xi\"}},\"h\":{\"$symbol\":\"s\"},"
    "\"i\":{\"$dbPointer\":{\"$ref\":\"n\",\"$id\":{\"$oid\":\"53e37d08776f724e42000000\"}}},\"j\":{\"$minKey\":1},"
    "\"k\":{\"$uuid\":\"c8edabc3-f738-4ca3-b68d-ab92a91478a3\"},\"l\":{\"$numberDouble\":\"-Infinity\"}}",
    "[1,{\"$oid\":\"53e3\"}]", "[{\"a\":[1.5]}]", "{\"a\":[\"b\"", "[]", "\"a\\u0000b\"",
    "{\"a\":{\"b\":1,\"b\":{\"$binary\":\"AQI=\",\"$type\":\"000\"}}}"};
enum { TEXTS = sizeof texts / sizeof *texts, KINDS = 44 };

/* What a call of each kind answers, and all that it can write. */
struct answer {
    uint32_t status;
    vbson_buffer text;
    vbson_buffer diagnostics;
    uint64_t number;
    uint8_t room[64];
    size_t len;
};

static const uint8_t before[] = "before";

static struct answer nothing(void) {
    struct answer it;
    memset(&it, 0, sizeof it);
    it.text = it.diagnostics = (vbson_buffer){before, 7, 6};
    it.number = 42;
    memset(it.room, 0xa5, sizeof it.room);
    it.len = 99;
    return it;
}

/* The bytes of the text's document; of a text that means none its own, which are none either. */
static vbson_buffer document;

static void find_document(const char *text) {
    vbson_buffer_free(&document);
    if (vbson_encode(NULL, TEXT(text), &document) != VBSON_OK) document = (vbson_buffer){(const uint8_t *)text, 0, strlen(text)};
}

static uint32_t convert_lines(uint32_t fields, const char *text, struct answer *it) {
    vbson_lines out = {it->text, it->diagnostics, it->number, it->number};
    uint32_t status = vbson_convert_lines(VBSON_RELAXED, with(fields), TEXT(text), &out);
    it->text = out.text, it->diagnostics = out.diagnostics;
    it->number = 100 * (out.lines - 42) + out.refused;
    return status;
}

/* The message as the text, the reason as the diagnostics, and the numbers and the path as the number; of the document if there
 * is no text. */
static uint32_t explain(uint32_t fields, const char *text, struct answer *it) {
    vbson_error out = {42, it->number, it->number, it->number, it->text, it->diagnostics, it->text};
    uint32_t status = text != NULL ? vbson_explain(with(fields), TEXT(text), &out)
                                   : vbson_explain_document(with(fields), document.bytes, document.len, &out);
    it->diagnostics = out.reason, it->text = out.message;
    if (status == VBSON_OK) {
        it->number = 1000 * out.path.len + 100 * out.offset + 10 * out.column + out.line + out.code;
        vbson_buffer_free(&out.path);
    } else CHECK(out.code == 42 && out.path.bytes == before && out.line == it->number && out.column == it->number && out.offset == it->number);
    return status;
}

static uint32_t encode_lines(uint32_t fields, const char *text, struct answer *it) {
    vbson_lines out = {it->text, it->diagnostics, it->number, it->number};
    uint32_t status = vbson_encode_lines(with(fields), TEXT(text), &out);
    it->text = out.text, it->diagnostics = out.diagnostics;
    it->number = 100 * (out.lines - 42) + out.refused;
    return status;
}

/* The document twice, which has no length where the text means none. */
static uint32_t decode_documents(uint32_t fields, struct answer *it) {
    static uint8_t twice[1 << 16];
    size_t len = document.len < sizeof twice / 2 ? document.len : sizeof twice / 2;
    memcpy(twice, document.bytes, len);
    memcpy(twice + len, document.bytes, len);
    vbson_documents out = {it->text, it->diagnostics, it->number, it->number};
    uint32_t status = vbson_decode_documents(VBSON_RELAXED, with(fields), twice, 2 * len, &out);
    it->text = out.text, it->diagnostics = out.diagnostics;
    it->number = 100 * (out.documents - 42) + out.consumed;
    return status;
}

static struct answer call(int kind, const char *text, long number) {
    static const uint8_t decimal[16] = {5, 0, 0, 0, 0, 0, 0, 0, 0, 0, 0, 0, 0, 0, 0x40, 0x30};
    struct answer it = nothing();
    requests = live = 0;
    refused = number;
    if (kind < 3) it.status = vbson_convert((uint32_t)kind, NULL, TEXT(text), &it.text);
    else if (kind == 3) it.status = vbson_same(NULL, TEXT(text), TEXT(texts[0]));
    else if (kind == 4) it.status = vbson_hash(NULL, TEXT(text), &it.number);
    else if (kind == 5) it.status = vbson_decimal128_print(decimal, it.room, sizeof it.room, &it.len);
    else if (kind == 6) it.status = vbson_date_time_print(-1, it.room, sizeof it.room, &it.len);
    else if (kind == 7) it.status = vbson_convert(VBSON_RELAXED, with(FINITE), TEXT(text), &it.text);
    else if (kind < 10) it.status = explain(kind == 8 ? 0 : FINITE, text, &it);
    else if (kind == 10) it.status = vbson_encode(NULL, TEXT(text), &it.text);
    else if (kind == 11) it.status = explain(0, NULL, &it);
    else if (kind < 15) it.status = vbson_decode((uint32_t)kind - 12, NULL, document.bytes, document.len, &it.text);
    else if (kind < 17) it.status = convert_lines(kind == 15 ? 0 : AS_GIVEN, text, &it);
    else if (kind == 17) it.status = vbson_convert(VBSON_CANONICAL, with(AS_GIVEN), TEXT(text), &it.text);
    else if (kind == 18) it.status = vbson_encode(with(FINITE | AS_GIVEN), TEXT(text), &it.text);
    else if (kind == 19) it.status = vbson_decode(VBSON_RELAXED, with(FINITE | AS_GIVEN), document.bytes, document.len, &it.text);
    else if (kind < 22) it.status = encode_lines(kind == 20 ? 0 : FINITE | AS_GIVEN, text, &it);
    else if (kind < 24) it.status = decode_documents(kind == 22 ? 0 : FINITE | AS_GIVEN, &it);
    else if (kind == 24) it.status = vbson_same(with(FINITE | DISTINCT), TEXT(text), TEXT(texts[0]));
    else if (kind == 25) it.status = vbson_hash(with(DISTINCT | V1), TEXT(text), &it.number);
    else if (kind < 28) it.status = explain(kind == 26 ? V1 : DISTINCT, text, &it);
    else if (kind == 28) it.status = vbson_same_documents(with(DISTINCT), document.bytes, document.len, document.bytes, document.len);
    else if (kind == 29) it.status = vbson_is_canonical_text(with(FINITE), TEXT(text));
    else if (kind == 30) it.status = vbson_first_rejected_line(VBSON_RELAXED, with(AS_GIVEN), TEXT(text), &it.number);
    else if (kind == 31) it.status = vbson_first_unencoded_line(NULL, TEXT(text), &it.number);
    else if (kind == 32) it.status = vbson_hash_document(NULL, document.bytes, document.len, &it.number);
    else if (kind == 33) it.status = vbson_convert(VBSON_RELAXED, with(LAYOUT), TEXT(text), &it.text);
    else if (kind == 34) it.status = vbson_decode(VBSON_RELAXED, with(FINITE | AS_GIVEN | LAYOUT), document.bytes, document.len, &it.text);
    else if (kind == 35) it.status = convert_lines(FINITE | AS_GIVEN | LAYOUT, text, &it);
    else if (kind == 36) it.status = decode_documents(AS_GIVEN | LAYOUT, &it);
    else if (kind < 39) it.status = vbson_convert(VBSON_RELAXED, with(kind == 37 ? V1 : AS_GIVEN | DISTINCT), TEXT(text), &it.text);
    else if (kind < 41) it.status = vbson_encode(with(kind == 39 ? V1 : AS_GIVEN | DISTINCT), TEXT(text), &it.text);
    else if (kind == 41) it.status = vbson_decode(VBSON_RELAXED, with(FINITE | AS_GIVEN | DISTINCT), document.bytes, document.len, &it.text);
    else if (kind == 42) it.status = convert_lines(DISTINCT | V1, text, &it);
    else it.status = decode_documents(FINITE | AS_GIVEN | DISTINCT, &it);
    refused = 0;
    return it;
}

static int is_same_text(vbson_buffer a, vbson_buffer b) {
    return a.size == b.size && a.len == b.len && memcmp(a.bytes, b.bytes, a.size) == 0;
}

/* With what was handed in as it was: status aside. */
static int is_alike(const struct answer *a, const struct answer *b) {
    return is_same_text(a->text, b->text) && is_same_text(a->diagnostics, b->diagnostics) && a->number == b->number && memcmp(a->room, b->room, sizeof a->room) == 0
        && a->len == b->len;
}

static void let_go(struct answer *it) {
    if (it->text.bytes != before) vbson_buffer_free(&it->text);
    if (it->diagnostics.bytes != before) vbson_buffer_free(&it->diagnostics);
}

static long refuse_each(int kind, const char *text) {
    struct answer ample = call(kind, text, 0), none = nothing();
    long number = 0, wants = 0, asked;
    do {
        struct answer it = call(kind, text, ++number);
        asked = requests;
        int is_want = it.status == VBSON_OUT_OF_MEMORY;
        CHECK(is_want ? asked >= number && is_alike(&it, &none) && it.text.bytes == before
                      : it.status == ample.status && is_alike(&it, &ample));
        let_go(&it);
        CHECK(live == 0);
        wants += is_want;
    } while (asked >= number);
    let_go(&ample);
    return wants;
}

/* The calls on single values of a document request nothing. */
static void raw_values(void) {
    find_document(texts[0]);
    vbson_slice cursor = VBSON_SLICE_INIT, key = VBSON_SLICE_INIT, bytes;
    vbson_raw_value value = VBSON_RAW_VALUE_INIT, again = VBSON_RAW_VALUE_INIT;
    int32_t small;
    int64_t large;
    uint64_t pattern;
    uint32_t number;
    uint8_t id[12];
    int elements = 0, read = 0;
    requests = 0;
    refused = 1;
    CHECK(vbson_raw_elements(document.bytes, document.len, &cursor) == VBSON_OK);
    for (; vbson_raw_next(&cursor, &key, &value) == VBSON_OK; elements++) {
        CHECK(vbson_raw_get(document.bytes, document.len, key.bytes, key.len, &again) == VBSON_OK && again.bytes == value.bytes);
        read += vbson_raw_int32(&value, &small) == VBSON_OK || vbson_raw_int64(&value, &large) == VBSON_OK
            || vbson_raw_double(&value, &pattern) == VBSON_OK || vbson_raw_boolean(&value, &number) == VBSON_OK
            || vbson_raw_string(&value, &bytes) == VBSON_OK || vbson_raw_object_id(&value, id) == VBSON_OK
            || vbson_raw_date_time(&value, &large) == VBSON_OK || vbson_raw_binary(&value, &number, &bytes) == VBSON_OK;
    }
    refused = 0;
    CHECK(requests == 0 && elements == 12 && read == 5);
}

/* Nor do the calls that build a document. */
static void built(void) {
    static const uint8_t id[12], decimal[16], empty[5] = {5};
    static uint8_t room[512];
    vbson_builder it = {room, sizeof room, 0, 0};
    vbson_raw_value value = {id, 12, 12, VBSON_TYPE_OBJECT_ID};
    size_t start = 0, inner = 0;
    requests = 0;
    refused = 1;
    CHECK(vbson_document_begin(&it, &start) == VBSON_OK);
    CHECK(vbson_append_document_begin(&it, TEXT("a"), &inner) == VBSON_OK && vbson_document_end(&it, inner) == VBSON_OK);
    CHECK(vbson_append_array_begin(&it, TEXT("b"), &inner) == VBSON_OK && vbson_document_end(&it, inner) == VBSON_OK);
    CHECK(vbson_append_document(&it, TEXT("c"), BYTES(empty)) == VBSON_OK && vbson_append_array(&it, TEXT("d"), BYTES(empty)) == VBSON_OK);
    CHECK(vbson_append_int32(&it, TEXT("e"), 1) == VBSON_OK && vbson_append_int64(&it, TEXT("f"), 1) == VBSON_OK);
    CHECK(vbson_append_double(&it, TEXT("g"), 1) == VBSON_OK && vbson_append_boolean(&it, TEXT("h"), 1) == VBSON_OK);
    CHECK(vbson_append_null(&it, TEXT("i")) == VBSON_OK && vbson_append_string(&it, TEXT("j"), TEXT("text")) == VBSON_OK);
    CHECK(vbson_append_object_id(&it, TEXT("k"), id) == VBSON_OK && vbson_append_date_time(&it, TEXT("l"), 1) == VBSON_OK);
    CHECK(vbson_append_binary(&it, TEXT("m"), 2, BYTES(id)) == VBSON_OK && vbson_append_decimal128(&it, TEXT("n"), decimal) == VBSON_OK);
    CHECK(vbson_append_value(&it, TEXT("o"), &value) == VBSON_OK && vbson_document_end(&it, start) == VBSON_OK);
    CHECK(vbson_is_document(room, it.len) == VBSON_OK && requests == 0);
    refused = 0;
    vbson_builder grown = VBSON_BUILDER_INIT;
    for (int i = 0; i < 2; i++) { /* an empty builder, and one of 8 bytes */
        vbson_builder before = grown;
        refused = 1, requests = 0;
        CHECK(vbson_builder_reserve(&grown, 16) == VBSON_OUT_OF_MEMORY && memcmp(&grown, &before, sizeof grown) == 0);
        refused = 0;
        CHECK(vbson_builder_reserve(&grown, 8) == VBSON_OK && grown.size >= 8);
    }
    vbson_builder_free(&grown);
}

int main(void) {
    for (int kind = 0; kind < KINDS; kind++) {
        long wants = 0;
        for (int i = 0; i < 2 * TEXTS; i++) {
            find_document(texts[i / 2]);
            refuses_all = i % 2;
            wants += refuse_each(kind, texts[i / 2]);
        }
        refuses_all = 0;
        CHECK(wants > 0);
    }
    for (int i = 0; i < TEXTS; i++) {
        find_document(texts[i]);
        requests = 0;
        CHECK(vbson_is_document(document.bytes, document.len) == (i == 0 ? VBSON_OK : VBSON_NOT_A_DOCUMENT) && requests == 0);
    }
    raw_values();
    built();
    return end();
}
