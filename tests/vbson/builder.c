/* Documents that are built in the caller's memory: each call beside libbson's, in every size of memory, with every status, and
 * what is left as it was. Linked with libbson. */
#include "check.h"
#include <bson/bson.h>
#include <sys/mman.h>

static const uint8_t id[12] = "abcdefghijkl", decimal[16] = {5, 0, 0, 0, 0, 0, 0, 0, 0, 0, 0, 0, 0, 0, 0x40, 0x30};
static const uint8_t document[] = {12, 0, 0, 0, 0x10, 'n', 0, 5, 0, 0, 0, 0};
static const uint8_t list[] = {12, 0, 0, 0, 0x10, '0', 0, 5, 0, 0, 0, 0};
static const uint8_t regex[] = {'a', 0, 'i', 0};
enum { KINDS = 20 };

/* The append of each kind; the last two begin a document and an array. */
static uint32_t append(int kind, vbson_builder *to, const uint8_t *key, size_t len) {
    size_t start = 77;
    uint32_t status = VBSON_OK;
    vbson_raw_value value = {regex, sizeof regex, sizeof regex, VBSON_TYPE_REGEX};
    if (kind == 0) return vbson_append_int32(to, key, len, -5);
    if (kind == 1) return vbson_append_int64(to, key, len, INT64_MIN);
    if (kind == 2) return vbson_append_double(to, key, len, 0x3ff8000000000000);
    if (kind == 3) return vbson_append_boolean(to, key, len, 1);
    if (kind == 4) return vbson_append_boolean(to, key, len, 0);
    if (kind == 5) return vbson_append_null(to, key, len);
    if (kind == 6) return vbson_append_string(to, key, len, TEXT("h\xc3\xa9llo"));
    if (kind == 7) return vbson_append_string(to, key, len, vbson_bytes("a\0b"), 3);
    if (kind == 8) return vbson_append_object_id(to, key, len, id);
    if (kind == 9) return vbson_append_date_time(to, key, len, -1);
    if (kind == 10) return vbson_append_binary(to, key, len, 0x80, vbson_bytes("xyz"), 3);
    if (kind == 11) return vbson_append_binary(to, key, len, 2, vbson_bytes("xyz"), 3);
    if (kind == 12) return vbson_append_binary(to, key, len, 0, vbson_bytes(""), 0);
    if (kind == 13) return vbson_append_decimal128(to, key, len, decimal);
    if (kind == 14) return vbson_append_document(to, key, len, BYTES(document));
    if (kind == 15) return vbson_append_array(to, key, len, BYTES(list));
    if (kind == 16) return vbson_append_value(to, key, len, &value);
    if (kind == 17) return vbson_append_boolean(to, key, len, UINT32_MAX);
    status = kind == 18 ? vbson_append_document_begin(to, key, len, &start) : vbson_append_array_begin(to, key, len, &start);
    CHECK(start == (status == VBSON_OK ? to->len - 4 : 77));
    return status;
}

/* The same by libbson, with what the document or the array is to have. */
static bool append_by_libbson(int kind, bson_t *to, const char *key) {
    bson_t child;
    bson_oid_t oid;
    bson_decimal128_t number = {5, 0x3040000000000000};
    if (kind == 0) return BSON_APPEND_INT32(to, key, -5);
    if (kind == 1) return BSON_APPEND_INT64(to, key, INT64_MIN);
    if (kind == 2) return BSON_APPEND_DOUBLE(to, key, 1.5);
    if (kind == 3 || kind == 4 || kind == 17) return BSON_APPEND_BOOL(to, key, kind != 4);
    if (kind == 5) return BSON_APPEND_NULL(to, key);
    if (kind < 8) return bson_append_utf8(to, key, -1, kind == 6 ? "h\xc3\xa9llo" : "a\0b", kind == 6 ? 6 : 3);
    if (kind == 8) return memcpy(oid.bytes, id, 12), BSON_APPEND_OID(to, key, &oid);
    if (kind == 9) return BSON_APPEND_DATE_TIME(to, key, -1);
    if (kind < 13) return bson_append_binary(to, key, -1, kind == 10 ? BSON_SUBTYPE_USER : kind == 11 ? BSON_SUBTYPE_BINARY_DEPRECATED : BSON_SUBTYPE_BINARY,
        (const uint8_t *)"xyz", kind == 12 ? 0 : 3);
    if (kind == 13) return BSON_APPEND_DECIMAL128(to, key, &number);
    if (kind == 14 || kind == 15) return bson_init_static(&child, kind == 14 ? document : list, 12)
        && (kind == 14 ? BSON_APPEND_DOCUMENT(to, key, &child) : BSON_APPEND_ARRAY(to, key, &child));
    if (kind == 16) return BSON_APPEND_REGEX(to, key, "a", "i");
    return kind == 18 ? BSON_APPEND_DOCUMENT_BEGIN(to, key, &child) && BSON_APPEND_INT32(&child, "in", 7) && bson_append_document_end(to, &child)
                      : BSON_APPEND_ARRAY_BEGIN(to, key, &child) && BSON_APPEND_INT32(&child, "0", 7) && bson_append_array_end(to, &child);
}

/* A document of one element, in the memory. */
static uint32_t build(int kind, const char *key, vbson_builder *to) {
    size_t start = 0, child;
    uint32_t status = vbson_document_begin(to, &start);
    if (status == VBSON_OK) status = append(kind, to, TEXT(key));
    child = to->len - 4;
    if (status == VBSON_OK && kind >= 18) status = vbson_append_int32(to, TEXT(kind == 18 ? "in" : "0"), 7);
    if (status == VBSON_OK && kind >= 18) status = vbson_document_end(to, child);
    return status == VBSON_OK ? vbson_document_end(to, start) : status;
}

static void beside_libbson(void) {
    static const char *const keys[] = {"", "k", "a key of more than sixteen bytes \xc3\xa9"};
    for (int kind = 0; kind < KINDS; kind++)
        for (int i = 0; i < 3; i++) {
            bson_t wanted = BSON_INITIALIZER;
            vbson_builder made = VBSON_BUILDER_INIT;
            CHECK(append_by_libbson(kind, &wanted, keys[i]));
            CHECK(vbson_builder_reserve(&made, wanted.len) == VBSON_OK && build(kind, keys[i], &made) == VBSON_OK);
            CHECK(made.len == wanted.len && memcmp(made.bytes, bson_get_data(&wanted), made.len) == 0 && made.needed == 0);
            CHECK(vbson_is_document(made.bytes, made.len) == VBSON_OK);
            /* with each size of memory that is too small, and from the size that it needs on the same bytes */
            for (size_t size = 0; size < wanted.len; size++) {
                uint8_t *memory = malloc(size > 0 ? size : 1);
                vbson_builder less = {memory, size, 0, 0};
                CHECK(build(kind, keys[i], &less) == VBSON_BUFFER_TOO_SMALL && less.bytes == memory && less.size == size);
                CHECK(less.len <= size && less.needed > size && less.needed <= wanted.len && (less.len < 4 || memcmp(memory + 4, made.bytes + 4, less.len - 4) == 0
                    || kind >= 18));
                free(memory);
            }
            vbson_builder_free(&made);
            bson_destroy(&wanted);
        }
}

/* Whether a call with this status left the builder and its memory as they were. */
static int is_kept(const vbson_builder *it, const uint8_t *memory) {
    for (int i = 0; i < 64; i++)
        if (memory[i] != 0xa5) return 0;
    return it->bytes == memory && it->size == 64 && it->len == 10 && it->needed == 11;
}

static void refused(void) {
    static uint8_t memory[64];
    memset(memory, 0xa5, sizeof memory);
    vbson_builder it = {memory, 64, 10, 11};
    for (int kind = 0; kind < KINDS; kind++) {
        CHECK(append(kind, &it, vbson_bytes("a\0b"), 3) == VBSON_ZERO_IN_KEY && is_kept(&it, memory));
        CHECK(append(kind, &it, TEXT("\xc3")) == VBSON_INVALID_STRING && is_kept(&it, memory));
    }
    CHECK(vbson_append_string(&it, TEXT("k"), TEXT("\xed\xa0\x80")) == VBSON_INVALID_STRING && is_kept(&it, memory));
    CHECK(vbson_append_binary(&it, TEXT("k"), 256, TEXT("")) == VBSON_INVALID_ARGUMENT && is_kept(&it, memory));
    CHECK(vbson_append_document(&it, TEXT("k"), document, 11) == VBSON_NOT_A_DOCUMENT && is_kept(&it, memory));
    CHECK(vbson_append_array(&it, TEXT("k"), document, 0) == VBSON_NOT_A_DOCUMENT && is_kept(&it, memory));
    vbson_raw_value value = {document, 3, 4, VBSON_TYPE_INT32}, other = {document, 4, 4, 0x14};
    CHECK(vbson_append_value(&it, TEXT("k"), &value) == VBSON_INVALID_ARGUMENT && is_kept(&it, memory));
    CHECK(vbson_append_value(&it, TEXT("k"), &other) == VBSON_INVALID_ARGUMENT && is_kept(&it, memory));
    CHECK(vbson_document_end(&it, 7) == VBSON_INVALID_ARGUMENT && is_kept(&it, memory));
    CHECK(vbson_document_end(&it, SIZE_MAX) == VBSON_INVALID_ARGUMENT && is_kept(&it, memory));
    vbson_builder few = {memory, 64, 3, 11}, wrong = {memory, 64, 65, 11}, huge = {memory, 64, SIZE_MAX - 1, 11}, longest = {memory, 64, 0x7fffffff, 11};
    CHECK(vbson_document_end(&few, 0) == VBSON_INVALID_ARGUMENT && few.len == 3);
    /* a length that is none of the memory's */
    CHECK(vbson_append_null(&wrong, TEXT("k")) == VBSON_BUFFER_TOO_SMALL && wrong.len == 65 && wrong.needed == 68);
    CHECK(vbson_append_null(&huge, TEXT("k")) == VBSON_BUFFER_TOO_SMALL && huge.len == SIZE_MAX - 1 && huge.needed == SIZE_MAX);
    CHECK(vbson_document_end(&longest, 0) == VBSON_TOO_LONG && longest.len == 0x7fffffff && longest.needed == 11);
    CHECK(vbson_document_end(&longest, 1) == VBSON_BUFFER_TOO_SMALL && longest.needed == 0x80000000);
    /* texts and bytes that are too long, of which none is read */
    size_t length = 0x80000000;
    uint8_t *bytes = mmap(NULL, length, PROT_NONE, MAP_PRIVATE | MAP_ANONYMOUS | MAP_NORESERVE, -1, 0);
    CHECK(bytes != MAP_FAILED && vbson_append_string(&it, TEXT("k"), bytes, length - 1) == VBSON_TOO_LONG && is_kept(&it, memory));
    CHECK(vbson_append_binary(&it, TEXT("k"), 0, bytes, length) == VBSON_TOO_LONG && is_kept(&it, memory));
    CHECK(vbson_append_binary(&it, TEXT("k"), 2, bytes, length - 4) == VBSON_TOO_LONG && is_kept(&it, memory));
    CHECK(vbson_append_binary(&it, TEXT("k"), 0, bytes, length - 1) == VBSON_BUFFER_TOO_SMALL && it.needed == 10 + 3 + 5 + length - 1);
    CHECK(munmap(bytes, length) == 0);
}

/* Documents in documents and arrays, and one document after another, in memory that grows. */
static void nested(void) {
    vbson_builder made = VBSON_BUILDER_INIT;
    bson_t wanted = BSON_INITIALIZER, first, second;
    char key[16];
    CHECK(BSON_APPEND_DOCUMENT_BEGIN(&wanted, "d", &first) && BSON_APPEND_ARRAY_BEGIN(&first, "a", &second));
    for (int i = 0; i < 12; i++) snprintf(key, sizeof key, "%d", i), BSON_APPEND_INT32(&second, key, i);
    CHECK(bson_append_array_end(&first, &second) && bson_append_document_end(&wanted, &first) && BSON_APPEND_NULL(&wanted, "z"));
    for (size_t round = 1; round <= 100; round++) {
        size_t starts[3];
        CHECK(vbson_builder_reserve(&made, 200) == VBSON_OK && made.size - made.len >= 200);
        CHECK(vbson_document_begin(&made, &starts[0]) == VBSON_OK && vbson_append_document_begin(&made, TEXT("d"), &starts[1]) == VBSON_OK);
        CHECK(vbson_append_array_begin(&made, TEXT("a"), &starts[2]) == VBSON_OK);
        for (int i = 0; i < 12; i++) {
            snprintf(key, sizeof key, "%d", i);
            CHECK(vbson_append_int32(&made, TEXT(key), i) == VBSON_OK);
        }
        CHECK(vbson_document_end(&made, starts[2]) == VBSON_OK && vbson_document_end(&made, starts[1]) == VBSON_OK);
        CHECK(vbson_append_null(&made, TEXT("z")) == VBSON_OK && vbson_document_end(&made, starts[0]) == VBSON_OK);
        CHECK(made.len == round * wanted.len && starts[0] == (round - 1) * wanted.len);
        CHECK(memcmp(made.bytes + starts[0], bson_get_data(&wanted), wanted.len) == 0);
    }
    CHECK(vbson_builder_reserve(&made, SIZE_MAX / 2) == VBSON_OUT_OF_MEMORY && made.len == 100 * wanted.len);
    vbson_builder_free(&made);
    CHECK(made.size == 0 && made.len == 0);
    bson_destroy(&wanted);
}

/* Each value of a document, copied by its bytes. */
static void copies(void) {
    bson_t from = BSON_INITIALIZER;
    char key[16];
    for (int kind = 0; kind < KINDS; kind++) {
        snprintf(key, sizeof key, "k%d", kind);
        CHECK(append_by_libbson(kind, &from, key));
    }
    uint8_t memory[1024];
    vbson_builder made = {memory, from.len, 0, 0};
    vbson_slice cursor = VBSON_SLICE_INIT, name = VBSON_SLICE_INIT;
    vbson_raw_value value = VBSON_RAW_VALUE_INIT;
    size_t start;
    CHECK(vbson_document_begin(&made, &start) == VBSON_OK && vbson_raw_elements(bson_get_data(&from), from.len, &cursor) == VBSON_OK);
    while (vbson_raw_next(&cursor, &name, &value) == VBSON_OK) CHECK(vbson_append_value(&made, name.bytes, name.len, &value) == VBSON_OK);
    CHECK(vbson_document_end(&made, start) == VBSON_OK && made.len == from.len && memcmp(memory, bson_get_data(&from), from.len) == 0);
    bson_destroy(&from);
}

int main(void) {
    beside_libbson();
    refused();
    nested();
    copies();
    return end();
}
