/* The deepest texts and documents on a stack of 512 KB, and in the order of keys on one of 6 MB, by every call that reads
 * one; and how much of it was used. */
#include "check.h"
#include <pthread.h>
#include <sys/mman.h>

/* Every field of the calls that only read. */
enum { ALL_READ = FINITE | DISTINCT | V1 };

enum { STACK = 512 * 1024, NEEDS = 448 * 1024, LARGE_STACK = 6144 * 1024, NEEDS_IN_ORDER = 5120 * 1024 };

static char text[1 << 16];

/* The beginning, so often, a 1 in the middle, and the end as often. */
static void nest(const char *beginning, const char *ending, int times) {
    size_t at = 0;
    for (int i = 0; i < times; i++) at += (size_t)sprintf(text + at, "%s", beginning);
    at += (size_t)sprintf(text + at, "1");
    for (int i = 0; i < times; i++) at += (size_t)sprintf(text + at, "%s", ending);
}

static uint8_t document[1 << 16];
static size_t document_len;

static size_t nested_size(int tag, int times) { return 5 + (size_t)times * (tag == 15 ? 17 : 8); }

static void put_length(uint8_t *at, size_t len) {
    for (int i = 0; i < 4; i++) at[i] = (uint8_t)(len >> 8 * i);
}

/* An empty document, so often under the key "a" as what the tag says: 3 a document, 4 a list, 15 the scope of code. */
static void nest_documents(int tag, int times) {
    uint8_t *at = document;
    memset(document, 0, sizeof document);
    document_len = nested_size(tag, times);
    for (int left = times; left > 0; left--) {
        put_length(at, nested_size(tag, left));
        at[4] = (uint8_t)tag, at[5] = 'a', at += 7;
        if (tag == 15) put_length(at, nested_size(tag, left - 1) + 9), at[4] = 1, at += 9;
    }
    put_length(at, 5);
}

static uint32_t status;

static uint32_t lines_status(uint32_t fields) {
    vbson_lines out = VBSON_LINES_INIT;
    uint32_t done = vbson_convert_lines(VBSON_CANONICAL, with(fields), TEXT(text), &out);
    vbson_buffer_free(&out.text);
    vbson_buffer_free(&out.diagnostics);
    return done;
}

static uint32_t appended_status(void) {
    static uint8_t memory[1 << 17];
    vbson_builder built = {memory, sizeof memory, 0, 0};
    return vbson_append_document(&built, TEXT("a"), document, document_len);
}

/* The status of the call that explains the text, or the document. */
static uint32_t explain_status(int is_of_text) {
    vbson_error out = VBSON_ERROR_INIT;
    uint32_t done = is_of_text ? vbson_explain(NULL, TEXT(text), &out) : vbson_explain_document(NULL, document, document_len, &out);
    vbson_error_free(&out);
    return done;
}

static void *calls(void *kind) {
    vbson_buffer out = VBSON_BUFFER_INIT;
    uint64_t number;
    int it = *(int *)kind;
    if (it < 3) status = vbson_convert((uint32_t)it, NULL, TEXT(text), &out);
    else if (it == 3) status = vbson_same(with(ALL_READ), TEXT(text), TEXT(text));
    else if (it == 4) status = vbson_hash(with(ALL_READ), TEXT(text), &number);
    else if (it == 5) status = vbson_convert(VBSON_CANONICAL, with(FINITE | DISTINCT | V1 | LAYOUT), TEXT(text), &out);
    else if (it == 6) status = explain_status(1);
    else if (it == 13) status = lines_status(FINITE | DISTINCT | V1);
    else if (it == 14) status = lines_status(AS_GIVEN);
    else if (it == 15) status = vbson_convert(VBSON_CANONICAL, with(AS_GIVEN | LAYOUT), TEXT(text), &out);
    else if (it == 16) status = vbson_encode(with(AS_GIVEN), TEXT(text), &out);
    else if (it == 17) status = vbson_decode(VBSON_CANONICAL, with(AS_GIVEN | DISTINCT), document, document_len, &out);
    else if (it == 18) status = vbson_same_documents(NULL, document, document_len, document, document_len);
    else if (it == 19) status = vbson_hash_document(with(DISTINCT), document, document_len, &number);
    else if (it == 20) status = appended_status();
    else if (it == 21) status = vbson_decode(VBSON_RELAXED, with(FINITE | AS_GIVEN | LAYOUT), document, document_len, &out);
    else if (it == 7) status = vbson_encode(with(DISTINCT | V1), TEXT(text), &out);
    else if (it == 8) status = vbson_is_document(document, document_len);
    else if (it == 9) status = explain_status(0);
    else status = vbson_decode((uint32_t)it - 10, 0, document, document_len, &out);
    vbson_buffer_free(&out);
    return NULL;
}

/* Whether a call reads a text in the order of its keys. */
static int is_in_order(int kind) { return kind >= 14 && kind <= 16; }

/* How many bytes of the stack a call wrote. */
static size_t used_by(int kind) {
    const size_t stack = is_in_order(kind) ? LARGE_STACK : STACK;
    unsigned char *at = mmap(NULL, stack, PROT_READ | PROT_WRITE, MAP_PRIVATE | MAP_ANONYMOUS, -1, 0);
    size_t untouched = 0;
    pthread_attr_t attributes;
    pthread_t thread;
    memset(at, 0xa5, stack);
    pthread_attr_init(&attributes);
    pthread_attr_setstack(&attributes, at, stack);
    CHECK(pthread_create(&thread, &attributes, calls, &kind) == 0);
    CHECK(pthread_join(thread, NULL) == 0);
    while (untouched < stack && at[untouched] == 0xa5) untouched++;
    munmap(at, stack);
    CHECK(stack - untouched <= (is_in_order(kind) ? NEEDS_IN_ORDER : NEEDS));
    return stack - untouched;
}

/* The most that a call wrote, by default and in the order of keys. */
static size_t most, most_in_order;

static void count(int kind) {
    size_t used = used_by(kind), *greatest = is_in_order(kind) ? &most_in_order : &most;
    if (used > *greatest) *greatest = used;
}

static void all_kinds(uint32_t wanted, uint32_t encoded) {
    for (int kind = 0; kind < 8; kind++) {
        count(kind);
        CHECK(status == (kind < 6 ? wanted : kind == 6 ? VBSON_OK : encoded));
    }
    for (int kind = 13; kind < 17; kind++) {
        count(kind);
        CHECK(status == (kind < 15 ? VBSON_OK : kind == 15 ? wanted : encoded));
    }
}

static void all_of_documents(uint32_t wanted) {
    for (int kind = 8; kind < 13; kind++) {
        count(kind);
        CHECK(status == (kind == 9 ? VBSON_OK : wanted));
    }
    for (int kind = 17; kind < 22; kind++) {
        count(kind);
        CHECK(status == wanted);
    }
}

int main(void) {
    nest("[", "]", 127);
    all_kinds(VBSON_OK, VBSON_NOT_A_DOCUMENT);
    nest("{\"b\":1,\"a\":", "}", 127);
    all_kinds(VBSON_OK, VBSON_OK);
    nest("{\"$code\":\"f\",\"$scope\":{\"b\":2,\"a\":", "}}", 63);
    all_kinds(VBSON_OK, VBSON_NOT_A_DOCUMENT);
    nest("{\"$scope\":{\"b\":2,\"a\":", "},\"$code\":\"f\"}", 63);
    all_kinds(VBSON_OK, VBSON_NOT_A_DOCUMENT);
    nest("{\"$scope\":", "}", 127);
    all_kinds(VBSON_OK, VBSON_OK);
    nest("[", "]", 128);
    all_kinds(VBSON_NOT_JSON, VBSON_NOT_JSON);
    nest("{\"a\":", "}", 9000);
    all_kinds(VBSON_NOT_JSON, VBSON_NOT_JSON);
    static const int tags[] = {3, 4, 15};
    for (int i = 0; i < 3; i++) {
        nest_documents(tags[i], 99);
        all_of_documents(VBSON_OK);
        nest_documents(tags[i], 100);
        all_of_documents(VBSON_NOT_A_DOCUMENT);
        nest_documents(tags[i], 3000);
        all_of_documents(VBSON_NOT_A_DOCUMENT);
    }
    printf("the deepest texts and documents used %zu KiB of the stack, texts in order %zu KiB\n", most >> 10, most_in_order >> 10);
    return end();
}
