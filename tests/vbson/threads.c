/* Eight threads that make every call at once, on texts of their own and on one that they share. */
#include "check.h"
#include <pthread.h>

enum { THREADS = 8, ROUNDS = 1000 };
static const char shared[] = "{\"b\":{\"$numberLong\":\"5\"},\"a\":[1,2,{\"c\":\"d\"}]}";

static int round_of(int thread, int round) {
    char text[64], wanted[64], printed[64];
    uint8_t room[64];
    size_t len;
    uint64_t one = 0, other = 1;
    int64_t millis;
    snprintf(text, sizeof text, "{\"r\":%d,\"i\":%d}", round, thread);
    snprintf(wanted, sizeof wanted, "{\"i\":%d,\"r\":%d}", thread, round);
    vbson_buffer out = VBSON_BUFFER_INIT;
    if (vbson_convert(VBSON_RELAXED, NULL, TEXT(text), &out) != VBSON_OK) return 0;
    int is_right = strcmp((const char *)out.bytes, wanted) == 0
        && vbson_same(NULL, TEXT(text), out.bytes, out.len) == VBSON_OK && vbson_hash(NULL, TEXT(text), &one) == VBSON_OK
        && vbson_hash(NULL, out.bytes, out.len, &other) == VBSON_OK && one == other;
    vbson_buffer_free(&out);
    vbson_builder built = {room, sizeof room, 0, 0};
    int32_t number = -1;
    vbson_raw_value value = VBSON_RAW_VALUE_INIT;
    is_right = is_right && vbson_document_begin(&built, &len) == VBSON_OK && vbson_append_int32(&built, TEXT("r"), round) == VBSON_OK
        && vbson_append_string(&built, TEXT("t"), TEXT(wanted)) == VBSON_OK && vbson_document_end(&built, len) == VBSON_OK
        && vbson_raw_get(room, built.len, TEXT("r"), &value) == VBSON_OK && vbson_raw_int32(&value, &number) == VBSON_OK && number == round;
    snprintf(printed, sizeof printed, "2020-06-01T00:42:%02d.%03dZ", round % 60, thread + 1);
    return is_right && vbson_date_time_parse(TEXT(printed), &millis) == VBSON_OK
        && vbson_date_time_print(millis, room, sizeof room, &len) == VBSON_OK && memcmp(room, printed, len) == 0
        && vbson_same(NULL, TEXT(shared), TEXT(shared)) == VBSON_OK;
}

/* The calls on blocks of lines, and those that explain or check a text. */
static int lines_of(int thread, int round) {
    char block[96], canonical[64];
    uint64_t rejected = 0, unencoded = 0;
    snprintf(block, sizeof block, "{\"r\":%d}\n[%d\n{\"t\":%d}\n", round, round, thread);
    snprintf(canonical, sizeof canonical, "{\"r\":{\"$numberInt\":\"%d\"}}", round);
    vbson_lines converted = VBSON_LINES_INIT, encoded = VBSON_LINES_INIT;
    vbson_error error = VBSON_ERROR_INIT;
    int is_right = vbson_convert_lines(VBSON_RELAXED, NULL, TEXT(block), &converted) == VBSON_OK && converted.refused == 1
        && vbson_encode_lines(NULL, TEXT(block), &encoded) == VBSON_OK && encoded.lines == 3 && encoded.refused == 1
        && vbson_first_rejected_line(VBSON_RELAXED, NULL, TEXT(block), &rejected) == VBSON_OK && rejected == 2
        && vbson_first_unencoded_line(NULL, TEXT(block), &unencoded) == VBSON_OK && unencoded == 2
        && vbson_explain(NULL, TEXT(block), &error) == VBSON_OK && error.code == VBSON_NOT_JSON && error.line == 2
        && vbson_is_canonical_text(NULL, TEXT(canonical)) == VBSON_OK && vbson_is_canonical_text(NULL, TEXT(block)) == VBSON_NOT_CANONICAL;
    vbson_error_free(&error);
    vbson_buffer_free(&converted.text);
    vbson_buffer_free(&converted.diagnostics);
    vbson_buffer_free(&encoded.text);
    vbson_buffer_free(&encoded.diagnostics);
    return is_right;
}

/* The calls on the bytes of a document. */
static int bytes_of(int thread, int round) {
    char text[64];
    uint64_t one = 0, other = 1;
    snprintf(text, sizeof text, "{\"i\":%d,\"r\":%d}", thread, round);
    vbson_buffer bytes = VBSON_BUFFER_INIT, out = VBSON_BUFFER_INIT;
    vbson_documents documents = VBSON_DOCUMENTS_INIT;
    vbson_error error = VBSON_ERROR_INIT;
    vbson_slice cursor = VBSON_SLICE_INIT, key = VBSON_SLICE_INIT;
    vbson_raw_value value = VBSON_RAW_VALUE_INIT;
    int32_t number = -1;
    if (vbson_encode(NULL, TEXT(text), &bytes) != VBSON_OK) return 0;
    int is_right = vbson_is_document(bytes.bytes, bytes.len) == VBSON_OK
        && vbson_decode(VBSON_RELAXED, NULL, bytes.bytes, bytes.len, &out) == VBSON_OK && strcmp((const char *)out.bytes, text) == 0
        && vbson_decode_documents(VBSON_RELAXED, NULL, bytes.bytes, bytes.len, &documents) == VBSON_OK && documents.documents == 1
        && vbson_explain_document(NULL, bytes.bytes, bytes.len, &error) == VBSON_OK && error.code == VBSON_OK
        && vbson_same_documents(NULL, bytes.bytes, bytes.len, bytes.bytes, bytes.len) == VBSON_OK
        && vbson_hash_document(NULL, bytes.bytes, bytes.len, &one) == VBSON_OK && vbson_hash(NULL, TEXT(text), &other) == VBSON_OK && one == other
        && vbson_raw_elements(bytes.bytes, bytes.len, &cursor) == VBSON_OK && vbson_raw_next(&cursor, &key, &value) == VBSON_OK
        && vbson_raw_int32(&value, &number) == VBSON_OK && number == thread;
    vbson_error_free(&error);
    vbson_buffer_free(&documents.text);
    vbson_buffer_free(&documents.diagnostics);
    vbson_buffer_free(&out);
    vbson_buffer_free(&bytes);
    return is_right;
}

static void *work(void *number) {
    size_t right = 0;
    int thread = *(int *)number;
    for (int round = 0; round < ROUNDS; round++)
        right += (size_t)(round_of(thread, round) && lines_of(thread, round) && bytes_of(thread, round));
    return (void *)right;
}

int main(void) {
    pthread_t threads[THREADS];
    int numbers[THREADS];
    for (int i = 0; i < THREADS; i++) {
        numbers[i] = i;
        CHECK(pthread_create(&threads[i], NULL, work, &numbers[i]) == 0);
    }
    for (int i = 0; i < THREADS; i++) {
        void *right = NULL;
        CHECK(pthread_join(threads[i], &right) == 0 && (size_t)right == ROUNDS);
    }
    return end();
}
