/* Times documents that remain bytes, beside libbson:
 *
 *     raw KEY ROUNDS < FILE
 *
 * FILE has documents one after another. It prints the least nanoseconds per document of so many rounds, in turns: the value
 * of the key by vbson_raw_get, by bson_iter_init_find, then all elements by vbson_raw_next, by bson_iter_next, the check
 * by vbson_is_document, and last a copy of the document in which the key has another value, and "version" is left out, by a
 * builder and by bson_append_iter. Both libraries must find the same number of values and elements, and write the same bytes.
 */
#include <bson/bson.h>
#include <stdint.h>
#include <stdio.h>
#include <stdlib.h>
#include <string.h>
#include <time.h>
#include <vbson.h>

enum { WAYS = 7 };

static double now(void) {
    struct timespec it;
    clock_gettime(CLOCK_PROCESS_CPUTIME_ID, &it);
    return (double)it.tv_sec * 1e9 + (double)it.tv_nsec;
}

static size_t get(const uint8_t *bytes, size_t len, const char *key) {
    vbson_raw_value value = VBSON_RAW_VALUE_INIT;
    return vbson_raw_get(bytes, len, vbson_bytes(key), strlen(key), &value) == VBSON_OK ? value.type : 0;
}

static size_t find(const uint8_t *bytes, size_t len, const char *key) {
    bson_t document;
    bson_iter_t at;
    if (!bson_init_static(&document, bytes, len)) return 0;
    return bson_iter_init_find(&at, &document, key) ? (size_t)bson_iter_type(&at) : 0;
}

static size_t iterate(const uint8_t *bytes, size_t len, const char *key) {
    vbson_slice cursor = VBSON_SLICE_INIT, name = VBSON_SLICE_INIT;
    vbson_raw_value value = VBSON_RAW_VALUE_INIT;
    size_t sum = 0;
    (void)key;
    if (vbson_raw_elements(bytes, len, &cursor) != VBSON_OK) return 0;
    while (vbson_raw_next(&cursor, &name, &value) == VBSON_OK) sum += value.type;
    return sum;
}

static size_t iterate_libbson(const uint8_t *bytes, size_t len, const char *key) {
    bson_t document;
    bson_iter_t at;
    size_t sum = 0;
    (void)key;
    if (!bson_init_static(&document, bytes, len) || !bson_iter_init(&at, &document)) return 0;
    while (bson_iter_next(&at)) sum += (size_t)bson_iter_type(&at);
    return sum;
}

static size_t check(const uint8_t *bytes, size_t len, const char *key) {
    (void)key;
    return vbson_is_document(bytes, len) == VBSON_OK;
}

static uint64_t sum_of(const uint8_t *bytes, size_t len) {
    uint64_t sum = len;
    for (size_t at = 0; at + 8 <= len; at += 64) {
        uint64_t word;
        memcpy(&word, bytes + at, 8);
        sum = 31 * sum + word;
    }
    return sum;
}

static size_t change(const uint8_t *bytes, size_t len, const char *key) {
    static vbson_builder out = VBSON_BUILDER_INIT;
    vbson_slice cursor = VBSON_SLICE_INIT, name = VBSON_SLICE_INIT;
    vbson_raw_value value = VBSON_RAW_VALUE_INIT;
    size_t start = out.len = 0, key_len = strlen(key);
    uint32_t status = vbson_builder_reserve(&out, len + 64);
    if (status == VBSON_OK) status = vbson_document_begin(&out, &start);
    if (status == VBSON_OK) status = vbson_raw_elements(bytes, len, &cursor);
    while (status == VBSON_OK && vbson_raw_next(&cursor, &name, &value) == VBSON_OK)
        if (name.len == key_len && memcmp(name.bytes, key, key_len) == 0) status = vbson_append_string(&out, name.bytes, name.len, vbson_bytes("changed"), 7);
        else if (name.len != 7 || memcmp(name.bytes, "version", 7) != 0) status = vbson_append_value(&out, name.bytes, name.len, &value);
    if (status == VBSON_OK) status = vbson_document_end(&out, start);
    return status == VBSON_OK ? sum_of(out.bytes, out.len) : 0;
}

static size_t change_by_libbson(const uint8_t *bytes, size_t len, const char *key) {
    static bson_t out = BSON_INITIALIZER;
    bson_t document;
    bson_iter_t at;
    size_t key_len = strlen(key);
    bson_reinit(&out);
    if (!bson_init_static(&document, bytes, len) || !bson_iter_init(&at, &document)) return 1;
    while (bson_iter_next(&at)) {
        const char *name = bson_iter_key(&at);
        size_t name_len = bson_iter_key_len(&at);
        if (name_len == key_len && memcmp(name, key, key_len) == 0) bson_append_utf8(&out, name, (int)name_len, "changed", 7);
        else if (name_len != 7 || memcmp(name, "version", 7) != 0) bson_append_iter(&out, name, (int)name_len, &at);
    }
    return sum_of(bson_get_data(&out), out.len);
}

static uint8_t *read_all(size_t *len) {
    size_t room = 1 << 20, got;
    uint8_t *bytes = malloc(room);
    *len = 0;
    while (bytes != NULL && (got = fread(bytes + *len, 1, room - *len, stdin)) > 0) {
        *len += got;
        if (*len == room) bytes = realloc(bytes, room *= 2);
    }
    return bytes;
}

static uint32_t length_at(const uint8_t *bytes) {
    uint32_t length;
    memcpy(&length, bytes, 4);
    return length;
}

int main(int count, char **words) {
    size_t (*const ways[WAYS])(const uint8_t *, size_t, const char *) = {get, find, iterate, iterate_libbson, check, change, change_by_libbson};
    size_t len, documents = 0, sums[WAYS] = {0};
    double least[WAYS];
    long rounds = count == 3 ? atol(words[2]) : 0;
    uint8_t *bytes = read_all(&len);
    if (bytes == NULL || rounds <= 0) return 2;
    for (size_t at = 0; at < len; at += length_at(bytes + at)) documents++;
    for (int way = 0; way < WAYS; way++) least[way] = 1e30;
    for (long round = 0; round < rounds; round++)
        for (int way = 0; way < WAYS; way++) {
            double start = now();
            sums[way] = 0;
            for (size_t at = 0; at < len; at += length_at(bytes + at)) sums[way] += ways[way](bytes + at, length_at(bytes + at), words[1]);
            double spent = (now() - start) / (double)documents;
            if (spent < least[way]) least[way] = spent;
        }
    if (sums[0] != sums[1] || sums[2] != sums[3] || sums[4] != documents || sums[5] != sums[6]) return 1;
    for (int way = 0; way < WAYS; way++) printf("%.1f%c", least[way], way + 1 < WAYS ? ' ' : '\n');
    free(bytes);
    return 0;
}
