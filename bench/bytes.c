/* Reads BSON documents that follow one another on standard input, and goes over them so many times. Its task is `check`,
   `text` (canonical) or `hash` (the value of each). With LIBBSON it calls bson_validate with BSON_VALIDATE_UTF8, and
   bson_new_from_data with bson_as_canonical_extended_json; otherwise it calls the library of this repository. */
#include <stdint.h>
#include <stdio.h>
#include <stdlib.h>
#include <string.h>

#ifdef LIBBSON
#include <bson/bson.h>

static int check(const uint8_t *bytes, size_t size) {
    bson_t document;
    size_t offset;
    return bson_init_static(&document, bytes, size) && bson_validate(&document, BSON_VALIDATE_UTF8, &offset);
}

static int text(const uint8_t *bytes, size_t size) {
    size_t written;
    bson_t *document = bson_new_from_data(bytes, size);
    char *made = document ? bson_as_canonical_extended_json(document, &written) : NULL;
    bson_free(made);
    bson_destroy(document);
    return made != NULL;
}

static int hash(const uint8_t *bytes, size_t size) {
    (void)bytes;
    (void)size;
    return 0;
}
#else
#include <vbson.h>

static int check(const uint8_t *bytes, size_t size) { return vbson_is_document(bytes, size) == VBSON_OK; }

static int text(const uint8_t *bytes, size_t size) {
    vbson_buffer out = VBSON_BUFFER_INIT;
    vbson_options options = vbson_options_mongodb();
    uint32_t status = vbson_decode(VBSON_CANONICAL, &options, bytes, size, &out);
    vbson_buffer_free(&out);
    return status == VBSON_OK;
}

static int hash(const uint8_t *bytes, size_t size) {
    uint64_t out = 0;
    return vbson_hash_document(NULL, bytes, size, &out) == VBSON_OK;
}
#endif

static uint8_t *read_all(size_t *len) {
    size_t size = 1 << 20, got;
    uint8_t *bytes = malloc(size);
    *len = 0;
    while (bytes != NULL && (got = fread(bytes + *len, 1, size - *len, stdin)) > 0) {
        *len += got;
        if (*len == size) bytes = realloc(bytes, size *= 2);
    }
    return bytes;
}

int main(int count, char **words) {
    size_t len;
    uint8_t *bytes = read_all(&len);
    if (bytes == NULL || count != 3) return 1;
    int (*task)(const uint8_t *, size_t) = *words[1] == 'c' ? check : *words[1] == 't' ? text : hash;
    for (int times = atoi(words[2]); times > 0; times--) {
        for (size_t at = 0; at < len;) {
            uint32_t size;
            memcpy(&size, bytes + at, 4);
            if (size < 5 || size > len - at || !task(bytes + at, size)) return 1;
            at += size;
        }
    }
    free(bytes);
    return 0;
}
