/* Times calls of the library:
 *
 *     library small ROUNDS          a document of 103 bytes, converted so often; prints nanoseconds a call
 *     library whole ROUNDS < FILE   a file, converted so often; prints the seconds of the first call and the least
 *
 * Compiled with -DLIBBSON it does the same by libbson: bson_new_from_json, then the canonical text.
 */
#include <stdint.h>
#include <stdio.h>
#include <stdlib.h>
#include <string.h>
#include <time.h>
#ifdef LIBBSON
#include <bson/bson.h>
#else
#include <vbson.h>
#endif

static const char small[] = "{\"_id\":{\"$oid\":\"53e37d08776f724e42000000\"},\"n\":-12345,\"name\":\"xxxxxxxx\","
                            "\"ok\":true,\"tags\":[\"a\",\"b\",\"c\"]}";

static double now(void) {
    struct timespec it;
    clock_gettime(CLOCK_MONOTONIC, &it);
    return (double)it.tv_sec + (double)it.tv_nsec * 1e-9;
}

static void convert(const char *text, size_t len) {
#ifdef LIBBSON
    bson_error_t error;
    bson_t *value = bson_new_from_json((const uint8_t *)text, (ssize_t)len, &error);
    char *out = value == NULL ? NULL : bson_as_canonical_extended_json(value, NULL);
    if (out == NULL) exit(1);
    bson_free(out);
    bson_destroy(value);
#else
    vbson_buffer out = VBSON_BUFFER_INIT;
    if (vbson_convert(VBSON_CANONICAL, NULL, (const uint8_t *)text, len, &out) != VBSON_OK) exit(1);
    vbson_buffer_free(&out);
#endif
}

static char *read_all(size_t *len) {
    size_t room = 1 << 20, got;
    char *bytes = malloc(room);
    *len = 0;
    while (bytes != NULL && (got = fread(bytes + *len, 1, room - *len, stdin)) > 0) {
        *len += got;
        if (*len == room) bytes = realloc(bytes, room *= 2);
    }
    return bytes;
}

int main(int count, char **words) {
    long rounds = count == 3 ? atol(words[2]) : 0;
    if (rounds <= 0) return 2;
    if (strcmp(words[1], "small") == 0) {
        double start = now();
        for (long i = 0; i < rounds; i++) convert(small, sizeof small - 1);
        printf("%.0f\n", (now() - start) * 1e9 / (double)rounds);
        return 0;
    }
    size_t len;
    char *text = read_all(&len);
    double first = 0, least = 1e9;
    for (long i = 0; text != NULL && i < rounds; i++) {
        double start = now(), seconds;
        convert(text, len);
        seconds = now() - start;
        if (i == 0) first = seconds;
        if (seconds < least) least = seconds;
    }
    printf("%.3f %.3f\n", first, least);
    return 0;
}
