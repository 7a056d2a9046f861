/* Reads one document of Extended JSON from standard input and writes its canonical text and a newline, by libbson. */
#include <bson/bson.h>
#include <stdio.h>
#include <stdlib.h>

static char *read_all(size_t *len) {
    size_t room = 1 << 20, got;
    char *bytes = malloc(room);
    *len = 0;
    while (bytes != NULL && (got = fread(bytes + *len, 1, room - *len, stdin)) > 0) {
        *len += got;
        if (*len == room) bytes = realloc(bytes, room *= 2);
    }
    return bytes;
}

int main(void) {
    size_t len, written;
    bson_error_t error;
    char *text = read_all(&len);
    bson_t *value = text == NULL ? NULL : bson_new_from_json((const uint8_t *)text, (ssize_t)len, &error);
    if (value == NULL) return 1;
    free(text);
    char *out = bson_as_canonical_extended_json(value, &written);
    if (out == NULL || fwrite(out, 1, written, stdout) != written || putchar('\n') == EOF) return 1;
    bson_free(out);
    bson_destroy(value);
    return 0;
}
