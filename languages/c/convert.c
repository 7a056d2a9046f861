/* convert canonical|relaxed|show < FILE: what bson_cli does, through the library. */
#include <stdio.h>
#include <stdlib.h>
#include <string.h>
#include <vbson.h>

/* All bytes of standard input, or NULL. */
static uint8_t *read_all(size_t *len) {
    size_t room = 1 << 16, got;
    uint8_t *bytes = malloc(room);
    *len = 0;
    while (bytes != NULL && (got = fread(bytes + *len, 1, room - *len, stdin)) > 0) {
        *len += got;
        if (*len == room) {
            uint8_t *larger = realloc(bytes, room *= 2);
            if (larger == NULL) free(bytes);
            bytes = larger;
        }
    }
    return bytes;
}

static int mode_of(const char *word) {
    static const char *const words[] = {"canonical", "relaxed", "show"};
    for (int mode = 0; mode < 3; mode++)
        if (strcmp(word, words[mode]) == 0) return mode;
    return -1;
}

int main(int count, char **words) {
    int mode = count == 2 ? mode_of(words[1]) : -1;
    if (mode < 0) {
        fprintf(stderr, "usage: convert canonical|relaxed|show\n");
        return 2;
    }
    size_t len;
    uint8_t *bytes = read_all(&len);
    if (bytes == NULL) return 1;
    vbson_buffer out = VBSON_BUFFER_INIT;
    uint32_t status = vbson_convert((uint32_t)mode, NULL, bytes, len, &out);
    free(bytes);
    if (status != VBSON_OK) {
        fprintf(stderr, "convert: %s\n", vbson_status_text(status));
        return 1;
    }
    int is_written = fwrite(out.bytes, 1, out.len, stdout) == out.len && putchar('\n') != EOF && fflush(stdout) == 0;
    vbson_buffer_free(&out);
    return is_written ? 0 : 1;
}
