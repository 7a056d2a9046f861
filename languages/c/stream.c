/* stream < DUMP: writes each document of a dump of any size as a line. Status 1 if the dump is cut off, or memory runs out. */
#include <stdio.h>
#include <string.h>
#include <vbson.h>

/* The number of bytes of the block that are whole documents. */
static size_t whole(const uint8_t *block, size_t len) {
    size_t at = 0;
    for (uint32_t size; len - at >= 4; at += size) {
        memcpy(&size, block + at, 4);
        if (size < 5 || size > len - at) break;
    }
    return at;
}

int main(void) {
    size_t size = 1 << 20, len = 0, done, got, before = 0;
    uint8_t *block = malloc(size), *larger;
    const vbson_options options = vbson_options_mongodb();
    while (block != NULL && (got = fread(block + len, 1, size - len, stdin)) > 0) {
        vbson_documents out = VBSON_DOCUMENTS_INIT;
        if (vbson_decode_documents(VBSON_RELAXED, &options, block, done = whole(block, len += got), &out) != VBSON_OK) return 1;
        fwrite(out.text.bytes, 1, out.text.len, stdout);
        if (out.diagnostics.len > 0) fprintf(stderr, "after byte %zu: %s", before, vbson_chars(&out.diagnostics));
        vbson_buffer_free(&out.text), vbson_buffer_free(&out.diagnostics);
        memmove(block, block + done, len -= done), before += done;
        if (len == size && (larger = realloc(block, size *= 2)) != NULL) block = larger;
    }
    return free(block), len > 0 || ferror(stdin) || fflush(stdout) != 0;
}
