/* change_field < DUMP > CHANGED: marks each order of a dump as paid, and removes its coupon. */
#include <stdio.h>
#include <string.h>
#include <vbson.h>

static int is(vbson_slice key, const char *name) { return key.len == strlen(name) && memcmp(key.bytes, name, key.len) == 0; }

static int change(const uint8_t *bytes, size_t len, vbson_builder *out) {
    vbson_slice cursor = VBSON_SLICE_INIT, key = VBSON_SLICE_INIT;
    vbson_raw_value value = VBSON_RAW_VALUE_INIT;
    size_t start = out->len = 0; /* the changed order is at most 7 bytes longer */
    int has_paid = 0, is_done = vbson_is_document(bytes, len) == VBSON_OK && vbson_builder_reserve(out, len + 7) == VBSON_OK
        && vbson_document_begin(out, &start) == VBSON_OK && vbson_raw_elements(bytes, len, &cursor) == VBSON_OK;
    while (is_done && vbson_raw_next(&cursor, &key, &value) == VBSON_OK)
        if (is(key, "paid")) is_done = has_paid = vbson_append_boolean(out, key.bytes, key.len, 1) == VBSON_OK;
        else if (!is(key, "coupon")) is_done = vbson_append_value(out, key.bytes, key.len, &value) == VBSON_OK;
    if (is_done && !has_paid) is_done = vbson_append_boolean(out, vbson_bytes("paid"), 4, 1) == VBSON_OK;
    return is_done && vbson_document_end(out, start) == VBSON_OK;
}

int main(void) {
    static uint8_t bytes[1 << 25]; /* MongoDB's documents have half as many at most */
    vbson_builder out = VBSON_BUILDER_INIT;
    size_t got;
    for (; (got = fread(bytes, 1, 4, stdin)) == 4; fwrite(out.bytes, 1, out.len, stdout)) {
        size_t len = bytes[0] | (size_t)bytes[1] << 8 | (size_t)bytes[2] << 16 | (size_t)bytes[3] << 24;
        if (len < 5 || len > sizeof bytes || fread(bytes + 4, 1, len - 4, stdin) != len - 4 || !change(bytes, len, &out)) break;
    }
    return vbson_builder_free(&out), got != 0 || ferror(stdin) || fflush(stdout) != 0 || ferror(stdout);
}
