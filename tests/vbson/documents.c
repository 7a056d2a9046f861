/* Answers lines `CALL HEX` of standard input: documents.py says which, and what is written of each. */
#include <stdio.h>
#include <stdlib.h>
#include <string.h>
#include <vbson.h>

static const char *const calls[] = {"canonical ", "relaxed ", "show ", "encode ", "explain ", "is "};
enum { CALLS = sizeof calls / sizeof *calls, NOT_UNDERSTOOD = 1000 };

static const vbson_options finite = {sizeof(vbson_options), VBSON_DOUBLES_FINITE, 0, 0, 0, 0};

static unsigned digit(char c) { return (unsigned)(c <= '9' ? c - '0' : c - 'a' + 10); }

/* Writes the bytes of the digits into a block of exactly so many. */
static uint8_t *bytes_of(const char *digits, size_t *len) {
    *len = strlen(digits) / 2;
    uint8_t *bytes = malloc(*len > 0 ? *len : 1);
    for (size_t i = 0; bytes != NULL && i < *len; i++) bytes[i] = (uint8_t)(digit(digits[2 * i]) << 4 | digit(digits[2 * i + 1]));
    return bytes;
}

/* Leaves the message. */
static uint32_t explain(const uint8_t *bytes, size_t len, vbson_buffer *out) {
    vbson_error error = VBSON_ERROR_INIT;
    uint32_t status = vbson_explain_document(&finite, bytes, len, &error);
    *out = error.message;
    error.message = (vbson_buffer)VBSON_BUFFER_INIT;
    vbson_error_free(&error);
    return status;
}

static uint32_t answer(int call, const uint8_t *bytes, size_t len, vbson_buffer *out) {
    if (call < 3) return vbson_decode((uint32_t)call, &finite, bytes, len, out);
    if (call == 3) return vbson_encode(&finite, bytes, len, out);
    if (call == 4) return explain(bytes, len, out);
    return call == 5 ? vbson_is_document(bytes, len) : NOT_UNDERSTOOD;
}

int main(void) {
    char *line = NULL;
    size_t room = 0;
    while (getline(&line, &room, stdin) > 0) {
        line[strcspn(line, "\n")] = 0;
        int call = 0;
        while (call < CALLS && strncmp(line, calls[call], strlen(calls[call])) != 0) call++;
        size_t len;
        uint8_t *bytes = bytes_of(line + (call < CALLS ? strlen(calls[call]) : 0), &len);
        if (bytes == NULL) return 1;
        vbson_buffer out = VBSON_BUFFER_INIT;
        printf("%u ", answer(call, bytes, len, &out));
        for (size_t i = 0; i < out.len; i++) printf("%02x", out.bytes[i]);
        printf("\n");
        vbson_buffer_free(&out);
        free(bytes);
    }
    free(line);
    return 0;
}
