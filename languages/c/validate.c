/* validate < LINES: says which lines are not Extended JSON, where, and why. Status 1 if there is one. */
#include <stdio.h>
#include <sys/types.h>
#include <vbson.h>

int main(void) {
    const vbson_options options = vbson_options_mongodb();
    char *line = NULL;
    size_t size = 0, number = 0, rejected = 0;
    for (ssize_t len; (len = getline(&line, &size, stdin)) >= 0;) {
        vbson_error why = VBSON_ERROR_INIT;
        number++;
        if (vbson_explain(&options, vbson_bytes(line), (size_t)len, &why) != VBSON_OK) return 2;
        if (why.code != VBSON_OK && ++rejected) printf("line %zu: %s\n", number, vbson_chars(&why.message));
        vbson_error_free(&why);
    }
    free(line);
    if (ferror(stdin) || fflush(stdout) != 0) return 2;
    return rejected > 0;
}
