/* Reads a document of Extended JSON a line from standard input and writes the BSON bytes of each, by libbson. */
#define _GNU_SOURCE
#include <bson/bson.h>
#include <stdio.h>
#include <stdlib.h>

int main(void) {
    char *line = NULL;
    size_t room = 0;
    ssize_t len;
    while ((len = getline(&line, &room, stdin)) > 0) {
        bson_error_t error;
        bson_t *document = bson_new_from_json((const uint8_t *)line, len, &error);
        if (document == NULL) return 1;
        if (fwrite(bson_get_data(document), 1, document->len, stdout) != document->len) return 1;
        bson_destroy(document);
    }
    free(line);
    return fflush(stdout) != 0;
}
