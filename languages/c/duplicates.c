/* duplicates < LINES: names each line whose value an earlier line has, in any order of keys. */
#include <stdio.h>
#include <sys/types.h>
#include <vbson.h>

struct line {
    uint64_t hash;
    size_t number, len;
    char *text;
    struct line *next;
};

int main(void) {
    static struct line *table[1 << 16], *it;
    const vbson_options options = {.size = sizeof options, .doubles = VBSON_DOUBLES_FINITE};
    char *text = NULL;
    size_t size = 0, number = 1;
    for (ssize_t len; (len = getline(&text, &size, stdin)) >= 0; number++) {
        struct line line = {0, number, (size_t)len, text, NULL}, **first;
        uint32_t status = vbson_hash(&options, vbson_bytes(text), line.len, &line.hash);
        if (status != VBSON_OK) fprintf(stderr, "line %zu: %s\n", number, vbson_status_text(status));
        if (status != VBSON_OK) continue;
        for (line.next = *(first = &table[line.hash % (1 << 16)]), it = line.next; it != NULL; it = it->next) /* few lines have one hash */
            if (it->hash == line.hash && vbson_same(&options, vbson_bytes(it->text), it->len, vbson_bytes(text), line.len) == VBSON_OK) break;
        if (it != NULL) printf("line %zu has the value of line %zu\n", number, it->number);
        else if ((*first = malloc(sizeof line)) == NULL) return 1;
        else **first = line, text = NULL;
    }
    return free(text), ferror(stdin) || fflush(stdout) != 0;
}
