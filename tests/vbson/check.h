/* What the C programs of this folder share: a check counts, and says where it failed. */
#ifndef CHECK_H
#define CHECK_H
#include <stdint.h>
#include <stdio.h>
#include <stdlib.h>
#include <string.h>
#include <vbson.h>

static int passed, failed;

#define CHECK(it) \
    do { \
        if (it) passed++; \
        else failed++, printf("FAILED: %s, line %d: %s\n", __FILE__, __LINE__, #it); \
    } while (0)

/* The two arguments that stand for a text. */
#define TEXT(it) (const uint8_t *)(it), strlen(it)
#define BYTES(it) (it), sizeof(it)

/* The options with 1 in these fields. Without a field it is the null pointer, and any other number has another size. */
enum { FINITE = 1, AS_GIVEN = 2, DISTINCT = 4, V1 = 8, LAYOUT = 16, OTHER_SIZE = 32 };

#define FIELDS(it) {sizeof(vbson_options), (it) & FINITE, ((it) & AS_GIVEN) / AS_GIVEN, ((it) & DISTINCT) / DISTINCT, ((it) & V1) / V1, ((it) & LAYOUT) / LAYOUT}
#define FOUR_FIELDS(it) FIELDS(it), FIELDS((it) + 1), FIELDS((it) + 2), FIELDS((it) + 3)

static inline const vbson_options *with(uint32_t fields) {
    static const vbson_options made[] = {FOUR_FIELDS(0), FOUR_FIELDS(4), FOUR_FIELDS(8), FOUR_FIELDS(12), FOUR_FIELDS(16), FOUR_FIELDS(20),
        FOUR_FIELDS(24), FOUR_FIELDS(28)};
    static const vbson_options of_another_size = {sizeof(vbson_options) + 1, 0, 0, 0, 0, 0};
    if (fields >= OTHER_SIZE) return &of_another_size;
    return fields == 0 ? NULL : &made[fields];
}

static inline int end(void) {
    printf("%d passed, %d failed\n", passed, failed);
    return failed != 0;
}

#endif
