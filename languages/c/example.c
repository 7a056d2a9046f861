/* The canonical form of a text, and whether it means the same.
 *
 *     export PKG_CONFIG_PATH=PREFIX/lib/pkgconfig
 *     cc example.c $(pkg-config --cflags --libs vbson) -Wl,-rpath,$(pkg-config --variable=libdir vbson) && ./a.out
 *
 * PREFIX is that of ./vbson install, or languages/out. The last argument of cc says where libvbson.so.0 is.
 */
#include <stdio.h>
#include <string.h>
#include <vbson.h>

int main(void) {
    const char *text = "{\"n\": 5, \"at\": {\"$date\": \"1970-01-01T00:00:00Z\"}}";
    vbson_buffer canonical = VBSON_BUFFER_INIT;
    uint32_t status = vbson_convert(VBSON_CANONICAL, NULL, vbson_bytes(text), strlen(text), &canonical);
    if (status != VBSON_OK) {
        fprintf(stderr, "%s\n", vbson_status_text(status));
        return 1;
    }
    printf("%s\n", vbson_chars(&canonical));
    status = vbson_same(NULL, vbson_bytes(text), strlen(text), canonical.bytes, canonical.len);
    printf("%s\n", status == VBSON_OK ? "the same" : vbson_status_text(status));
    vbson_buffer_free(&canonical);
    return 0;
}
