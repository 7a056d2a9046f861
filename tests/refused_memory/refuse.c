/* Loaded before the C library (LD_PRELOAD): refuses the request for memory whose number, counted from 1, is in
   the variable REFUSE, and at the end writes the number of requests that there were to the file descriptor TELL.

   If EACH_LINE is set, the requests are counted anew after each line that the program writes to standard output,
   a number is written for each, and none is refused before the first line. */
#define _GNU_SOURCE
#include <errno.h>
#include <stdio.h>
#include <stdlib.h>
#include <sys/syscall.h>
#include <unistd.h>

void *__libc_malloc(size_t size);
void *__libc_calloc(size_t count, size_t size);
void *__libc_realloc(void *old, size_t size);

static unsigned long requests, refused;
static int each_line, is_armed, to;

/* What the loader asked for before the program began is neither counted nor refused. */
__attribute__((constructor)) static void begin(void) {
    const char *number = getenv("REFUSE");
    refused = number ? strtoul(number, NULL, 10) : 0;
    const char *descriptor = getenv("TELL");
    to = descriptor ? atoi(descriptor) : 2;
    each_line = getenv("EACH_LINE") != NULL;
    is_armed = !each_line;
    requests = 0;
}

static void tell(void) {
    is_armed = 0;
    dprintf(to, "%lu\n", requests);
    requests = 0;
    is_armed = 1;
}

__attribute__((destructor)) static void end(void) {
    if (!each_line) tell();
}

static int is_refused(void) {
    requests++;
    if (!is_armed || requests != refused) return 0;
    errno = ENOMEM;
    return 1;
}

void *malloc(size_t size) { return is_refused() ? NULL : __libc_malloc(size); }
void *calloc(size_t count, size_t size) { return is_refused() ? NULL : __libc_calloc(count, size); }
void *realloc(void *old, size_t size) { return is_refused() ? NULL : __libc_realloc(old, size); }

ssize_t write(int descriptor, const void *bytes, size_t count) {
    ssize_t taken = syscall(SYS_write, descriptor, bytes, count);
    if (each_line && descriptor == 1 && taken > 0 && ((const char *)bytes)[taken - 1] == '\n') tell();
    return taken;
}
