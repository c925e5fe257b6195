/* An allocator put before the C library's (LD_PRELOAD). It counts the requests for memory of a program, refuses the
 * one whose number REFUSE_NTH gives, or all where that is `all`, and at the end writes the count to the file that
 * REFUSE_LOG names. */
#include <errno.h>
#include <fcntl.h>
#include <stdio.h>
#include <stdlib.h>
#include <string.h>

void *__libc_malloc(size_t), *__libc_realloc(void *, size_t);
static unsigned long requests, refused;
static int all;

__attribute__((constructor)) static void begin(void) {
    all = strcmp(getenv("REFUSE_NTH"), "all") == 0;
    refused = strtoul(getenv("REFUSE_NTH"), NULL, 10);
    requests = 0;
}

__attribute__((destructor)) static void end(void) {
    dprintf(open(getenv("REFUSE_LOG"), O_WRONLY | O_CREAT | O_TRUNC, 0644), "%lu\n", requests);
}

static int refuses(void) {
    requests++;
    if (requests != refused && !all) return 0;
    errno = ENOMEM;
    return 1;
}

void *malloc(size_t size) { return refuses() ? NULL : __libc_malloc(size); }
void *realloc(void *block, size_t size) { return refuses() ? NULL : __libc_realloc(block, size); }
