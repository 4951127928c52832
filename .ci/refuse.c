// To be loaded before the program that REFUSE_IN names: one of its allocations is refused, the one whose number REFUSE says, counted from 1. Where that
// is met, a byte is left in the file that REFUSED names.
#define _GNU_SOURCE
#include <errno.h>
#include <fcntl.h>
#include <stdatomic.h>
#include <stddef.h>
#include <stdlib.h>
#include <string.h>
#include <unistd.h>

void *__libc_malloc(size_t size);
void *__libc_realloc(void *old, size_t size);

static atomic_long made;
static long refused;

__attribute__((constructor)) static void read_number(void) {
    const char *number = getenv("REFUSE");
    const char *name = getenv("REFUSE_IN");
    int is_meant = number && name && strcmp(name, program_invocation_short_name) == 0;
    refused = is_meant ? atol(number) : 0;
    atomic_store(&made, 0);
}

static int is_refused(void) {
    if (atomic_fetch_add(&made, 1) + 1 != refused) return 0;
    const char *mark = getenv("REFUSED");
    int file = mark ? open(mark, O_WRONLY | O_CREAT | O_APPEND, 0600) : -1;
    if (file >= 0) {
        if (write(file, "!", 1) < 0) _exit(99);
        close(file);
    }
    errno = ENOMEM;
    return 1;
}

void *malloc(size_t size) { return is_refused() ? NULL : __libc_malloc(size); }

void *realloc(void *old, size_t size) { return is_refused() ? NULL : __libc_realloc(old, size); }
