// To be loaded before a program: none of its threads is made, where it is the program that REFUSE_IN names, or that names none. Where one was to be, a byte
// is left in the file that REFUSED names.
#define _GNU_SOURCE
#include <dlfcn.h>
#include <errno.h>
#include <fcntl.h>
#include <pthread.h>
#include <stdlib.h>
#include <string.h>
#include <unistd.h>

typedef int create(pthread_t *, const pthread_attr_t *, void *(*)(void *), void *);

int pthread_create(pthread_t *thread, const pthread_attr_t *attributes, void *(*start)(void *), void *argument) {
    const char *name = getenv("REFUSE_IN");
    if (name && strcmp(name, program_invocation_short_name) != 0) {
        create *made = (create *)dlsym(RTLD_NEXT, "pthread_create");
        return made ? made(thread, attributes, start, argument) : EAGAIN;
    }
    const char *mark = getenv("REFUSED");
    int file = mark ? open(mark, O_WRONLY | O_CREAT | O_APPEND, 0600) : -1;
    if (file >= 0) {
        if (write(file, "!", 1) < 0) _exit(99);
        close(file);
    }
    return EAGAIN;
}
