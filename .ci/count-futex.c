// Loaded before the program that COUNT_IN names, this counts the futex calls that the program makes
// with the function `syscall` of the C library. Each call leaves a letter in the file that COUNTED
// names: `w` for a wake, `s` for a wait that slept until a wake, and `r` for a wait that returned at
// once. The C library's own futex calls, such as those of pthread_join, do not go through `syscall`,
// and are not counted.
#define _GNU_SOURCE
#include <dlfcn.h>
#include <errno.h>
#include <fcntl.h>
#include <linux/futex.h>
#include <stdarg.h>
#include <stdlib.h>
#include <string.h>
#include <sys/syscall.h>
#include <unistd.h>

typedef long call(long, ...);

static int file = -1;

__attribute__((constructor)) static void open_file(void) {
    const char *name = getenv("COUNT_IN");
    const char *counted = getenv("COUNTED");
    if (name && counted && strcmp(name, program_invocation_short_name) == 0)
        file = open(counted, O_WRONLY | O_CREAT | O_APPEND | O_CLOEXEC, 0600);
}

static void leave(const char *letter) {
    int kept = errno;
    if (file >= 0 && write(file, letter, 1) < 0) _exit(99);
    errno = kept;
}

long syscall(long number, ...) {
    long words[6];
    va_list list;
    va_start(list, number);
    for (int i = 0; i < 6; i++) words[i] = va_arg(list, long);
    va_end(list);
    call *made = (call *)dlsym(RTLD_NEXT, "syscall");
    if (!made) {
        errno = ENOSYS;
        return -1;
    }
    int command = number == SYS_futex ? (int)words[1] & FUTEX_CMD_MASK : -1;
    if (command == FUTEX_WAKE) leave("w");
    long answer = made(number, words[0], words[1], words[2], words[3], words[4], words[5]);
    if (command == FUTEX_WAIT) leave(answer == 0 ? "s" : "r");
    return answer;
}
