/* The same seeds in each run: a Forget of one key ends what its hash slot has of others, so a test that says what becomes of
 * each would fail in the runs in which two of its keys or tags share a slot. Link it into a program with -Wl,--wrap=getrandom. */
#include <stdint.h>
#include <sys/random.h>

ssize_t __wrap_getrandom(void *to, size_t size, unsigned flags);

ssize_t __wrap_getrandom(void *to, size_t size, unsigned flags) {
    (void)flags;
    for (size_t i = 0; i < size; i++) ((uint8_t *)to)[i] = (uint8_t)(i * 29 + 5);
    return (ssize_t)size;
}
