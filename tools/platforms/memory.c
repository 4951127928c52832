/* The memory of a Rattle library, which the kit has for x86-64 alone: its blocks are those of malloc. */
#include <stddef.h>
#include <stdint.h>

void *malloc(size_t size);
void *realloc(void *old, size_t size);
void free(void *at);

/* Whether there was memory, and where. A block that was refused is at `nothing`, which nobody uses. */
struct given {
    uint8_t ok;
    void *at;
};
static uint64_t nothing;

struct given rattle_alloc(size_t size, size_t align);
struct given rattle_realloc(void *old, size_t was, size_t size, size_t align);
void rattle_dealloc(void *at, size_t size, size_t align);

static struct given of(void *at) { return (struct given){at != NULL, at ? at : (void *)&nothing}; }

struct given rattle_alloc(size_t size, size_t align) { return of(malloc(size ? size : align)); }

struct given rattle_realloc(void *old, size_t was, size_t size, size_t align) {
    (void)was;
    return of(realloc(old, size ? size : align));
}

void rattle_dealloc(void *at, size_t size, size_t align) {
    (void)size;
    (void)align;
    free(at);
}
