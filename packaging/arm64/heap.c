/* Memory for a compiled program or library on ARM64 Linux. The toolchain has these functions for x86-64
   alone, in its archive liblibc_c.a; no proof covers either. */
#include <stddef.h>
#include <stdint.h>
#include <stdlib.h>

/* Whether there is memory, and where. The place is never null. */
struct tried {
    uint64_t ok;
    void *place;
};

static char nothing;

static struct tried tried(void *place) {
    return (struct tried){place != NULL, place != NULL ? place : &nothing};
}

/* The alignment divides 16, so malloc keeps it. */
struct tried rattle_alloc(size_t size, size_t alignment) {
    return tried(malloc(size != 0 ? size : alignment));
}

struct tried rattle_realloc(void *place, size_t kept, size_t size, size_t alignment) {
    (void)kept;
    return tried(realloc(place, size != 0 ? size : alignment));
}

void rattle_dealloc(void *place) { free(place); }
