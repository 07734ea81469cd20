// Refuses one allocation of the program that it is loaded into (LD_PRELOAD), for cases/no-memory.
//
// REFUSED_ALLOCATION is the number of that allocation, counted from 1 once the program was loaded; a call that makes a
// block larger counts too. Where the program asks for it, one byte goes to the descriptor REFUSAL_DESCRIPTOR.

#include <errno.h>
#include <stdatomic.h>
#include <stdlib.h>
#include <unistd.h>

// What these names mean in glibc without this file.
void *__libc_malloc(size_t size);
void *__libc_calloc(size_t count, size_t size);
void *__libc_realloc(void *block, size_t size);
void *__libc_memalign(size_t alignment, size_t size);

static atomic_ulong asked;
static unsigned long refused;
static int descriptor;

static unsigned long number_in(const char *name) {
    const char *text = getenv(name);
    return text ? strtoul(text, NULL, 10) : 0;
}

__attribute__((constructor)) static void begin(void) {
    descriptor = (int)number_in("REFUSAL_DESCRIPTOR");
    refused = number_in("REFUSED_ALLOCATION");
}

static int is_refused(void) {
    if (refused == 0 || atomic_fetch_add(&asked, 1) + 1 != refused) {
        return 0;
    }
    errno = ENOMEM;
    return write(descriptor, "!", 1) == 1;
}

void *malloc(size_t size) {
    return is_refused() ? NULL : __libc_malloc(size);
}

void *calloc(size_t count, size_t size) {
    return is_refused() ? NULL : __libc_calloc(count, size);
}

void *realloc(void *block, size_t size) {
    return is_refused() ? NULL : __libc_realloc(block, size);
}

void *aligned_alloc(size_t alignment, size_t size) {
    return is_refused() ? NULL : __libc_memalign(alignment, size);
}

int posix_memalign(void **block, size_t alignment, size_t size) {
    if (is_refused()) {
        return ENOMEM;
    }
    *block = __libc_memalign(alignment, size);
    return *block ? 0 : ENOMEM;
}
