/* Counts the allocations of a program and of all its libraries, if it is preloaded (LD_PRELOAD). Each
 * function calls the C library's own. */
#include <errno.h>
#include <stddef.h>
#include <stdint.h>

void *__libc_malloc(size_t size);
void *__libc_calloc(size_t items, size_t size);
void *__libc_realloc(void *block, size_t size);
void *__libc_memalign(size_t place, size_t size);

static uint64_t requests, bytes;

static void count(size_t size)
{
    __atomic_fetch_add(&requests, 1, __ATOMIC_RELAXED);
    __atomic_fetch_add(&bytes, size, __ATOMIC_RELAXED);
}

void requests_counted(uint64_t *so_many, uint64_t *of_bytes)
{
    *so_many = __atomic_load_n(&requests, __ATOMIC_RELAXED);
    *of_bytes = __atomic_load_n(&bytes, __ATOMIC_RELAXED);
}

void *malloc(size_t size)
{
    count(size);
    return __libc_malloc(size);
}

void *calloc(size_t items, size_t size)
{
    count(items * size);
    return __libc_calloc(items, size);
}

void *realloc(void *block, size_t size)
{
    count(size);
    return __libc_realloc(block, size);
}

void *aligned_alloc(size_t place, size_t size)
{
    count(size);
    return __libc_memalign(place, size);
}

void *memalign(size_t place, size_t size)
{
    return aligned_alloc(place, size);
}

int posix_memalign(void **block, size_t place, size_t size)
{
    *block = aligned_alloc(place, size);
    return *block == NULL ? ENOMEM : 0;
}
