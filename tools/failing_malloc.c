/* Stands in front of the C library's allocator, by LD_PRELOAD. The allocation with the number in FAIL_AT, counted from 1, finds no
   memory. Where COUNT_FILE is set, that file gets how many allocations there were, once the program ends. */
#include <errno.h>
#include <stdio.h>
#include <stdlib.h>

extern void *__libc_malloc(size_t size);
extern void *__libc_calloc(size_t count, size_t size);
extern void *__libc_realloc(void *block, size_t size);
extern void *__libc_memalign(size_t align, size_t size);

static unsigned long allocations;
static unsigned long failing;

static int fails(void)
{
    if (allocations == 0) {
        const char *text = getenv("FAIL_AT");
        failing = text ? strtoul(text, NULL, 10) : 0;
    }
    allocations++;
    if (allocations == failing)
        errno = ENOMEM;
    return allocations == failing;
}

void *malloc(size_t size)
{
    return fails() ? NULL : __libc_malloc(size);
}

void *calloc(size_t count, size_t size)
{
    return fails() ? NULL : __libc_calloc(count, size);
}

void *realloc(void *block, size_t size)
{
    return fails() ? NULL : __libc_realloc(block, size);
}

void *aligned_alloc(size_t align, size_t size)
{
    return fails() ? NULL : __libc_memalign(align, size);
}

/* Tells by its result what the others tell by errno. */
int posix_memalign(void **block, size_t align, size_t size)
{
    void *found;
    if (align < sizeof(void *) || (align & (align - 1)))
        return EINVAL;
    found = fails() ? NULL : __libc_memalign(align, size);
    if (!found)
        return ENOMEM;
    *block = found;
    return 0;
}

__attribute__((destructor)) static void tell(void)
{
    const char *name = getenv("COUNT_FILE");
    unsigned long all = allocations;
    FILE *file = name ? fopen(name, "w") : NULL;
    if (file) {
        fprintf(file, "%lu\n", all);
        fclose(file);
    }
}
