/* malloc and realloc of a program that is linked with --wrap. The call with the number in FAIL_AT, counted from 1, finds no memory.
 * Where COUNT_FILE is set, that file gets how many calls there were. */
#include <stdio.h>
#include <stdlib.h>

void *__real_malloc(size_t size);
void *__real_realloc(void *block, size_t size);
void *__wrap_malloc(size_t size);
void *__wrap_realloc(void *block, size_t size);

static unsigned long calls;

static int fails(void) {
    const char *text = getenv("FAIL_AT");
    return ++calls == (text ? strtoul(text, NULL, 10) : 0);
}

void *__wrap_malloc(size_t size) { return fails() ? NULL : __real_malloc(size); }
void *__wrap_realloc(void *block, size_t size) { return fails() ? NULL : __real_realloc(block, size); }

__attribute__((destructor)) static void tell(void) {
    const char *name = getenv("COUNT_FILE");
    FILE *file = name ? fopen(name, "w") : NULL;
    if (!file) return;
    fprintf(file, "%lu\n", calls);
    fclose(file);
}
