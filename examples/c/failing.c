/* Replaces malloc, realloc and free for a test, by the linker (-Wl,--wrap=malloc and so on).
 *
 *     FAILING_AT=7       the seventh call of malloc or realloc returns null
 *     FAILING_FROM=7     the seventh does, and so do all after it
 *     FAILING_REPORT=F   at the end the file F gets the number of calls, and of blocks that were
 *                        not freed */
#include <stddef.h>
#include <stdio.h>
#include <stdlib.h>

void *__real_malloc(size_t size);
void *__real_realloc(void *block, size_t size);
void __real_free(void *block);
void *__wrap_malloc(size_t size);
void *__wrap_realloc(void *block, size_t size);
void __wrap_free(void *block);

static unsigned long calls, fails_at, fails_from;
static long blocks;

static unsigned long number_in(const char *name)
{
    const char *text = getenv(name);

    return text == NULL ? 0 : strtoul(text, NULL, 10);
}

static void report(void)
{
    const char *name = getenv("FAILING_REPORT");
    FILE *file = name == NULL ? NULL : fopen(name, "w");

    if (file == NULL)
        return;
    fprintf(file, "%lu %ld\n", calls, blocks);
    fclose(file);
}

static int fails(void)
{
    if (calls == 0) {
        fails_at = number_in("FAILING_AT");
        fails_from = number_in("FAILING_FROM");
        atexit(report);
    }
    calls++;
    return calls == fails_at || (fails_from != 0 && calls >= fails_from);
}

void *__wrap_malloc(size_t size)
{
    void *block = fails() ? NULL : __real_malloc(size);

    blocks += block != NULL;
    return block;
}

void *__wrap_realloc(void *block, size_t size)
{
    void *moved = fails() ? NULL : __real_realloc(block, size);

    blocks += block == NULL && moved != NULL;
    return moved;
}

void __wrap_free(void *block)
{
    blocks -= block != NULL;
    __real_free(block);
}
