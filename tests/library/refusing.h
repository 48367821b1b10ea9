/* Memory that is refused where a test says so, and blocks that are counted, in a program that is linked with --wrap for
 * malloc, realloc and free. */
#ifndef REFUSING_H
#define REFUSING_H

#include "testing.h"

static long calls_left = -1, blocks;

extern void *__real_malloc(size_t size);
extern void *__real_realloc(void *old, size_t size);
extern void __real_free(void *block);
void *__wrap_malloc(size_t size);
void *__wrap_realloc(void *old, size_t size);
void __wrap_free(void *block);

/* Whether this allocation is the one that fails. */
static bool fails(void)
{
    if (calls_left > 0)
        calls_left--;
    return calls_left == 0;
}

/* What a call answers, whose nth allocation fails. */
#define FAILING(nth, call) (calls_left = (nth), stop_failing(call))

static inline uint32_t stop_failing(uint32_t answer)
{
    calls_left = -1;
    return answer;
}

void *__wrap_malloc(size_t size)
{
    void *block = fails() ? NULL : __real_malloc(size);
    blocks += block != NULL;
    return block;
}

void *__wrap_realloc(void *old, size_t size)
{
    void *block = fails() ? NULL : __real_realloc(old, size);
    blocks += !old && block;
    return block;
}

void __wrap_free(void *block)
{
    blocks -= block != NULL;
    __real_free(block);
}

#endif
