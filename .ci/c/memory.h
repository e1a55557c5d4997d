/*
 * The requests for memory of a test program, which is linked with --wrap=malloc,--wrap=realloc,--wrap=free: how many blocks are in use,
 * and one request that is refused.
 */
#ifndef MEMORY_H
#define MEMORY_H

#include <stdatomic.h>
#include <stddef.h>

void *__real_malloc(size_t size);
void *__real_realloc(void *block, size_t size);
void __real_free(void *block);
void *__wrap_malloc(size_t size);
void *__wrap_realloc(void *block, size_t size);
void __wrap_free(void *block);

static _Atomic long held;
static _Thread_local long refused_request;

static int is_refused(void) {
    return refused_request > 0 && --refused_request == 0;
}

void *__wrap_malloc(size_t size) {
    void *block = is_refused() ? NULL : __real_malloc(size);
    held += block != NULL;
    return block;
}

void *__wrap_realloc(void *block, size_t size) {
    void *larger = is_refused() ? NULL : __real_realloc(block, size);
    held += block == NULL && larger != NULL;
    return larger;
}

void __wrap_free(void *block) {
    held -= block != NULL;
    __real_free(block);
}

#endif
