/* Refuses one request for memory of the program that it is loaded before: the one whose number REFUSED says, from 1 on. Where that is
   0, none is refused, and the number of all is said at the end. */
#include <errno.h>
#include <stddef.h>
#include <stdio.h>
#include <stdlib.h>

extern void *__libc_malloc(size_t size);
extern void *__libc_calloc(size_t count, size_t size);
extern void *__libc_realloc(void *old, size_t size);

static unsigned long refused, made;

__attribute__((constructor)) static void begin(void)
{
    const char *said = getenv("REFUSED");
    refused = said == NULL ? 0 : strtoul(said, NULL, 10);
    made = 0;
}

__attribute__((destructor)) static void end(void)
{
    if (refused == 0)
        dprintf(2, "requests=%lu\n", made);
}

static int is_refused(void)
{
    made++;
    if (made != refused)
        return 0;
    errno = ENOMEM;
    return 1;
}

void *malloc(size_t size)
{
    return is_refused() ? NULL : __libc_malloc(size);
}

void *calloc(size_t count, size_t size)
{
    return is_refused() ? NULL : __libc_calloc(count, size);
}

void *realloc(void *old, size_t size)
{
    return is_refused() ? NULL : __libc_realloc(old, size);
}
