/*
 * Loaded in front of the C library: the request for memory with the number REFUSED_REQUEST, from 1 on, is
 * refused. At the end the number of requests is written into the file REQUEST_COUNT, where that is named.
 */
#include <errno.h>
#include <stddef.h>
#include <stdio.h>
#include <stdlib.h>

extern void *__libc_malloc(size_t size);
extern void *__libc_realloc(void *old, size_t size);

static long requests;

static int is_refused(void)
{
    const char *number = getenv("REFUSED_REQUEST");

    requests++;
    if (number == NULL || requests != atol(number))
        return 0;
    errno = ENOMEM;
    return 1;
}

void *malloc(size_t size)
{
    return is_refused() ? NULL : __libc_malloc(size);
}

void *realloc(void *old, size_t size)
{
    return is_refused() ? NULL : __libc_realloc(old, size);
}

__attribute__((destructor)) static void tell(void)
{
    const char *name = getenv("REQUEST_COUNT");
    long count = requests;
    FILE *file = name == NULL ? NULL : fopen(name, "w");

    if (file == NULL)
        return;
    fprintf(file, "%ld\n", count);
    fclose(file);
}
