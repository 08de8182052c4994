// Laid under a program by LD_PRELOAD, it refuses the one allocation that REFUSED numbers, from 1, and makes the file REFUSED_MARK when
// it does.
#define _GNU_SOURCE
#include <dlfcn.h>
#include <fcntl.h>
#include <stdatomic.h>
#include <stdlib.h>
#include <unistd.h>

static atomic_long asked;
static long refused;
static void *(*next_malloc)(size_t);
static void *(*next_realloc)(void *, size_t);

__attribute__((constructor)) static void begin(void)
{
    const char *number = getenv("REFUSED");
    refused = number ? atol(number) : 0;
    atomic_store(&asked, 0);
}

static int refuses(void)
{
    const char *mark = getenv("REFUSED_MARK");
    if (atomic_fetch_add(&asked, 1) + 1 != refused || !mark)
        return 0;
    close(open(mark, O_CREAT | O_WRONLY, 0600));
    return 1;
}

void *malloc(size_t size)
{
    if (!next_malloc)
        next_malloc = dlsym(RTLD_NEXT, "malloc");
    return refuses() ? NULL : next_malloc(size);
}

void *realloc(void *old, size_t size)
{
    if (!next_realloc)
        next_realloc = dlsym(RTLD_NEXT, "realloc");
    return refuses() ? NULL : next_realloc(old, size);
}
