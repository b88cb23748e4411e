/* Preloaded into the program: refuses the request for memory whose number REFUSE names, counted from 1, and no other, and then makes the
   file that REFUSED names. */
#define _GNU_SOURCE
#include <dlfcn.h>
#include <errno.h>
#include <fcntl.h>
#include <stdlib.h>
#include <unistd.h>

static unsigned long asked, refused;

static int refuses(void)
{
    if (refused == 0) {
        const char *number = getenv("REFUSE");
        refused = number ? strtoul(number, 0, 10) : (unsigned long)-1;
    }
    if (++asked != refused)
        return 0;
    const char *mark = getenv("REFUSED");
    if (mark)
        close(open(mark, O_CREAT | O_WRONLY, 0600));
    return 1;
}

void *malloc(size_t size)
{
    static void *(*next)(size_t);
    if (!next)
        next = (void *(*)(size_t))dlsym(RTLD_NEXT, "malloc");
    if (refuses()) {
        errno = ENOMEM;
        return 0;
    }
    return next(size);
}

void *realloc(void *old, size_t size)
{
    static void *(*next)(void *, size_t);
    if (!next)
        next = (void *(*)(void *, size_t))dlsym(RTLD_NEXT, "realloc");
    if (refuses()) {
        errno = ENOMEM;
        return 0;
    }
    return next(old, size);
}

int posix_memalign(void **result, size_t alignment, size_t size)
{
    static int (*next)(void **, size_t, size_t);
    if (!next)
        next = (int (*)(void **, size_t, size_t))dlsym(RTLD_NEXT, "posix_memalign");
    if (refuses())
        return ENOMEM;
    return next(result, alignment, size);
}

void *aligned_alloc(size_t alignment, size_t size)
{
    static void *(*next)(size_t, size_t);
    if (!next)
        next = (void *(*)(size_t, size_t))dlsym(RTLD_NEXT, "aligned_alloc");
    if (refuses()) {
        errno = ENOMEM;
        return 0;
    }
    return next(alignment, size);
}
