/* Preloaded into a program: its Nth call of malloc or realloc fails, where REFUSE_NTH is N, and its Nth thread is not
   started, where REFUSE_THREAD is N. How many such calls there are is kept in the file that REFUSE_COUNT names, as two numbers of
   64 bits, however the program ends. */
#define _GNU_SOURCE
#include <dlfcn.h>
#include <errno.h>
#include <fcntl.h>
#include <pthread.h>
#include <stdatomic.h>
#include <stddef.h>
#include <stdlib.h>
#include <sys/mman.h>
#include <unistd.h>

struct counts {
    atomic_ulong allocations, threads;
};

static struct counts own, *counts = &own;

static unsigned long wanted(const char *name)
{
    const char *text = getenv(name);
    return text ? strtoul(text, NULL, 10) : 0;
}

static int is_refused(void)
{
    return atomic_fetch_add(&counts->allocations, 1) + 1 == wanted("REFUSE_NTH");
}

void *malloc(size_t size)
{
    extern void *__libc_malloc(size_t);
    return is_refused() ? NULL : __libc_malloc(size);
}

void *realloc(void *at, size_t size)
{
    extern void *__libc_realloc(void *, size_t);
    return is_refused() ? NULL : __libc_realloc(at, size);
}

int pthread_create(pthread_t *thread, const pthread_attr_t *attr, void *(*start)(void *), void *arg)
{
    int (*next)(pthread_t *, const pthread_attr_t *, void *(*)(void *), void *) = dlsym(RTLD_NEXT, "pthread_create");
    if (atomic_fetch_add(&counts->threads, 1) + 1 == wanted("REFUSE_THREAD"))
        return EAGAIN;
    return next(thread, attr, start, arg);
}

__attribute__((constructor)) static void keep_counts(void)
{
    const char *path = getenv("REFUSE_COUNT");
    int file = path ? open(path, O_RDWR | O_CREAT, 0600) : -1;
    if (file < 0 || ftruncate(file, sizeof own) != 0)
        return;
    struct counts *kept = mmap(NULL, sizeof own, PROT_READ | PROT_WRITE, MAP_SHARED, file, 0);
    if (kept == MAP_FAILED)
        return;
    atomic_store(&kept->allocations, atomic_load(&own.allocations));
    atomic_store(&kept->threads, atomic_load(&own.threads));
    counts = kept;
}
