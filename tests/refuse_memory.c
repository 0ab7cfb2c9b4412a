/* Refuses chosen requests for memory of a program: preloaded by tests/refused_memory.

   REFUSE_FROM and REFUSE_TO are numbers of requests, counted from 1 once the program's own code begins. A
   byte is written to the descriptor REFUSE_TOLD at each refusal: m for memory, t for a thread. With
   REFUSE_THREADS each start of a thread is a request too. It needs glibc, and knows malloc, calloc and
   realloc, the ones that the program and the C library call. */
#define _GNU_SOURCE
#include <dlfcn.h>
#include <errno.h>
#include <pthread.h>
#include <stdlib.h>
#include <unistd.h>

extern void *__libc_malloc(size_t size);
extern void *__libc_calloc(size_t count, size_t size);
extern void *__libc_realloc(void *old, size_t size);

static unsigned long from, to, requests;
static int told = -1, threads;

static unsigned long number(const char *name, unsigned long missing)
{
    const char *text = getenv(name);
    return text ? strtoul(text, NULL, 10) : missing;
}

__attribute__((constructor)) static void begin(void)
{
    told = (int)number("REFUSE_TOLD", 2);
    threads = (int)number("REFUSE_THREADS", 0);
    to = number("REFUSE_TO", 0);
    from = number("REFUSE_FROM", 0);
}

static int refused(char kind)
{
    if (from == 0)
        return 0;
    unsigned long request = __atomic_add_fetch(&requests, 1, __ATOMIC_SEQ_CST);
    if (request < from || request > to)
        return 0;
    if (write(told, &kind, 1) != 1)
        abort();
    return 1;
}

void *malloc(size_t size)
{
    if (refused('m')) {
        errno = ENOMEM;
        return NULL;
    }
    return __libc_malloc(size);
}

void *calloc(size_t count, size_t size)
{
    if (refused('m')) {
        errno = ENOMEM;
        return NULL;
    }
    return __libc_calloc(count, size);
}

void *realloc(void *old, size_t size)
{
    if (refused('m')) {
        errno = ENOMEM;
        return NULL;
    }
    return __libc_realloc(old, size);
}

int pthread_create(pthread_t *thread, const pthread_attr_t *attributes, void *(*start)(void *),
                   void *argument)
{
    int (*create)(pthread_t *, const pthread_attr_t *, void *(*)(void *), void *) =
        dlsym(RTLD_NEXT, "pthread_create");
    if (threads && refused('t'))
        return EAGAIN;
    return create(thread, attributes, start, argument);
}
