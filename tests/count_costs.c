/* Counts what a program asks for: preloaded by tests/costs.

   At the program's end a line of numbers goes to the descriptor COSTS_TOLD: its system calls, the threads
   that it started, its requests for memory, the most KiB of memory that it held at once, and the most KiB
   that were resident. The program is told that it has COSTS_PROCESSORS processors, whatever the machine has.
   It needs glibc, and knows the calls that the program makes. */
#define _GNU_SOURCE
#include <dlfcn.h>
#include <errno.h>
#include <fcntl.h>
#include <malloc.h>
#include <pthread.h>
#include <sched.h>
#include <stdarg.h>
#include <stdio.h>
#include <stdlib.h>
#include <string.h>
#include <sys/syscall.h>
#include <unistd.h>

extern void *__libc_malloc(size_t size);
extern void *__libc_calloc(size_t count, size_t size);
extern void *__libc_realloc(void *old, size_t size);
extern void __libc_free(void *old);
extern long __sysconf(int name);

static unsigned long system_calls, threads, requests, held, most_held;
static unsigned long processors = 1;

static unsigned long number(const char *name, unsigned long missing)
{
    const char *text = getenv(name);
    return text ? strtoul(text, NULL, 10) : missing;
}

static void add(unsigned long *count)
{
    __atomic_add_fetch(count, 1, __ATOMIC_SEQ_CST);
}

static void drop(unsigned long size)
{
    __atomic_sub_fetch(&held, size, __ATOMIC_SEQ_CST);
}

static void *hold(void *block)
{
    unsigned long now = __atomic_add_fetch(&held, malloc_usable_size(block), __ATOMIC_SEQ_CST);
    unsigned long most = __atomic_load_n(&most_held, __ATOMIC_SEQ_CST);
    while (now > most
           && !__atomic_compare_exchange_n(&most_held, &most, now, 0, __ATOMIC_SEQ_CST, __ATOMIC_SEQ_CST))
        ;
    add(&requests);
    return block;
}

void *malloc(size_t size)
{
    return hold(__libc_malloc(size));
}

void *calloc(size_t count, size_t size)
{
    return hold(__libc_calloc(count, size));
}

void *realloc(void *old, size_t size)
{
    unsigned long before = malloc_usable_size(old);
    void *block = __libc_realloc(old, size);
    if (block == NULL && size > 0)
        return NULL;
    drop(before);
    return hold(block);
}

void free(void *old)
{
    drop(malloc_usable_size(old));
    __libc_free(old);
}

int open(const char *path, int how, ...)
{
    va_list more;
    va_start(more, how);
    int mode = how & O_CREAT ? va_arg(more, int) : 0;
    va_end(more);
    add(&system_calls);
    // A container's share of the processors would be one more answer to how many there are.
    if (strcmp(path, "/sys/fs/cgroup/cpu.max") == 0) {
        errno = ENOENT;
        return -1;
    }
    return (int)syscall(SYS_openat, AT_FDCWD, path, how, mode);
}

ssize_t read(int from, void *into, size_t size)
{
    add(&system_calls);
    return syscall(SYS_read, from, into, size);
}

ssize_t write(int to, const void *bytes, size_t size)
{
    add(&system_calls);
    return syscall(SYS_write, to, bytes, size);
}

off_t lseek(int file, off_t place, int from)
{
    add(&system_calls);
    return syscall(SYS_lseek, file, place, from);
}

int close(int file)
{
    add(&system_calls);
    return (int)syscall(SYS_close, file);
}

int getentropy(void *into, size_t size)
{
    add(&system_calls);
    return syscall(SYS_getrandom, into, size, 0) == (long)size ? 0 : -1;
}

int pthread_create(pthread_t *thread, const pthread_attr_t *attributes, void *(*start)(void *),
                   void *argument)
{
    int (*create)(pthread_t *, const pthread_attr_t *, void *(*)(void *), void *) =
        dlsym(RTLD_NEXT, "pthread_create");
    add(&threads);
    return create(thread, attributes, start, argument);
}

long sysconf(int name)
{
    return name == _SC_NPROCESSORS_ONLN ? (long)processors : __sysconf(name);
}

int sched_getaffinity(pid_t process, size_t size, cpu_set_t *mask)
{
    (void)process;
    memset(mask, 0, size);
    for (unsigned long processor = 0; processor < processors; processor++)
        CPU_SET_S(processor, size, mask);
    return 0;
}

__attribute__((constructor)) static void begin(void)
{
    processors = number("COSTS_PROCESSORS", 1);
}

/* What the kernel says was resident of this program alone: what getrusage says is no less than
   the parent had. */
static unsigned long most_resident(void)
{
    unsigned long found = 0;
    char line[256];
    FILE *status = fopen("/proc/self/status", "r");
    while (status && fgets(line, sizeof line, status))
        sscanf(line, "VmHWM: %lu", &found);
    return found;
}

static void tell(void)
{
    unsigned long told[] = {system_calls, threads, requests, most_held / 1024, most_resident()};
    dprintf((int)number("COSTS_TOLD", 2), "%lu %lu %lu %lu %lu\n", told[0], told[1], told[2], told[3],
            told[4]);
}

void _exit(int status)
{
    tell();
    for (;;)
        syscall(SYS_exit_group, status);
}
