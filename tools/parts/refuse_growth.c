/* A library that stands before the C library of a program (LD_PRELOAD) and refuses one growth of it: the call of malloc,
   calloc, realloc, aligned_alloc, posix_memalign, mmap or pthread_create with the number that REFUSED_GROWTH says, from 1. A
   refused pthread_create stands for the memory of a thread. So it refuses the call of read that REFUSED_READ says, and the one
   of write that REFUSED_WRITE says. tools/try growths and tools/measure memory build and use it; when the program ends, how
   many calls there were is written to the files that COUNTED_GROWTHS, COUNTED_READS and COUNTED_WRITES name, and how many
   bytes those for memory asked for to the one that ASKED_BYTES names. */
#define _GNU_SOURCE
#include <dlfcn.h>
#include <errno.h>
#include <pthread.h>
#include <stdatomic.h>
#include <stddef.h>
#include <stdio.h>
#include <stdlib.h>
#include <string.h>
#include <sys/mman.h>
#include <sys/syscall.h>
#include <unistd.h>

static atomic_ulong calls;
static atomic_ulong asked;
static atomic_ulong reads;
static atomic_ulong writes;
static unsigned long refused;
static unsigned long refused_read;
static unsigned long refused_write;
static int begun;

/* What dlsym itself asks for before the real functions are known. */
static _Alignas(16) char early[65536];
static size_t early_used;

static void *from_early(size_t size) {
    size_t at = early_used;
    early_used += (size + 15) / 16 * 16;
    return early_used <= sizeof early ? early + at : NULL;
}

static int is_early(void *p) { return (char *)p >= early && (char *)p < early + sizeof early; }

static void *(*real_malloc)(size_t);
static void *(*real_calloc)(size_t, size_t);
static void *(*real_realloc)(void *, size_t);
static void (*real_free)(void *);
static void *(*real_aligned)(size_t, size_t);
static int (*real_memalign)(void **, size_t, size_t);
static void *(*real_mmap)(void *, size_t, int, int, int, off_t);
static int (*real_create)(pthread_t *, const pthread_attr_t *, void *(*)(void *), void *);
static ssize_t (*real_read)(int, void *, size_t);
static ssize_t (*real_write)(int, const void *, size_t);

static void find(void) {
    real_calloc = dlsym(RTLD_NEXT, "calloc");
    real_realloc = dlsym(RTLD_NEXT, "realloc");
    real_free = dlsym(RTLD_NEXT, "free");
    real_aligned = dlsym(RTLD_NEXT, "aligned_alloc");
    real_memalign = dlsym(RTLD_NEXT, "posix_memalign");
    real_mmap = dlsym(RTLD_NEXT, "mmap");
    real_create = dlsym(RTLD_NEXT, "pthread_create");
    real_read = dlsym(RTLD_NEXT, "read");
    real_write = dlsym(RTLD_NEXT, "write");
    real_malloc = dlsym(RTLD_NEXT, "malloc");
}

static unsigned long number_in(const char *name) {
    const char *number = getenv(name);
    return number ? strtoul(number, NULL, 10) : 0;
}

__attribute__((constructor)) static void begin(void) {
    find();
    refused = number_in("REFUSED_GROWTH");
    refused_read = number_in("REFUSED_READ");
    refused_write = number_in("REFUSED_WRITE");
    begun = 1;
}

static void tell(const char *name, unsigned long number) {
    FILE *out = name ? fopen(name, "w") : NULL;
    if (out) {
        fprintf(out, "%lu\n", number);
        fclose(out);
    }
}

static void count_told(void) {
    unsigned long count = calls, bytes = asked, read_count = reads, write_count = writes;
    begun = 0;
    tell(getenv("COUNTED_GROWTHS"), count);
    tell(getenv("COUNTED_READS"), read_count);
    tell(getenv("COUNTED_WRITES"), write_count);
    tell(getenv("ASKED_BYTES"), bytes);
}

/* A program may end without its destructors. */
void _exit(int status) {
    count_told();
    syscall(SYS_exit_group, status);
    __builtin_unreachable();
}

static int is_refused(size_t size) {
    if (!begun) return 0;
    asked += size;
    if (++calls != refused) return 0;
    errno = ENOMEM;
    return 1;
}

void *malloc(size_t size) {
    if (!real_malloc) return from_early(size);
    return is_refused(size) ? NULL : real_malloc(size);
}

void *calloc(size_t count, size_t size) {
    if (!real_calloc) return from_early(count * size);
    return is_refused(count * size) ? NULL : real_calloc(count, size);
}

void *realloc(void *p, size_t size) {
    if (is_refused(size)) return NULL;
    if (!is_early(p)) return real_realloc(p, size);
    void *grown = real_malloc(size);
    if (grown) memcpy(grown, p, size);
    return grown;
}

void free(void *p) {
    if (p && !is_early(p) && real_free) real_free(p);
}

void *aligned_alloc(size_t alignment, size_t size) { return is_refused(size) ? NULL : real_aligned(alignment, size); }

int posix_memalign(void **p, size_t alignment, size_t size) {
    return is_refused(size) ? ENOMEM : real_memalign(p, alignment, size);
}

void *mmap(void *at, size_t size, int protection, int flags, int file, off_t offset) {
    if (!real_mmap) find();
    return is_refused(size) ? MAP_FAILED : real_mmap(at, size, protection, flags, file, offset);
}

int pthread_create(pthread_t *thread, const pthread_attr_t *how, void *(*run)(void *), void *with) {
    return is_refused(0) ? EAGAIN : real_create(thread, how, run, with);
}

static int is_failed(atomic_ulong *counted, unsigned long number) {
    if (!begun || ++*counted != number) return 0;
    errno = EIO;
    return 1;
}

ssize_t read(int file, void *into, size_t size) { return is_failed(&reads, refused_read) ? -1 : real_read(file, into, size); }

ssize_t write(int file, const void *from, size_t size) {
    return is_failed(&writes, refused_write) ? -1 : real_write(file, from, size);
}
