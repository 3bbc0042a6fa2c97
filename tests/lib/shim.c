/* Fails what a program asks of the C library, for LD_PRELOAD.
 *
 * FAULT_CALL    alloc: malloc, calloc, realloc and their kin answer NULL; write: write answers -1 with FAULT_ERRNO;
 *               short: write takes FAULT_MOST bytes at most; ragged: the same of every write, and those that fail
 *               answer -1 with FAULT_ERRNO; zero: write takes none; thread: pthread_create answers
 *               EAGAIN; attr: pthread_attr_init and pthread_attr_setguardsize answer ENOMEM; space: the address space
 *               may grow by FAULT_AT bytes.
 * FAULT_AT      the number of the first call that fails, from 1 on. 0: none.
 * FAULT_MODE    once, or from: that call, or each from that one on.
 * FAULT_FD      the descriptor whose writes are meant; -1 means each.
 * FAULT_REPORT  the descriptor of a file of three numbers of 64 bits, kept up to date: the calls so far, those that
 *               failed, and the allocations that the program has not freed.
 *
 * Only calls from the start of main on are counted. Nothing here allocates.
 */
#define _GNU_SOURCE
#include <dlfcn.h>
#include <errno.h>
#include <malloc.h>
#include <pthread.h>
#include <stdint.h>
#include <stdlib.h>
#include <string.h>
#include <sys/mman.h>
#include <sys/resource.h>
#include <sys/syscall.h>
#include <unistd.h>
#include <stdio.h>
#include <fcntl.h>

extern void *__libc_malloc(size_t);
extern void *__libc_calloc(size_t, size_t);
extern void *__libc_realloc(void *, size_t);
extern void *__libc_memalign(size_t, size_t);
extern void __libc_free(void *);

enum kind { NONE, ALLOC, WRITE, SHORT, RAGGED, ZERO, THREAD, ATTR };

struct report {
    uint64_t calls;
    uint64_t failed;
    int64_t live;
};

static struct report own;
static struct report *report = &own;
static enum kind kind;
static uint64_t at;
static int only_once;
static int descriptor;
static int number;
static size_t most;
static int is_armed;

static int (*real_create)(pthread_t *, const pthread_attr_t *, void *(*)(void *), void *);
static int (*real_init)(pthread_attr_t *);
static int (*real_guard)(pthread_attr_t *, size_t);

/* Whether this call, which is of the kind that is to fail, fails. */
static int fails(enum kind of)
{
    if (!is_armed || kind != of)
        return 0;
    uint64_t call = __atomic_add_fetch(&report->calls, 1, __ATOMIC_SEQ_CST);
    if (at == 0 || call < at || (only_once && call > at))
        return 0;
    __atomic_add_fetch(&report->failed, 1, __ATOMIC_SEQ_CST);
    return 1;
}

/* What the C library's own threads allocate, by calloc, is not the program's to free. */
enum { OTHERS = 1024 };
static void *others[OTHERS];

static void note_other(void *place)
{
    for (int i = 0; place != NULL && i < OTHERS; i++) {
        void *none = NULL;
        if (__atomic_compare_exchange_n(&others[i], &none, place, 0, __ATOMIC_SEQ_CST, __ATOMIC_SEQ_CST))
            return;
    }
}

static int was_other(void *place)
{
    for (int i = 0; i < OTHERS; i++) {
        void *want = place;
        if (__atomic_compare_exchange_n(&others[i], &want, NULL, 0, __ATOMIC_SEQ_CST, __ATOMIC_SEQ_CST))
            return 1;
    }
    return 0;
}

static void *counted(void *place)
{
    if (is_armed && place != NULL)
        __atomic_add_fetch(&report->live, 1, __ATOMIC_SEQ_CST);
    return place;
}

static void *refused(void)
{
    errno = ENOMEM;
    return NULL;
}

void *malloc(size_t size)
{
    return fails(ALLOC) ? refused() : counted(__libc_malloc(size));
}

void *calloc(size_t count, size_t size)
{
    if (fails(ALLOC))
        return refused();
    void *place = __libc_calloc(count, size);
    note_other(place);
    return place;
}

void *realloc(void *place, size_t size)
{
    if (fails(ALLOC))
        return refused();
    void *grown = __libc_realloc(place, size);
    return place == NULL ? counted(grown) : grown;
}

void *memalign(size_t alignment, size_t size)
{
    return fails(ALLOC) ? refused() : counted(__libc_memalign(alignment, size));
}

void *aligned_alloc(size_t alignment, size_t size)
{
    return memalign(alignment, size);
}

int posix_memalign(void **place, size_t alignment, size_t size)
{
    void *made = memalign(alignment, size);
    if (made == NULL)
        return ENOMEM;
    *place = made;
    return 0;
}

void free(void *place)
{
    if (is_armed && place != NULL && !was_other(place))
        __atomic_sub_fetch(&report->live, 1, __ATOMIC_SEQ_CST);
    __libc_free(place);
}

static ssize_t written(int to, const void *bytes, size_t length)
{
    if (length != 0 && (descriptor == -1 || to == descriptor)) {
        if (fails(WRITE) || fails(RAGGED)) {
            errno = number;
            return -1;
        }
        if (fails(ZERO))
            return 0;
        if ((fails(SHORT) || kind == RAGGED) && length > most)
            length = most;
    }
    return syscall(SYS_write, to, bytes, length);
}

ssize_t write(int to, const void *bytes, size_t length)
{
    return written(to, bytes, length);
}

ssize_t __write(int to, const void *bytes, size_t length)
{
    return written(to, bytes, length);
}

int pthread_create(pthread_t *thread, const pthread_attr_t *attr, void *(*start)(void *), void *argument)
{
    return fails(THREAD) ? EAGAIN : real_create(thread, attr, start, argument);
}

int pthread_attr_init(pthread_attr_t *attr)
{
    return fails(ATTR) ? ENOMEM : real_init(attr);
}

int pthread_attr_setguardsize(pthread_attr_t *attr, size_t size)
{
    return fails(ATTR) ? EINVAL : real_guard(attr, size);
}

static long long setting(const char *name)
{
    const char *text = getenv(name);
    return text == NULL ? 0 : atoll(text);
}

static enum kind kind_of(const char *name)
{
    static const char *const names[] = {"none", "alloc", "write", "short", "ragged", "zero", "thread", "attr"};
    for (int i = 0; i < 8; i++)
        if (strcmp(name, names[i]) == 0)
            return (enum kind)i;
    return NONE;
}

/* Leaves the address space room to grow by this many bytes; the stack has grown before by what the deepest condition needs. */
static void limit_space(rlim_t room)
{
    volatile char stack[3 << 20];
    for (size_t i = 0; i < sizeof stack; i += 4096)
        stack[i] = 0;
    char text[64] = {0};
    int statm = open("/proc/self/statm", O_RDONLY);
    if (statm < 0 || read(statm, text, sizeof text - 1) <= 0)
        _exit(99);
    close(statm);
    rlim_t bytes = (rlim_t)strtoull(text, NULL, 10) * 4096 + room;
    struct rlimit limit = {bytes, bytes};
    if (setrlimit(RLIMIT_AS, &limit) != 0)
        _exit(99);
}

__attribute__((constructor)) static void arm(void)
{
    const char *call = getenv("FAULT_CALL");
    if (call == NULL)
        return;
    real_create = (int (*)(pthread_t *, const pthread_attr_t *, void *(*)(void *), void *))dlsym(RTLD_NEXT, "pthread_create");
    real_init = (int (*)(pthread_attr_t *))dlsym(RTLD_NEXT, "pthread_attr_init");
    real_guard = (int (*)(pthread_attr_t *, size_t))dlsym(RTLD_NEXT, "pthread_attr_setguardsize");
    kind = kind_of(call);
    at = (uint64_t)setting("FAULT_AT");
    const char *mode = getenv("FAULT_MODE");
    only_once = mode == NULL || strcmp(mode, "from") != 0;
    descriptor = (int)setting("FAULT_FD");
    number = (int)setting("FAULT_ERRNO");
    most = (size_t)setting("FAULT_MOST");
    if (getenv("FAULT_REPORT") != NULL) {
        int file = (int)setting("FAULT_REPORT");
        void *map = mmap(NULL, sizeof *report, PROT_READ | PROT_WRITE, MAP_SHARED, file, 0);
        if (map == MAP_FAILED)
            _exit(99);
        report = map;
        close(file);
    }
    if (strcmp(call, "space") == 0)
        limit_space((rlim_t)at);
    is_armed = 1;
}
