/* Loaded before a program, this refuses, shortens or interrupts some of its calls, and counts all of them.
 *
 * REFUSE_PAGE names a file as long as `struct page`, in which the counts are left. REFUSE_KIND is one of the names
 * below, REFUSE_FROM the number of the call, from 1 on, and REFUSE_REST, where it is set, says that the calls after it
 * are refused, too. REFUSE_WAY is `fail`, `short` (one byte goes through), `none` (no byte does) or `interrupt` (the
 * call is to be asked again; of the rest it is then every second one).
 *
 * A growth of one of two odd sizes is not counted and never granted: by it a test says that each growth is to be
 * refused from here on, or none.
 */
#define _GNU_SOURCE
#include <dlfcn.h>
#include <errno.h>
#include <fcntl.h>
#include <pthread.h>
#include <stdarg.h>
#include <stdbool.h>
#include <stdint.h>
#include <stdlib.h>
#include <string.h>
#include <sys/mman.h>
#include <sys/stat.h>
#include <sys/syscall.h>
#include <sys/uio.h>
#include <unistd.h>

enum kind { MEMORY, READ, WRITE, SAY, OPEN, THREAD, MAP, KINDS };
enum way { FAIL, SHORT, NONE, INTERRUPT, WAYS };

/* In bytes, as in lib.rt of crates/growth_support: tools/docs_test.py compares them. */
#define TAKE 7777777
#define GIVE 7777779

static const char *const kind_names[KINDS] = {"memory", "read", "write", "say", "open", "thread", "map"};
static const char *const way_names[WAYS] = {"fail", "short", "none", "interrupt"};

/* Of a file that is read: its number, the bytes that were given of it, and whether a read of it was refused. */
struct source {
    uint64_t file, given, refused;
};

#define SOURCES 128

struct page {
    /* `taken` is how often a test said that there is no memory from here on. */
    uint64_t calls[KINDS], refused, taken;
    struct source sources[SOURCES];
};

static struct page *page;
static int chosen_kind, chosen_way;
static uint64_t first;
static bool are_rest_refused;
static size_t last_said;
static int (*start_thread)(pthread_t *, const pthread_attr_t *, void *(*)(void *), void *);

extern void *__libc_malloc(size_t);
extern void *__libc_calloc(size_t, size_t);
extern void *__libc_realloc(void *, size_t);
extern void *__libc_memalign(size_t, size_t);

static int place_of(const char *name, const char *const *names, int count) {
    for (int at = 0; name && at < count; at++) {
        if (!strcmp(name, names[at])) return at;
    }
    return count;
}

__attribute__((constructor)) static void begin(void) {
    start_thread = (int (*)(pthread_t *, const pthread_attr_t *, void *(*)(void *), void *))dlsym(RTLD_NEXT, "pthread_create");
    const char *path = getenv("REFUSE_PAGE"), *from = getenv("REFUSE_FROM");
    int file = path ? (int)syscall(SYS_openat, AT_FDCWD, path, O_RDWR | O_CLOEXEC) : -1;
    if (file < 0) return;
    chosen_kind = place_of(getenv("REFUSE_KIND"), kind_names, KINDS);
    chosen_way = place_of(getenv("REFUSE_WAY"), way_names, WAYS);
    first = from ? strtoull(from, NULL, 10) : UINT64_MAX;
    are_rest_refused = getenv("REFUSE_REST") != NULL;
    void *shared = (void *)syscall(SYS_mmap, NULL, sizeof(struct page), PROT_READ | PROT_WRITE, MAP_SHARED, file, 0);
    syscall(SYS_close, file);
    page = shared == MAP_FAILED ? NULL : shared;
}

/* Counts a call; whether it is one that is refused. */
static bool is_due(enum kind kind) {
    if (!page) return false;
    uint64_t number = __atomic_add_fetch(&page->calls[kind], 1, __ATOMIC_RELAXED);
    bool is_due = (int)kind == chosen_kind && number >= first && (are_rest_refused || number == first);
    if (is_due && chosen_way == INTERRUPT && (number - first) % 2 != 0) is_due = false;
    if (is_due) __atomic_add_fetch(&page->refused, 1, __ATOMIC_RELAXED);
    return is_due;
}

/* Whether a growth of this size is refused. */
static bool is_refused(size_t size) {
    if (page && (size == TAKE || size == GIVE)) {
        if (size == TAKE) __atomic_add_fetch(&page->taken, 1, __ATOMIC_RELAXED);
        __atomic_store_n(&last_said, size, __ATOMIC_SEQ_CST);
        return true;
    }
    size_t said = __atomic_load_n(&last_said, __ATOMIC_SEQ_CST);
    if (said != TAKE) return said != GIVE && is_due(MEMORY);
    __atomic_add_fetch(&page->refused, 1, __ATOMIC_RELAXED);
    return true;
}

static void *no_memory(void) {
    errno = ENOMEM;
    return NULL;
}

void *malloc(size_t size) { return is_refused(size) ? no_memory() : __libc_malloc(size); }

void *calloc(size_t count, size_t size) { return is_refused(0) ? no_memory() : __libc_calloc(count, size); }

void *realloc(void *old, size_t size) { return is_refused(size) ? no_memory() : __libc_realloc(old, size); }

void *aligned_alloc(size_t alignment, size_t size) {
    return is_refused(size) ? no_memory() : __libc_memalign(alignment, size);
}

int posix_memalign(void **to, size_t alignment, size_t size) {
    void *made = is_refused(size) ? NULL : __libc_memalign(alignment, size);
    if (!made) return ENOMEM;
    *to = made;
    return 0;
}

void *mmap(void *at, size_t length, int protection, int flags, int file, off_t offset) {
    if (is_due(MAP)) {
        errno = ENOMEM;
        return MAP_FAILED;
    }
    return (void *)syscall(SYS_mmap, at, length, protection, flags, file, offset);
}

void *mmap64(void *at, size_t length, int protection, int flags, int file, off_t offset) {
    return mmap(at, length, protection, flags, file, offset);
}

int pthread_create(pthread_t *thread, const pthread_attr_t *attributes, void *(*run)(void *), void *with) {
    return is_due(THREAD) ? EAGAIN : start_thread(thread, attributes, run, with);
}

/* What a call that moves bytes answers where it is refused: a failure, or no byte. */
static ssize_t no_bytes(int failure) {
    if (chosen_way == NONE) return 0;
    errno = chosen_way == INTERRUPT ? EINTR : failure;
    return -1;
}

static struct source *source_of(int file) {
    struct stat about;
    if (!page || file < 0 || file >= SOURCES || fstat(file, &about)) return NULL;
    page->sources[file].file = about.st_ino;
    return &page->sources[file];
}

/* Reads through `parts`, of which the first is not empty. */
static ssize_t read_parts(int file, const struct iovec *parts, int count) {
    struct source *source = source_of(file);
    bool due = is_due(READ);
    if (due && chosen_way != SHORT) {
        if (source) source->refused = 1;
        return no_bytes(EIO);
    }
    ssize_t given = due ? syscall(SYS_read, file, parts[0].iov_base, (size_t)1) : syscall(SYS_readv, file, parts, count);
    if (source && given > 0) source->given += (uint64_t)given;
    return given;
}

ssize_t readv(int file, const struct iovec *parts, int count) { return read_parts(file, parts, count); }

ssize_t read(int file, void *to, size_t most) {
    struct iovec part = {to, most};
    return read_parts(file, &part, 1);
}

static ssize_t write_parts(int file, const struct iovec *parts, int count) {
    bool due = is_due(file == 2 ? SAY : WRITE);
    if (due && chosen_way != SHORT) return no_bytes(ENOSPC);
    return due ? syscall(SYS_write, file, parts[0].iov_base, (size_t)1) : syscall(SYS_writev, file, parts, count);
}

ssize_t writev(int file, const struct iovec *parts, int count) { return write_parts(file, parts, count); }

ssize_t write(int file, const void *from, size_t length) {
    struct iovec part = {(void *)from, length};
    return write_parts(file, &part, 1);
}

static int open_at(int folder, const char *path, int flags, mode_t mode) {
    return is_due(OPEN) ? (int)no_bytes(EMFILE) : (int)syscall(SYS_openat, folder, path, flags, mode);
}

static mode_t mode_of(int flags, va_list more) { return flags & (O_CREAT | __O_TMPFILE) ? va_arg(more, mode_t) : 0; }

#define OPENS(name)                                              \
    int name(const char *path, int flags, ...) {                 \
        va_list more;                                            \
        va_start(more, flags);                                   \
        mode_t mode = mode_of(flags, more);                      \
        va_end(more);                                            \
        return open_at(AT_FDCWD, path, flags, mode);             \
    }

#define OPENS_AT(name)                                           \
    int name(int folder, const char *path, int flags, ...) {     \
        va_list more;                                            \
        va_start(more, flags);                                   \
        mode_t mode = mode_of(flags, more);                      \
        va_end(more);                                            \
        return open_at(folder, path, flags, mode);               \
    }

OPENS(open)
OPENS(open64)
OPENS_AT(openat)
OPENS_AT(openat64)
