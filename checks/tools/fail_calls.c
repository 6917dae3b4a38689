// Lets one call of the system fail in a program that is started with this library in front of the C library (LD_PRELOAD). CALL_KIND is
// `open`, `seek`, `read` or `write`; calls of that kind are counted, from 1, and CALL_NUMBER is the number of the one that fails (0:
// none). CALL_ERROR is the number of its error; with error 0 a read or a write takes the half of its bytes, one at least.
// The file that CALL_COUNTS names has room for two numbers of 64 bits: the calls of the kind that were made, and those that failed.
#define _GNU_SOURCE
#include <dlfcn.h>
#include <errno.h>
#include <fcntl.h>
#include <stdarg.h>
#include <stdatomic.h>
#include <stdint.h>
#include <stdlib.h>
#include <string.h>
#include <sys/mman.h>
#include <sys/stat.h>
#include <sys/uio.h>
#include <unistd.h>

struct counts {
    _Atomic uint64_t made, failed;
};

static struct counts *counts; // none before the library has begun
static const char *kind;
static uint64_t number;
static int error;

static int (*next_openat)(int, const char *, int, ...);
static off_t (*next_lseek)(int, off_t, int);
static ssize_t (*next_read)(int, void *, size_t);
static ssize_t (*next_pread)(int, void *, size_t, off_t);
static ssize_t (*next_write)(int, const void *, size_t);

__attribute__((constructor)) static void begin(void) {
    next_openat = dlsym(RTLD_NEXT, "openat");
    next_lseek = dlsym(RTLD_NEXT, "lseek");
    next_read = dlsym(RTLD_NEXT, "read");
    next_pread = dlsym(RTLD_NEXT, "pread");
    next_write = dlsym(RTLD_NEXT, "write");
    const char *name = getenv("CALL_COUNTS");
    kind = getenv("CALL_KIND");
    if (name == NULL || kind == NULL) return;
    int file = next_openat(AT_FDCWD, name, O_RDWR | O_CLOEXEC);
    if (file < 0) return;
    void *place = mmap(NULL, sizeof *counts, PROT_READ | PROT_WRITE, MAP_SHARED, file, 0);
    close(file);
    if (place == MAP_FAILED) return;
    number = strtoull(getenv("CALL_NUMBER"), NULL, 10);
    error = atoi(getenv("CALL_ERROR"));
    counts = place;
}

// Whether this call is the one that fails.
static int fails(const char *of_kind) {
    if (counts == NULL || strcmp(kind, of_kind) != 0) return 0;
    if (atomic_fetch_add(&counts->made, 1) + 1 != number) return 0;
    atomic_fetch_add(&counts->failed, 1);
    if (error != 0) errno = error;
    return 1;
}

static size_t half(size_t size) { return size < 2 ? size : size / 2; }

static int opened(int folder, const char *path, int flags, mode_t mode) {
    return fails("open") ? -1 : next_openat(folder, path, flags, mode);
}

static mode_t mode_of(int flags, va_list more) { return flags & (O_CREAT | O_TMPFILE) ? va_arg(more, mode_t) : 0; }

int openat(int folder, const char *path, int flags, ...) {
    va_list more;
    va_start(more, flags);
    mode_t mode = mode_of(flags, more);
    va_end(more);
    return opened(folder, path, flags, mode);
}

int openat64(int folder, const char *path, int flags, ...) {
    va_list more;
    va_start(more, flags);
    mode_t mode = mode_of(flags, more);
    va_end(more);
    return opened(folder, path, flags, mode);
}

int open(const char *path, int flags, ...) {
    va_list more;
    va_start(more, flags);
    mode_t mode = mode_of(flags, more);
    va_end(more);
    return opened(AT_FDCWD, path, flags, mode);
}

int open64(const char *path, int flags, ...) {
    va_list more;
    va_start(more, flags);
    mode_t mode = mode_of(flags, more);
    va_end(more);
    return opened(AT_FDCWD, path, flags, mode);
}

off_t lseek(int file, off_t place, int from) { return fails("seek") ? -1 : next_lseek(file, place, from); }

off_t lseek64(int file, off_t place, int from) { return lseek(file, place, from); }

ssize_t read(int file, void *bytes, size_t size) {
    if (!fails("read")) return next_read(file, bytes, size);
    return error != 0 ? -1 : next_read(file, bytes, half(size));
}

ssize_t pread(int file, void *bytes, size_t size, off_t place) {
    if (!fails("read")) return next_pread(file, bytes, size, place);
    return error != 0 ? -1 : next_pread(file, bytes, half(size), place);
}

ssize_t pread64(int file, void *bytes, size_t size, off_t place) { return pread(file, bytes, size, place); }

ssize_t write(int file, const void *bytes, size_t size) {
    if (!fails("write")) return next_write(file, bytes, size);
    return error != 0 ? -1 : next_write(file, bytes, half(size));
}
