// Refuses memory to a program that is started with this library in front of the C library (LD_PRELOAD). Each call that asks the heap for
// a block is counted, from 1; those from REFUSED_FIRST to REFUSED_LAST are answered with none, and where these are 0 all are served.
// The file that HEAP_COUNTS names has room for two numbers of 64 bits: the calls that were made, and those that were refused. They are
// told as they come, so that they are there however the program ends.
#include <errno.h>
#include <fcntl.h>
#include <stdatomic.h>
#include <stdint.h>
#include <stdlib.h>
#include <sys/mman.h>
#include <unistd.h>

// the heap of the C library under its own names
void *__libc_malloc(size_t size);
void *__libc_calloc(size_t count, size_t size);
void *__libc_realloc(void *block, size_t size);
void *__libc_memalign(size_t alignment, size_t size);

struct counts {
    _Atomic uint64_t asked, refused;
};

static struct counts *counts; // none before the library has begun
static uint64_t first, last;

static uint64_t number_of(const char *name) {
    const char *text = getenv(name);
    return text == NULL ? 0 : strtoull(text, NULL, 10);
}

__attribute__((constructor)) static void begin(void) {
    const char *name = getenv("HEAP_COUNTS");
    if (name == NULL) return;
    int file = open(name, O_RDWR | O_CLOEXEC);
    if (file < 0) return;
    void *place = mmap(NULL, sizeof *counts, PROT_READ | PROT_WRITE, MAP_SHARED, file, 0);
    close(file);
    if (place == MAP_FAILED) return;
    first = number_of("REFUSED_FIRST");
    last = number_of("REFUSED_LAST");
    counts = place;
}

static int is_refused(void) {
    if (counts == NULL) return 0;
    uint64_t number = atomic_fetch_add(&counts->asked, 1) + 1;
    if (number < first || last < number) return 0;
    atomic_fetch_add(&counts->refused, 1);
    return 1;
}

static void *none(void) {
    errno = ENOMEM;
    return NULL;
}

void *malloc(size_t size) { return is_refused() ? none() : __libc_malloc(size); }

void *calloc(size_t count, size_t size) { return is_refused() ? none() : __libc_calloc(count, size); }

void *realloc(void *block, size_t size) { return is_refused() ? none() : __libc_realloc(block, size); }

void *memalign(size_t alignment, size_t size) { return is_refused() ? none() : __libc_memalign(alignment, size); }

void *aligned_alloc(size_t alignment, size_t size) { return memalign(alignment, size); }

int posix_memalign(void **block, size_t alignment, size_t size) {
    void *found = memalign(alignment, size);
    if (found == NULL) return ENOMEM;
    *block = found;
    return 0;
}
