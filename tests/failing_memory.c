// Loaded before the C library: makes one call for memory of a process fail, that of the number FAILS_AT, from the first one
// of its main program on. Where that call came, the file FAILED is made. The file COUNTED has, as eight bytes, how many have come.
#include <errno.h>
#include <fcntl.h>
#include <stdatomic.h>
#include <stddef.h>
#include <stdlib.h>
#include <sys/mman.h>
#include <unistd.h>

extern void *__libc_malloc(size_t size);
extern void *__libc_calloc(size_t count, size_t size);
extern void *__libc_realloc(void *old, size_t size);
extern void *__libc_memalign(size_t alignment, size_t size);

static atomic_long own_calls;
static atomic_long *calls = &own_calls;
static long failing;
static const char *failed;

// The count in the file of this name, where it can be made.
static atomic_long *shared_count(const char *name) {
    int file = name ? open(name, O_CREAT | O_RDWR | O_CLOEXEC, 0600) : -1;
    if (file < 0 || ftruncate(file, sizeof(atomic_long))) {
        return &own_calls;
    }
    void *made = mmap(NULL, sizeof(atomic_long), PROT_READ | PROT_WRITE, MAP_SHARED, file, 0);
    return made == MAP_FAILED ? &own_calls : made;
}

__attribute__((constructor)) static void begin(void) {
    const char *number = getenv("FAILS_AT");
    failed = getenv("FAILED");
    calls = shared_count(getenv("COUNTED"));
    atomic_store(calls, 0);
    failing = number ? atol(number) : 0;
}

static int fails(void) {
    if (atomic_fetch_add(calls, 1) + 1 != failing) {
        return 0;
    }
    int file = failed ? open(failed, O_CREAT | O_WRONLY | O_CLOEXEC, 0600) : -1;
    if (file >= 0) {
        close(file);
    }
    errno = ENOMEM;
    return 1;
}

void *malloc(size_t size) {
    return fails() ? NULL : __libc_malloc(size);
}

void *calloc(size_t count, size_t size) {
    return fails() ? NULL : __libc_calloc(count, size);
}

void *realloc(void *old, size_t size) {
    return fails() ? NULL : __libc_realloc(old, size);
}

void *memalign(size_t alignment, size_t size) {
    return fails() ? NULL : __libc_memalign(alignment, size);
}

void *aligned_alloc(size_t alignment, size_t size) {
    return memalign(alignment, size);
}

int posix_memalign(void **made, size_t alignment, size_t size) {
    void *found = memalign(alignment, size);
    if (!found) {
        return ENOMEM;
    }
    *made = found;
    return 0;
}
