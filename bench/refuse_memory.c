/* Refuses one request for memory of the process that it is loaded into before the C library: the one with the number that the
   environment names in REFUSE, from 1 on. Requests are counted in the file that REFUSE_COUNT names, as a number of the
   machine's, which stands there also where the process ends at once. */
#include <errno.h>
#include <fcntl.h>
#include <stdatomic.h>
#include <stdlib.h>
#include <sys/mman.h>
#include <unistd.h>

extern void *__libc_malloc(size_t size);
extern void *__libc_calloc(size_t count, size_t size);
extern void *__libc_realloc(void *block, size_t size);
extern void *__libc_memalign(size_t align, size_t size);

static atomic_long *requests;
static long refused;

__attribute__((constructor)) static void begin(void) {
    const char *name = getenv("REFUSE_COUNT");
    const char *number = getenv("REFUSE");
    int file = name ? open(name, O_RDWR | O_CREAT | O_TRUNC, 0666) : -1;
    if (file < 0 || ftruncate(file, sizeof *requests)) {
        _exit(99);
    }
    void *counted = mmap(NULL, sizeof *requests, PROT_READ | PROT_WRITE, MAP_SHARED, file, 0);
    if (counted == MAP_FAILED) {
        _exit(99);
    }
    close(file);
    refused = number ? atol(number) : 0;
    requests = counted;
}

static int is_refused(void) {
    return requests && atomic_fetch_add(requests, 1) + 1 == refused;
}

void *malloc(size_t size) {
    if (is_refused()) {
        errno = ENOMEM;
        return NULL;
    }
    return __libc_malloc(size);
}

void *calloc(size_t count, size_t size) {
    if (is_refused()) {
        errno = ENOMEM;
        return NULL;
    }
    return __libc_calloc(count, size);
}

void *realloc(void *block, size_t size) {
    if (is_refused()) {
        errno = ENOMEM;
        return NULL;
    }
    return __libc_realloc(block, size);
}

void *memalign(size_t align, size_t size) {
    if (is_refused()) {
        errno = ENOMEM;
        return NULL;
    }
    return __libc_memalign(align, size);
}

void *aligned_alloc(size_t align, size_t size) {
    return memalign(align, size);
}

int posix_memalign(void **block, size_t align, size_t size) {
    void *made = memalign(align, size);
    if (!made) {
        return ENOMEM;
    }
    *block = made;
    return 0;
}
