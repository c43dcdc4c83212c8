// Loaded before the C library, by LD_PRELOAD: refuses one request for memory of a program, that of the number
// in the variable REFUSED_REQUEST, counted from 1. The requests are counted in the file that the variable
// REQUESTS_FILE names, an atomic_long of zeros at first, however the program ends.

#include <errno.h>
#include <fcntl.h>
#include <stdatomic.h>
#include <stdlib.h>
#include <sys/mman.h>
#include <unistd.h>

extern void *__libc_malloc(size_t bytes);
extern void *__libc_realloc(void *block, size_t bytes);

static atomic_long *requests;
static long refused;

__attribute__((constructor)) static void begin(void) {
    const char *number = getenv("REFUSED_REQUEST");
    const char *name = getenv("REQUESTS_FILE");
    int file = name ? open(name, O_RDWR) : -1;
    if (!number || file < 0) {
        return;
    }
    refused = atol(number);
    void *found = mmap(NULL, sizeof *requests, PROT_READ | PROT_WRITE, MAP_SHARED, file, 0);
    requests = found == MAP_FAILED ? NULL : found;
    close(file);
}

static int is_refused(void) {
    if (!requests || atomic_fetch_add(requests, 1) + 1 != refused) {
        return 0;
    }
    errno = ENOMEM;
    return 1;
}

void *malloc(size_t bytes) {
    return is_refused() ? NULL : __libc_malloc(bytes);
}

void *realloc(void *block, size_t bytes) {
    return is_refused() ? NULL : __libc_realloc(block, bytes);
}
