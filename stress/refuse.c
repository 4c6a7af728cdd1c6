// Refuses requests for memory at random, one in STRESS_REFUSE_ONE_IN, while the first word of the file
// STRESS_REFUSE_FILE isn't 0, and counts in its second word what it refused and in its third what it was asked. With
// STRESS_REFUSE_BEHIND_OUTPUT that word is set behind each write to standard output.
#define _GNU_SOURCE
#include <dlfcn.h>
#include <errno.h>
#include <fcntl.h>
#include <stdatomic.h>
#include <stdint.h>
#include <stdlib.h>
#include <sys/mman.h>
#include <sys/syscall.h>
#include <unistd.h>

struct shared {
    _Atomic uint64_t on, refused, asked;
};

static struct shared *shared;
static uint64_t one_in, seed;
static int is_behind_output;

__attribute__((constructor)) static void begin(void) {
    const char *file = getenv("STRESS_REFUSE_FILE"), *rate = getenv("STRESS_REFUSE_ONE_IN");
    const char *chosen = getenv("STRESS_REFUSE_SEED");
    int opened = file == NULL ? -1 : open(file, O_RDWR | O_CLOEXEC);
    if (opened < 0 || rate == NULL || (one_in = strtoull(rate, NULL, 10)) == 0) {
        return;
    }
    seed = chosen == NULL ? 1 : strtoull(chosen, NULL, 10);
    is_behind_output = getenv("STRESS_REFUSE_BEHIND_OUTPUT") != NULL;
    void *mapped = mmap(NULL, sizeof *shared, PROT_READ | PROT_WRITE, MAP_SHARED, opened, 0);
    close(opened);
    shared = mapped == MAP_FAILED ? NULL : mapped;
}

// Mixes the number of a request with the seed: which of them are refused depends on nothing else.
static uint64_t mixed(uint64_t number) {
    uint64_t it = number + seed * 0x9e3779b97f4a7c15u;
    it = (it ^ (it >> 30)) * 0xbf58476d1ce4e5b9u;
    it = (it ^ (it >> 27)) * 0x94d049bb133111ebu;
    return it ^ (it >> 31);
}

static int is_refused(void) {
    if (shared == NULL || atomic_load(&shared->on) == 0) {
        return 0;
    }
    if (mixed(atomic_fetch_add(&shared->asked, 1)) % one_in != 0) {
        return 0;
    }
    atomic_fetch_add(&shared->refused, 1);
    errno = ENOMEM;
    return 1;
}

extern void *__libc_malloc(size_t);
extern void *__libc_calloc(size_t, size_t);
extern void *__libc_realloc(void *, size_t);
extern void *__libc_memalign(size_t, size_t);

void *malloc(size_t size) {
    return is_refused() ? NULL : __libc_malloc(size);
}

void *calloc(size_t count, size_t size) {
    return is_refused() ? NULL : __libc_calloc(count, size);
}

void *realloc(void *pointer, size_t size) {
    return is_refused() ? NULL : __libc_realloc(pointer, size);
}

void *aligned_alloc(size_t alignment, size_t size) {
    return is_refused() ? NULL : __libc_memalign(alignment, size);
}

int posix_memalign(void **pointer, size_t alignment, size_t size) {
    void *given = is_refused() ? NULL : __libc_memalign(alignment, size);
    if (given == NULL) {
        return ENOMEM;
    }
    *pointer = given;
    return 0;
}

ssize_t write(int file, const void *bytes, size_t size) {
    ssize_t count = syscall(SYS_write, file, bytes, size);
    if (file == STDOUT_FILENO && is_behind_output && shared != NULL) {
        atomic_store(&shared->on, 1);
    }
    return count;
}
