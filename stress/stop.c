// Notes in the first word of the file STRESS_STOP_FILE how long the file STRESS_STOP_JOURNAL was as it was synced last:
// so much of it a machine that stops leaves for sure. Each sync takes up to STRESS_STOP_DELAY microseconds more, so
// that a stop often comes before its end.
#define _GNU_SOURCE
#include <dlfcn.h>
#include <fcntl.h>
#include <stdatomic.h>
#include <stdint.h>
#include <stdlib.h>
#include <sys/mman.h>
#include <sys/stat.h>
#include <unistd.h>

struct shared {
    _Atomic uint64_t synced, syncs;
};

static struct shared *shared;
static const char *journal;
static uint64_t delay;

__attribute__((constructor)) static void begin(void) {
    const char *file = getenv("STRESS_STOP_FILE"), *most = getenv("STRESS_STOP_DELAY");
    int opened = file == NULL ? -1 : open(file, O_RDWR | O_CLOEXEC);
    journal = getenv("STRESS_STOP_JOURNAL");
    if (opened < 0 || journal == NULL) {
        return;
    }
    delay = most == NULL ? 0 : strtoull(most, NULL, 10);
    void *mapped = mmap(NULL, sizeof *shared, PROT_READ | PROT_WRITE, MAP_SHARED, opened, 0);
    close(opened);
    shared = mapped == MAP_FAILED ? NULL : mapped;
}

static int is_journal(int fd, uint64_t *size) {
    struct stat it, named;
    if (shared == NULL || fstat(fd, &it) != 0 || stat(journal, &named) != 0) {
        return 0;
    }
    *size = (uint64_t)it.st_size;
    return it.st_dev == named.st_dev && it.st_ino == named.st_ino;
}

// What the file had before the call is on the disk behind it.
static int synced(int fd, const char *name) {
    int (*real)(int) = (int (*)(int))dlsym(RTLD_NEXT, name);
    uint64_t size = 0;
    int is_ours = is_journal(fd, &size);
    if (is_ours && delay != 0) {
        uint64_t number = (atomic_fetch_add(&shared->syncs, 1) + 1) * 0x9e3779b97f4a7c15u;
        usleep((useconds_t)((number >> 32) % delay));
    }
    int answer = real(fd);
    if (answer == 0 && is_ours) {
        atomic_store(&shared->synced, size);
    }
    return answer;
}

int fsync(int fd) {
    return synced(fd, "fsync");
}

int fdatasync(int fd) {
    return synced(fd, "fdatasync");
}
