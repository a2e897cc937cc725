// Loaded before the C library, it counts the calls of one program for memory, for input and for output, and lets one of
// them fail, or all from one on, or lets each call move one byte. `.ci/faults` sets these:
//
//     FAULT_CALL   which calls: memory, input (descriptor 0), output (1) or report (2)
//     FAULT_AT     the number of the call that fails, counted from 1; 0 for none
//     FAULT_HOW    once; from, for all from that one on; or short, for one byte at each call
//     FAULT_ERROR  the number of the system's error; memory is refused without one
//     FAULT_COUNT  the file to which the number of calls is written, four bytes, at each call
#define _GNU_SOURCE
#include <dlfcn.h>
#include <errno.h>
#include <fcntl.h>
#include <stddef.h>
#include <stdint.h>
#include <stdlib.h>
#include <string.h>
#include <sys/mman.h>
#include <sys/uio.h>
#include <unistd.h>

static enum { NONE, MEMORY, INPUT, OUTPUT, REPORT } counted = NONE;
static enum { ONCE, FROM, SHORT } how = ONCE;
static uint32_t at = 0;
static int error = 0;
static uint32_t *count = NULL;

static const char *setting(const char *name) {
    const char *text = getenv(name);
    return text ? text : "";
}

__attribute__((constructor)) static void begin(void) {
    const char *call = setting("FAULT_CALL");
    at = (uint32_t)strtoul(setting("FAULT_AT"), NULL, 10);
    error = (int)strtol(setting("FAULT_ERROR"), NULL, 10);
    how = !strcmp(setting("FAULT_HOW"), "from") ? FROM : !strcmp(setting("FAULT_HOW"), "short") ? SHORT : ONCE;
    int file = open(setting("FAULT_COUNT"), O_RDWR | O_CREAT, 0600);
    if (file < 0 || ftruncate(file, sizeof *count)) return;
    void *page = mmap(NULL, sizeof *count, PROT_READ | PROT_WRITE, MAP_SHARED, file, 0);
    close(file);
    if (page == MAP_FAILED) return;
    count = page;
    // From here on calls are counted, not those that the C library made before.
    counted = !strcmp(call, "memory") ? MEMORY : !strcmp(call, "input") ? INPUT
        : !strcmp(call, "output") ? OUTPUT : !strcmp(call, "report") ? REPORT : NONE;
}

// Counts a call, and says whether it has to fail.
static int fails(int call) {
    if (call != (int)counted) return 0;
    ++*count;
    return how == ONCE ? *count == at : how == FROM && at && *count >= at;
}

static size_t moved(int call, size_t length) {
    return call == (int)counted && how == SHORT && length ? 1 : length;
}

#define NEXT(name) ((__typeof__(&name))dlsym(RTLD_NEXT, #name))

void *malloc(size_t size) {
    static void *(*next)(size_t) = NULL;
    if (!next) next = NEXT(malloc);
    return fails(MEMORY) ? NULL : next(size);
}

void *realloc(void *old, size_t size) {
    static void *(*next)(void *, size_t) = NULL;
    if (!next) next = NEXT(realloc);
    return fails(MEMORY) ? NULL : next(old, size);
}

int posix_memalign(void **to, size_t alignment, size_t size) {
    static int (*next)(void **, size_t, size_t) = NULL;
    if (!next) next = NEXT(posix_memalign);
    return fails(MEMORY) ? ENOMEM : next(to, alignment, size);
}

void *aligned_alloc(size_t alignment, size_t size) {
    static void *(*next)(size_t, size_t) = NULL;
    if (!next) next = NEXT(aligned_alloc);
    return fails(MEMORY) ? NULL : next(alignment, size);
}

ssize_t read(int file, void *to, size_t length) {
    static ssize_t (*next)(int, void *, size_t) = NULL;
    if (!next) next = NEXT(read);
    int call = file == 0 ? INPUT : NONE;
    if (call == INPUT && fails(call)) {
        errno = error;
        return -1;
    }
    return next(file, to, moved(call, length));
}

static int written_to(int file) {
    return file == 1 ? OUTPUT : file == 2 ? REPORT : NONE;
}

ssize_t write(int file, const void *from, size_t length) {
    static ssize_t (*next)(int, const void *, size_t) = NULL;
    if (!next) next = NEXT(write);
    int call = written_to(file);
    if (call != NONE && fails(call)) {
        errno = error;
        return -1;
    }
    return next(file, from, moved(call, length));
}

ssize_t writev(int file, const struct iovec *parts, int many) {
    static ssize_t (*next)(int, const struct iovec *, int) = NULL;
    if (!next) next = NEXT(writev);
    int call = written_to(file);
    if (call != NONE && fails(call)) {
        errno = error;
        return -1;
    }
    return next(file, parts, many);
}
