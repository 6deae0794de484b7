/* Loaded before the C library by tools/runs/run_hostile.py: lets the call fail that HOSTILE_CALL names by its number, or cuts
   each read or write to HOSTILE_PIECE bytes, and writes a line into the file HOSTILE_HIT if a call failed. */
#define _GNU_SOURCE
#include <dlfcn.h>
#include <errno.h>
#include <fcntl.h>
#include <stdlib.h>
#include <string.h>
#include <sys/syscall.h>
#include <unistd.h>

static const char *kind;
static long failing, piece;
static long counted;

static void begin(void) {
    if (kind) return;
    const char *call = getenv("HOSTILE_CALL"), *size = getenv("HOSTILE_PIECE");
    failing = call ? atol(call) : 0;
    piece = size ? atol(size) : 0;
    kind = getenv("HOSTILE_KIND");
    if (!kind) kind = "none";
}

/* Whether this call is the one that fails. */
static int fails(const char *what) {
    begin();
    if (strcmp(kind, what) != 0 || __atomic_add_fetch(&counted, 1, __ATOMIC_SEQ_CST) != failing) return 0;
    const char *hit = getenv("HOSTILE_HIT");
    int file = hit ? (int)syscall(SYS_open, hit, O_WRONLY | O_CREAT, 0600) : -1;
    if (file >= 0) {
        syscall(SYS_write, file, "hit\n", 4);
        syscall(SYS_close, file);
    }
    return 1;
}

static size_t cut(size_t size) {
    return piece > 0 && size > (size_t)piece ? (size_t)piece : size;
}

ssize_t read(int file, void *to, size_t size) {
    if (file == 0 && fails("read")) { errno = EIO; return -1; }
    return syscall(SYS_read, file, to, file == 0 ? cut(size) : size);
}

ssize_t write(int file, const void *from, size_t size) {
    if (file == 1 && fails("write")) { errno = EIO; return -1; }
    return syscall(SYS_write, file, from, file == 1 ? cut(size) : size);
}

ssize_t __write(int file, const void *from, size_t size) { return write(file, from, size); }

void *malloc(size_t size) {
    static void *(*real)(size_t);
    if (!real) real = (void *(*)(size_t))dlsym(RTLD_NEXT, "malloc");
    return fails("alloc") ? NULL : real(size);
}

void *realloc(void *old, size_t size) {
    static void *(*real)(void *, size_t);
    if (!real) real = (void *(*)(void *, size_t))dlsym(RTLD_NEXT, "realloc");
    return fails("alloc") ? NULL : real(old, size);
}
