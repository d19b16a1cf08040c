/* A library to preload. It refuses growths, and cuts, interrupts or fails reads and writes, as these variables say:
 *
 *   REFUSE=K    the Kth growth is refused     REFUSE=K+   the Kth and all after it
 *   READ=one, WRITE=one       each read or write moves one byte
 *   READ=fail K, WRITE=fail K           the Kth fails
 *   READ=interrupt N, WRITE=interrupt N the first N are interrupted; with N K, the first N after the Kth
 *   WRITE=none K              the Kth takes no byte
 *   READ=one fail K, WRITE=one none K   and so on: each moves one byte, as well
 *
 * It writes a byte to the file descriptor MET at the first thing that it does. */
#define _GNU_SOURCE
#include <errno.h>
#include <stdlib.h>
#include <string.h>
#include <sys/syscall.h>
#include <unistd.h>

extern void *__libc_malloc(size_t), *__libc_realloc(void *, size_t);

static void meet(void) {
    static int has_met;
    const char *met = getenv("MET");
    if (!has_met && met) syscall(SYS_write, atoi(met), "x", 1);
    has_met = 1;
}

static int is_refused(void) {
    static long growths;
    const char *said = getenv("REFUSE");
    char *end;
    if (!said) return 0;
    long wanted = strtol(said, &end, 10);
    growths++;
    if (growths != wanted && !(*end == '+' && growths > wanted)) return 0;
    meet();
    errno = ENOMEM;
    return 1;
}

void *malloc(size_t size) { return is_refused() ? NULL : __libc_malloc(size); }

void *realloc(void *old, size_t size) { return is_refused() ? NULL : __libc_realloc(old, size); }

/* What the variable says of a call, the Kth of its kind: -1 fails, 0 moves nothing, otherwise the most bytes to move. */
static ssize_t most(const char *variable, long call, size_t size) {
    const char *said = getenv(variable);
    if (!said) return size;
    if (!strncmp(said, "one", 3)) {
        size = size < 1 ? size : 1;
        if (!said[3]) return size;
        said += 4;
    }
    const char *count = strchr(said, ' ');
    char *end = NULL;
    long wanted = count ? strtol(count, &end, 10) : 0, after = end && *end ? atol(end) : 0;
    if (!strncmp(said, "interrupt", 9) && call > after && call <= after + wanted) {
        meet();
        errno = EINTR;
        return -1;
    }
    if (strncmp(said, "interrupt", 9) && call == wanted) {
        meet();
        errno = EIO;
        return strncmp(said, "none", 4) ? -1 : 0;
    }
    return size;
}

ssize_t read(int file, void *to, size_t size) {
    static long calls;
    ssize_t moved = most("READ", ++calls, size);
    return moved < 0 ? -1 : syscall(SYS_read, file, to, moved);
}

ssize_t write(int file, const void *from, size_t size) {
    static long calls;
    if (file != STDOUT_FILENO) return syscall(SYS_write, file, from, size);
    ssize_t moved = most("WRITE", ++calls, size);
    return moved <= 0 ? moved : syscall(SYS_write, file, from, moved);
}
