// Comes between the program and the C library, and refuses what the environment says: one growth of memory, one read
// of standard input, one write of standard output, one receipt from a socket or one sending to one, one write at a place
// of a file, one write of a folder's file, one renaming of a log or of the mark of its end, one sync, counted from 1; or
// all but so many bytes of each read or write, or of that sending; or interrupts the first reads; or has all syncs of
// files or of folders do nothing. Where it refused something it makes the file that HOSTILE_MARK names. In that which
// HOSTILE_NOTES names it notes, in their order, what was written to files, what syncs begin and end, which files get
// another name, and what leaves the program.
#define _GNU_SOURCE
#include <dlfcn.h>
#include <errno.h>
#include <fcntl.h>
#include <stdatomic.h>
#include <stdio.h>
#include <stdlib.h>
#include <string.h>
#include <sys/socket.h>
#include <sys/stat.h>
#include <sys/syscall.h>
#include <sys/uio.h>
#include <unistd.h>

static atomic_long growths, reads, interrupted, writes, receives, sends, placed, filed, renames, syncs;

static long wanted(const char *name) {
    const char *text = getenv(name);
    return text == NULL ? 0 : atol(text);
}

static void mark(void) {
    const char *name = getenv("HOSTILE_MARK");
    if (name != NULL) {
        long file = syscall(SYS_open, name, O_WRONLY | O_CREAT, 0600);
        syscall(SYS_close, file);
    }
}

// Whether this is the call of this kind that is refused.
static int refused(atomic_long *count, const char *name) {
    long place = wanted(name);
    if (place == 0 || atomic_fetch_add(count, 1) + 1 != place) {
        return 0;
    }
    mark();
    return 1;
}

// Notes a line, and bytes behind it, as one: `WORD NUMBER PLACE SIZE`.
static void note(const char *word, unsigned long number, long place, const void *bytes, size_t size) {
    const char *name = getenv("HOSTILE_NOTES");
    char line[100];
    if (name != NULL) {
        long file = syscall(SYS_open, name, O_WRONLY | O_CREAT | O_APPEND, 0600);
        int length = snprintf(line, sizeof line, "%s %lu %ld %zu\n", word, number, place, size);
        struct iovec parts[2] = {{line, length}, {(void *)bytes, size}};
        syscall(SYS_writev, file, parts, 2);
        syscall(SYS_close, file);
    }
}

// The number of a file or a folder, which it keeps under another name; 0 for what is neither.
static unsigned long number_of(int file) {
    struct stat about;
    return fstat(file, &about) == 0 && (S_ISREG(about.st_mode) || S_ISDIR(about.st_mode)) ? about.st_ino : 0;
}

// Whether a file shows figures, which nothing depends on.
static int is_figures(int file) {
    char link[64], path[1024];
    snprintf(link, sizeof link, "/proc/self/fd/%d", file);
    ssize_t length = readlink(link, path, sizeof path - 1);
    path[length < 0 ? 0 : length] = 0;
    return strstr(path, "/status.prom") != NULL;
}

void *malloc(size_t size) {
    static void *(*real)(size_t);
    if (real == NULL) {
        real = (void *(*)(size_t))dlsym(RTLD_NEXT, "malloc");
    }
    if (refused(&growths, "HOSTILE_GROWTH")) {
        errno = ENOMEM;
        return NULL;
    }
    return real(size);
}

void *realloc(void *old, size_t size) {
    static void *(*real)(void *, size_t);
    if (real == NULL) {
        real = (void *(*)(void *, size_t))dlsym(RTLD_NEXT, "realloc");
    }
    if (refused(&growths, "HOSTILE_GROWTH")) {
        errno = ENOMEM;
        return NULL;
    }
    return real(old, size);
}

ssize_t read(int file, void *buffer, size_t size) {
    if (file == STDIN_FILENO) {
        long most = wanted("HOSTILE_READ_SIZE");
        if (atomic_fetch_add(&interrupted, 1) < wanted("HOSTILE_INTERRUPTED")) {
            errno = EINTR;
            return -1;
        }
        if (refused(&reads, "HOSTILE_READ")) {
            errno = EIO;
            return -1;
        }
        if (most != 0 && size > (size_t)most) {
            size = most;
        }
    }
    return syscall(SYS_read, file, buffer, size);
}

static ssize_t write_some(int file, const void *buffer, size_t size) {
    if (file == STDOUT_FILENO) {
        long most = wanted("HOSTILE_WRITE_SIZE");
        if (refused(&writes, "HOSTILE_WRITE")) {
            if (wanted("HOSTILE_WRITE_TAKES_NOTHING")) {
                return 0;
            }
            errno = ENOSPC;
            return -1;
        }
        if (most != 0 && size > (size_t)most) {
            size = most;
        }
        note("told", 0, 0, buffer, size);
        return syscall(SYS_write, file, buffer, size);
    }
    unsigned long number = file > STDERR_FILENO ? number_of(file) : 0;
    if (number != 0 && !is_figures(file) && refused(&filed, "HOSTILE_FILED")) {
        errno = ENOSPC;
        return -1;
    }
    ssize_t taken = syscall(SYS_write, file, buffer, size);
    if (number != 0 && taken > 0) {
        note("placed", number, lseek(file, 0, SEEK_CUR), NULL, 0);
    }
    return taken;
}

ssize_t write(int file, const void *buffer, size_t size) {
    return write_some(file, buffer, size);
}

ssize_t __write(int file, const void *buffer, size_t size) {
    return write_some(file, buffer, size);
}

// A write that is refused may have taken some bytes before.
static ssize_t write_at(int file, const void *buffer, size_t size, off_t at) {
    if (refused(&placed, "HOSTILE_PLACED")) {
        size_t most = wanted("HOSTILE_PLACED_SIZE");
        if (most != 0) {
            syscall(SYS_pwrite64, file, buffer, size < most ? size : most, at);
        }
        errno = ENOSPC;
        return -1;
    }
    ssize_t taken = syscall(SYS_pwrite64, file, buffer, size, at);
    if (taken > 0) {
        note("placed", number_of(file), at + taken, NULL, 0);
    }
    return taken;
}

ssize_t pwrite(int file, const void *buffer, size_t size, off_t at) {
    return write_at(file, buffer, size, at);
}

ssize_t pwrite64(int file, const void *buffer, size_t size, off_t at) {
    return write_at(file, buffer, size, at);
}

static int sync_by(long call, int file) {
    if (refused(&syncs, "HOSTILE_SYNC")) {
        errno = EIO;
        return -1;
    }
    if (getenv(call == SYS_fsync ? "HOSTILE_IDLE_FSYNC" : "HOSTILE_IDLE_FDATASYNC") != NULL) {
        return 0;
    }
    unsigned long number = number_of(file);
    note("syncing", number, syscall(SYS_gettid), NULL, 0);
    long failed = syscall(call, file);
    if (failed == 0) {
        note("synced", number, syscall(SYS_gettid), NULL, 0);
    }
    return failed;
}

static int ends_with(const char *name, const char *end) {
    size_t length = strlen(name), last = strlen(end);
    return length >= last && strcmp(name + length - last, end) == 0;
}

int rename(const char *from, const char *to) {
    struct stat about;
    int is_log = ends_with(to, "/log");
    if ((is_log || ends_with(to, "/ended")) && refused(&renames, "HOSTILE_RENAME")) {
        errno = EIO;
        return -1;
    }
    unsigned long number = stat(from, &about) == 0 ? about.st_ino : 0;
    long failed = syscall(SYS_rename, from, to);
    if (failed == 0 && is_log) {
        note("named", number, 0, to, strlen(to));
    }
    return failed;
}

int fsync(int file) {
    return sync_by(SYS_fsync, file);
}

int fdatasync(int file) {
    return sync_by(SYS_fdatasync, file);
}

ssize_t recv(int file, void *buffer, size_t size, int flags) {
    if (refused(&receives, "HOSTILE_RECEIVE")) {
        errno = ECONNRESET;
        return -1;
    }
    return syscall(SYS_recvfrom, file, buffer, size, flags, NULL, NULL);
}

ssize_t send(int file, const void *buffer, size_t size, int flags) {
    if (refused(&sends, "HOSTILE_SEND")) {
        if (getenv("HOSTILE_SEND_SIZE") == NULL) {
            errno = EPIPE;
            return -1;
        }
        size_t most = wanted("HOSTILE_SEND_SIZE");
        size = size < most ? size : most;
        if (size == 0) {
            return 0;
        }
    }
    note("sent", file, 0, buffer, size);
    // (all of it, so that no byte is noted twice)
    size_t sent = 0;
    while (getenv("HOSTILE_NOTES") != NULL && sent < size) {
        ssize_t taken = syscall(SYS_sendto, file, (const char *)buffer + sent, size - sent, flags, NULL, 0);
        if (taken < 0) {
            return taken;
        }
        sent += taken;
    }
    return sent > 0 ? (ssize_t)sent : syscall(SYS_sendto, file, buffer, size, flags, NULL, 0);
}
