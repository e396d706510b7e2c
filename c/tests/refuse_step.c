/* Fails one step of a program on files: loaded before the C library, it counts the calls to find, open, read,
 * write, sync, rename and change the owner and the mode of a file, and fails the one whose number is in
 * REFUSE_STEP with EIO. Calls that clean up don't fail. A program that reaches that number leaves an empty
 * file with the name in REFUSED.
 *     cc -shared -fPIC -o refuse_step.so refuse_step.c -ldl */
#define _GNU_SOURCE
#include <dlfcn.h>
#include <errno.h>
#include <fcntl.h>
#include <stdarg.h>
#include <stdlib.h>
#include <sys/stat.h>
#include <sys/syscall.h>
#include <unistd.h>

/* whether this call must fail */
static int fails(void) {
    static long calls, number = -1;
    const char *word;
    if (number < 0) {
        word = getenv("REFUSE_STEP");
        number = word != NULL ? atol(word) : 0;
    }
    if (++calls != number)
        return 0;
    word = getenv("REFUSED");
    if (word != NULL)
        close((int)syscall(SYS_open, word, O_WRONLY | O_CREAT | O_CLOEXEC, 0600));
    errno = EIO;
    return 1;
}

/* the call of the C library with that name */
#define NEXT(type, name) ((type)dlsym(RTLD_NEXT, name))

typedef int (*open_call)(const char *, int, ...);
typedef ssize_t (*read_call)(int, void *, size_t);
typedef ssize_t (*write_call)(int, const void *, size_t);
typedef int (*file_call)(int);
typedef int (*mode_call)(int, mode_t);
typedef int (*owner_call)(int, uid_t, gid_t);
typedef int (*rename_call)(const char *, const char *);
typedef char *(*path_call)(const char *, char *);
typedef int (*stat_call)(int, const char *, int, unsigned, struct statx *);

int open(const char *path, int flags, ...) {
    mode_t mode = 0;
    va_list rest;
    if (flags & O_CREAT) {
        va_start(rest, flags);
        mode = va_arg(rest, mode_t);
        va_end(rest);
    }
    return fails() ? -1 : NEXT(open_call, "open")(path, flags, mode);
}

ssize_t read(int file, void *to, size_t count) {
    return fails() ? -1 : NEXT(read_call, "read")(file, to, count);
}

/* output on standard error isn't a step */
ssize_t write(int file, const void *from, size_t count) {
    return file > 2 && fails() ? -1 : NEXT(write_call, "write")(file, from, count);
}

int fsync(int file) {
    return fails() ? -1 : NEXT(file_call, "fsync")(file);
}

int fchown(int file, uid_t owner, gid_t group) {
    return fails() ? -1 : NEXT(owner_call, "fchown")(file, owner, group);
}

int fchmod(int file, mode_t mode) {
    return fails() ? -1 : NEXT(mode_call, "fchmod")(file, mode);
}

int rename(const char *from, const char *to) {
    return fails() ? -1 : NEXT(rename_call, "rename")(from, to);
}

char *realpath(const char *path, char *to) {
    return fails() ? NULL : NEXT(path_call, "realpath")(path, to);
}

int statx(int folder, const char *path, int flags, unsigned mask, struct statx *to) {
    return fails() ? -1 : NEXT(stat_call, "statx")(folder, path, flags, mask, to);
}
