/* Makes one allocation of a program fail, or lets it read a few octets at a time:
 *
 *     cc -shared -fPIC -O1 refuse.c -o refuse.so -ldl
 *     LD_PRELOAD=./refuse.so REFUSE=3 program
 *     LD_PRELOAD=./refuse.so READ_MOST=2 program
 *
 * REFUSE is the number of the allocation, from 1. REFUSE_FROM_OPEN=1 counts them after the first open().
 * READ_MOST is the most octets that a call of read() returns. REFUSE_NOTICE is a file descriptor: an octet is
 * written to it when the allocation fails, or when read() first returns fewer octets than it was asked for.
 *
 * A proved program is linked dynamically, and calls malloc and realloc of this library. A program that `rt try`
 * built contains AddressSanitizer with its own malloc and realloc: they are overwritten by jumps to functions
 * that allocate by its memalign (x86-64). */
#define _GNU_SOURCE
#include <dlfcn.h>
#include <errno.h>
#include <fcntl.h>
#include <stdarg.h>
#include <stdint.h>
#include <stdlib.h>
#include <string.h>
#include <sys/mman.h>
#include <unistd.h>

extern void *__libc_malloc(size_t);
extern void *__libc_calloc(size_t, size_t);
extern void *__libc_realloc(void *, size_t);
extern void *__libc_memalign(size_t, size_t);

static long calls, number, most;
static int counts, notice = -1;

static int is_refused(void) {
    if (!counts || ++calls != number)
        return 0;
    if (notice >= 0 && write(notice, "r", 1) != 1)
        abort();
    errno = ENOMEM;
    return 1;
}

void *malloc(size_t size) {
    return is_refused() ? NULL : __libc_malloc(size);
}
void *calloc(size_t count, size_t size) {
    return is_refused() ? NULL : __libc_calloc(count, size);
}
void *realloc(void *old, size_t size) {
    return is_refused() ? NULL : __libc_realloc(old, size);
}
void *aligned_alloc(size_t by, size_t size) {
    return is_refused() ? NULL : __libc_memalign(by, size);
}

int open(const char *path, int flags, ...) {
    int (*next)(const char *, int, ...);
    mode_t mode = 0;
    void *found = dlsym(RTLD_NEXT, "open");
    memcpy(&next, &found, sizeof next);
    if ((flags & (O_CREAT | O_TMPFILE)) != 0) {
        va_list more;
        va_start(more, flags);
        mode = va_arg(more, mode_t);
        va_end(more);
    }
    counts = number != 0;
    return next(path, flags, mode);
}

ssize_t read(int descriptor, void *octets, size_t count) {
    ssize_t (*next)(int, void *, size_t), length;
    void *found = dlsym(RTLD_NEXT, "read");
    memcpy(&next, &found, sizeof next);
    if (most == 0 || count <= (size_t)most)
        return next(descriptor, octets, count);
    length = next(descriptor, octets, (size_t)most);
    if (length == most && notice >= 0) {
        if (write(notice, "l", 1) != 1)
            abort();
        notice = -1;
    }
    return length;
}

/* Functions of AddressSanitizer. */
static void *(*its_memalign)(size_t, size_t);
static void (*its_free)(void *);
static size_t (*its_size)(void *);

static void *its_malloc(size_t size) {
    return is_refused() ? NULL : its_memalign(16, size);
}

static void *its_realloc(void *old, size_t size) {
    void *made = its_malloc(size);
    size_t had;
    if (made == NULL || old == NULL)
        return made;
    had = its_size(old);
    memcpy(made, old, had < size ? had : size);
    its_free(old);
    return made;
}

/* Makes a function of the program jump to another one: mov rax, address; jmp rax. */
static void replace(const char *name, void *with) {
    unsigned char *at = (unsigned char *)dlsym(RTLD_DEFAULT, name);
    unsigned char jump[12] = {0x48, 0xB8, 0, 0, 0, 0, 0, 0, 0, 0, 0xFF, 0xE0};
    uintptr_t page;
    if (*at == 0xE9) { /* follows a jump */
        int32_t by;
        memcpy(&by, at + 1, sizeof by);
        at += 5 + by;
    }
    page = (uintptr_t)at & ~(uintptr_t)4095;
    memcpy(jump + 2, &with, sizeof with);
    if (mprotect((void *)page, 8192, PROT_READ | PROT_WRITE | PROT_EXEC) != 0)
        abort();
    memcpy(at, jump, sizeof jump);
}

__attribute__((constructor)) static void begin(void) {
    const char *word = getenv("REFUSE"), *descriptor = getenv("REFUSE_NOTICE"),
               *from_open = getenv("REFUSE_FROM_OPEN"), *size = getenv("READ_MOST");
    Dl_info its, ours;
    /* A shell script may start the program. */
    if (strcmp(program_invocation_short_name, "sh") == 0)
        return;
    most = size != NULL ? atol(size) : 0;
    if (descriptor != NULL)
        notice = atoi(descriptor);
    if (word == NULL)
        return;
    if (dladdr(dlsym(RTLD_DEFAULT, "malloc"), &its) && dladdr(&calls, &ours) &&
        its.dli_fbase != ours.dli_fbase) {
        void *found[3];
        found[0] = dlsym(RTLD_DEFAULT, "memalign");
        found[1] = dlsym(RTLD_DEFAULT, "free");
        found[2] = dlsym(RTLD_DEFAULT, "malloc_usable_size");
        memcpy(&its_memalign, &found[0], sizeof its_memalign);
        memcpy(&its_free, &found[1], sizeof its_free);
        memcpy(&its_size, &found[2], sizeof its_size);
        replace("malloc", (void *)its_malloc);
        replace("realloc", (void *)its_realloc);
    }
    number = atol(word);
    counts = from_open == NULL || strcmp(from_open, "1") != 0;
}
