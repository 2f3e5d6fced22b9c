/* A library for LD_PRELOAD, over the GNU C library, that refuses one allocation of a program.

   Calls of malloc, calloc, realloc and their kin are counted from 1 on, from where this library starts. The variable
   REFUSED_ALLOCATION has the number of the one that is refused: it returns NULL, and a block that was to grow stays as it
   was. The file that REFUSED_REPORT names gets one byte then. Where the number is 0 none is refused, and at the end of the
   program that file gets how many there were. All other calls go to the C library. */
#include <errno.h>
#include <fcntl.h>
#include <stdio.h>
#include <stdlib.h>
#include <string.h>
#include <unistd.h>

void *__libc_malloc(size_t size);
void *__libc_calloc(size_t count, size_t size);
void *__libc_realloc(void *block, size_t size);
void *__libc_memalign(size_t alignment, size_t size);

static int is_counting; /* 0 until the library starts: nothing is counted before */
static long refused;
static long counted;

__attribute__((constructor)) static void start(void) {
    const char *number = getenv("REFUSED_ALLOCATION");
    is_counting = number != NULL;
    refused = number ? atol(number) : 0;
}

/* Writes to the file of the report, without an allocation of its own. */
static void report(const char *text) {
    const char *path = getenv("REFUSED_REPORT");
    if (path == NULL)
        return;
    int file = open(path, O_WRONLY | O_CREAT | O_APPEND | O_CLOEXEC, 0600);
    if (file < 0 || write(file, text, strlen(text)) != (ssize_t)strlen(text))
        abort();
    close(file);
}

/* Counts one allocation, and says whether it is the one. */
static int is_refused(void) {
    if (!is_counting || __atomic_add_fetch(&counted, 1, __ATOMIC_SEQ_CST) != refused)
        return 0;
    report("!");
    errno = ENOMEM;
    return 1;
}

__attribute__((destructor)) static void end(void) {
    char text[24];
    if (!is_counting || refused != 0)
        return;
    is_counting = 0;
    snprintf(text, sizeof text, "%ld", counted);
    report(text);
}

void *malloc(size_t size) {
    return is_refused() ? NULL : __libc_malloc(size);
}

void *calloc(size_t count, size_t size) {
    return is_refused() ? NULL : __libc_calloc(count, size);
}

/* To shrink a block to nothing is no allocation. */
void *realloc(void *block, size_t size) {
    return (size > 0 || block == NULL) && is_refused() ? NULL : __libc_realloc(block, size);
}

void *reallocarray(void *block, size_t count, size_t size) {
    size_t bytes;
    if (__builtin_mul_overflow(count, size, &bytes)) {
        errno = ENOMEM;
        return NULL;
    }
    return realloc(block, bytes);
}

void *memalign(size_t alignment, size_t size) {
    return is_refused() ? NULL : __libc_memalign(alignment, size);
}

void *aligned_alloc(size_t alignment, size_t size) {
    return memalign(alignment, size);
}

int posix_memalign(void **block, size_t alignment, size_t size) {
    if (alignment < sizeof(void *) || (alignment & (alignment - 1)) != 0)
        return EINVAL;
    void *made = memalign(alignment, size);
    if (made == NULL)
        return ENOMEM;
    *block = made;
    return 0;
}
