/* An allocator that refuses one request, to be preloaded: the one whose number, from 1, FAIL_ALLOC says.
   At the end it writes how many requests there were to the file that COUNT_ALLOC names. It rests on glibc. */
#include <errno.h>
#include <fcntl.h>
#include <stddef.h>
#include <stdio.h>
#include <stdlib.h>
#include <unistd.h>

extern void *__libc_malloc(size_t);
extern void *__libc_calloc(size_t, size_t);
extern void *__libc_realloc(void *, size_t);
extern void *__libc_memalign(size_t, size_t);

static unsigned long made, refused;
static int begun;

/* Whether this request is the one that is refused. The program has one thread. */
static int refuses(void) {
    if (!begun) {
        const char *word = getenv("FAIL_ALLOC");
        refused = word ? strtoul(word, NULL, 10) : 0;
        begun = 1;
    }
    made++;
    if (made != refused) return 0;
    errno = ENOMEM;
    return 1;
}

void *malloc(size_t size) { return refuses() ? NULL : __libc_malloc(size); }
void *calloc(size_t count, size_t size) { return refuses() ? NULL : __libc_calloc(count, size); }
void *realloc(void *old, size_t size) { return refuses() ? NULL : __libc_realloc(old, size); }
void *memalign(size_t align, size_t size) { return refuses() ? NULL : __libc_memalign(align, size); }
void *aligned_alloc(size_t align, size_t size) { return memalign(align, size); }
int posix_memalign(void **into, size_t align, size_t size) {
    void *got = memalign(align, size);
    if (!got) return ENOMEM;
    *into = got;
    return 0;
}

__attribute__((destructor)) static void tell(void) {
    const char *name = getenv("COUNT_ALLOC");
    char text[32];
    int file = name ? open(name, O_WRONLY | O_CREAT | O_TRUNC, 0600) : -1;
    if (file < 0) return;
    int length = snprintf(text, sizeof text, "%lu\n", made);
    if (write(file, text, length) != length) _exit(99);
    close(file);
}
