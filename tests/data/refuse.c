#include <errno.h>
#include <fcntl.h>
#include <stddef.h>
#include <stdio.h>
#include <stdlib.h>
#include <string.h>
#include <unistd.h>

void *__libc_malloc(size_t size);
void *__libc_realloc(void *old, size_t size);

static long count = 0;

/* Whether this allocation is the one to refuse. If it is, the marker file is made. */
static int refuses(void) {
    static long wanted = -1;
    if (wanted < 0) {
        const char *number = getenv("REFUSED");
        wanted = number ? atol(number) : 0;
    }
    if (++count != wanted)
        return 0;
    close(open(getenv("REFUSED_MARK"), O_CREAT | O_WRONLY, 0600));
    errno = ENOMEM;
    return 1;
}

void *malloc(size_t size) { return refuses() ? NULL : __libc_malloc(size); }
void *realloc(void *old, size_t size) { return refuses() ? NULL : __libc_realloc(old, size); }

/* Writes how many allocations there were, if a file is named for that. */
__attribute__((destructor)) static void tell(void) {
    const char *name = getenv("REFUSED_COUNT");
    char text[32];
    if (!name)
        return;
    int file = open(name, O_CREAT | O_WRONLY | O_TRUNC, 0600);
    snprintf(text, sizeof text, "%ld\n", count);
    if (write(file, text, strlen(text)) < 0)
        abort();
    close(file);
}
