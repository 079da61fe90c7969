/* Preloaded, this refuses growths of memory: the one with the number REFUSED, counted from 1, and
   with ONWARDS those behind it too. How many there were is written to the file COUNT_TO. */

#include <errno.h>
#include <fcntl.h>
#include <malloc.h>
#include <stdio.h>
#include <stdlib.h>
#include <unistd.h>

void *__libc_malloc(size_t size);
void *__libc_calloc(size_t count, size_t size);
void *__libc_realloc(void *old, size_t size);

static unsigned long begun, refused;
static int is_counting, is_onwards;

__attribute__((constructor)) static void begin(void) {
    const char *number = getenv("REFUSED");
    refused = number ? strtoul(number, NULL, 10) : 0;
    is_onwards = getenv("ONWARDS") != NULL;
    is_counting = 1;
}

__attribute__((destructor)) static void tell(void) {
    const char *path = getenv("COUNT_TO");
    char text[32];
    is_counting = 0;
    int file = path ? open(path, O_WRONLY | O_CREAT | O_TRUNC, 0600) : -1;
    if (file < 0) return;
    int length = snprintf(text, sizeof text, "%lu", begun);
    if (write(file, text, length) != length) abort();
    close(file);
}

static int is_refused(void) {
    if (!is_counting) return 0;
    begun++;
    if (refused == 0 || begun < refused || (begun > refused && !is_onwards)) return 0;
    errno = ENOMEM;
    return 1;
}

void *malloc(size_t size) { return is_refused() ? NULL : __libc_malloc(size); }

void *calloc(size_t count, size_t size) {
    return is_refused() ? NULL : __libc_calloc(count, size);
}

/* Where there is less than before, nothing grows. */
void *realloc(void *old, size_t size) {
    if (old && size <= malloc_usable_size(old)) return __libc_realloc(old, size);
    return is_refused() ? NULL : __libc_realloc(old, size);
}
