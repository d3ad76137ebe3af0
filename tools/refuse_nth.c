/* Refuses a program's Nth request for memory, and says so on standard error:
   cc -shared -fPIC -o refuse_nth.so refuse_nth.c && REFUSE_NTH=N LD_PRELOAD=./refuse_nth.so PROGRAM */

#include <errno.h>
#include <stdlib.h>
#include <string.h>
#include <unistd.h>

/* The C library's own. */
extern void *__libc_malloc(size_t size);
extern void *__libc_realloc(void *block, size_t size);

static const char said[] = "a request for memory was refused\n";

/* How many requests are left up to the one that is refused; below zero where none is. */
static long left = -1;

/* The program's own requests alone are counted, and not those of what runs before it. */
__attribute__((constructor)) static void begin(void) {
    const char *nth = getenv("REFUSE_NTH");
    left = nth ? atol(nth) : -1;
}

static int is_refused(void) {
    if (left < 0 || --left != 0) {
        return 0;
    }
    left = -1;
    if (write(2, said, strlen(said)) < 0) {
        abort();
    }
    errno = ENOMEM;
    return 1;
}

void *malloc(size_t size) {
    return is_refused() ? NULL : __libc_malloc(size);
}

void *realloc(void *block, size_t size) {
    return is_refused() ? NULL : __libc_realloc(block, size);
}
