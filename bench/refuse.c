// For LD_PRELOAD: refuses one allocation of a program, the one whose number, counted from 1, is in REFUSE, and writes a byte to
// descriptor 9 as it does.
#include <stddef.h>
#include <stdlib.h>
#include <unistd.h>

extern void *__libc_malloc(size_t);
extern void *__libc_realloc(void *, size_t);

static long left;

__attribute__((constructor)) static void begin(void) {
    const char *refuse = getenv("REFUSE");
    left = refuse ? atol(refuse) : 0;
}

static int refused(void) {
    if (left == 0 || --left > 0) return 0;
    return write(9, "x", 1) == 1;
}

void *malloc(size_t size) { return refused() ? NULL : __libc_malloc(size); }
void *realloc(void *old, size_t size) { return refused() ? NULL : __libc_realloc(old, size); }
