/* Memory that is refused once: the call of malloc, calloc or realloc with the number in REFUSE, counted from 1, fails,
   and a byte is written to the descriptor in REFUSE_FD. bench/refused_memory.py loads it in front of the program. */
#include <errno.h>
#include <stdatomic.h>
#include <stdlib.h>
#include <unistd.h>

void *__libc_malloc(size_t);
void *__libc_calloc(size_t, size_t);
void *__libc_realloc(void *, size_t);

static atomic_long left;
static int told = -1;

__attribute__((constructor)) static void begin(void) {
    const char *number = getenv("REFUSE"), *descriptor = getenv("REFUSE_FD");
    if (number && descriptor) {
        told = atoi(descriptor);
        left = atol(number);
    }
}

static int refused(void) {
    if (told < 0 || atomic_fetch_sub(&left, 1) != 1) return 0;
    if (write(told, "x", 1) != 1) abort();
    errno = ENOMEM;
    return 1;
}

void *malloc(size_t size) { return refused() ? NULL : __libc_malloc(size); }

void *calloc(size_t count, size_t size) { return refused() ? NULL : __libc_calloc(count, size); }

void *realloc(void *block, size_t size) { return refused() ? NULL : __libc_realloc(block, size); }
