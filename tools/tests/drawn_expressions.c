/* Evaluates drawn expressions over values from the standard input, and writes the type and the value of each, or that it
   traps. Each row of expressions.list is EXPRESSION(number, text). To be compiled so that what C11 leaves open traps. */
#define _POSIX_C_SOURCE 200809L

#include <inttypes.h>
#include <setjmp.h>
#include <signal.h>
#include <stdint.h>
#include <stdio.h>

typedef struct {
    int64_t (*value)(int64_t a, int64_t b, int64_t c, int p, int q);
    int (*is_wide)(int64_t a, int64_t b, int64_t c, int p, int q);
} Expression;

#define EXPRESSION(number, text) \
    static int64_t value_##number(int64_t a, int64_t b, int64_t c, int p, int q) \
    { \
        return text; \
    } \
    static int is_wide_##number(int64_t a, int64_t b, int64_t c, int p, int q) \
    { \
        return _Generic((text), int: 0, int64_t: 1); \
    }
#include "expressions.list"
#undef EXPRESSION

static const Expression expressions[] = {
#define EXPRESSION(number, text) {value_##number, is_wide_##number},
#include "expressions.list"
};

static sigjmp_buf before;

static void trapped(int number)
{
    signal(number, trapped);
    siglongjmp(before, number);
}

int main(void)
{
    static int64_t a, b, c;
    static int p, q;
    static size_t at;
    signal(SIGILL, trapped);
    while (scanf("%" SCNd64 " %" SCNd64 " %" SCNd64 " %d %d", &a, &b, &c, &p, &q) == 5) {
        for (at = 0; at < sizeof expressions / sizeof *expressions; at++) {
            printf("%d ", expressions[at].is_wide(a, b, c, p, q));
            if (sigsetjmp(before, 1) == 0) {
                printf("%" PRId64 "\n", expressions[at].value(a, b, c, p, q));
            } else {
                puts("trap");
            }
        }
    }
    return 0;
}
