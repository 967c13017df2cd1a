/* Calls the step of a unit until it answers a number that is not 0, and writes what it does. The standard input has a limit
   of calls, and for each input how many values there are, and the values. To be compiled so that what C11 leaves open traps. */
#define _POSIX_C_SOURCE 200809L

#include <inttypes.h>
#include <setjmp.h>
#include <signal.h>
#include <stdio.h>

#include "P.h"

enum { MOST = 64 };

enum {
#define FIELD(type, name)
#define INPUT(type, name) AT_##name,
#define EVENT(name) AT_##name,
#define OUTPUT(type, name)
#define SIGN(name)
#include "unit.list"
    INPUTS
};

enum {
#undef INPUT
#undef EVENT
#undef OUTPUT
#undef SIGN
#define INPUT(type, name)
#define EVENT(name)
#define OUTPUT(type, name) TO_##name,
#define SIGN(name) TO_##name,
#include "unit.list"
    OUTPUTS
};

static int64_t values[INPUTS + 1][MOST];
static int counts[INPUTS + 1], taken[INPUTS + 1];
static sigjmp_buf before;

static void trapped(int number)
{
    signal(number, trapped);
    siglongjmp(before, number);
}

static int take(int input, int64_t *value)
{
    if (taken[input] == counts[input]) {
        return 0;
    }
    *value = values[input][taken[input]++];
    return 1;
}

#undef INPUT
#undef EVENT
#undef OUTPUT
#undef SIGN
#define INPUT(type, name) \
    int name(P_context *context, type *value) \
    { \
        int64_t found = 0; \
        (void)context; \
        if (!take(AT_##name, &found)) { \
            return 0; \
        } \
        *value = (type)found; \
        return 1; \
    }
#define EVENT(name) \
    int name(P_context *context) \
    { \
        int64_t found; \
        (void)context; \
        return take(AT_##name, &found); \
    }
#define OUTPUT(type, name) \
    void name(P_context *context, type value) \
    { \
        (void)context; \
        printf("give %d %" PRId64 "\n", TO_##name, (int64_t)value); \
    }
#define SIGN(name) \
    void name(P_context *context) \
    { \
        (void)context; \
        printf("give %d 1\n", TO_##name); \
    }
#include "unit.list"

static void read_flows(void)
{
    int input, at;
    for (input = 0; input < INPUTS; input++) {
        if (scanf("%d", &counts[input]) != 1 || counts[input] > MOST) {
            counts[input] = 0;
        }
        for (at = 0; at < counts[input]; at++) {
            if (scanf("%" SCNd64, &values[input][at]) != 1) {
                values[input][at] = 0;
            }
        }
    }
}

int main(void)
{
    static P_state state;
    static int limit, answer;
    signal(SIGILL, trapped);
    if (scanf("%d", &limit) != 1) {
        return 1;
    }
    read_flows();
    P_init(&state);
    while (limit-- > 0 && answer == 0) {
        if (sigsetjmp(before, 1) != 0) {
            puts("trap");
            return 0;
        }
        answer = P_step(&state, (P_context *)0);
        printf("answer %d\n", answer);
#undef FIELD
#undef INPUT
#undef EVENT
#undef OUTPUT
#undef SIGN
#define FIELD(type, name) printf("field %" PRId64 "\n", (int64_t)state.name);
#define INPUT(type, name)
#define EVENT(name)
#define OUTPUT(type, name)
#define SIGN(name)
#include "unit.list"
    }
    return 0;
}
