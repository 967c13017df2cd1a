#include <stdio.h>
#include "WATCH.h"

struct WATCH_context {
    const int *requests;
    int value;
};

int r_WATCH_TICK(WATCH_context *it)
{
    return *it->requests >= 0;
}

int r_WATCH_REQ(WATCH_context *it, int *value)
{
    *value = *it->requests++;
    return 1;
}

int r_WATCH_V(WATCH_context *it, int64_t *value)
{
    *value = it->value;
    return 1;
}

void w_WATCH_HELD(WATCH_context *it, int64_t value)
{
    (void)it;
    printf("held %d", (int)value);
}

void w_WATCH_ALARM(WATCH_context *it, int value)
{
    (void)it;
    printf(value ? ", alarm\n" : "\n");
}

int main(void)
{
    static const int requests[] = {1, 0, 0, 0, 0, -1};
    WATCH_context context = {requests, 7};
    WATCH_state state;
    int number;
    WATCH_init(&state);
    while ((number = WATCH_step(&state, &context)) == 0) {
    }
    printf("%d:%d %s\n", (int)WATCH_ends[number].line, (int)WATCH_ends[number].column, WATCH_ends[number].signal);
    return 0;
}
