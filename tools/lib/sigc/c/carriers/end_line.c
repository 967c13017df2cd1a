/* How a run of a program in clusters has ended. Written by sigc-c, which copies it; nothing about this file is proved. */
#include "flows.h"

int say_run(uint64_t word, const Fate fates[ACTORS], unsigned long limit, int has_failed)
{
    const End *end = &ENDS[word == NO_WORD ? 0 : word & UINT32_MAX];
    unsigned long instants = instant_of(word) - 1;
    (void)fates;
    if (has_failed) {
        fprintf(stderr, "error: write failed\n");
        return 6;
    }
    if (word == NO_WORD) {
        fprintf(stderr, "end: limit after %lu instants\n", limit);
        return 0;
    }
    if (end->what == END_EXHAUSTED) {
        fprintf(stderr, "end: input %s exhausted after %lu instants\n", end->signal, instants);
        return 0;
    }
    fprintf(stderr, "end: %s at %lu:%lu after %lu instants\n", end->what == END_OVERFLOW ? "overflow" : "division by zero", (unsigned long)end->line, (unsigned long)end->column, instants);
    return 3;
}

void name_actor(int actor, char *room, size_t size)
{
    if (actor == COLLECTOR) {
        snprintf(room, size, "the collector");
    } else {
        snprintf(room, size, "cluster %d", actor);
    }
}
