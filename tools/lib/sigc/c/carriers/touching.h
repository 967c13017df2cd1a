/* The streams that touch each actor. Written by sigc-c, which copies it; nothing about this file is proved. */
#ifndef TOUCHING_H
#define TOUCHING_H

#include "program.h"

/* The streams of actor i are touching[touching_at[i]] and what follows, up to touching_at[i + 1]; one from an actor to itself is there twice. */
static int touching[2 * STREAMS + 1], touching_at[ACTORS + 1];

static inline void list_streams(void)
{
    static int next[ACTORS];
    int i;
    for (i = 0; i < STREAMS; i++) {
        touching_at[STREAM_ENDS[i].writer + 1]++;
        touching_at[STREAM_ENDS[i].reader + 1]++;
    }
    for (i = 0; i < ACTORS; i++) {
        touching_at[i + 1] += touching_at[i];
        next[i] = touching_at[i];
    }
    for (i = 0; i < STREAMS; i++) {
        touching[next[STREAM_ENDS[i].writer]++] = i;
        touching[next[STREAM_ENDS[i].reader]++] = i;
    }
}

#endif
