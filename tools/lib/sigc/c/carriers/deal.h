/* Which actor goes where. Written by sigc-c, which copies it; nothing about this file is proved. */
#ifndef DEAL_H
#define DEAL_H

#include "program.h"

/* Gives each actor to the one of so many places that has least to do, the actors that do most first. */
static inline void deal(int places, int place_of[ACTORS])
{
    int loads[ACTORS] = {0}, is_dealt[ACTORS] = {0}, i, n;
    for (n = 0; n < ACTORS; n++) {
        int most = -1, place = 0;
        for (i = 0; i < ACTORS; i++) {
            most = !is_dealt[i] && (most < 0 || WEIGHT[i] > WEIGHT[most]) ? i : most;
        }
        for (i = 1; i < places && i < ACTORS; i++) {
            place = loads[i] < loads[place] ? i : place;
        }
        is_dealt[most] = 1;
        place_of[most] = place;
        loads[place] += WEIGHT[most];
    }
}

#endif
