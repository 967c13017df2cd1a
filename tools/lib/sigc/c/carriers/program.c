/* What a carrier has to know of @title@. Written by sigc-c from
   @path@; nothing about this file is proved. */
#include "program.h"
#include "flows.h"

const Stream_ends STREAM_ENDS[STREAMS + 1] = {@stream_ends@{0, 0}};
const Input INPUT[INPUTS + 1] = {@input_rows@{"", EVENT}};
const int WEIGHT[ACTORS] = {@weights@};
const char PROGRAM_NAME[] = "@p@";

void begin(int actor, State *state)
{
    switch (actor) {
@begins@
    default:
        break;
    }
}

int step(int actor, State *state, Context *context)
{
    switch (actor) {
@steps@
    default:
        return 0;
    }
}
@calls@
