/* What a carrier has to know of the system @title@. Written by sigc-system from
   @path@; nothing about this file is proved. */
#include "program.h"
#include "flows.h"
#include "node.h"

typedef struct {
    const char *name;
    size_t length;
    int kind;
} Given;

const char PROGRAM_NAME[] = "@title@";
const Stream_ends STREAM_ENDS[STREAMS + 1] = {
@stream_ends@
    {0, 0}};
const Input INPUT[INPUTS + 1] = {
@input_rows@
    {"", EVENT}};
const int WEIGHT[ACTORS] = {
@weights@};
const Node NODE[ACTORS] = {
@nodes@};

/* From where an input comes: the number of a stream, or below 0 an input of the system. */
static const int SOURCE[] = {
@sources@
    0};
/* Where the sinks of each output begin, which end where those of the next one begin; they are streams, or below 0 outputs of the system. */
static const int SINK_AT[] = {
@sink_begins@};
static const int SINK[] = {
@sinks@
    0};
/* The outputs of the system, with a blank behind the name. */
static const Given OUTPUT[] = {
@output_rows@
    {"", 0, EVENT}};
static const char *const OUTPUT_OF[] = {
@outputs_of@
    ""};
static const char *const INPUT_TEXT[] = {
@input_texts@
    ""};
static const char *const FAULT_TEXT[] = {
@fault_texts@
    ""};
static const int FIRST_FAULT[] = {@first_faults@};

const char *output_of(int stream)
{
    return OUTPUT_OF[stream];
}

const char *input_text(int actor, int input)
{
    return INPUT_TEXT[NODE[actor].first_text + input];
}

const char *fault_text(int actor, int number)
{
    return FAULT_TEXT[FIRST_FAULT[NODE[actor].program] + number - 1];
}

int stream_to(int actor, int input)
{
    int source = SOURCE[NODE[actor].first_source + input];
    return source < 0 ? -1 : source;
}

int get_input(Context *it, int input, int64_t *item)
{
    int source = SOURCE[NODE[it->actor].first_source + input];
    if (source >= 0 ? GET(it, source, item) : take_next(-1 - source, &it->taken[input], item)) {
        return 1;
    }
    it->wanted = input;
    it->is_parted |= source < 0;
    return 0;
}

static void give(Context *it, const Given *output, int64_t item)
{
    if (output->kind == INTEGER) {
        give_integer(it, output->name, output->length, item);
    } else {
        give_truth(it, output->name, output->length, item != 0);
    }
}

int put_output(Context *it, int output, int64_t item)
{
    const int *at = &SINK_AT[NODE[it->actor].first_sink + output];
    for (; at[0] + it->served < at[1]; it->served++) {
        int sink = SINK[at[0] + it->served];
        if (sink < 0) {
            give(it, &OUTPUT[-1 - sink], item);
        } else if (!PUT(it, sink, item)) {
            it->wanted = -1 - sink;
            return 0;
        }
    }
    it->served = 0;
    return 1;
}

void begin(int actor, State *state)
{
    switch (NODE[actor].program) {
@begins@
    default:
        break;
    }
}

int step(int actor, State *state, Context *context)
{
    switch (NODE[actor].program) {
@steps@
    default:
        return 0;
    }
}
