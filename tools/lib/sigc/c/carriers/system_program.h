/* What a carrier has to know of the system @title@. Written by sigc-system from
   @path@; nothing about this file is proved. */
#ifndef PROGRAM_H
#define PROGRAM_H

@includes@

#define CONTEXT sigc_context
#define GET get_item
#define PUT put_item

typedef sigc_context Context;

enum { WAITING = -1 };

/* Actors are the instances. */
enum { ACTORS = @actors@, COLLECTOR = -1, STREAMS = @streams@, INPUTS = @inputs@, IS_LOCAL = 0, IS_SYSTEM = 1 };
/* How many items a stream holds where nothing is said, the most inputs of a program, and how many bytes of outputs an actor keeps. */
enum { CAPACITY = @capacity@, MOST_INPUTS = @most_inputs@, PIECE = @piece@ };
enum { INTEGER, BOOLEAN, EVENT };

/* The state of any actor. */
typedef union {
    int place;
@states@
} State;

typedef struct {
    int writer, reader;
} Stream_ends;

typedef struct {
    const char *name;
    int kind;
} Input;

/* An instance: its name and its place in a count, -1 for one alone; its program; where its sources and its sinks begin, and the texts of
   its inputs, which the instances of a count share. */
typedef struct {
    const char *name;
    int index, program, first_source, first_sink, first_text;
} Node;

/* The ends of each stream, the inputs of the system, and about how much each actor does at an instant. */
extern const Stream_ends STREAM_ENDS[STREAMS + 1];
extern const Input INPUT[INPUTS + 1];
extern const int WEIGHT[ACTORS];
extern const char PROGRAM_NAME[];
extern const Node NODE[ACTORS];

/* The output from which a stream comes, a text about an input, and one about a fault of a program. */
const char *output_of(int stream);
const char *input_text(int actor, int input);
const char *fault_text(int actor, int number);

/* The stream from which an input comes; -1 where it comes from outside. */
int stream_to(int actor, int input);

/* Of the carrier: the next item of a stream, and an item put into one; 0 while there is none, or no room. */
int GET(Context *context, int stream, int64_t *item);
int PUT(Context *context, int stream, int64_t item);

void begin(int actor, State *state);
int step(int actor, State *state, Context *context);

#endif
