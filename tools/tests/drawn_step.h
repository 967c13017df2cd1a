/* The header of a unit in tests. The rows of unit.list are FIELD(type, name), INPUT(type, name), EVENT(name),
   OUTPUT(type, name) and SIGN(name), which is the output of an event. */
#ifndef DRAWN_STEP_H
#define DRAWN_STEP_H

#include <stdint.h>

#define FIELD(type, name)
#define INPUT(type, name)
#define EVENT(name)
#define OUTPUT(type, name)
#define SIGN(name)

typedef struct P_context P_context;

#undef FIELD
#define FIELD(type, name) type name;
typedef struct {
    int is_of_no_field;
#include "unit.list"
} P_state;
#undef FIELD
#define FIELD(type, name)

typedef enum { P_DONE, P_EXHAUSTED, P_OVERFLOW, P_DIVISION_BY_ZERO } P_cause;

typedef struct {
    P_cause what;
    uint32_t line;
    uint32_t column;
    const char *signal;
} P_end;

extern const P_end P_ends[];
void P_init(P_state *state);
int P_step(P_state *state, P_context *context);

#undef INPUT
#undef EVENT
#undef OUTPUT
#undef SIGN
#define INPUT(type, name) int name(P_context *context, type *value);
#define EVENT(name) int name(P_context *context);
#define OUTPUT(type, name) void name(P_context *context, type value);
#define SIGN(name) void name(P_context *context);
#include "unit.list"
#undef FIELD
#undef INPUT
#undef EVENT
#undef OUTPUT
#undef SIGN

#endif
