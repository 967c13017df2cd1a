/* @title@, in C: one call of @p@_step does one instant. Written by sigc-c from
   @path@.
   @made@
@note@*/
#ifndef @guard@
#define @guard@

#include <stdint.h>

#ifdef __cplusplus
extern "C" {
#endif

/* What an instance is connected to. The struct is yours to define; it is handed on to the functions that you give. */
typedef struct @p@_context @p@_context;
@types@
/* What an instance keeps from one instant to the next. */
typedef struct {
@state@
} @p@_state;

/* Why an instant was not done: what there was, at which line and column of the program, and of which signal. */
enum { @what@ };
typedef struct {
    int what;
    uint32_t line;
    uint32_t column;
    const char *signal;@place@
} @p@_end;

/* The ends by the numbers that @p@_step answers; number 0 is that of an instant that was done. */
extern const @p@_end @p@_ends[@count@];

/* Makes a state that of an instance before its first instant. */
void @p@_init(@p@_state *state);

/* Does one instant, and answers 0. Where it cannot be done, it leaves the state as it was, gives no output, and answers
   the number of the end; the inputs that were asked for before that are used up. */
int @p@_step(@p@_state *state, @p@_context *context);
@inputs@@outputs@
#ifdef __cplusplus
}
#endif

#endif
