
/* @what@: what it keeps, how it begins, and its step. The step does the rest of an instant, and returns 0; or
   @p@_WAITING, to be called again; or the number of an end, and is not to be called any more. */
typedef struct {
    int place;
@fields@
} @own@_state;
void @own@_init(@own@_state *state);
int @own@_step(@own@_state *state, @p@_context *context);
