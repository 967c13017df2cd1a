
void @own@_init(@own@_state *state)
{
    state->place = 0;
@init@
}

int @own@_step(@own@_state *state, @p@_context *context)
{
@body@
}
