/* Writes the first part of an output's line: its name and a blank. The value is next. */
static inline void put_name(Context *context, const char *name, size_t length)
{
    if (PIECE - context->used < length + DIGITS) {
        flush(context);
    }
    if (length < PIECE - DIGITS) {
        memcpy(context->out + context->used, name, length);
        context->used += length;
    } else {
        put(context, name, length);
        flush(context);
    }
}
