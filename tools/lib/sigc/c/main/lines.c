static void put(Context *context, const char *text, size_t length)
{
    while (length > PIECE - context->used) {
        size_t part = PIECE - context->used;
        memcpy(context->out + context->used, text, part);
        context->used = PIECE;
        text += part;
        length -= part;
        flush(context);
    }
    memcpy(context->out + context->used, text, length);
    context->used += length;
}

enum { DIGITS = 24 };
