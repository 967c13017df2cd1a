static inline void put_truth(Context *context, const char *name, size_t length, int value)
{
    put_name(context, name, length);
    memcpy(context->out + context->used, value ? "true\n" : "false\n", 6);
    context->used += value ? 5 : 6;
}
