static inline void put_integer(Context *context, const char *name, size_t length, int64_t value)
{
    char digits[DIGITS];
    size_t at = DIGITS;
    uint64_t left = value < 0 ? 0 - (uint64_t)value : (uint64_t)value;
    digits[--at] = '\n';
    do {
        digits[--at] = (char)('0' + left % 10);
        left /= 10;
    } while (left != 0);
    if (value < 0) {
        digits[--at] = '-';
    }
    put_name(context, name, length);
    memcpy(context->out + context->used, digits + at, DIGITS - at);
    context->used += DIGITS - at;
}
