
/* The values of enumerations, by their kinds behind NAMED. */
typedef struct {
    const char *const *names;
    int count;
} Names;

@names@
static int named_value(Word word, const Names *names, int64_t *value)
{
    int i;
    for (i = 0; i < names->count; i++) {
        if (is_word(word, names->names[i])) {
            *value = i;
            return RIGHT;
        }
    }
    return BAD_VALUE;
}
