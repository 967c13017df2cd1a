
static const Port *port_of(Word name)
{
    int i;
    for (i = 0; i < PORTS; i++) {
        if (*ports[i].sizes != 0 && is_word(name, ports[i].name)) {
            return &ports[i];
        }
    }
    return NULL;
}

/* How often a value stands in a file of version 2, which `*k` behind it says. */
static int times_of(Word word, size_t *times)
{
    int64_t read = 0;
    if (word.length == 0) {
        return RIGHT;
    }
    if (*word.at != '*' || word.length < 2 || word.length > 10 || word.at[1] == '-') {
        return BAD_VALUE;
    }
    word.at++;
    word.length--;
    if (integer_of(word, &read) != RIGHT || read < 1 || read > MOST_VALUES) {
        return BAD_VALUE;
    }
    *times = (size_t)read;
    return RIGHT;
}

/* Reads the values of a line of an array; the status of the program, 0 where they are right. */
static int read_arrays(Context *it, const Port *port, const char *path, unsigned long number, const char *begin, const char *at, const char *end, int is_counted, size_t *total)
{
    for (Word word = next_array(&at, end); word.length != 0; word = next_array(&at, end)) {
        Word words[INPUTS + 1], *to = words, behind;
        int64_t values[INPUTS + 1];
        size_t times = 1;
        const char *from = word.at, *last = word.at + word.length;
        int said = elements_of(&from, last, port->sizes, &to) ? RIGHT : BAD_VALUE, i;
        behind.at = from;
        behind.length = (size_t)(last - from);
        if (said == RIGHT) {
            said = is_counted || behind.length == 0 ? times_of(behind, &times) : BAD_VALUE;
        }
        for (i = 0; i < port->count && said == RIGHT; i++) {
            said = value_of(words[i], it->flows[port->first].kind, &values[i]);
        }
        if (said != RIGHT) {
            return refuse_value(path, number, begin, word.at, end, said == BAD_VALUE ? "bad value" : "out of range");
        }
        *total += times * (size_t)port->count;
        if (*total > MOST_VALUES) {
            return refuse_value(path, number, begin, NULL, end, "more than 4000000 values");
        }
        for (i = 0; i < port->count; i++) {
            if (!append(&it->flows[port->first + i], values[i], times)) {
                fprintf(stderr, "error: out of memory\n");
                return 7;
            }
        }
    }
    return 0;
}
