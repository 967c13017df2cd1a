/* The inputs as the program declares them: of an array the first of its flows, how many, and its sizes, a 0 behind them. */
typedef struct {
    const char *name;
    int first, count;
    const int *sizes;
} Port;

@ports@
static int is_blank(char byte)
{
    return byte == ' ' || byte == '\t';
}

/* The next word of a line, or one of no length; blanks between brackets part none. */
static Word next_array(const char **at, const char *end)
{
    Word word;
    int depth = 0;
    while (*at != end && is_blank(**at)) {
        (*at)++;
    }
    word.at = *at;
    while (*at != end && (depth > 0 || !is_blank(**at))) {
        depth += (**at == '[') - (**at == ']');
        (*at)++;
    }
    word.length = (size_t)(*at - word.at);
    return word;
}

/* Parts the word of an array into those of its elements, behind `words`; 0 where its brackets are not those of its sizes. */
static int elements_of(const char **at, const char *end, const int *sizes, Word **words)
{
    int i;
    while (*at != end && is_blank(**at)) {
        (*at)++;
    }
    if (*sizes == 0) {
        (*words)->at = *at;
        while (*at != end && !is_blank(**at) && **at != ',' && **at != ']') {
            (*at)++;
        }
        (*words)->length = (size_t)(*at - (*words)->at);
        return (*words)++->length != 0;
    }
    for (i = 0; i < *sizes; i++) {
        if (*at == end || **at != (i == 0 ? '[' : ',')) {
            return 0;
        }
        (*at)++;
        if (!elements_of(at, end, sizes + 1, words)) {
            return 0;
        }
        while (*at != end && is_blank(**at)) {
            (*at)++;
        }
    }
    return *at != end && *(*at)++ == ']';
}

/* Reads the line of an instant; 0 where there is none. What is wrong with it is told once the instant wants it. */
static int read_row(Context *it)
{
    int count = 0, i;
    const char *at, *end;
    Word word;
    do {
        if (!read_line(it)) {
            return 0;
        }
        at = it->line;
        end = at + it->length;
        word = next_array(&at, end);
    } while (word.length == 0 && PORTS != 0);
    it->wrong = NULL;
    for (; word.length != 0; word = next_array(&at, end), count++) {
        const Port *port = &ports[count < PORTS ? count : PORTS];
        const char *from = word.at;
        Word *to = &it->words[port->first];
        for (i = 0; i < port->count; i++) {
            it->words[port->first + i] = word;
            it->is_taken[port->first + i] = 0;
        }
        if (*port->sizes != 0 && !is_word(word, ".") && (!elements_of(&from, word.at + word.length, port->sizes, &to) || from != word.at + word.length)) {
            it->wrong = "this is no value of it";
            it->wrong_input = port->first;
        }
    }
    if (count != PORTS) {
        it->wrong = "";
        it->wrong_input = -1;
        it->wrong_count = count;
    }
    return 1;
}
