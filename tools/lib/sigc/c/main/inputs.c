static int is_within(const Flow *flow, int64_t value)
{
    return value >= flow->least && value <= flow->most;
}

/* The value of an input on the line of this instant. */
static int live_value(Context *context, int input, int64_t *value)
{
    Word word = context->words[input];
    const Flow *flow = &context->flows[input];
    context->is_taken[input] = 1;
    if (context->wrong != NULL) {
        return 0;
    }
    if (is_word(word, ".")) {
        context->wrong = "it comes at this instant, and the line has no value";
    } else if (value_of(word, flow->kind, value) != RIGHT) {
        context->wrong = "this is no value of it";
    } else if (!is_within(flow, *value)) {
        context->wrong = "this is outside of its range";
    } else {
        return 1;
    }
    context->wrong_input = input;
    return 0;
}

/* Prints which values an input may have, after a line that is none of them. */
static void print_wanted(const Flow *flow)
{
    if (flow->least != INT64_MIN || flow->most != INT64_MAX) {
        fprintf(stderr, "an integer from %lld to %lld is wanted\n", (long long)flow->least, (long long)flow->most);
        return;
    }
@named_wanted@    fputs(flow->kind == INTEGER ? "an integer is" : flow->kind == BOOLEAN ? "true or false is" : "true is", stderr);
    fputs(" wanted\n", stderr);
}

/* Asks for a value of an input until a line has one. */
static int asked_value(Context *context, int input, int64_t *value)
{
    const Flow *flow = &context->flows[input];
    for (;;) {
        const char *at;
        Word word;
        fprintf(stderr, "%s? ", flow->name);
        fflush(stderr);
        if (!read_line(context)) {
            context->is_over = 1;
            return 0;
        }
        at = context->line;
        word = next_word(&at, context->line + context->length);
        if (word.length != 0 && value_of(word, flow->kind, value) == RIGHT && is_within(flow, *value)) {
            return 1;
        }
        print_wanted(flow);
    }
}

/* The next value of an input in a live run; in a run over a file its flow is at its end. */
static int live(Context *context, int input, int64_t *value)
{
    if (context->source == FROM_FILE) {
        return 0;
    }
    return context->source == FROM_ROWS ? live_value(context, input, value) : asked_value(context, input, value);
}

static inline int take(Context *context, int input, int64_t *value)
{
    Flow *flow = &context->flows[input];
    if (flow->taken == flow->count) {
        return live(context, input, value);
    }
    *value = flow->values[flow->taken++];
    return 1;
}
