/* Reads the line of an instant; returns 0 at the end of the file. A wrong line is reported when the instant is tried. */
static int read_row(Context *context)
{
    int count = 0;
    const char *at, *end;
    do {
        if (!read_line(context)) {
            return 0;
        }
        at = context->line;
        end = at + context->length;
        context->words[0] = next_word(&at, end);
    } while (context->words[0].length == 0 && INPUTS != 0);
    context->wrong = NULL;
    while (context->words[count].length != 0 && count < INPUTS) {
        context->is_taken[count] = 0;
        context->words[++count] = next_word(&at, end);
    }
    if (count != INPUTS || context->words[count].length != 0) {
        Word word = context->words[count];
        for (; word.length != 0; word = next_word(&at, end)) {
            count++;
        }
        context->wrong = "";
        context->wrong_input = -1;
        context->wrong_count = count;
    }
    return 1;
}
