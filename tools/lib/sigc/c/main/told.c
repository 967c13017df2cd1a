    } else if (end->what == @p@_EXHAUSTED) {
        fprintf(stderr, "end: input %s exhausted after %lu instants\n", end->signal, instants);
    } else {
        const char *failure = end->what == @p@_OVERFLOW ? "overflow" : "division by zero";
        fprintf(stderr, "end: %s at %lu:%lu after %lu instants\n", failure, (unsigned long)end->line, (unsigned long)end->column, instants);
