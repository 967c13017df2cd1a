/* What the steps of all programs of a system need. Written by sigc-system, which copies it; nothing about this file is proved. */
#ifndef NODE_H
#define NODE_H

#include <stdint.h>

typedef struct sigc_context sigc_context;

/* What a step returns that has done its instant, and one that has to wait. Other numbers are those of the program's faults. */
enum { NODE_DONE = 0, NODE_WAITING = -1 };

/* Yours: the next value of an input of the instance. Returns 1, or 0 while there is none. */
int get_input(sigc_context *context, int input, int64_t *item);

/* Yours: gives a value of an output. Returns 1, or 0 while there is no room for it. */
int put_output(sigc_context *context, int output, int64_t item);

#endif
