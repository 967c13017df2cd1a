/* What the adapters of many programs share: where inputs come from, where outputs go, and how a run ends. */
#ifndef MANY_H
#define MANY_H

#include <stdint.h>

/* The next value of an input; 0 where there is none. */
int take(int input, int64_t *value);

/* A line of an output: an integer, or a truth. */
void put_integer(const char *name, int64_t value);
void put_truth(const char *name, int value);

/* Whether another instant is to be done. */
int goes_on(void);

/* Says how a run ended; what is 0 at the limit. */
void ended(int what, uint32_t line, uint32_t column, const char *signal, int is_as_before);

/* The runs of the programs, by their numbers. */
typedef void (*Run)(void);
extern const Run runs[];

#endif
