/* Runs many programs that sigc-c wrote, in one process: its standard input has the runs, each as the number of a program, the
   most instants, and how many inputs there are, and for each of these how many values, and these. Of each run it writes the
   text, how it ended, and a line of `=`. */
#include <inttypes.h>
#include <stdio.h>
#include <stdlib.h>

#include "many.h"

enum { INPUTS = 512 };

static int64_t *values[INPUTS];
static size_t count[INPUTS], taken[INPUTS];
static unsigned long limit, instants;

int take(int input, int64_t *value)
{
    if (taken[input] == count[input]) {
        return 0;
    }
    *value = values[input][taken[input]++];
    return 1;
}

void put_integer(const char *name, int64_t value)
{
    printf("%s %" PRId64 "\n", name, value);
}

void put_truth(const char *name, int value)
{
    printf("%s %s\n", name, value == 1 ? "true" : value == 0 ? "false" : "neither");
}

int goes_on(void)
{
    return instants < limit && ++instants;
}

void ended(int what, uint32_t line, uint32_t column, const char *signal, int is_as_before)
{
    static const char *const texts[] = {"", "", "overflow", "division by zero"};
    if (what == 0) {
        printf("end: limit after %lu instants\n", instants);
    } else if (what == 1) {
        printf("end: input %s exhausted after %lu instants\n", signal, instants - 1);
    } else {
        printf("end: %s at %" PRIu32 ":%" PRIu32 " after %lu instants\n", texts[what], line, column, instants - 1);
    }
    if (!is_as_before) {
        printf("the state has changed\n");
    }
    printf("=\n");
}

int main(void)
{
    size_t number, inputs;
    while (scanf("%zu %lu %zu", &number, &limit, &inputs) == 3) {
        for (size_t i = 0; i < inputs; i++) {
            if (scanf("%zu", &count[i]) != 1) {
                return 1;
            }
            values[i] = malloc((count[i] + 1) * sizeof *values[i]);
            taken[i] = 0;
            for (size_t k = 0; k < count[i]; k++) {
                if (scanf("%" SCNd64, &values[i][k]) != 1) {
                    return 1;
                }
            }
        }
        instants = 0;
        runs[number]();
        for (size_t i = 0; i < inputs; i++) {
            free(values[i]);
        }
    }
    return 0;
}
