/* Calls a step for as long as it answers 0, for frama-c: what the functions of inputs give may be anything. NAME is replaced by
   the prefix of the step's names. */
#include "NAME.h"

static NAME_state state;

int main(void)
{
    int answer = 0;
    NAME_init(&state);
    while (answer == 0) {
        answer = NAME_step(&state, (void *)0);
    }
    return answer;
}
