/* @title@ in C, a step of one instant, to be an instance in a system. Written by sigc-system from
   @path@; nothing about this file is proved.
   Each operation has the line and the column of the program that it comes from. */
#include "@own@_node.h"

/* What is true at few instants: compilers that take such a hint keep the other way short. */
#ifdef __GNUC__
#define RARELY(test) __builtin_expect(test, 0)
#else
#define RARELY(test) (test)
#endif
@helpers@@step@
