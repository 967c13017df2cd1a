/* @title@ in C, a step of one instant, to be an instance in a system. Written by sigc-system from
   @path@; nothing about this file is proved. */
#ifndef @own@_NODE_H
#define @own@_NODE_H

#include "node.h"

/* What an instance keeps, how it begins, and its step. The step does the rest of an instant, and returns NODE_DONE; or NODE_WAITING, to be
   called again; or the number of a fault, and is not to be called any more.
@ports@ */
typedef struct {
    int place;
@fields@
} @own@_state;
void @own@_init(@own@_state *state);
int @own@_step(@own@_state *state, sigc_context *context);

#endif
