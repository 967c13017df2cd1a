/* @title@ in C, a step for each cluster. Written by sigc-c from
   @path@; nothing about this file is proved.

   A cluster may run on a thread, in a process or on a board of its own, or share one with others: a step that has to wait
   says so, and goes on where it was when it is called again. */
#ifndef @p@_CLUSTERS_H
#define @p@_CLUSTERS_H

#include <stdint.h>

#ifdef __cplusplus
extern "C" {
#endif

/* What a cluster is connected to. The struct is yours to define; each step passes it on to the functions that you give. */
typedef struct @p@_context @p@_context;

/* Why an instant was not done: what there was, at which line and column of the program, and of which signal. */
enum { @p@_DONE, @p@_EXHAUSTED, @p@_OVERFLOW, @p@_DIVISION_BY_ZERO };
typedef struct {
    int what;
    uint32_t line, column;
    const char *signal;
} @p@_end;

/* The ends by the numbers that steps return. Of two clusters that cannot do the same instant, the one with the lesser number
   is the first cause. Number 0 is that of an instant that was done. */
extern const @p@_end @p@_ends[@ends@];

/* What a step returns that has to wait. */
enum { @p@_WAITING = -1 };

/* The streams: from which cluster each one comes, and to which it goes@collector_note@. */
enum { @p@_CLUSTERS = @clusters@, @p@_STREAMS = @streams@ };
@stream_list@
@states@
/* Yours: the next item of a stream. Returns 1, or 0 while there is none. */
int get_@p@(@p@_context *context, int stream, int64_t *item);

/* Yours: puts an item into a stream. Returns 1, or 0 while there is no room. */
int put_@p@(@p@_context *context, int stream, int64_t item);
@inputs@@outputs@
#ifdef __cplusplus
}
#endif

#endif
