/* Actors of one process, which share their streams with those of other processes. Written by sigc-c, which copies it;
   nothing about this file is proved.

   A carrier gives the functions of a link below, and calls `arrived` and `returned` with what comes. */
#ifndef PROCESS_H
#define PROCESS_H

#include "flows.h"

/* The most items of a message: such a one is short enough for MPI to send it without asking. */
enum { CHUNK = 448, MOST_DOMAIN = 230 };

/* What the words of a command say. */
typedef struct {
    const char *path, *folder, *own;
    unsigned long limit, capacity, deadline, domain;
} Settings;

extern Settings settings;

/* Which actors are in this process. */
extern int is_here[ACTORS];

/* Reads the words of a command; 0 where they are none. `--own` is read where the carrier lets a process choose its actors. */
int read_words(int count, char **words, int has_own);

/* Begins the actors that are here; the status, 0 where all is right. The writer of a stream knows that it may put so many
   items before it has heard of the reader. */
int begin_process(unsigned long first_room);

/* Runs them to the end; the status. */
int run_process(void);

/* What came on a stream from its writer: items, of which the first has a number, and whether the writer has ended, with the least word that it knows. */
void arrived(int stream, uint64_t first, const int64_t *items, size_t count, int is_end, uint64_t word);

/* What came on a stream from its reader: up to which number the writer may put items, and whether the reader has ended. */
void returned(int stream, uint64_t allowed, int is_end, uint64_t word);

/* Tells the writer of a stream how much room there is, before any item has come. */
void greet(int stream);

/* A partner at the other end of a stream is lost, as the carrier has found. */
void lose(int stream, const char *why);

/* Whether the other end of a stream has ended, as far as this process knows. */
int is_closed(int stream);

/* Of the carrier: sends items, at most CHUNK, to the reader of a stream, or room to its writer. */
void link_send(int stream, uint64_t first, const int64_t *items, size_t count, int is_end, uint64_t word);
void link_return(int stream, uint64_t allowed, int is_end, uint64_t word);

/* Of the carrier: takes what has come. Whether something has. */
int link_poll(void);

/* Of the carrier: sleeps until something may have come, or for so many microseconds. */
void link_rest(long microseconds);

/* Of the carrier: whether this process says how the run has ended, with the least word, which may be lowered to that of all processes,
   and how each actor has ended, as far as the processes tell each other. */
int link_says(uint64_t *word, Fate fates[ACTORS]);

/* Seconds, from any begin. */
double now(void);

#endif
