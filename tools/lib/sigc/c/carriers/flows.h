/* Flow files, the text of a run and the line of its end, for all carriers. Written by sigc-c, which copies it;
   nothing about this file is proved. */
#ifndef FLOWS_H
#define FLOWS_H

#include <stddef.h>
#include <stdint.h>
#include <stdio.h>

#include "program.h"

/* A function that is called seldom, out of the way of what is done for each item. */
#ifdef __GNUC__
#define SELDOM __attribute__((noinline, cold))
#else
#define SELDOM
#endif

/* A function that is called for each item. It has external linkage and uses static variables, of which clang warns with `inline`. */
#if defined(__GNUC__) && !defined(__clang__)
#define OFTEN inline
#else
#define OFTEN
#endif

/* A word tells an instant and the number of an end; the least one is the first cause. */
#define NO_WORD UINT64_MAX

/* How an actor has ended: what, the number of a fault or of what it wants, and after how many instants. Of an instance it wants an input
   from 0 on, or below 0 room in a stream, -1 being the first one. */
enum { ELSEWHERE, AT_LIMIT, AT_FAULT, WANTS };
typedef struct {
    int64_t what, number, instants;
} Fate;

/* What an actor is connected to: where it writes outputs, and whether it waits for a partner that has ended. An instance of a system
   also has what it waits for, how many sinks of an output have got a value, and how many values it has taken of inputs from outside. */
struct CONTEXT {
    int actor, is_parted, has_failed, wanted, served;
    size_t taken[MOST_INPUTS + 1];
    FILE *file;
    size_t used;
    char out[PIECE];
};

/* Refuses words that are no command, a flow file that cannot be read or a wrong one: the status, 0 where all is right. */
int refuse_words(void);
int read_flows_of(const char *path);
void drop_flows(void);
int refuse_memory(void);

/* Where an actor writes its outputs: standard output, or where a folder is given and it is a cluster, a file there. */
FILE *file_of(int actor, const char *folder);
int refuse_folder(const char *folder);

/* The number that a word is, within bounds; 0 where it is none. */
unsigned long number_of(const char *text, unsigned long most);

/* The value of an option at words[*at], as `--name N` or `--name=N`, which moves on where it takes a word; NULL where it is another word. */
const char *option_at(const char *name, char **words, int count, int *at);

/* The next value of an input; 0 where there is none. */
int take(Context *it, int input, int64_t *value);

/* The value of an input behind so many, which it counts; 0 where there is none. */
int take_next(int input, size_t *taken, int64_t *value);

/* An output's line; its name has a blank behind it. */
void give_integer(Context *it, const char *name, size_t length, int64_t value);
void give_truth(Context *it, const char *name, size_t length, int value);
void flush(Context *it);

uint64_t word_of(unsigned long instant, int number);
unsigned long instant_of(uint64_t word);

/* Says how a run of so many instants at most has ended, by the least word of clusters or by how each instance has ended; the status. */
int say_run(uint64_t word, const Fate fates[ACTORS], unsigned long limit, int has_failed);

/* What an actor is called. */
void name_actor(int actor, char *room, size_t size);

#endif
