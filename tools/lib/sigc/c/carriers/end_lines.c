/* How the instances of a system have ended, and which wait for each other. Written by sigc-system, which copies it; nothing
   about this file is proved. */
#include <stdlib.h>
#include <string.h>

#include "flows.h"

/* Where a node of a circle stands in it, by the walk that found it; 0 where none did. */
static int walk_of[ACTORS];

void name_actor(int actor, char *room, size_t size)
{
    if (NODE[actor].index < 0) {
        snprintf(room, size, "%s", NODE[actor].name);
    } else {
        snprintf(room, size, "%s[%d]", NODE[actor].name, NODE[actor].index);
    }
}

static void say_name(int actor)
{
    char room[512];
    name_actor(actor, room, sizeof room);
    fprintf(stderr, "%s", room);
}

/* The name of what a stream carries. */
static void say_output(int stream)
{
    say_name(STREAM_ENDS[stream].writer);
    fprintf(stderr, ".%s", output_of(stream));
}

static int are_alike(int one, int other, const Fate *a, const Fate *b)
{
    return strcmp(NODE[one].name, NODE[other].name) == 0 && a->what == b->what && a->number == b->number && a->instants == b->instants;
}

static void say_fate(int actor, const Fate *it)
{
    if (it->what == AT_FAULT) {
        fprintf(stderr, "%s", fault_text(actor, (int)it->number));
    } else if (it->what == AT_LIMIT) {
        fprintf(stderr, "limit");
    } else if (it->number >= 0) {
        fprintf(stderr, "input %s exhausted", input_text(actor, (int)it->number));
    } else {
        fprintf(stderr, "no room for ");
        say_output((int)(-1 - it->number));
    }
    fprintf(stderr, " after %ld instants\n", (long)it->instants);
}

/* A line for each instance; those of a count that ended alike, one behind the other, have one. */
static void say_fates(const Fate fates[ACTORS])
{
    int i, last;
    for (i = 0; i < ACTORS; i = last + 1) {
        for (last = i; last + 1 < ACTORS && are_alike(i, last + 1, &fates[i], &fates[last + 1]); last++) {
        }
        if (fates[i].what != ELSEWHERE) {
            fprintf(stderr, "end: ");
            say_name(i);
            if (last != i) {
                fprintf(stderr, " to ");
                say_name(last);
            }
            fprintf(stderr, ": ");
            say_fate(i, &fates[i]);
        }
    }
}

/* The stream that an actor waits for; -1 where it waits for none. */
static int awaited(int actor, const Fate fates[ACTORS])
{
    const Fate *it = &fates[actor];
    if (it->what != WANTS) {
        return -1;
    }
    return it->number >= 0 ? stream_to(actor, (int)it->number) : (int)(-1 - it->number);
}

/* The actor for which another one waits; -1 where there is none. */
static int partner(int actor, const Fate fates[ACTORS])
{
    int stream = awaited(actor, fates);
    if (stream < 0) {
        return -1;
    }
    return fates[actor].number >= 0 ? STREAM_ENDS[stream].writer : STREAM_ENDS[stream].reader;
}

static void say_circle(int first, const Fate fates[ACTORS])
{
    int at = first;
    fprintf(stderr, "end: waiting: ");
    do {
        fprintf(stderr, "%s", at == first ? "" : ", ");
        say_name(at);
        fprintf(stderr, fates[at].number >= 0 ? " for " : " for room for ");
        say_output(awaited(at, fates));
        at = partner(at, fates);
    } while (at != first);
    fprintf(stderr, "\n");
}

/* Marks the actors of circles by their least one, from 1 on. Whether there is a circle. */
static int find_circles(const Fate fates[ACTORS], int circle_of[ACTORS])
{
    int start, at, is_found = 0;
    for (start = 0; start < ACTORS; start++) {
        for (at = start; at >= 0 && walk_of[at] == 0; at = partner(at, fates)) {
            walk_of[at] = start + 1;
        }
        if (at >= 0 && walk_of[at] == start + 1) {
            int least = at, other = at;
            while ((other = partner(other, fates)) != at) {
                least = other < least ? other : least;
            }
            circle_of[least] = 1;
            is_found = 1;
        }
    }
    return is_found;
}

int say_run(uint64_t word, const Fate fates[ACTORS], unsigned long limit, int has_failed)
{
    static int circle_of[ACTORS];
    static char lines[8192];
    int i, has_fault = 0, has_circle;
    (void)word;
    (void)limit;
    if (has_failed) {
        fprintf(stderr, "error: write failed\n");
        return 6;
    }
    /* several processes may write their lines at once */
    setvbuf(stderr, lines, _IOLBF, sizeof lines);
    say_fates(fates);
    has_circle = find_circles(fates, circle_of);
    for (i = 0; i < ACTORS; i++) {
        has_fault |= fates[i].what == AT_FAULT;
        if (circle_of[i]) {
            say_circle(i, fates);
        }
    }
    return has_fault ? 3 : has_circle ? 1 : 0;
}
