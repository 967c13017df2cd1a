/* Actors of one process, which share their streams with those of other processes. Written by sigc-c, which copies it;
   nothing about this file is proved.

   A writer may have as many items on the way as the capacity says; the reader returns room once it has taken a quarter of them.
   Before an actor waits, when its turn is over and when it ends, all items that it has put go out, and all room that it has
   made. Who ends says the least word that it knows on its streams, both ways; a process ends when it has heard that of all
   partners, or when nothing came for too long. */
#define _POSIX_C_SOURCE 200809L
#include <stdlib.h>
#include <string.h>
#include <time.h>

#include "process.h"
#include "touching.h"

enum { MOST_CAPACITY = 65536, INSTANTS = 1000000, MOST_INSTANTS = 1000000000, DEADLINE = 60, MOST_DEADLINE = 86400 };
/* How often a process looks for something to do before it sleeps, for how many microseconds at first and at most; how many
   instants an actor does at a turn. */
enum { SPINS = 50, LEAST_REST = 20, MOST_REST = 200, TURN = 512 };
/* Words below those of all instants: an output could not be written, or a partner was lost. */
#define WRITE_FAILED ((uint64_t)0)
#define LOST ((uint64_t)1)

/* A stream: how many items were put or came, up to which number items may be put, and put without a look at anything, how
   many were sent; how many were taken, and of how many the writer knows. */
typedef struct {
    int is_writer_here, is_reader_here, is_writer_over, is_reader_over;
    size_t tail, stop, allowed, sent;
    size_t head, told;
    int64_t *items;
} Stream;

typedef struct {
    State state;
    unsigned long instant;
    int is_over, waits_for;
    Fate fate;
    Context context;
} Actor;

Settings settings = {NULL, NULL, NULL, INSTANTS, CAPACITY, DEADLINE, 0};
int is_here[ACTORS];
static Stream streams[STREAMS + 1];
static Actor *actors[ACTORS];
static size_t mask, chunk;
static int left, open, is_loss_said;
static uint64_t least = NO_WORD;

double now(void)
{
    struct timespec it;
    clock_gettime(CLOCK_MONOTONIC, &it);
    return (double)it.tv_sec + (double)it.tv_nsec * 1e-9;
}

static void lower(uint64_t word)
{
    least = word < least ? word : least;
}

/* Streams. */

static void send(int stream)
{
    Stream *it = &streams[stream];
    while (it->sent != it->tail && !it->is_reader_over) {
        size_t at = it->sent & mask, count = it->tail - it->sent;
        count = count > CHUNK ? CHUNK : count;
        count = count > mask + 1 - at ? mask + 1 - at : count;
        link_send(stream, it->sent, it->items + at, count, 0, 0);
        it->sent += count;
    }
    it->sent = it->tail;
}

SELDOM static void give_room(int stream)
{
    Stream *it = &streams[stream];
    if (it->told != it->head && !it->is_writer_over) {
        link_return(stream, it->head + settings.capacity, 0, 0);
    }
    it->told = it->head;
}

static size_t least_of(size_t a, size_t b)
{
    return a < b ? a : b;
}

/* What a writer does at its stop: whether there is room. Once the reader has ended there always is. */
SELDOM static int find_room(int stream)
{
    Stream *it = &streams[stream];
    if (it->is_reader_here) {
        it->allowed = it->head + settings.capacity;
    } else if (it->tail - it->sent >= chunk) {
        send(stream);
    }
    if (it->tail == it->allowed) {
        if (!it->is_reader_over) {
            return 0;
        }
        it->allowed += settings.capacity;
        it->head = it->is_reader_here ? it->tail : it->head;
    }
    it->stop = it->is_reader_here ? it->allowed : least_of(it->allowed, it->sent + chunk);
    return 1;
}

OFTEN int PUT(Context *context, int stream, int64_t item)
{
    Stream *it = &streams[stream];
    if (it->tail == it->stop && !find_room(stream)) {
        actors[context->actor]->waits_for = stream;
        return 0;
    }
    it->items[it->tail++ & mask] = item;
    return 1;
}

OFTEN int GET(Context *context, int stream, int64_t *item)
{
    Stream *it = &streams[stream];
    if (it->head == it->tail) {
        context->is_parted = it->is_writer_over;
        actors[context->actor]->waits_for = stream;
        return 0;
    }
    *item = it->items[it->head++ & mask];
    if (!it->is_writer_here && it->head - it->told > settings.capacity / 4) {
        give_room(stream);
    }
    return 1;
}

void arrived(int stream, uint64_t first, const int64_t *items, size_t count, int is_end, uint64_t word)
{
    Stream *it = &streams[stream];
    size_t i = first < it->tail ? (size_t)(it->tail - first) : 0;
    if (it->is_writer_over) {
        return;
    }
    if (!it->is_reader_over && (first > it->tail || (i < count && it->tail + count - i - it->head > settings.capacity))) {
        lose(stream, "items are missing");
        return;
    }
    for (; i < count && !it->is_reader_over; i++) {
        it->items[it->tail++ & mask] = items[i];
    }
    if (is_end) {
        it->is_writer_over = 1;
        open--;
        lower(word);
    }
}

void returned(int stream, uint64_t allowed, int is_end, uint64_t word)
{
    Stream *it = &streams[stream];
    if (it->is_reader_over) {
        return;
    }
    it->allowed = allowed > it->allowed ? (size_t)allowed : it->allowed;
    it->stop = least_of(it->allowed, it->sent + chunk);
    if (is_end) {
        it->is_reader_over = 1;
        open--;
        lower(word);
    }
}

void greet(int stream)
{
    if (!streams[stream].is_reader_over) {
        link_return(stream, streams[stream].head + settings.capacity, 0, 0);
    }
}

int is_closed(int stream)
{
    return streams[stream].is_writer_here ? streams[stream].is_reader_over : streams[stream].is_writer_over;
}

/* Actors. */

static void publish(int actor)
{
    int at;
    for (at = touching_at[actor]; at < touching_at[actor + 1]; at++) {
        int i = touching[at];
        if (STREAM_ENDS[i].writer == actor && !streams[i].is_reader_here) {
            send(i);
        } else if (STREAM_ENDS[i].reader == actor && !streams[i].is_writer_here) {
            give_room(i);
        }
    }
}

/* Ends an actor, and says so on its streams, both ways. */
static void end(int actor, int what, int number)
{
    Fate *fate = &actors[actor]->fate;
    int at;
    fate->what = what;
    fate->number = number;
    fate->instants = (int64_t)actors[actor]->instant - 1;
    actors[actor]->is_over = 1;
    left--;
    publish(actor);
    for (at = touching_at[actor]; at < touching_at[actor + 1]; at++) {
        int i = touching[at];
        Stream *it = &streams[i];
        if (STREAM_ENDS[i].writer == actor) {
            it->is_writer_over = 1;
            if (!it->is_reader_here) {
                link_send(i, it->sent, NULL, 0, 1, least);
            }
        }
        if (STREAM_ENDS[i].reader == actor) {
            it->is_reader_over = 1;
            if (!it->is_writer_here) {
                link_return(i, it->head + settings.capacity, 1, least);
            }
        }
    }
}

/* A turn of an actor: up to so many instants, until it waits or ends. Whether it did something. An actor that waits for a
   partner that has ended ends too: it is behind the place at which the partner did. */
static int act(int actor)
{
    Actor *it = actors[actor];
    int i, number = 0, place = it->state.place, served = it->context.served, is_done = 0;
    for (i = 0; i < TURN && number == 0; i++) {
        if (it->instant > settings.limit || (IS_SYSTEM ? least <= LOST : instant_of(least) < it->instant)) {
            end(actor, AT_LIMIT, 0);
            return 1;
        }
        number = step(actor, &it->state, &it->context);
        if (it->context.has_failed) {
            lower(WRITE_FAILED);
        }
        if (number == 0) {
            it->instant++;
            is_done = 1;
        }
    }
    if (number > 0 && !IS_SYSTEM) {
        lower(word_of(it->instant, number));
    }
    if (number > 0 || it->context.is_parted) {
        end(actor, number > 0 ? AT_FAULT : WANTS, number > 0 ? number : it->context.wanted);
        return 1;
    }
    publish(actor);
    return is_done || it->state.place != place || it->context.served != served;
}

/* Loss. */

void lose(int stream, const char *why)
{
    int other = streams[stream].is_writer_here ? STREAM_ENDS[stream].reader : STREAM_ENDS[stream].writer;
    int own = streams[stream].is_writer_here ? STREAM_ENDS[stream].writer : STREAM_ENDS[stream].reader;
    char room[512], own_room[512];
    if (least <= LOST || is_closed(stream)) {
        return;
    }
    lower(LOST);
    is_loss_said = 1;
    name_actor(other, room, sizeof room);
    name_actor(own, own_room, sizeof own_room);
    fprintf(stderr, "error: %s: %s, seen by %s", room, why, own_room);
    fprintf(stderr, " after %lu instants\n", actors[own]->instant - 1);
}

/* Nothing came for too long: the stream is lost that an actor here waits for, or one of which no end was said. */
static void lose_any(void)
{
    char why[64];
    int i, found = -1;
    for (i = 0; i < ACTORS; i++) {
        if (is_here[i] && !actors[i]->is_over && (found < 0 || is_closed(found))) {
            found = actors[i]->waits_for;
        }
    }
    for (i = 0; i < STREAMS && (found < 0 || is_closed(found)); i++) {
        found = is_closed(i) ? found : i;
    }
    snprintf(why, sizeof why, "nothing within %lu seconds", settings.deadline);
    if (found >= 0) {
        lose(found, why);
    }
}

static void end_all(void)
{
    int i;
    for (i = 0; i < ACTORS; i++) {
        if (is_here[i] && !actors[i]->is_over) {
            end(i, WANTS, actors[i]->context.wanted);
        }
    }
}

/* Runs. */

int read_words(int count, char **words, int has_own)
{
    const char *value;
    int i, is_right = 1;
    for (i = 1; i < count && is_right; i++) {
        if ((value = option_at("--instants", words, count, &i)) != NULL) {
            is_right = (settings.limit = number_of(value, MOST_INSTANTS)) != 0;
        } else if ((value = option_at("--capacity", words, count, &i)) != NULL) {
            is_right = (settings.capacity = number_of(value, MOST_CAPACITY)) != 0;
        } else if ((value = option_at("--deadline", words, count, &i)) != NULL) {
            is_right = (settings.deadline = number_of(value, MOST_DEADLINE)) != 0;
        } else if (IS_LOCAL && (value = option_at("--into", words, count, &i)) != NULL) {
            settings.folder = value;
        } else if (has_own && (value = option_at("--own", words, count, &i)) != NULL) {
            settings.own = value;
        } else if (has_own && (value = option_at("--domain", words, count, &i)) != NULL) {
            is_right = (settings.domain = number_of(value, MOST_DOMAIN)) != 0;
        } else {
            is_right = settings.path == NULL && strncmp(words[i], "--", 2) != 0;
            settings.path = words[i];
        }
    }
    return is_right && settings.path != NULL;
}

static int begin_stream(int stream, size_t size, unsigned long first_room)
{
    Stream *it = &streams[stream];
    it->is_writer_here = is_here[STREAM_ENDS[stream].writer];
    it->is_reader_here = is_here[STREAM_ENDS[stream].reader];
    it->allowed = first_room;
    it->stop = least_of(chunk, it->allowed);
    open += it->is_writer_here != it->is_reader_here;
    if (it->is_writer_here || it->is_reader_here) {
        it->items = malloc(size * sizeof *it->items);
        return it->items != NULL;
    }
    it->is_writer_over = it->is_reader_over = 1;
    return 1;
}

static int begin_actor(int actor)
{
    Actor *it = calloc(1, sizeof *it);
    actors[actor] = it;
    if (it == NULL) {
        return refuse_memory();
    }
    left++;
    it->instant = 1;
    it->waits_for = -1;
    it->context.actor = actor;
    it->context.file = file_of(actor, settings.folder);
    begin(actor, &it->state);
    return it->context.file == NULL ? refuse_folder(settings.folder) : 0;
}

int begin_process(unsigned long first_room)
{
    size_t size = 1;
    int i, status = read_flows_of(settings.path);
    while (size < settings.capacity) {
        size *= 2;
    }
    list_streams();
    mask = size - 1;
    chunk = settings.capacity / 4 < 1 ? 1 : settings.capacity / 4 > CHUNK ? CHUNK : settings.capacity / 4;
    for (i = 0; i < STREAMS && status == 0; i++) {
        status = begin_stream(i, size, first_room) ? 0 : refuse_memory();
    }
    for (i = 0; i < ACTORS && status == 0; i++) {
        status = is_here[i] ? begin_actor(i) : 0;
    }
    return status;
}

/* The status at the end, and its line where this process is to say it. */
static int finish(void)
{
    static Fate fates[ACTORS];
    int i, has_failed = 0;
    for (i = 0; i < ACTORS; i++) {
        if (is_here[i]) {
            flush(&actors[i]->context);
            has_failed |= actors[i]->context.has_failed;
            fates[i] = actors[i]->fate;
        }
    }
    if (least == LOST && !is_loss_said) {
        fprintf(stderr, "error: another process has lost a partner\n");
    }
    if (least == LOST) {
        return 11;
    }
    return link_says(&least, fates) ? say_run(least, fates, settings.limit, has_failed || least == WRITE_FAILED) : 0;
}

static int go_round(void)
{
    int i, is_done = 0;
    for (i = 0; i < ACTORS; i++) {
        if (is_here[i] && !actors[i]->is_over) {
            is_done |= act(i);
        }
    }
    return is_done;
}

int run_process(void)
{
    double since = now();
    long spins = 0, pause = LEAST_REST;
    while (left != 0 || open != 0) {
        if (go_round() | link_poll()) {
            spins = 0;
        } else if (++spins == SPINS) {
            since = now();
            pause = LEAST_REST;
        } else if (spins > SPINS) {
            link_rest(pause);
            pause = pause * 2 > MOST_REST ? MOST_REST : pause * 2;
            if (now() - since > (double)settings.deadline) {
                lose_any();
                end_all();
                break;
            }
        }
        if (least == LOST) {
            end_all();
            break;
        }
    }
    return finish();
}
