/* Clusters on threads of one process. Written by sigc-c, which copies it; nothing about this file is proved.

       run FLOWS [--instants N] [--capacity N] [--threads N] [--cpus 0,1,..] [--into FOLDER]

   Each stream is a ring with one writer and one reader. Both work on counts of their own, and publish them by chunks: the
   writer how many items it has put, the reader how many it has taken. An actor publishes all its counts before it waits, when
   its turn is over and when it ends. A thread looks a few times for something to do, and then sleeps. An actor that waits
   or ends wakes the threads at the other ends of its streams; one that can go on does so where half a ring is to be had.

   In a system actors may wait for each other for ever. Then the last thread that falls asleep finds all others asleep, and wakes them
   to end. A thread that is woken is awake from the word of who wakes it on, so no word is on its way then.

   Why no thread sleeps for ever: a thread says that it rests, and then looks once more; a partner publishes, and then looks
   whether the thread rests. All four are sequentially consistent, so one of both sees the other. */
#define _GNU_SOURCE
#include <pthread.h>
#include <sched.h>
#include <stdatomic.h>
#include <stdlib.h>
#include <string.h>
#include <unistd.h>

#include "deal.h"
#include "flows.h"
#include "touching.h"

enum { MOST_CAPACITY = 65536, INSTANTS = 1000000, MOST_INSTANTS = 1000000000, MOST_THREADS = 64, MOST_CPUS = 1024 };
/* How often a thread looks for something to do before it sleeps; how many instants an actor does at a turn; how many items
   are published at once at most. */
enum { SPINS = 50, TURN = 128, CHUNK = 64, LINE = 64 };

typedef struct {
    /* of the writer alone: how many items it has put, up to which count it may put more without a look at anything, how many
       are published, how many a resting reader was woken for, and at which count the ring is full as far as it knows */
    _Alignas(LINE) size_t tail;
    size_t tail_stop, tail_published, tail_told, full_at;
    int64_t *tail_items;
    /* of the reader alone, in the same way; it knows up to which count there are items */
    _Alignas(LINE) size_t head;
    size_t head_stop, head_published, head_told, empty_at;
    const int64_t *head_items;
    _Alignas(LINE) atomic_size_t shared_tail;
    atomic_int is_writer_over;
    _Alignas(LINE) atomic_size_t shared_head;
    atomic_int is_reader_over;
    _Alignas(LINE) int writer, reader;
} Stream;

typedef struct {
    _Alignas(LINE) State state;
    unsigned long instant;
    int is_over;
    Fate fate;
    Context context;
} Actor;

typedef struct {
    _Alignas(LINE) atomic_int is_resting;
    int is_asleep;
    pthread_mutex_t mutex;
    pthread_cond_t wakes;
    pthread_t thread;
    int left, cpu;
    int actors[ACTORS];
} Thread;

static Stream streams[STREAMS + 1];
static Actor *actors;
static Thread threads[MOST_THREADS];
static int thread_of[ACTORS], count_of_threads;
static size_t capacity = CAPACITY, mask, chunk;
static unsigned long limit = INSTANTS;
/* The least word of an actor that has failed; that of an instant 0 where a write has. */
static _Atomic uint64_t least = NO_WORD;
/* How many threads have not ended, and how many of these are asleep; whether all were. */
static pthread_mutex_t count_mutex = PTHREAD_MUTEX_INITIALIZER;
static int alive, asleep;
static atomic_int is_stuck;

/* Streams. */

/* Counts a thread that falls asleep, is woken or ends. Whether all that are left are asleep. */
static int count_threads(int of_alive, int of_asleep)
{
    int are_all_asleep;
    pthread_mutex_lock(&count_mutex);
    alive += of_alive;
    asleep += of_asleep;
    are_all_asleep = asleep == alive && alive != 0;
    pthread_mutex_unlock(&count_mutex);
    return are_all_asleep;
}

static void wake(int thread)
{
    Thread *it = &threads[thread];
    if (atomic_load(&it->is_resting)) {
        pthread_mutex_lock(&it->mutex);
        atomic_store(&it->is_resting, 0);
        if (it->is_asleep) {
            it->is_asleep = 0;
            count_threads(0, -1);
        }
        pthread_cond_signal(&it->wakes);
        pthread_mutex_unlock(&it->mutex);
    }
}

static size_t least_of(size_t a, size_t b, size_t from)
{
    return a - from < b - from ? a : b;
}

/* Publishes what was put. While the writer can go on, a resting reader is woken only once the ring is half full: a sleep costs
   as much as many items. */
static void publish_tail(Stream *it, int is_waiting)
{
    if (it->tail_published != it->tail) {
        it->tail_published = it->tail;
        atomic_store(&it->shared_tail, it->tail);
    }
    if (it->tail_told != it->tail && it->writer != it->reader && (is_waiting || it->tail - it->tail_told >= capacity / 2)) {
        it->tail_told = it->tail;
        wake(it->reader);
    }
}

static void publish_head(Stream *it, int is_waiting)
{
    if (it->head_published != it->head) {
        it->head_published = it->head;
        atomic_store(&it->shared_head, it->head);
    }
    if (it->head_told != it->head && it->writer != it->reader && (is_waiting || it->head - it->head_told >= capacity / 2)) {
        it->head_told = it->head;
        wake(it->writer);
    }
}

/* What a writer does at its stop: whether there is room. Once the reader has ended there always is. */
SELDOM static int find_room(Stream *it)
{
    publish_tail(it, 0);
    if (it->tail == it->full_at) {
        it->full_at = atomic_load(&it->shared_head) + capacity;
        if (it->tail == it->full_at) {
            if (!atomic_load(&it->is_reader_over)) {
                return 0;
            }
            it->full_at += capacity;
        }
    }
    it->tail_stop = least_of(it->full_at, it->tail + chunk, it->tail);
    return 1;
}

/* What a reader does at its stop: whether there is an item. */
SELDOM static int find_item(Stream *it, Context *context)
{
    publish_head(it, 0);
    if (it->head == it->empty_at) {
        it->empty_at = atomic_load(&it->shared_tail);
        if (it->head == it->empty_at && atomic_load(&it->is_writer_over)) {
            it->empty_at = atomic_load(&it->shared_tail);
            context->is_parted = it->head == it->empty_at;
        }
        if (it->head == it->empty_at) {
            return 0;
        }
    }
    it->head_stop = least_of(it->empty_at, it->head + chunk, it->head);
    return 1;
}

OFTEN int PUT(Context *context, int stream, int64_t item)
{
    Stream *it = &streams[stream];
    (void)context;
    if (it->tail == it->tail_stop && !find_room(it)) {
        return 0;
    }
    it->tail_items[it->tail++ & mask] = item;
    return 1;
}

OFTEN int GET(Context *context, int stream, int64_t *item)
{
    Stream *it = &streams[stream];
    if (it->head == it->head_stop && !find_item(it, context)) {
        return 0;
    }
    *item = it->head_items[it->head++ & mask];
    return 1;
}

/* Actors. */

static void publish(int actor, int is_waiting)
{
    int at;
    for (at = touching_at[actor]; at < touching_at[actor + 1]; at++) {
        int i = touching[at];
        if (STREAM_ENDS[i].writer == actor) {
            publish_tail(&streams[i], is_waiting);
        }
        if (STREAM_ENDS[i].reader == actor) {
            publish_head(&streams[i], is_waiting);
        }
    }
}

static void lower(uint64_t word)
{
    uint64_t found = atomic_load(&least);
    while (word < found && !atomic_compare_exchange_weak(&least, &found, word)) {
    }
}

/* Ends an actor, and says so on its streams, both ways. */
static void end(int actor, int what, int number)
{
    Actor *it = &actors[actor];
    int at;
    it->is_over = 1;
    it->fate.what = what;
    it->fate.number = number;
    it->fate.instants = (int64_t)it->instant - 1;
    publish(actor, 1);
    for (at = touching_at[actor]; at < touching_at[actor + 1]; at++) {
        int i = touching[at];
        if (STREAM_ENDS[i].writer == actor) {
            atomic_store(&streams[i].is_writer_over, 1);
            wake(streams[i].reader);
        }
        if (STREAM_ENDS[i].reader == actor) {
            atomic_store(&streams[i].is_reader_over, 1);
            wake(streams[i].writer);
        }
    }
}

/* Whether the run is over for an actor at an instant: an earlier one has failed, or a write. */
static int is_over_at(unsigned long instant)
{
    uint64_t word = atomic_load_explicit(&least, memory_order_relaxed);
    return IS_SYSTEM ? word != NO_WORD : instant_of(word) < instant;
}

/* A turn of an actor: up to so many instants, until it waits or ends. Whether it did something. An actor that waits for a
   partner that has ended ends too: it is behind the place at which the partner did. */
static int act(int actor)
{
    Actor *it = &actors[actor];
    int i, number = 0, place = it->state.place, served = it->context.served, is_done = 0;
    if (IS_SYSTEM && atomic_load(&is_stuck)) {
        end(actor, WANTS, it->context.wanted);
        return 1;
    }
    for (i = 0; i < TURN && number == 0; i++) {
        if (it->instant > limit || is_over_at(it->instant)) {
            end(actor, AT_LIMIT, 0);
            return 1;
        }
        number = step(actor, &it->state, &it->context);
        if (it->context.has_failed) {
            lower(0);
        }
        if (number == 0) {
            it->instant++;
            is_done = 1;
        }
    }
    if (number > 0 && !IS_SYSTEM) {
        lower(word_of(it->instant, number));
    }
    if (number > 0 || it->context.is_parted) {
        end(actor, number > 0 ? AT_FAULT : WANTS, number > 0 ? number : it->context.wanted);
        return 1;
    }
    publish(actor, number == WAITING);
    return is_done || it->state.place != place || it->context.served != served;
}

/* Threads. */

/* A turn of each actor of a thread. Whether one did something. */
static int go_round(Thread *it)
{
    int i, is_done = 0;
    for (i = 0; i < it->left; i++) {
        int actor = it->actors[i];
        is_done |= act(actor);
        if (actors[actor].is_over) {
            it->actors[i--] = it->actors[--it->left];
        }
    }
    return is_done;
}

/* Ends all actors that are left: none can go on. */
static void end_all(void)
{
    int i;
    atomic_store(&is_stuck, 1);
    for (i = 0; i < count_of_threads; i++) {
        wake(i);
    }
}

static void rest(Thread *it)
{
    int are_all_asleep = 0;
    pthread_mutex_lock(&it->mutex);
    if (atomic_load(&it->is_resting)) {
        it->is_asleep = 1;
        are_all_asleep = count_threads(0, 1);
    }
    while (atomic_load(&it->is_resting) && !are_all_asleep) {
        pthread_cond_wait(&it->wakes, &it->mutex);
    }
    pthread_mutex_unlock(&it->mutex);
    if (are_all_asleep) {
        end_all();
    }
}

static void bind_to(int cpu)
{
    cpu_set_t set;
    CPU_ZERO(&set);
    CPU_SET((unsigned)cpu, &set);
    pthread_setaffinity_np(pthread_self(), sizeof set, &set);
}

static void *serve(void *words)
{
    Thread *it = words;
    int spins = 0;
    if (it->cpu >= 0) {
        bind_to(it->cpu);
    }
    while (it->left != 0) {
        if (go_round(it)) {
            spins = 0;
        } else if (++spins >= SPINS) {
            atomic_store(&it->is_resting, 1);
            if (go_round(it)) {
                atomic_store(&it->is_resting, 0);
            } else {
                rest(it);
            }
            spins = 0;
        }
    }
    if (count_threads(-1, 0)) {
        end_all();
    }
    return NULL;
}

/* Gives each actor to one of so many threads. */
static void deal_to(int count)
{
    int i;
    deal(count, thread_of);
    for (i = 0; i < ACTORS; i++) {
        Thread *it = &threads[thread_of[i]];
        it->actors[it->left++] = i;
    }
}

static int begin_streams(void)
{
    size_t size = 1, i;
    while (size < capacity) {
        size *= 2;
    }
    mask = size - 1;
    chunk = capacity / 4 < 1 ? 1 : capacity / 4 > CHUNK ? CHUNK : capacity / 4;
    for (i = 0; i < STREAMS; i++) {
        Stream *it = &streams[i];
        it->head_items = it->tail_items = malloc(size * sizeof *it->tail_items);
        if (it->tail_items == NULL) {
            return 0;
        }
        it->full_at = capacity;
        it->tail_stop = chunk;
        it->writer = thread_of[STREAM_ENDS[i].writer];
        it->reader = thread_of[STREAM_ENDS[i].reader];
    }
    return 1;
}

/* Makes the actors; the status, 0 where all is right. */
static int begin_actors(const char *folder)
{
    int i;
    actors = aligned_alloc(LINE, ACTORS * sizeof *actors);
    if (actors == NULL) {
        return refuse_memory();
    }
    memset(actors, 0, ACTORS * sizeof *actors);
    for (i = 0; i < ACTORS; i++) {
        actors[i].instant = 1;
        actors[i].context.actor = i;
        actors[i].context.file = file_of(i, folder);
        if (actors[i].context.file == NULL) {
            return refuse_folder(folder);
        }
        begin(i, &actors[i].state);
    }
    return 0;
}

/* Runs the threads, of which the caller is the first. Whether all could be started. */
static int run(int count)
{
    int i, started = 1;
    alive = count_of_threads = count;
    for (i = 0; i < count; i++) {
        pthread_mutex_init(&threads[i].mutex, NULL);
        pthread_cond_init(&threads[i].wakes, NULL);
    }
    while (started < count && pthread_create(&threads[started].thread, NULL, serve, &threads[started]) == 0) {
        started++;
    }
    if (started < count) {
        fprintf(stderr, "error: a thread cannot be started\n");
        exit(7);
    }
    serve(&threads[0]);
    for (i = 1; i < count; i++) {
        pthread_join(threads[i].thread, NULL);
    }
    return 1;
}

/* Reads a list of processors; how many, 0 where it is none. */
static int read_cpus(const char *text)
{
    int count = 0;
    while (count < MOST_THREADS) {
        char *end;
        long cpu = strtol(text, &end, 10);
        if (end == text || cpu < 0 || cpu >= MOST_CPUS || (*end != 0 && *end != ',')) {
            return 0;
        }
        threads[count++].cpu = (int)cpu;
        if (*end == 0) {
            return count;
        }
        text = end + 1;
    }
    return 0;
}

static int default_count(void)
{
    long online = sysconf(_SC_NPROCESSORS_ONLN);
    return online < 1 ? 1 : online > MOST_THREADS ? MOST_THREADS : (int)online;
}

static int finish(void)
{
    static Fate fates[ACTORS];
    uint64_t word = atomic_load(&least);
    int i, has_failed = instant_of(word) == 0;
    for (i = 0; i < ACTORS; i++) {
        flush(&actors[i].context);
        has_failed |= actors[i].context.has_failed;
        fates[i] = actors[i].fate;
    }
    return say_run(word, fates, limit, has_failed);
}

int main(int count, char **words)
{
    const char *path = NULL, *value, *folder = NULL;
    int i, status, number = default_count(), is_right = 1;
    for (i = 0; i < MOST_THREADS; i++) {
        threads[i].cpu = -1;
    }
    for (i = 1; i < count && is_right; i++) {
        if ((value = option_at("--instants", words, count, &i)) != NULL) {
            is_right = (limit = number_of(value, MOST_INSTANTS)) != 0;
        } else if ((value = option_at("--capacity", words, count, &i)) != NULL) {
            is_right = (capacity = number_of(value, MOST_CAPACITY)) != 0;
        } else if ((value = option_at("--threads", words, count, &i)) != NULL) {
            is_right = (number = (int)number_of(value, MOST_THREADS)) != 0;
        } else if ((value = option_at("--cpus", words, count, &i)) != NULL) {
            is_right = (number = read_cpus(value)) != 0;
        } else if (IS_LOCAL && (value = option_at("--into", words, count, &i)) != NULL) {
            folder = value;
        } else {
            is_right = path == NULL && strncmp(words[i], "--", 2) != 0;
            path = words[i];
        }
    }
    if (!is_right || path == NULL) {
        return refuse_words();
    }
    status = read_flows_of(path);
    if (status != 0) {
        return status;
    }
    number = number > ACTORS ? ACTORS : number;
    deal_to(number);
    list_streams();
    status = begin_streams() ? begin_actors(folder) : refuse_memory();
    if (status == 0) {
        run(number);
        status = finish();
    }
    drop_flows();
    return status;
}
