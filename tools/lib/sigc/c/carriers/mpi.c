/* Clusters on the ranks of MPI. Written by sigc-c, which copies it; nothing about this file is proved.

       mpirun -n RANKS program FLOWS [--instants N] [--capacity N] [--deadline SECONDS] [--into FOLDER]

   What goes to the reader of a stream is three numbers, the number of the first item, whether the writer has ended and the
   least word that it knows, and then the items; to its writer the same three, up to which number it may put items in the place of the first. */
#define _POSIX_C_SOURCE 200809L
#include <mpi.h>
#include <stdlib.h>
#include <string.h>
#include <time.h>
#include <unistd.h>

#include "deal.h"
#include "process.h"

enum { HEAD = 3 };

/* A message on its way to another rank. */
typedef struct Message {
    struct Message *next;
    MPI_Request request;
    int64_t numbers[HEAD + CHUNK];
} Message;

static int rank_of[ACTORS], own_rank;
/* What may come: for each stream with one end here, at the number of the request, the stream and its message. */
static MPI_Request requests[STREAMS + 1];
static int stream_of[STREAMS + 1], done[STREAMS + 1], awaited;
static int64_t (*incoming)[HEAD + CHUNK];
/* Messages on their way, in the order of sending, and those that can be used again. */
static Message *first_sent, *last_sent, *unused;

static int tag_of(int stream, int is_to_reader)
{
    return 2 * stream + is_to_reader;
}

static void listen_to(int at)
{
    int stream = stream_of[at], is_reader = is_here[STREAM_ENDS[stream].reader];
    int other = rank_of[is_reader ? STREAM_ENDS[stream].writer : STREAM_ENDS[stream].reader];
    MPI_Irecv(incoming[at], is_reader ? HEAD + CHUNK : HEAD, MPI_INT64_T, other, tag_of(stream, is_reader), MPI_COMM_WORLD, &requests[at]);
}

/* Keeps the messages that have gone out for use again. */
static void clear_sent(void)
{
    int is_gone = 1;
    while (first_sent != NULL && is_gone) {
        Message *it = first_sent;
        MPI_Test(&it->request, &is_gone, MPI_STATUS_IGNORE);
        if (is_gone) {
            first_sent = it->next;
            it->next = unused;
            unused = it;
        }
    }
}

static void send_to(int actor, int tag, uint64_t number, const int64_t *items, size_t count, int is_end, uint64_t word)
{
    Message *it;
    clear_sent();
    it = unused;
    unused = it != NULL ? it->next : NULL;
    if (it == NULL && (it = malloc(sizeof *it)) == NULL) {
        MPI_Abort(MPI_COMM_WORLD, refuse_memory());
        return;
    }
    it->numbers[0] = (int64_t)number;
    it->numbers[1] = is_end;
    it->numbers[2] = (int64_t)word;
    if (count != 0) {
        memcpy(it->numbers + HEAD, items, count * sizeof *items);
    }
    it->next = NULL;
    *(first_sent == NULL ? &first_sent : &last_sent->next) = it;
    last_sent = it;
    MPI_Isend(it->numbers, (int)(HEAD + count), MPI_INT64_T, rank_of[actor], tag, MPI_COMM_WORLD, &it->request);
}

void link_send(int stream, uint64_t first, const int64_t *items, size_t count, int is_end, uint64_t word)
{
    send_to(STREAM_ENDS[stream].reader, tag_of(stream, 1), first, items, count, is_end, word);
}

void link_return(int stream, uint64_t allowed, int is_end, uint64_t word)
{
    send_to(STREAM_ENDS[stream].writer, tag_of(stream, 0), allowed, NULL, 0, is_end, word);
}

int link_poll(void)
{
    MPI_Status statuses[STREAMS + 1];
    int count = 0, i;
    if (awaited != 0) {
        MPI_Testsome(awaited, requests, &count, done, statuses);
    }
    for (i = 0; i < count; i++) {
        int at = done[i], stream = stream_of[at], size = 0;
        const int64_t *numbers = incoming[at];
        MPI_Get_count(&statuses[i], MPI_INT64_T, &size);
        if (is_here[STREAM_ENDS[stream].reader]) {
            arrived(stream, (uint64_t)numbers[0], numbers + HEAD, (size_t)(size - HEAD), numbers[1] != 0, (uint64_t)numbers[2]);
        } else {
            returned(stream, (uint64_t)numbers[0], numbers[1] != 0, (uint64_t)numbers[2]);
        }
        if (!is_closed(stream)) {
            listen_to(at);
        }
    }
    return count > 0;
}

void link_rest(long microseconds)
{
    struct timespec time = {0, microseconds * 1000};
    nanosleep(&time, NULL);
}

static int begin_links(void)
{
    int i;
    incoming = malloc((STREAMS + 1) * sizeof *incoming);
    if (incoming == NULL) {
        return refuse_memory();
    }
    for (i = 0; i < STREAMS; i++) {
        if (is_here[STREAM_ENDS[i].writer] != is_here[STREAM_ENDS[i].reader]) {
            stream_of[awaited] = i;
            listen_to(awaited++);
        }
    }
    return 0;
}

int link_says(uint64_t *word, Fate fates[ACTORS])
{
    uint64_t own = *word;
    if (IS_SYSTEM) {
        static Fate sum[ACTORS];
        MPI_Allreduce(fates, sum, 3 * ACTORS, MPI_INT64_T, MPI_SUM, MPI_COMM_WORLD);
        memcpy(fates, sum, sizeof sum);
    }
    if (COLLECTOR >= 0) {
        return is_here[COLLECTOR];
    }
    MPI_Allreduce(&own, word, 1, MPI_UINT64_T, MPI_MIN, MPI_COMM_WORLD);
    return own_rank == 0;
}

/* Passes the status to the script that started the ranks, and answers what this rank is to end with. */
static int passed(int status)
{
    const char *path = getenv("SIGC_STATUS");
    FILE *file = path != NULL && own_rank == (COLLECTOR < 0 ? 0 : rank_of[COLLECTOR]) ? fopen(path, "w") : NULL;
    if (file != NULL) {
        fprintf(file, "%d\n", status);
        fclose(file);
    }
    return path != NULL ? 0 : status;
}

/* Reads the words and the flows on each rank; the first one alone says what is wrong. */
static int begin_rank(int count, char **words)
{
    int said = dup(2), status, worst;
    if (own_rank != 0 && freopen("/dev/null", "w", stderr) == NULL) {
        return 6;
    }
    status = read_words(count, words, 0) ? begin_process(settings.capacity) : refuse_words();
    fflush(stderr);
    dup2(said, 2);
    close(said);
    MPI_Allreduce(&status, &worst, 1, MPI_INT, MPI_MAX, MPI_COMM_WORLD);
    return worst;
}

/* Ends once all messages have gone out. Where a partner is lost nothing is waited for any more. */
static void end_links(int status)
{
    if (status == 11) {
        double since = now();
        while (first_sent != NULL && now() - since < 1) {
            clear_sent();
        }
        fflush(stdout);
        MPI_Abort(MPI_COMM_WORLD, status);
    }
    while (first_sent != NULL) {
        clear_sent();
    }
    MPI_Finalize();
}

int main(int count, char **words)
{
    int ranks, i, status;
    MPI_Init(&count, &words);
    MPI_Comm_size(MPI_COMM_WORLD, &ranks);
    MPI_Comm_rank(MPI_COMM_WORLD, &own_rank);
    deal(ranks, rank_of);
    for (i = 0; i < ACTORS; i++) {
        is_here[i] = rank_of[i] == own_rank;
    }
    status = begin_rank(count, words);
    status = status != 0 ? status : begin_links();
    status = status != 0 ? status : run_process();
    end_links(status);
    drop_flows();
    return passed(status);
}
