/* Clusters in processes that speak over DDS (Eclipse Cyclone). Written by sigc-c, which copies it; nothing about this file
   is proved.

       program FLOWS --own 0,2 [--domain N] [--instants N] [--capacity N] [--deadline SECONDS] [--into FOLDER]

   Each process runs the actors that --own names, the collector being the last number; all without it. There is no broker. A
   stream has two topics, one for items to its reader and one for room to its writer. Both are RELIABLE and KEEP_ALL, so
   nothing is dropped, and have resource limits, a deadline and a lease of life. A reader says how much room there is once it has
   found the writer, and the writer puts nothing before that. */
#include <dds/dds.h>
#include <stdlib.h>
#include <string.h>

#include "link.h"
#include "process.h"

/* How many samples are taken at once; after how many milliseconds a reader says once more how much room there is. */
enum { SAMPLES = 16, GREETING = 20 };

/* A stream with one end here: what is written to the other end, and read from it; whether anything came, and whether the
   partner was ever found. */
typedef struct {
    int stream, is_reader_here, is_heard, is_found;
    dds_entity_t writer, reader;
} Link;

static Link links[STREAMS + 1];
static int link_of[STREAMS + 1], count_of_links;
static dds_entity_t participant, waitset;
static double greeted;

static void check(dds_return_t said, const char *what)
{
    if (said < 0) {
        fprintf(stderr, "error: DDS: %s: %s\n", what, dds_strretcode(-said));
        exit(11);
    }
}

/* How all streams are carried. The last sample is kept for who comes late, so that an end that is said early is heard. */
static dds_qos_t *qualities(void)
{
    dds_qos_t *it = dds_create_qos();
    dds_duration_t deadline = DDS_SECS((int64_t)settings.deadline);
    dds_qset_reliability(it, DDS_RELIABILITY_RELIABLE, deadline);
    dds_qset_history(it, DDS_HISTORY_KEEP_ALL, 0);
    dds_qset_durability(it, DDS_DURABILITY_TRANSIENT_LOCAL);
    dds_qset_durability_service(it, 0, DDS_HISTORY_KEEP_LAST, 1, DDS_LENGTH_UNLIMITED, DDS_LENGTH_UNLIMITED, DDS_LENGTH_UNLIMITED);
    dds_qset_resource_limits(it, (int32_t)settings.capacity + SAMPLES, 1, (int32_t)settings.capacity + SAMPLES);
    dds_qset_deadline(it, deadline);
    dds_qset_liveliness(it, DDS_LIVELINESS_AUTOMATIC, deadline);
    return it;
}

static dds_entity_t topic_of(int stream, const char *what, const dds_topic_descriptor_t *type)
{
    char name[256];
    dds_entity_t found;
    snprintf(name, sizeof name, "%.200s_%d_%s", PROGRAM_NAME, stream, what);
    found = dds_create_topic(participant, type, name, NULL, NULL);
    check(found, "no topic");
    return found;
}

static void begin_link(int stream, const dds_qos_t *how)
{
    Link *it = &links[count_of_links];
    dds_entity_t items = topic_of(stream, "items", &sigc_link_Items_desc), room = topic_of(stream, "room", &sigc_link_Room_desc), condition;
    it->stream = stream;
    it->is_reader_here = is_here[STREAM_ENDS[stream].reader];
    it->writer = dds_create_writer(participant, it->is_reader_here ? room : items, how, NULL);
    check(it->writer, "no writer");
    it->reader = dds_create_reader(participant, it->is_reader_here ? items : room, how, NULL);
    check(it->reader, "no reader");
    condition = dds_create_readcondition(it->reader, DDS_ANY_STATE);
    check(condition, "no condition");
    check(dds_waitset_attach(waitset, condition, 0), "no wait");
    link_of[stream] = count_of_links++;
}

static void begin_links(unsigned long domain)
{
    dds_qos_t *how = qualities();
    int i;
    participant = dds_create_participant(domain == 0 ? DDS_DOMAIN_DEFAULT : (dds_domainid_t)domain, NULL, NULL);
    check(participant, "no participant");
    waitset = dds_create_waitset(participant);
    check(waitset, "no wait");
    for (i = 0; i < STREAMS; i++) {
        if (is_here[STREAM_ENDS[i].writer] != is_here[STREAM_ENDS[i].reader]) {
            begin_link(i, how);
        }
    }
    dds_delete_qos(how);
}

void link_send(int stream, uint64_t first, const int64_t *items, size_t count, int is_end, uint64_t word)
{
    sigc_link_Items it;
    int64_t values[CHUNK];
    memset(&it, 0, sizeof it);
    if (count != 0) {
        memcpy(values, items, count * sizeof *values);
    }
    it.first = first;
    it.is_end = is_end != 0;
    it.word = word;
    it.values._buffer = values;
    it.values._length = it.values._maximum = (uint32_t)count;
    if (dds_write(links[link_of[stream]].writer, &it) < 0) {
        lose(stream, "it takes nothing");
    }
}

void link_return(int stream, uint64_t allowed, int is_end, uint64_t word)
{
    sigc_link_Room it;
    it.allowed = allowed;
    it.is_end = is_end != 0;
    it.word = word;
    if (dds_write(links[link_of[stream]].writer, &it) < 0) {
        lose(stream, "it takes nothing");
    }
}

/* Whether both topics of a stream have found the other end. */
static int is_matched(const Link *it)
{
    dds_publication_matched_status_t written = {0};
    dds_subscription_matched_status_t read = {0};
    dds_get_publication_matched_status(it->writer, &written);
    dds_get_subscription_matched_status(it->reader, &read);
    return written.current_count > 0 && read.current_count > 0;
}

/* What came on a stream. A writer hears of room only once its items find the reader too: those that are written before are lost, but for
   the last one. The reader says it once more until the first item has come. */
static void take_sample(Link *link, const void *sample)
{
    if (link->is_reader_here) {
        const sigc_link_Items *it = sample;
        arrived(link->stream, it->first, it->values._buffer, it->values._length, it->is_end, it->word);
    } else if (link->is_found || (link->is_found = is_matched(link)) || ((const sigc_link_Room *)sample)->is_end) {
        const sigc_link_Room *it = sample;
        returned(link->stream, it->allowed, it->is_end, it->word);
    }
}

static int take_all(Link *link)
{
    void *samples[SAMPLES] = {NULL};
    dds_sample_info_t infos[SAMPLES];
    int i, count = dds_take(link->reader, samples, infos, SAMPLES, SAMPLES);
    for (i = 0; i < count; i++) {
        if (infos[i].valid_data) {
            take_sample(link, samples[i]);
            link->is_heard = 1;
        }
    }
    if (count > 0) {
        dds_return_loan(link->reader, samples, count);
    }
    return count > 0;
}

int link_poll(void)
{
    int i, is_done = 0;
    for (i = 0; i < count_of_links; i++) {
        is_done |= take_all(&links[i]);
    }
    return is_done;
}

/* Looks after a stream: says how much room there is until the first item comes, and whether the partner is lost. */
static void look_after(Link *it, int is_to_greet)
{
    dds_liveliness_changed_status_t life = {0};
    if (is_closed(it->stream)) {
        return;
    }
    if (!it->is_found || is_to_greet) {
        int is_there = is_matched(it);
        if (it->is_found && !is_there) {
            lose(it->stream, "it has gone");
        }
        it->is_found = is_there;
    }
    if (it->is_found && it->is_reader_here && !it->is_heard && is_to_greet) {
        greet(it->stream);
    }
    dds_get_liveliness_changed_status(it->reader, &life);
    if (it->is_found && life.alive_count == 0) {
        lose(it->stream, "it lives no more");
    }
}

void link_rest(long microseconds)
{
    dds_attach_t found[1];
    int i, is_to_greet = now() - greeted > GREETING * 1e-3;
    for (i = 0; i < count_of_links; i++) {
        look_after(&links[i], is_to_greet);
    }
    greeted = is_to_greet ? now() : greeted;
    dds_waitset_wait(waitset, found, 1, DDS_USECS(microseconds));
}

int link_says(uint64_t *word, Fate fates[ACTORS])
{
    (void)word;
    (void)fates;
    return COLLECTOR < 0 || is_here[COLLECTOR];
}

/* Waits until what was written last has come to the partners, and leaves. */
static void end_links(int status)
{
    int i;
    for (i = 0; i < count_of_links && status != 11; i++) {
        dds_wait_for_acks(links[i].writer, DDS_SECS((int64_t)settings.deadline));
    }
    if (status == 11) {
        dds_sleepfor(DDS_MSECS(100));
    }
    dds_delete(participant);
}

/* Reads which actors are here; 0 where the list is none. */
static int read_own(const char *text)
{
    int i;
    for (i = 0; i < ACTORS && text == NULL; i++) {
        is_here[i] = 1;
    }
    while (text != NULL && *text != 0) {
        char *end;
        long actor = strtol(text, &end, 10);
        if (end == text || actor < 0 || actor >= ACTORS || (*end != 0 && *end != ',')) {
            return 0;
        }
        is_here[actor] = 1;
        text = *end == ',' ? end + 1 : end;
    }
    return 1;
}

int main(int count, char **words)
{
    int status = read_words(count, words, 1) && read_own(settings.own) ? 0 : refuse_words();
    status = status != 0 ? status : begin_process(0);
    if (status == 0) {
        begin_links(settings.domain);
        status = run_process();
        end_links(status);
    }
    drop_flows();
    return status;
}
