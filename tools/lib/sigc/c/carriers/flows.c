/* Flow files, the text of a run and the line of its end, for all carriers. Written by sigc-c, which copies it;
   nothing about this file is proved. */
#include <errno.h>
#include <stdlib.h>
#include <string.h>

#include "flows.h"

enum { READ = 65536, MOST_BYTES = 67108864, MOST_VALUES = 4000000, LEAST_DIGITS = 18, DIGITS = 24 };
enum { RIGHT, BAD_VALUE, OUT_OF_RANGE };

/* The values of an input, with how many were taken of how many. One cluster takes them, so none shares its line of a cache. */
typedef struct {
    _Alignas(64) int64_t *values;
    size_t count, taken, room;
} Flow;

/* A piece of a text. */
typedef struct {
    const char *at;
    size_t length;
} Word;

static Flow flows[INPUTS + 1];

/* Outputs. */

void flush(Context *it)
{
    if (fwrite(it->out, 1, it->used, it->file) != it->used || fflush(it->file) != 0) {
        it->has_failed = 1;
    }
    it->used = 0;
}

/* Makes room for a line, and writes its name; a name that is longer than the buffer goes out at once. */
static inline void give_name(Context *it, const char *name, size_t length)
{
    if (PIECE - it->used < length + DIGITS) {
        flush(it);
    }
    if (length + DIGITS <= PIECE) {
        memcpy(it->out + it->used, name, length);
        it->used += length;
    } else if (fwrite(name, 1, length, it->file) != length) {
        it->has_failed = 1;
    }
}

void give_integer(Context *it, const char *name, size_t length, int64_t value)
{
    char digits[DIGITS];
    size_t at = DIGITS;
    uint64_t left = value < 0 ? 0 - (uint64_t)value : (uint64_t)value;
    digits[--at] = '\n';
    do {
        digits[--at] = (char)('0' + left % 10);
        left /= 10;
    } while (left != 0);
    if (value < 0) {
        digits[--at] = '-';
    }
    give_name(it, name, length);
    memcpy(it->out + it->used, digits + at, DIGITS - at);
    it->used += DIGITS - at;
}

void give_truth(Context *it, const char *name, size_t length, int value)
{
    size_t size = value ? 5 : 6;
    give_name(it, name, length);
    memcpy(it->out + it->used, value ? "true\n" : "false\n", size);
    it->used += size;
}

FILE *file_of(int actor, const char *folder)
{
    char path[4096];
    if (folder == NULL || actor == COLLECTOR) {
        return stdout;
    }
    return snprintf(path, sizeof path, "%s/cluster_%d", folder, actor) < (int)sizeof path ? fopen(path, "wb") : NULL;
}

int refuse_folder(const char *folder)
{
    fprintf(stderr, "error: %s: write failed\n", folder == NULL ? "standard output" : folder);
    return 6;
}

int refuse_memory(void)
{
    fprintf(stderr, "error: out of memory\n");
    return 7;
}

/* Inputs. */

int take(Context *it, int input, int64_t *value)
{
    Flow *flow = &flows[input];
    (void)it;
    if (flow->taken == flow->count) {
        return 0;
    }
    *value = flow->values[flow->taken++];
    return 1;
}

int take_next(int input, size_t *taken, int64_t *value)
{
    const Flow *flow = &flows[input];
    if (*taken == flow->count) {
        return 0;
    }
    *value = flow->values[(*taken)++];
    return 1;
}

static int integer_of(Word word, int64_t *value)
{
    size_t i = word.at[0] == '-';
    uint64_t read = 0, most = i ? (uint64_t)INT64_MAX + 1 : (uint64_t)INT64_MAX;
    int is_large = 0;
    if (i == word.length) {
        return BAD_VALUE;
    }
    for (; i < word.length; i++) {
        unsigned digit = (unsigned)(unsigned char)word.at[i] - '0';
        if (digit > 9) {
            return BAD_VALUE;
        }
        is_large |= i >= LEAST_DIGITS && read > (most - digit) / 10;
        read = read * 10 + digit;
    }
    if (is_large) {
        return OUT_OF_RANGE;
    }
    *value = word.at[0] == '-' ? (read == 0 ? 0 : -(int64_t)(read - 1) - 1) : (int64_t)read;
    return RIGHT;
}

static int is_word(Word word, const char *text)
{
    return word.length == strlen(text) && memcmp(word.at, text, word.length) == 0;
}

static int value_of(Word word, int kind, int64_t *value)
{
    if (kind == INTEGER) {
        return integer_of(word, value);
    }
    *value = is_word(word, "true");
    return *value || (kind == BOOLEAN && is_word(word, "false")) ? RIGHT : BAD_VALUE;
}

/* The next word of a line, or one of no length. */
static Word next_word(const char **at, const char *end)
{
    Word word;
    while (*at != end && (**at == ' ' || **at == '\t')) {
        (*at)++;
    }
    word.at = *at;
    while (*at != end && **at != ' ' && **at != '\t') {
        (*at)++;
    }
    word.length = (size_t)(*at - word.at);
    return word;
}

static inline int append(Flow *flow, int64_t value, size_t times)
{
    if (flow->room - flow->count < times) {
        size_t room = flow->room * 2 + times + 1024;
        int64_t *made = realloc(flow->values, room * sizeof *made);
        if (made == NULL) {
            return 0;
        }
        flow->values = made;
        flow->room = room;
    }
    while (times-- != 0) {
        flow->values[flow->count++] = value;
    }
    return 1;
}

/* A word v*k of a file of version 2. */
static int repeated(Word word, int kind, int64_t *value, size_t *times)
{
    const char *star = memchr(word.at, '*', word.length);
    Word before = word, behind;
    int64_t read = 0;
    int said;
    if (star == NULL) {
        return value_of(word, kind, value);
    }
    before.length = (size_t)(star - word.at);
    behind.at = star + 1;
    behind.length = word.length - before.length - 1;
    if (behind.length == 0 || behind.length > 9 || *behind.at == '-' || integer_of(behind, &read) != RIGHT || read < 1 || read > MOST_VALUES || before.length == 0) {
        return BAD_VALUE;
    }
    said = value_of(before, kind, value);
    *times = (size_t)read;
    return said;
}

static int is_line_of_text(const char *at, const char *end)
{
    for (; at != end; at++) {
        if (*at != '\t' && (*at < ' ' || *at > '~')) {
            return 0;
        }
    }
    return 1;
}

static int is_letter(char byte)
{
    return (byte >= 'A' && byte <= 'Z') || (byte >= 'a' && byte <= 'z');
}

static int is_name(Word word)
{
    size_t i;
    for (i = 1; i < word.length; i++) {
        if (!is_letter(word.at[i]) && word.at[i] != '_' && (word.at[i] < '0' || word.at[i] > '9')) {
            return 0;
        }
    }
    return is_letter(word.at[0]);
}

/* The number of the input with a name, -1 where there is none. */
static int input_of(Word name)
{
    int i;
    for (i = 0; i < INPUTS; i++) {
        if (is_word(name, INPUT[i].name)) {
            return i;
        }
    }
    return -1;
}

static int refuse(const char *path, unsigned long line, unsigned long column, const char *why)
{
    if (column != 0) {
        fprintf(stderr, "error: %s:%lu:%lu: %s\n", path, line, column, why);
    } else if (line != 0) {
        fprintf(stderr, "error: %s:%lu: %s\n", path, line, why);
    } else {
        fprintf(stderr, "error: %s: %s\n", path, why);
    }
    return 4;
}

/* Refuses a line for one of its values, or as no line of text where it is none: a line of right values is one. */
static int refuse_value(const char *path, unsigned long number, const char *begin, const char *at, const char *end, const char *why)
{
    if (!is_line_of_text(begin, end)) {
        return refuse(path, number, 0, "bad line");
    }
    return at == NULL ? refuse(path, 0, 0, why) : refuse(path, number, (unsigned long)(at - begin) + 1, why);
}

/* Reads the values of a line; the status, 0 where they are right. */
static int read_values(int input, const char *path, unsigned long number, const char *begin, const char *at, const char *end, int is_counted, size_t *total)
{
    Word word;
    for (word = next_word(&at, end); word.length != 0; word = next_word(&at, end)) {
        int64_t value = 0;
        size_t times = 1;
        int said = is_counted ? repeated(word, INPUT[input].kind, &value, &times) : value_of(word, INPUT[input].kind, &value);
        if (said != RIGHT) {
            return refuse_value(path, number, begin, word.at, end, said == BAD_VALUE ? "bad value" : "out of range");
        }
        *total += times;
        if (*total > MOST_VALUES) {
            return refuse_value(path, number, begin, NULL, end, "more than 4000000 values");
        }
        if (!append(&flows[input], value, times)) {
            return refuse_memory();
        }
    }
    return 0;
}

/* Whether a first line with words makes a file one of version 2. */
static int is_of_version_2(const char *at, const char *end)
{
    Word name = next_word(&at, end), second = next_word(&at, end), none = next_word(&at, end);
    return is_word(name, "flows") && is_word(second, "2") && none.length == 0 && input_of(name) < 0;
}

static int read_flows(const char *path, const char *text, size_t size)
{
    const char *at = text, *last = text + size;
    unsigned long number = 0;
    size_t total = 0;
    int is_first = 1, is_counted = 0;
    while (at != last) {
        const char *begin = at, *newline = memchr(at, '\n', (size_t)(last - at));
        const char *end = newline == NULL ? last : newline > at && newline[-1] == '\r' ? newline - 1 : newline;
        Word name = next_word(&at, end);
        number++;
        if (name.length != 0 && is_first && is_of_version_2(begin, end)) {
            is_counted = 1;
        } else if (name.length != 0) {
            int input = input_of(name), status;
            if (input < 0) {
                return refuse(path, number, 0, is_name(name) && is_line_of_text(begin, end) ? "not an input" : "bad line");
            }
            status = read_values(input, path, number, begin, at, end, is_counted, &total);
            if (status != 0) {
                return status;
            }
        }
        is_first = is_first && name.length == 0;
        at = newline == NULL ? last : newline + 1;
    }
    return 0;
}

int read_flows_of(const char *path)
{
    FILE *file = fopen(path, "rb");
    size_t room = READ, size = 0, got;
    char *text = malloc(room);
    int status;
    if (file == NULL) {
        fprintf(stderr, "error: %s: %s\n", path, errno == ENOENT || errno == ENOTDIR ? "not found" : "read failed");
        free(text);
        return 5;
    }
    while (text != NULL && size <= MOST_BYTES && (got = fread(text + size, 1, room - size, file)) != 0) {
        size += got;
        if (size == room) {
            char *made = realloc(text, room *= 2);
            if (made == NULL) {
                free(text);
            }
            text = made;
        }
    }
    if (text == NULL) {
        status = refuse_memory();
    } else if (ferror(file)) {
        fprintf(stderr, "error: %s: read failed\n", path);
        status = 5;
    } else {
        status = size > MOST_BYTES ? refuse(path, 0, 0, "longer than 67108864 bytes") : read_flows(path, text, size);
    }
    fclose(file);
    free(text);
    return status;
}

void drop_flows(void)
{
    int i;
    for (i = 0; i < INPUTS; i++) {
        free(flows[i].values);
        flows[i].values = NULL;
    }
}

/* Words. */

int refuse_words(void)
{
    fprintf(stderr, "error: these words are not a command\n");
    return 2;
}

unsigned long number_of(const char *text, unsigned long most)
{
    Word word;
    int64_t value = 0;
    word.at = text;
    word.length = strlen(text);
    if (word.length == 0 || word.length > LEAST_DIGITS || text[0] == '-' || integer_of(word, &value) != RIGHT || (uint64_t)value > most) {
        return 0;
    }
    return (unsigned long)value;
}

const char *option_at(const char *name, char **words, int count, int *at)
{
    size_t length = strlen(name);
    if (strncmp(words[*at], name, length) != 0) {
        return NULL;
    }
    if (words[*at][length] == '=') {
        return words[*at] + length + 1;
    }
    return words[*at][length] == 0 && *at + 1 < count ? words[++*at] : NULL;
}

/* Ends. */

uint64_t word_of(unsigned long instant, int number)
{
    return (uint64_t)instant << 32 | (uint64_t)(unsigned)number;
}

unsigned long instant_of(uint64_t word)
{
    return (unsigned long)(word >> 32);
}
