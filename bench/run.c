// The baselines of run.py: the same job as `sigc run` of one program, written by hand. A flow file is read whole, its
// values by strtoll; text goes out in pieces, its numbers by a formatter of its own.
// usage: run PROGRAM FLOWS, where PROGRAM is sum, thermostat, watch, controller, heavy or stages
#include <stdio.h>
#include <stdlib.h>
#include <string.h>

typedef long long Integer;

enum { STAGES = 12, INPUTS = STAGES + 1, CHAINS = 4, SUMS = 64, PIECE = 65536, LINE = 64 };

typedef struct {
    Integer *values;
    size_t count, taken;
} Flow;

static Flow flows[INPUTS];
static char out[PIECE + LINE];
static size_t used;

static void put_text(const char *text) {
    size_t length = strlen(text);
    memcpy(out + used, text, length);
    used += length;
}

static void end_line(void) {
    out[used++] = '\n';
    if (used >= PIECE) {
        fwrite(out, 1, used, stdout);
        used = 0;
    }
}

static void put_integer(const char *name, Integer value) {
    char digits[20];
    size_t count = 0;
    unsigned long long left = value < 0 ? 0ull - (unsigned long long)value : (unsigned long long)value;
    put_text(name);
    out[used++] = ' ';
    if (value < 0) {
        out[used++] = '-';
    }
    do {
        digits[count++] = (char)('0' + left % 10);
        left /= 10;
    } while (left != 0);
    while (count != 0) {
        out[used++] = digits[--count];
    }
    end_line();
}

static void put_boolean(const char *name, int value) {
    put_text(name);
    put_text(value ? " true" : " false");
    end_line();
}

// Takes the next value of an input, if it has one.
static int take(int input, Integer *value) {
    Flow *flow = &flows[input];
    if (flow->taken == flow->count) {
        return 0;
    }
    *value = flow->values[flow->taken++];
    return 1;
}

static void sum(void) {
    Integer a, b, y;
    while (take(0, &a) && take(1, &b) && !__builtin_add_overflow(a, b, &y)) {
        put_integer("Y", y);
    }
}

static void thermostat(void) {
    Integer x;
    int on = 0;
    while (take(0, &x)) {
        on = x < 18 ? 1 : x > 21 ? 0 : on;
        put_boolean("HEATING", on);
    }
}

static void watch(void) {
    Integer tick, request, held = 0;
    int age = 0, was = 0;
    while (take(0, &tick) && take(1, &request)) {
        if (request && !take(2, &held)) {
            return;
        }
        age = request ? 0 : age >= 3 ? 3 : age + 1;
        int late = age >= 3;
        put_integer("HELD", held);
        put_boolean("ALARM", late && !was);
        was = late;
    }
}

static int hysteresis(Integer x, Integer low, Integer high, int was) {
    return x < low ? 1 : x > high ? 0 : was;
}

static void controller(void) {
    Integer temperature, level, start, stop, fault = 0, starts = 0, age = 0, lowest = 100, highest = 0;
    int was = 0, cold = 0, low = 0, counted = 0;
    while (take(0, &temperature) && take(1, &level) && take(2, &start) && take(3, &stop)) {
        int running = (was || start) && !stop, begins = running && !was, draining = level > 95;
        cold = hysteresis(temperature, 18, 21, cold);
        low = hysteresis(level, 20, 80, low);
        counted = !(temperature > 30 || draining) ? 0 : counted >= 3 ? 3 : counted + 1;
        fault = counted >= 3 ? temperature : fault;
        age = begins ? 0 : age + 1;
        lowest = level < lowest ? level : lowest;
        highest = level > highest ? level : highest;
        put_boolean("RUNNING", running);
        put_boolean("HEATING", cold && running);
        put_boolean("FILLING", low && running);
        put_boolean("DRAINING", draining);
        put_boolean("ALARM", counted >= 3);
        put_integer("FAULT", fault);
        if (begins) {
            put_integer("STARTS", ++starts);
        }
        put_integer("AGE", age);
        put_integer("LOWEST", lowest);
        put_integer("HIGHEST", highest);
        was = running;
    }
}

static void heavy(void) {
    static const char *const names[CHAINS] = {"X0n64", "X1n64", "X2n64", "X3n64"};
    Integer x[CHAINS];
    for (;;) {
        for (int i = 0; i < CHAINS; i++) {
            if (!take(i, &x[i])) {
                return;
            }
        }
        for (int i = 0; i < CHAINS; i++) {
            for (int j = 1; j <= SUMS; j++) {
                if (__builtin_add_overflow(x[i], j, &x[i])) {
                    return;
                }
            }
        }
        for (int i = 0; i < CHAINS; i++) {
            put_integer(names[i], x[i]);
        }
    }
}

static void stages(void) {
    Integer x, y, b;
    while (take(0, &x)) {
        y = x;
        for (int i = 1; i <= STAGES; i++) {
            if (!take(i, &b)) {
                return;
            }
            if (!b) {
                break;
            }
            if (__builtin_add_overflow(x, i, &x)) {
                return;
            }
            y = x;
        }
        put_integer("Y12", y);
    }
}

// Reads the values of a line, behind the name of its input.
static Flow flow_of(char *line, size_t most) {
    Flow flow = {malloc(most * sizeof(Integer)), 0, 0};
    for (char *at = strchr(line, ' '); at != NULL && *++at != 0;) {
        char *next;
        if (*at == 't' || *at == 'f') {
            flow.values[flow.count++] = *at == 't';
            next = strchr(at, ' ');
        } else {
            flow.values[flow.count++] = strtoll(at, &next, 10);
        }
        at = next != NULL && *next == ' ' ? next : NULL;
    }
    return flow;
}

static int read_flows(const char *name) {
    FILE *file = fopen(name, "rb");
    if (file == NULL) {
        return 0;
    }
    fseek(file, 0, SEEK_END);
    size_t size = (size_t)ftell(file);
    rewind(file);
    char *text = malloc(size + 1);
    if (fread(text, 1, size, file) != size) {
        return 0;
    }
    text[size] = 0;
    fclose(file);
    int input = 0;
    for (char *line = text; *line != 0 && input < INPUTS; input++) {
        char *end = strchr(line, '\n');
        *end = 0;
        flows[input] = flow_of(line, (size_t)(end - line) / 2 + 1);
        line = end + 1;
    }
    return 1;
}

int main(int count, char **words) {
    if (count != 3 || !read_flows(words[2])) {
        return 2;
    }
    if (strcmp(words[1], "sum") == 0) {
        sum();
    } else if (strcmp(words[1], "thermostat") == 0) {
        thermostat();
    } else if (strcmp(words[1], "watch") == 0) {
        watch();
    } else if (strcmp(words[1], "controller") == 0) {
        controller();
    } else if (strcmp(words[1], "heavy") == 0) {
        heavy();
    } else {
        stages();
    }
    fwrite(out, 1, used, stdout);
    return 0;
}
