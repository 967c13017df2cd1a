/* rests THREADS TURNS: what rests and wakings of threads cost by themselves. In each turn a thread that collects wakes all others
   one after the other and rests until the last of them has answered; each of them rests again behind its answer. So every one of
   them rests and is woken once a turn, as workers are at each instant over links of one item. Prints how many rests there were. */
#define _GNU_SOURCE
#include <linux/futex.h>
#include <pthread.h>
#include <stdatomic.h>
#include <stdio.h>
#include <stdlib.h>
#include <sys/syscall.h>
#include <unistd.h>

#define MOST 256

/* The turn that a thread may do, on cache lines of its own. */
struct bed {
    _Alignas(128) _Atomic int turn;
};

static struct bed beds[MOST];
static _Alignas(128) _Atomic int left;
static int turns;

static void rest(_Atomic int *word, int seen) {
    syscall(SYS_futex, word, FUTEX_WAIT_PRIVATE, seen, NULL, NULL, 0);
}

static void wake(_Atomic int *word) {
    syscall(SYS_futex, word, FUTEX_WAKE_PRIVATE, 1, NULL, NULL, 0);
}

static void *answer(void *bed) {
    _Atomic int *word = &((struct bed *)bed)->turn;
    for (int turn = 1; turn <= turns; turn++) {
        int seen;
        while ((seen = atomic_load(word)) < turn) rest(word, seen);
        if (atomic_fetch_sub(&left, 1) == 1) wake(&left);
    }
    return NULL;
}

int main(int count, char **words) {
    if (count != 3) return 2;
    int threads = atoi(words[1]);
    turns = atoi(words[2]);
    if (threads < 1 || threads > MOST) return 2;
    pthread_t started[MOST];
    for (int k = 0; k < threads; k++)
        if (pthread_create(&started[k], NULL, answer, &beds[k])) return 7;
    for (int turn = 1; turn <= turns; turn++) {
        atomic_store(&left, threads);
        for (int k = 0; k < threads; k++) {
            atomic_store(&beds[k].turn, turn);
            wake(&beds[k].turn);
        }
        int seen;
        while ((seen = atomic_load(&left)) > 0) rest(&left, seen);
    }
    for (int k = 0; k < threads; k++) pthread_join(started[k], NULL);
    printf("%d\n", threads * turns);
    return 0;
}
