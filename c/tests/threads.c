/* Threads that call at once, on the same documents and on copies of their own, get what one thread gets. */
#include "documents.h"

#include <pthread.h>
#include <stdio.h>
#include <stdlib.h>
#include <string.h>

#define THREADS 8
#define ROUNDS 40

static struct documents all;
static size_t rounds = ROUNDS;
static struct answers *wanted; /* of each document */

struct caller {
    pthread_t thread;
    size_t number;
    size_t wrong; /* how many results were others */
};

/* Each thread with an odd number asks about copies; no two begin with the same document. */
static void *call_all(void *argument) {
    struct caller *caller = argument;
    struct answers *got = needed(sizeof *got);
    for (size_t round = 0; round < rounds * all.count; round++) {
        size_t at = (round + 5 * caller->number) % all.count;
        const struct document *d = &all.items[at];
        uint8_t *copy = needed(d->len);
        memcpy(copy, d->bytes, d->len);
        ask(got, caller->number % 2 ? copy : d->bytes, d->len);
        caller->wrong += memcmp(got, &wanted[at], sizeof *got) != 0;
        free(copy);
    }
    free(got);
    return NULL;
}

/* With an argument there is one round. */
int main(int count, char **arguments) {
    static struct caller callers[THREADS];
    (void)arguments;
    if (count > 1) rounds = 1;
    read_documents(&all);
    wanted = needed(all.count * sizeof *wanted);
    for (size_t at = 0; at < all.count; at++) ask(&wanted[at], all.items[at].bytes, all.items[at].len);
    for (size_t at = 0; at < THREADS; at++) {
        callers[at].number = at;
        expect(pthread_create(&callers[at].thread, NULL, call_all, &callers[at]) == 0, "threads", "one doesn't start");
    }
    for (size_t at = 0; at < THREADS; at++) {
        pthread_join(callers[at].thread, NULL);
        expect(callers[at].wrong == 0, "threads", "another answer than that of one thread");
    }
    free(wanted);
    return result("threads");
}
