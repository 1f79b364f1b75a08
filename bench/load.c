/* The engine of bench/load: clients of `sysr serve`, each on a thread. They send statements, check that each reply is
   one to its statement, and count. bench/load_engine.py starts it, and reads what it prints.

   Words are `name=value`; see `take_word`. Each client sends a batch of `pipeline` statements in one write, reads all
   their replies, and goes on with the next. Latencies are counted in a histogram with 128 buckets for each doubling, so
   the greatest value of a bucket is at most 1/128 above its least.

   At each interval standard output gets `interval FROM TO` in seconds; then for each kind
   `KIND good denied refused fault MOST bucket:count ..`, MOST in nanoseconds; then an empty line. `batch` is the time
   to all replies of one write. In the end `reply CLASS TEXT` says the first reply of each class that was not good. A
   run that fails says why on standard error, with status 1. */
#include "load.h"
#include <errno.h>
#include <stdarg.h>
#include <stdio.h>
#include <stdlib.h>
#include <string.h>
#include <time.h>
#include <unistd.h>

const char *const KIND_NAMES[] = {"insert", "select", "range", "update", "delete", "rpush", "batch"};
static const char *const CLASS_NAMES[] = {"good", "denied", "refused", "fault"};

long port, clients = 1, pipeline = 1, statements, milliseconds, interval = 1000, timeout = 60, rows, width = 1, seed,
    own, mix[KINDS];
const char *host = "127.0.0.1", *table = "load", *users[MOST_CLIENTS];
static long user_count;

static struct client *all;
static pthread_barrier_t ready, go;
static pthread_mutex_t state = PTHREAD_MUTEX_INITIALIZER;
static pthread_cond_t ended;
static long running;
static uint64_t begun;
static char firsts[CLASSES][LONGEST_TEXT];

uint64_t now(void) {
    struct timespec at;
    clock_gettime(CLOCK_MONOTONIC, &at);
    return (uint64_t)at.tv_sec * 1000000000 + at.tv_nsec;
}

/* Says why the run failed, and ends it. The lock is kept, so that one failure is told. */
_Noreturn void fail(const struct client *client, const char *form, ...) {
    static pthread_mutex_t telling = PTHREAD_MUTEX_INITIALIZER;
    va_list given;
    pthread_mutex_lock(&telling);
    if (client)
        fprintf(stderr, "client %ld (%s): ", client->number + 1, client->user);
    va_start(given, form);
    vfprintf(stderr, form, given);
    va_end(given);
    fputc('\n', stderr);
    _exit(1);
}

int begins(const char *line, const char *word) {
    return strncmp(line, word, strlen(word)) == 0;
}

void note_first(enum class class, const char *line) {
    pthread_mutex_lock(&state);
    if (!firsts[class][0])
        snprintf(firsts[class], LONGEST_TEXT, "%.255s", line);
    pthread_mutex_unlock(&state);
}

/* Threads. */

static long batch_size(const struct client *client) {
    if (!statements)
        return now() < begun + (uint64_t)milliseconds * 1000000 ? pipeline : 0;
    long left = statements / clients + (client->number < statements % clients) - client->sent;
    return left < pipeline ? left : pipeline;
}

static void *played(void *given) {
    struct client *client = given;
    long size;
    reach(client);
    if (!mix[RPUSH])
        welcome(client);
    pthread_barrier_wait(&ready);
    pthread_barrier_wait(&go);
    while ((size = batch_size(client)) > 0) {
        prepare(client, size);
        exchange(client);
    }
    leave(client);
    pthread_mutex_lock(&state);
    if (--running == 0)
        pthread_cond_signal(&ended);
    pthread_mutex_unlock(&state);
    return NULL;
}

static void add(struct counts *sum, const struct counts *more) {
    for (int n = 0; n < CLASSES; n++)
        sum->classes[n] += more->classes[n];
    for (int n = 0; n < BUCKETS; n++)
        sum->took[n] += more->took[n];
    if (more->most > sum->most)
        sum->most = more->most;
}

/* Takes what each client has counted since the last time, and prints the sums. */
static void report(double from, double to) {
    static struct counts sums[KINDS + 1];
    memset(sums, 0, sizeof sums);
    for (long n = 0; n < clients; n++) {
        pthread_mutex_lock(&all[n].lock);
        struct counts *taken = all[n].counts;
        all[n].counts = all[n].spare, all[n].spare = taken;
        pthread_mutex_unlock(&all[n].lock);
        for (int kind = 0; kind <= KINDS; kind++)
            add(&sums[kind], &taken[kind]);
        memset(taken, 0, sizeof sums);
    }
    printf("interval %.6f %.6f\n", from, to);
    for (int kind = 0; kind <= KINDS; kind++) {
        if (kind < KINDS && !mix[kind])
            continue;
        printf("%s", KIND_NAMES[kind]);
        for (int n = 0; n < CLASSES; n++)
            printf(" %ld", sums[kind].classes[n]);
        printf(" %ld", sums[kind].most);
        for (int n = 0; n < BUCKETS; n++)
            if (sums[kind].took[n])
                printf(" %d:%ld", n, sums[kind].took[n]);
        putchar('\n');
    }
    putchar('\n');
    fflush(stdout);
}

/* Reports at each interval, until no client runs any more. */
static void watch(void) {
    uint64_t last = begun, next = begun;
    int over = 0;
    while (!over) {
        next += (uint64_t)interval * 1000000;
        struct timespec until = {next / 1000000000, next % 1000000000};
        pthread_mutex_lock(&state);
        for (int late = 0; running > 0 && late != ETIMEDOUT;)
            late = pthread_cond_timedwait(&ended, &state, &until);
        over = running == 0;
        pthread_mutex_unlock(&state);
        uint64_t at = now();
        report((last - begun) / 1e9, (at - begun) / 1e9);
        last = at;
    }
    for (int class = DENIED; class < CLASSES; class++)
        if (firsts[class][0])
            printf("reply %s %s\n", CLASS_NAMES[class], firsts[class]);
}

static void make(struct client *client, long number) {
    client->number = number;
    client->user = users[number % user_count];
    client->random = (uint64_t)seed * 1000003 + number;
    snprintf(client->table, sizeof client->table, own ? "%s%ld" : "%s", table, number + 1);
    client->asked = calloc(pipeline, sizeof *client->asked);
    client->text = malloc((size_t)pipeline * LONGEST_STATEMENT);
    client->counts = calloc(KINDS + 1, sizeof(struct counts));
    client->spare = calloc(KINDS + 1, sizeof(struct counts));
    pthread_mutex_init(&client->lock, NULL);
    if (!client->asked || !client->text || !client->counts || !client->spare)
        fail(NULL, "no memory for so many clients and statements");
}

/* Words. */

static void take_word(const char *word) {
    static const struct { const char *name; long *value; } NUMBERS[] = {{"port", &port}, {"clients", &clients},
        {"pipeline", &pipeline}, {"statements", &statements}, {"milliseconds", &milliseconds}, {"interval", &interval},
        {"timeout", &timeout}, {"rows", &rows}, {"width", &width}, {"seed", &seed}, {"own", &own}};
    const char *value = strchr(word, '=');
    size_t length = value ? (size_t)(value - word) : 0;
    for (size_t n = 0; value && n < sizeof NUMBERS / sizeof *NUMBERS; n++)
        if (strlen(NUMBERS[n].name) == length && strncmp(word, NUMBERS[n].name, length) == 0) {
            *NUMBERS[n].value = atol(value + 1);
            return;
        }
    for (int n = 0; value && n < KINDS; n++)
        if (strlen(KIND_NAMES[n]) == length && strncmp(word, KIND_NAMES[n], length) == 0) {
            mix[n] = atol(value + 1);
            return;
        }
    if (value && begins(word, "host="))
        host = value + 1;
    else if (value && begins(word, "table="))
        table = value + 1;
    else if (value && begins(word, "user=") && user_count < MOST_CLIENTS)
        users[user_count++] = value + 1;
    else
        fail(NULL, "%s is no word of the engine", word);
}

int main(int words, char **word) {
    pthread_condattr_t monotonic;
    long sum = 0;
    for (int n = 1; n < words; n++)
        take_word(word[n]);
    for (int n = 0; n < KINDS; n++)
        sum += mix[n];
    if (clients < 1 || clients > MOST_CLIENTS || pipeline < 1 || sum < 1 || !user_count || interval < 1)
        fail(NULL, "the engine lacks a word");
    all = calloc(clients, sizeof *all);
    if (!all)
        fail(NULL, "no memory for so many clients");
    pthread_condattr_init(&monotonic);
    pthread_condattr_setclock(&monotonic, CLOCK_MONOTONIC);
    pthread_cond_init(&ended, &monotonic);
    pthread_barrier_init(&ready, NULL, clients + 1);
    pthread_barrier_init(&go, NULL, clients + 1);
    running = clients;
    for (long n = 0; n < clients; n++) {
        pthread_t thread;
        make(&all[n], n);
        if (pthread_create(&thread, NULL, played, &all[n]))
            fail(NULL, "cannot start a thread for client %ld", n + 1);
    }
    pthread_barrier_wait(&ready);
    begun = now();
    pthread_barrier_wait(&go);
    watch();
    return 0;
}
