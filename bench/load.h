/* What the two parts of the engine of bench/load share: load.c has words, threads and what is printed, load_client.c
   what one client sends and reads. */
#include <stddef.h>
#include <stdint.h>
#include <pthread.h>

enum { MOST_CLIENTS = 64, LONGEST_STATEMENT = 160, READ_BYTES = 65536, LONGEST_TEXT = 256 };
enum { SUB_BITS = 7, DOUBLINGS = 40, BUCKETS = (DOUBLINGS - SUB_BITS + 1) << SUB_BITS };

/* What is sent. The last is for a server of Redis, whose replies have one line too. */
enum kind { INSERT, SELECT, RANGE, UPDATE, DELETE, RPUSH, KINDS, BATCH = KINDS };
extern const char *const KIND_NAMES[];
enum class { GOOD, DENIED, REFUSED, FAULT, CLASSES };

/* What the words said. */
extern long port, clients, pipeline, statements, milliseconds, interval, timeout, rows, width, seed, own, mix[KINDS];
extern const char *host, *table, *users[MOST_CLIENTS];

struct counts {
    long classes[CLASSES], took[BUCKETS], most;
};

struct asked {
    enum kind kind;
    long key;
};

struct client {
    long number, sent, inserted, moment;
    int stream;
    const char *user;
    char table[40];
    uint64_t random;
    /* The batch under way: what was asked, its text, and how many of its replies were read. */
    struct asked *asked;
    long size, answered;
    char *text;
    size_t length, written;
    uint64_t start;
    /* What was read and is no whole line yet; rows of a reply that are still to come. */
    char read[READ_BYTES];
    size_t filled;
    long rows_left;
    /* Counts of this interval by kind. Whoever holds the lock may take them, and leave the spare ones. */
    pthread_mutex_t lock;
    struct counts *counts, *spare;
};

/* Nanoseconds of a clock that never goes back. */
uint64_t now(void);

/* Says why the run failed, and ends it. The client may be null. */
_Noreturn void fail(const struct client *client, const char *form, ...);

int begins(const char *line, const char *word);

/* Keeps the first reply of each class. */
void note_first(enum class class, const char *line);

/* Connects and begins a session. */
void reach(struct client *client);
void welcome(struct client *client);

/* Draws a batch of so many statements; writes it, and takes all its replies. */
void prepare(struct client *client, long size);
void exchange(struct client *client);

/* Ends the session, behind which nothing may come. */
void leave(struct client *client);
