/* A crowd of clients over loopback, each of which sends a line once it has the answer to the one before. See crowds.sh.
 *
 *   crowd PORT CLIENTS SPEAKERS THREADS MILLISECONDS
 *
 * Connects so many clients, all of one user, of whom the first SPEAKERS send INSERT lines for so long, shared by so many
 * threads. Writes the lines a second, and within how many microseconds 50, 99 and 99.9 % of them were answered. Where
 * none speaks it says that all are there, and waits. */
#include <arpa/inet.h>
#include <errno.h>
#include <netinet/in.h>
#include <netinet/tcp.h>
#include <pthread.h>
#include <stdint.h>
#include <stdio.h>
#include <stdlib.h>
#include <string.h>
#include <sys/epoll.h>
#include <sys/socket.h>
#include <time.h>
#include <unistd.h>

enum { BUCKETS = 1 << 20, EVENTS = 256 };
static const char LINE[] = "INSERT INTO t VALUES (1)\n";

struct client {
    int stream;
    uint64_t sent;
};

struct part {
    pthread_t thread;
    struct client *clients;
    int count;
    uint64_t end, answered;
    uint32_t *within;
};

static uint64_t now(void) {
    struct timespec time;
    clock_gettime(CLOCK_MONOTONIC, &time);
    return time.tv_sec * 1000000000ull + time.tv_nsec;
}

static void fail(const char *what) {
    fprintf(stderr, "crowd: %s: %s\n", what, strerror(errno));
    exit(1);
}

static void say(struct client *client, const char *line) {
    size_t size = strlen(line);
    client->sent = now();
    if (send(client->stream, line, size, MSG_NOSIGNAL) != (ssize_t)size)
        fail("cannot send");
}

/* The answer, which has one line. */
static void hear(struct client *client, const char *wanted) {
    char answer[256];
    size_t length = 0;
    while (length == 0 || answer[length - 1] != '\n') {
        ssize_t got = recv(client->stream, answer + length, sizeof answer - 1 - length, 0);
        if (got <= 0)
            fail("cannot receive");
        length += got;
    }
    answer[length] = 0;
    if (strncmp(answer, wanted, strlen(wanted)) != 0) {
        fprintf(stderr, "crowd: `%s`\n", answer);
        exit(1);
    }
}

static void *speak(void *given) {
    struct part *part = given;
    int set = epoll_create1(0);
    struct epoll_event events[EVENTS];
    for (int place = 0; place < part->count; place++) {
        struct epoll_event event = {.events = EPOLLIN, .data.ptr = &part->clients[place]};
        epoll_ctl(set, EPOLL_CTL_ADD, part->clients[place].stream, &event);
        say(&part->clients[place], LINE);
    }
    int waiting = part->count;
    while (waiting > 0) {
        int ready = epoll_wait(set, events, EVENTS, -1);
        uint64_t time = now();
        for (int place = 0; place < ready; place++) {
            struct client *client = events[place].data.ptr;
            hear(client, "done @");
            uint64_t took = (now() - client->sent) / 1000;
            part->within[took < BUCKETS ? took : BUCKETS - 1]++;
            part->answered++;
            if (time < part->end)
                say(client, LINE);
            else
                waiting--;
        }
    }
    close(set);
    return NULL;
}

static double percentile(uint64_t *within, uint64_t all, double percent) {
    uint64_t seen = 0;
    for (int took = 0; took < BUCKETS; took++) {
        seen += within[took];
        if (seen >= all * percent / 100)
            return took;
    }
    return BUCKETS;
}

int main(int count, char **words) {
    if (count != 6)
        return 2;
    int port = atoi(words[1]), clients = atoi(words[2]), speakers = atoi(words[3]), threads = atoi(words[4]);
    uint64_t length = atoll(words[5]) * 1000000ull;
    struct client *all = calloc(clients, sizeof *all);
    struct sockaddr_in place = {.sin_family = AF_INET, .sin_port = htons(port), .sin_addr.s_addr = htonl(INADDR_LOOPBACK)};
    for (int number = 0; number < clients; number++) {
        int on = 1;
        all[number].stream = socket(AF_INET, SOCK_STREAM, 0);
        if (all[number].stream < 0 || connect(all[number].stream, (struct sockaddr *)&place, sizeof place) != 0)
            fail("cannot connect");
        setsockopt(all[number].stream, IPPROTO_TCP, TCP_NODELAY, &on, sizeof on);
        say(&all[number], "USER ann\n");
        hear(&all[number], "welcome ann\n");
    }
    if (speakers == 0) {
        puts("all are there");
        fflush(stdout);
        pause();
    }
    say(&all[0], "CREATE TABLE t (x INTEGER)\n");
    hear(&all[0], "done @");
    struct part *parts = calloc(threads, sizeof *parts);
    uint64_t begin = now(), answered = 0;
    uint64_t *within = calloc(BUCKETS, sizeof *within);
    for (int number = 0; number < threads; number++) {
        int first = speakers * number / threads;
        parts[number] = (struct part){.clients = all + first, .count = speakers * (number + 1) / threads - first,
            .end = begin + length, .within = calloc(BUCKETS, sizeof(uint32_t))};
        pthread_create(&parts[number].thread, NULL, speak, &parts[number]);
    }
    for (int number = 0; number < threads; number++) {
        pthread_join(parts[number].thread, NULL);
        answered += parts[number].answered;
        for (int took = 0; took < BUCKETS; took++)
            within[took] += parts[number].within[took];
    }
    printf("%.0f %.0f %.0f %.0f\n", answered * 1e9 / (now() - begin), percentile(within, answered, 50),
        percentile(within, answered, 99), percentile(within, answered, 99.9));
    return 0;
}
