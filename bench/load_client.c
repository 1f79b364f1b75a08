/* One client of bench/load: what it sends, and how its replies are checked and counted. See load.c. */
#include "load.h"
#include <errno.h>
#include <netdb.h>
#include <netinet/in.h>
#include <netinet/tcp.h>
#include <poll.h>
#include <stdio.h>
#include <stdlib.h>
#include <string.h>
#include <sys/socket.h>
#include <unistd.h>

static int bucket(uint64_t value) {
    if (value < 1 << SUB_BITS)
        return (int)value;
    if (value >> DOUBLINGS)
        return BUCKETS - 1;
    int doubling = 63 - __builtin_clzll(value);
    return (doubling - SUB_BITS) * (1 << SUB_BITS) + (int)(value >> (doubling - SUB_BITS));
}

static void count(struct counts *counts, enum class class, uint64_t took) {
    counts->classes[class]++;
    counts->took[bucket(took)]++;
    if ((long)took > counts->most)
        counts->most = (long)took;
}

/* Statements. */

static uint64_t drawn(struct client *client) {
    uint64_t mixed = client->random += 0x9E3779B97F4A7C15;
    mixed = (mixed ^ (mixed >> 30)) * 0xBF58476D1CE4E5B9;
    mixed = (mixed ^ (mixed >> 27)) * 0x94D049BB133111EB;
    return mixed ^ (mixed >> 31);
}

static enum kind drawn_kind(struct client *client) {
    long sum = 0, kind = 0;
    for (long n = 0; n < KINDS; n++)
        sum += mix[n];
    long left = (long)(drawn(client) % (uint64_t)sum);
    while (left >= mix[kind])
        left -= mix[kind++];
    return (enum kind)kind;
}

/* A client's new keys are no other's: they are congruent to its number where it shares its table. */
static long new_key(struct client *client) {
    long at = client->inserted++;
    return rows + (own ? at : at * clients + client->number);
}

static long known_key(struct client *client) {
    long known = rows + client->inserted * (own ? 1 : clients);
    return known ? (long)(drawn(client) % (uint64_t)known) : 0;
}

/* Writes the text of a statement, and gives its length. */
static int write_statement(struct client *client, struct asked *asked, char *text) {
    long key = asked->key = asked->kind == INSERT || asked->kind == RPUSH ? new_key(client) : known_key(client);
    const char *of = client->table;
    switch (asked->kind) {
    case INSERT:
        return sprintf(text, "INSERT INTO %s VALUES ('row %ld', %ld)\n", of, key, key);
    case SELECT:
        return sprintf(text, "SELECT name FROM %s WHERE id = %ld\n", of, key);
    case RANGE:
        return sprintf(text, "SELECT name FROM %s WHERE id >= %ld AND id < %ld\n", of, key, key + width);
    case UPDATE:
        return sprintf(text, "UPDATE %s SET name = 'row %ld v%d' WHERE id = %ld\n", of, key,
            (int)(drawn(client) % 1000000), key);
    case DELETE:
        return sprintf(text, "DELETE FROM %s WHERE id = %ld\n", of, key);
    default:
        return sprintf(text, "*3\r\n$5\r\nRPUSH\r\n$%zu\r\n%s\r\n$10\r\n%010ld\r\n", strlen(of), of, key);
    }
}

void prepare(struct client *client, long size) {
    client->size = size, client->answered = 0, client->written = client->length = 0;
    for (long n = 0; n < size; n++) {
        client->asked[n].kind = drawn_kind(client);
        client->length += write_statement(client, &client->asked[n], client->text + client->length);
    }
}

/* Replies. */

static _Noreturn void fail_reply(const struct client *client, const char *line, const char *why) {
    const struct asked *asked = &client->asked[client->answered];
    fail(client, "`%.200s` is no reply to statement %ld, which is %s of id %ld: %s", line,
        client->sent + client->answered + 1, KIND_NAMES[asked->kind], asked->key, why);
}

/* Reads the moment behind an `@`. In a session moments never fall, and each change has a later one. */
static void take_moment(struct client *client, const char *line, const char *at, int is_change) {
    char *behind;
    long moment = strtol(at, &behind, 10);
    if (behind == at || (*behind && *behind != ':'))
        fail_reply(client, line, "it has no moment");
    if (moment < client->moment + is_change)
        fail_reply(client, line, "its moment is earlier than the replies before it");
    client->moment = moment;
}

static void settle(struct client *client, enum class class, uint64_t at) {
    count(&client->counts[client->asked[client->answered].kind], class, at - client->start);
    client->answered++;
}

/* A reply that says that something was not carried out. */
static int take_other(struct client *client, const char *line, uint64_t at) {
    enum class class = begins(line, "denied @") ? DENIED : begins(line, "error ") ? FAULT : REFUSED;
    if (class == REFUSED && !begins(line, "refused @") && !begins(line, "refused: "))
        return 0;
    const char *moment = class == FAULT ? NULL : strchr(line, '@');
    if (moment && moment[-1] == ' ' && moment - line <= 8)
        take_moment(client, line, moment + 1, 0);
    note_first(class, line);
    settle(client, class, at);
    return 1;
}

/* A row of the statement under way: its name has the id that was asked for. */
static void take_row(struct client *client, const char *line, uint64_t at) {
    const struct asked *asked = &client->asked[client->answered];
    char *behind;
    long last = asked->kind == RANGE ? asked->key + width - 1 : asked->key;
    if (!begins(line, "row,row "))
        fail_reply(client, line, "a row was to come, of a table that bench/load made");
    long id = strtol(line + 8, &behind, 10);
    if ((*behind && *behind != ' ') || id < asked->key || id > last)
        fail_reply(client, line, "its row is none that was asked for");
    if (--client->rows_left == 0)
        settle(client, GOOD, at);
}

static void take_rows(struct client *client, const char *line, uint64_t at) {
    char *behind;
    long wanted = strtol(line + 5, &behind, 10);
    if (behind == line + 5 || wanted < 0 || !begins(behind, " @"))
        fail_reply(client, line, "it does not say how many rows come");
    take_moment(client, line, behind + 2, 0);
    client->rows_left = wanted;
    if (wanted == 0)
        settle(client, GOOD, at);
}

static void take_line(struct client *client, const char *line, uint64_t at) {
    if (client->answered == client->size)
        fail(client, "`%.200s` was sent, and nothing was asked", line);
    enum kind kind = client->asked[client->answered].kind;
    if (client->rows_left) {
        take_row(client, line, at);
    } else if (kind == RPUSH) {
        settle(client, line[0] == ':' ? GOOD : FAULT, at);
    } else if ((kind == SELECT || kind == RANGE) && begins(line, "rows ")) {
        take_rows(client, line, at);
    } else if (kind != SELECT && kind != RANGE && begins(line, "done @")) {
        take_moment(client, line, line + 6, 1);
        settle(client, GOOD, at);
    } else if (!take_other(client, line, at)) {
        fail_reply(client, line, "its first word is none that it can have");
    }
}

/* Takes the whole lines that were read, and keeps what is behind them. */
static void take_lines(struct client *client, uint64_t at) {
    char *line = client->read, *end = client->read + client->filled, *feed;
    pthread_mutex_lock(&client->lock);
    while ((feed = memchr(line, '\n', end - line))) {
        *feed = 0;
        take_line(client, line, at);
        line = feed + 1;
    }
    pthread_mutex_unlock(&client->lock);
    client->filled = end - line;
    if (client->filled == READ_BYTES)
        fail(client, "a line of more than %d bytes was sent", READ_BYTES);
    memmove(client->read, line, client->filled);
}

/* Streams. */

static void read_some(struct client *client) {
    ssize_t got = recv(client->stream, client->read + client->filled, READ_BYTES - client->filled, 0);
    if (got == 0)
        fail(client, "the server ended the session behind %ld replies", client->sent + client->answered);
    if (got < 0 && (errno == EAGAIN || errno == EWOULDBLOCK))
        fail(client, "no reply came within %ld s, behind %ld replies", timeout, client->sent + client->answered);
    if (got < 0 && errno != EINTR)
        fail(client, "cannot read: %s", strerror(errno));
    if (got > 0)
        client->filled += got;
}

/* Writes what it can. While the rest waits, replies are read, or both sides would wait for ever. */
static void write_some(struct client *client) {
    size_t left = client->length - client->written;
    ssize_t put = send(client->stream, client->text + client->written, left, MSG_DONTWAIT | MSG_NOSIGNAL);
    if (put >= 0) {
        client->written += put;
    } else if (errno == EAGAIN || errno == EWOULDBLOCK) {
        struct pollfd watched = {client->stream, POLLIN | POLLOUT, 0};
        if (poll(&watched, 1, (int)timeout * 1000) == 0)
            fail(client, "the server took nothing for %ld s", timeout);
        if (watched.revents & POLLIN) {
            read_some(client);
            take_lines(client, now());
        }
    } else if (errno != EINTR) {
        fail(client, "cannot write: %s", strerror(errno));
    }
}

void exchange(struct client *client) {
    uint64_t at = client->start = now();
    while (client->answered < client->size || client->written < client->length) {
        if (client->written < client->length) {
            write_some(client);
            continue;
        }
        read_some(client);
        take_lines(client, at = now());
    }
    pthread_mutex_lock(&client->lock);
    count(&client->counts[BATCH], GOOD, at - client->start);
    pthread_mutex_unlock(&client->lock);
    client->sent += client->size;
}

/* Connects to the first address of the host that takes it. */
void reach(struct client *client) {
    struct addrinfo wanted = {.ai_socktype = SOCK_STREAM}, *found;
    struct timeval patience = {.tv_sec = timeout};
    char service[16];
    int on = 1, failed, is_there = 0;
    snprintf(service, sizeof service, "%ld", port);
    if ((failed = getaddrinfo(host, service, &wanted, &found)))
        fail(NULL, "cannot find %s: %s", host, gai_strerror(failed));
    for (struct addrinfo *at = found; at && !is_there; at = at->ai_next) {
        client->stream = socket(at->ai_family, SOCK_STREAM, 0);
        is_there = client->stream >= 0 && connect(client->stream, at->ai_addr, at->ai_addrlen) == 0;
        if (!is_there && !at->ai_next)
            fail(client, "cannot connect to %s:%ld: %s", host, port, strerror(errno));
        if (!is_there)
            close(client->stream);
    }
    freeaddrinfo(found);
    setsockopt(client->stream, IPPROTO_TCP, TCP_NODELAY, &on, sizeof on);
    setsockopt(client->stream, SOL_SOCKET, SO_RCVTIMEO, &patience, sizeof patience);
}

void welcome(struct client *client) {
    char line[LONGEST_TEXT];
    size_t length = 0;
    int size = snprintf(line, sizeof line, "USER %s\n", client->user);
    if (send(client->stream, line, size, MSG_NOSIGNAL) != size)
        fail(client, "cannot write: %s", strerror(errno));
    ssize_t got = 0;
    while (length < sizeof line - 1 && (got = recv(client->stream, line + length, 1, 0)) == 1 && line[length] != '\n')
        length++;
    line[length] = 0;
    if (got < 0)
        fail(client, "no welcome came within %ld s", timeout);
    if (got == 0)
        fail(client, "the server ended the session before its welcome");
    if (!begins(line, "welcome "))
        fail(client, "`%s` is no welcome", line);
}

void leave(struct client *client) {
    ssize_t got;
    shutdown(client->stream, SHUT_WR);
    while ((got = recv(client->stream, client->read, READ_BYTES, 0)) < 0 && errno == EINTR)
        continue;
    if (got)
        fail(client, got > 0 ? "something was sent behind the last reply" : "the session did not end");
    close(client->stream);
}
