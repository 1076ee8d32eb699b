/* The load of bench/serve: connections that send one request again and again and read its replies, to any peer on the loopback
 * whose replies end with a fixed text; and the emptiest peer there is, to see what the load itself costs.
 *
 *   serve_load ask PORT CONNECTIONS IN_FLIGHT SECONDS MOST FIRST LINES REQUEST ENDING
 *     Each connection sends FIRST once, whose replies are LINES lines. Then it sends REQUEST so many times in one write and
 *     reads all replies to it, until the time is over or MOST requests were answered. Prints a line of numbers: requests,
 *     seconds, the median and the 99th percentile of the nanoseconds of one such turn, and seconds of the processor; behind
 *     that line stands the first reply.
 *   serve_load empty PORT ENDING REPLY
 *     Answers each request, which ends with ENDING, by REPLY, until it is killed.
 *
 * FIRST, REQUEST, ENDING and REPLY are texts with \n and \r for these bytes. */
#define _GNU_SOURCE
#include <arpa/inet.h>
#include <errno.h>
#include <netinet/tcp.h>
#include <pthread.h>
#include <stdint.h>
#include <stdio.h>
#include <stdlib.h>
#include <string.h>
#include <sys/resource.h>
#include <sys/socket.h>
#include <time.h>
#include <unistd.h>

enum { ROOM = 1 << 16, CONNECTIONS = 64, TURNS = 1 << 20 };

struct text {
    char bytes[4096];
    size_t len;
};

/* one connection, and what it measured */
struct talk {
    pthread_t thread;
    int socket;
    long asked;
    long turns;
    uint32_t *spent;
};

static struct text first, request, ending, answer;
static int port, in_flight;
static double limit;
static long most, first_lines;
static char first_reply[512];
static pthread_barrier_t ready;

static void fail(const char *what) {
    fprintf(stderr, "serve_load: %s: %s\n", what, strerror(errno));
    exit(1);
}

static double now(void) {
    struct timespec t;
    clock_gettime(CLOCK_MONOTONIC, &t);
    return (double)t.tv_sec + (double)t.tv_nsec / 1e9;
}

static void read_text(struct text *to, const char *spelled) {
    for (to->len = 0; *spelled; spelled++) {
        char byte = *spelled;
        if (byte == '\\' && (spelled[1] == 'n' || spelled[1] == 'r')) {
            byte = *++spelled == 'n' ? '\n' : '\r';
        }
        if (to->len == sizeof to->bytes) fail("a text is too long");
        to->bytes[to->len++] = byte;
    }
}

static void send_all(int to, const char *bytes, size_t len) {
    while (len > 0) {
        ssize_t sent = send(to, bytes, len, MSG_NOSIGNAL);
        if (sent <= 0) fail("send");
        bytes += sent;
        len -= (size_t)sent;
    }
}

/* How many endings stand in these bytes; what may be the front of one more is kept for the next call. */
static long count_endings(char *held, size_t *len) {
    long count = 0;
    char *at = held, *found, *end = held + *len;
    while ((found = memmem(at, (size_t)(end - at), ending.bytes, ending.len))) {
        count++;
        at = found + ending.len;
    }
    size_t rest = (size_t)(end - at);
    if (rest >= ending.len) rest = ending.len - 1;
    memmove(held, end - rest, rest);
    *len = rest;
    return count;
}

/* The bytes that come, until so many lines are there and this ending. */
static size_t read_reply(int from, char *to, long lines, const struct text *end) {
    size_t len = 0;
    while (lines > 0 || len < end->len || memcmp(to + len - end->len, end->bytes, end->len)) {
        ssize_t got = recv(from, to + len, ROOM - len, 0);
        if (got <= 0) fail("a first reply");
        for (ssize_t i = 0; i < got; i++) lines -= to[len + (size_t)i] == '\n';
        len += (size_t)got;
    }
    return len;
}

static int open_talk(void) {
    struct sockaddr_in to = {.sin_family = AF_INET, .sin_port = htons((uint16_t)port), .sin_addr = {htonl(INADDR_LOOPBACK)}};
    int one = 1, made = socket(AF_INET, SOCK_STREAM, 0);
    if (made < 0 || connect(made, (struct sockaddr *)&to, sizeof to)) fail("connect");
    setsockopt(made, IPPROTO_TCP, TCP_NODELAY, &one, sizeof one);
    return made;
}

/* Sends what comes first, and one request to see its reply. */
static void begin(struct talk *talk, char *room) {
    static const struct text nothing;
    struct timeval patience = {20, 0};
    talk->socket = open_talk();
    setsockopt(talk->socket, SOL_SOCKET, SO_RCVTIMEO, &patience, sizeof patience);
    send_all(talk->socket, first.bytes, first.len);
    read_reply(talk->socket, room, first_lines, &nothing);
    send_all(talk->socket, request.bytes, request.len);
    snprintf(first_reply, sizeof first_reply, "%.*s", (int)read_reply(talk->socket, room, 1, &ending), room);
}

/* One turn: the replies to all requests in flight. */
static void turn(int to, const char *requests, size_t len, char *room) {
    size_t held = 0;
    send_all(to, requests, len);
    for (long missing = in_flight; missing > 0; missing -= count_endings(room, &held)) {
        ssize_t got = recv(to, room + held, ROOM - held, 0);
        if (got <= 0) fail("recv");
        held += (size_t)got;
    }
}

static void *run(void *of) {
    struct talk *talk = of;
    char *room = malloc(ROOM), *requests = malloc(request.len * (size_t)in_flight);
    if (!room || !requests) fail("malloc");
    for (int i = 0; i < in_flight; i++) memcpy(requests + request.len * (size_t)i, request.bytes, request.len);
    begin(talk, room);
    pthread_barrier_wait(&ready);
    double before = now(), end = before + limit;
    while (before < end && talk->asked + in_flight <= most) {
        turn(talk->socket, requests, request.len * (size_t)in_flight, room);
        double behind = now();
        talk->asked += in_flight;
        if (talk->turns < TURNS) talk->spent[talk->turns++] = (uint32_t)((behind - before) * 1e9);
        before = behind;
    }
    close(talk->socket);
    return NULL;
}

static int compare(const void *a, const void *b) {
    uint32_t x = *(const uint32_t *)a, y = *(const uint32_t *)b;
    return (x > y) - (x < y);
}

static void ask(int connections) {
    static struct talk talks[CONNECTIONS];
    long asked = 0, turns = 0;
    pthread_barrier_init(&ready, NULL, (unsigned)connections + 1);
    for (int i = 0; i < connections; i++) {
        talks[i].spent = malloc(TURNS * sizeof *talks[i].spent);
        if (!talks[i].spent || pthread_create(&talks[i].thread, NULL, run, &talks[i])) fail("a thread");
    }
    pthread_barrier_wait(&ready);
    double start = now();
    for (int i = 0; i < connections; i++) pthread_join(talks[i].thread, NULL);
    double seconds = now() - start;
    uint32_t *all = malloc((size_t)connections * TURNS * sizeof *all);
    if (!all) fail("malloc");
    for (int i = 0; i < connections; i++) {
        memcpy(all + turns, talks[i].spent, (size_t)talks[i].turns * sizeof *all);
        asked += talks[i].asked;
        turns += talks[i].turns;
    }
    if (!turns) fail("not one turn");
    qsort(all, (size_t)turns, sizeof *all, compare);
    struct rusage used;
    getrusage(RUSAGE_SELF, &used);
    double processor = (double)(used.ru_utime.tv_sec + used.ru_stime.tv_sec) + (double)(used.ru_utime.tv_usec + used.ru_stime.tv_usec) / 1e6;
    printf("%ld %.6f %u %u %.6f\n%s\n", asked, seconds, all[turns / 2], all[turns - 1 - turns / 100], processor, first_reply);
}

static void *serve(void *of) {
    int from = (int)(intptr_t)of;
    char *room = malloc(ROOM), *replies = malloc(answer.len * ROOM);
    if (!room || !replies) fail("malloc");
    for (size_t i = 0; i < ROOM; i++) memcpy(replies + i * answer.len, answer.bytes, answer.len);
    size_t held = 0;
    for (ssize_t got; (got = recv(from, room + held, ROOM - held, 0)) > 0;) {
        held += (size_t)got;
        send_all(from, replies, answer.len * (size_t)count_endings(room, &held));
    }
    free(room);
    free(replies);
    close(from);
    return NULL;
}

static void answer_all(void) {
    struct sockaddr_in at = {.sin_family = AF_INET, .sin_port = htons((uint16_t)port), .sin_addr = {htonl(INADDR_LOOPBACK)}};
    int one = 1, door = socket(AF_INET, SOCK_STREAM, 0);
    if (door < 0 || bind(door, (struct sockaddr *)&at, sizeof at) || listen(door, 128)) fail("bind");
    for (int from; (from = accept(door, NULL, NULL)) >= 0;) {
        pthread_t thread;
        setsockopt(from, IPPROTO_TCP, TCP_NODELAY, &one, sizeof one);
        if (pthread_create(&thread, NULL, serve, (void *)(intptr_t)from)) fail("a thread");
        pthread_detach(thread);
    }
}

int main(int count, char **words) {
    if (count == 11 && !strcmp(words[1], "ask")) {
        int connections = atoi(words[3]);
        port = atoi(words[2]);
        in_flight = atoi(words[4]);
        limit = atof(words[5]);
        most = atol(words[6]);
        read_text(&first, words[7]);
        first_lines = atol(words[8]);
        read_text(&request, words[9]);
        read_text(&ending, words[10]);
        if (connections < 1 || connections > CONNECTIONS || in_flight < 1 || !ending.len) return 2;
        ask(connections);
        return 0;
    }
    if (count == 5 && !strcmp(words[1], "empty")) {
        port = atoi(words[2]);
        read_text(&ending, words[3]);
        read_text(&answer, words[4]);
        answer_all();
        return 0;
    }
    fprintf(stderr, "serve_load: see the first lines of serve_load.c\n");
    return 2;
}
