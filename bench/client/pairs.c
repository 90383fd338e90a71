/* pairs PROTOCOL PORT CONNECTIONS IN-FLIGHT PAIRS SECONDS PID
 *
 * Makes pairs of a put and a take on the loopback, at most so many on each connection and for at most so many seconds,
 * with so many requests in flight on each. Each connection has a thread. Prints pairs a second, the 50th, 99th and
 * 99.9th percentile of a request's latency in microseconds, microseconds of processor time a pair of the process PID,
 * and the longest latency in microseconds. */
#include "client.h"
#include <arpa/inet.h>
#include <netinet/tcp.h>
#include <pthread.h>
#include <stdint.h>
#include <stdio.h>
#include <stdlib.h>
#include <string.h>
#include <sys/socket.h>
#include <time.h>
#include <unistd.h>

#define MOST_CONNECTIONS 16

struct connection {
    struct lane lane;
    const struct protocol *protocol;
    int socket, most_in_flight;
    int64_t stop_at;               /* when no more pairs are begun */
    char input[65536];
    size_t held;                   /* bytes of the input that are no whole reply yet */
    int64_t sent[MOST_IN_FLIGHT];  /* when each request in flight was sent: a ring */
    long asked, replied;
    uint32_t *latencies;           /* nanoseconds, of each reply */
};

static void fail(const char *why)
{
    fprintf(stderr, "pairs: %s\n", why);
    exit(1);
}

static int64_t nanoseconds(clockid_t clock)
{
    struct timespec time;
    if (clock_gettime(clock, &time) != 0)
        fail("no such clock: has the server ended?");
    return time.tv_sec * INT64_C(1000000000) + time.tv_nsec;
}

static int64_t now(void)
{
    return nanoseconds(CLOCK_MONOTONIC);
}

size_t line_length(const char *bytes, size_t length)
{
    const char *newline = memchr(bytes, '\n', length);
    return newline ? (size_t)(newline - bytes) + 1 : 0;
}

int begins(const char *bytes, size_t length, const char *text)
{
    return length >= strlen(text) && memcmp(bytes, text, strlen(text)) == 0;
}

/* Connects, and tries again for ten seconds where the server does not listen yet. */
static int connected(int port)
{
    struct sockaddr_in address = { .sin_family = AF_INET, .sin_port = htons(port) };
    int64_t until = now() + INT64_C(10000000000);
    int yes = 1;
    address.sin_addr.s_addr = htonl(INADDR_LOOPBACK);
    while (now() < until) {
        int made = socket(AF_INET, SOCK_STREAM, 0);
        if (connect(made, (struct sockaddr *)&address, sizeof address) == 0) {
            setsockopt(made, IPPROTO_TCP, TCP_NODELAY, &yes, sizeof yes);
            return made;
        }
        close(made);
        usleep(10000);
    }
    fail("no connection");
    return -1;
}

static void send_all(int socket, const char *text, size_t length)
{
    while (length > 0) {
        ssize_t written = write(socket, text, length);
        if (written <= 0)
            fail("a connection cannot be written");
        text += written;
        length -= written;
    }
}

/* Reads what has come, after what is held, and waits for a byte at least. */
static void receive(struct connection *c)
{
    ssize_t n = read(c->socket, c->input + c->held, sizeof c->input - c->held - 1);
    if (n <= 0)
        fail("the server ended a connection");
    c->held += n;
    c->input[c->held] = 0;
}

/* How long the reply at this place of the input is; 0 where it is not whole yet. */
static size_t reply_at(struct connection *c, size_t place)
{
    ssize_t length = c->protocol->reply(&c->lane, c->input + place, c->held - place);
    if (length < 0) {
        fprintf(stderr, "pairs: a wrong reply of %s: %.*s\n", c->protocol->name, (int)(c->held - place),
            c->input + place);
        exit(1);
    }
    return length;
}

static void drop_input(struct connection *c, size_t used)
{
    c->held -= used;
    memmove(c->input, c->input + used, c->held);
}

/* Takes each whole reply that has come, and notes how long it took. */
static void take_replies(struct connection *c)
{
    int64_t came = now();
    size_t place = 0, length;
    while ((length = reply_at(c, place)) > 0) {
        c->latencies[c->replied] = came - c->sent[c->replied % MOST_IN_FLIGHT];
        c->replied++;
        place += length;
    }
    drop_input(c, place);
}

/* Sends requests in one write, until so many are in flight. Whether any is then. */
static int send_requests(struct connection *c)
{
    char text[MOST_IN_FLIGHT * LARGEST];
    size_t length = 0, next = 1;
    int64_t time = now();
    if (time >= c->stop_at)
        c->lane.pairs = c->lane.puts;
    while (c->asked - c->replied < c->most_in_flight && next > 0) {
        next = c->protocol->request(&c->lane, text + length);
        length += next;
        if (next > 0)
            c->sent[c->asked++ % MOST_IN_FLIGHT] = time;
    }
    send_all(c->socket, text, length);
    return c->asked > c->replied;
}

static void *make_pairs(void *of)
{
    struct connection *c = of;
    while (send_requests(c)) {
        receive(c);
        take_replies(c);
    }
    return NULL;
}

/* Sends what a connection sends first, and waits for its replies. */
static void greet(struct connection *c)
{
    char text[LARGEST] = "";
    int wanted = c->protocol->greeting(&c->lane, text);
    send_all(c->socket, text, strlen(text));
    while (wanted > 0) {
        size_t length = reply_at(c, 0);
        if (length == 0)
            receive(c);
        else {
            drop_input(c, length);
            wanted--;
        }
    }
}

static struct connection *new_connection(const struct protocol *protocol, int client, char **words)
{
    struct connection *c = calloc(1, sizeof *c);
    if (!c)
        fail("no memory");
    c->lane.client = client;
    c->lane.pairs = atol(words[5]);
    c->protocol = protocol;
    c->socket = connected(atoi(words[2]));
    c->most_in_flight = atoi(words[4]);
    c->latencies = malloc(c->lane.pairs * protocol->requests * sizeof c->latencies[0]);
    if (!c->latencies || c->most_in_flight < 1 || c->most_in_flight > MOST_IN_FLIGHT)
        fail("no memory, or a bad number");
    greet(c);
    return c;
}

/* Runs all connections to their ends, and answers the nanoseconds that took. */
static int64_t run(struct connection **all, int count, double seconds)
{
    pthread_t threads[MOST_CONNECTIONS];
    int64_t begun = now();
    for (int i = 0; i < count; i++) {
        all[i]->stop_at = begun + (int64_t)(seconds * 1e9);
        if (pthread_create(&threads[i], NULL, make_pairs, all[i]) != 0)
            fail("no thread");
    }
    for (int i = 0; i < count; i++)
        pthread_join(threads[i], NULL);
    return now() - begun;
}

static int compare(const void *one, const void *other)
{
    uint32_t a = *(const uint32_t *)one, b = *(const uint32_t *)other;
    return (a > b) - (a < b);
}

/* All latencies, in order; their count in `count`. */
static uint32_t *sorted(struct connection **all, int connections, long *count)
{
    uint32_t *latencies;
    *count = 0;
    for (int i = 0; i < connections; i++)
        *count += all[i]->replied;
    latencies = malloc((*count + 1) * sizeof *latencies);
    if (!latencies || *count == 0)
        fail("nothing was measured");
    *count = 0;
    for (int i = 0; i < connections; i++) {
        memcpy(latencies + *count, all[i]->latencies, all[i]->replied * sizeof *latencies);
        *count += all[i]->replied;
    }
    qsort(latencies, *count, sizeof *latencies, compare);
    return latencies;
}

static void print(struct connection **all, int connections, int64_t elapsed, int64_t used)
{
    long count, pairs = 0;
    uint32_t *latencies = sorted(all, connections, &count);
    for (int i = 0; i < connections; i++)
        pairs += all[i]->lane.takes;
    printf("%.0f %.1f %.1f %.1f %.2f %.1f\n", pairs * 1e9 / elapsed, latencies[count / 2] / 1e3,
        latencies[count * 99 / 100] / 1e3, latencies[count * 999 / 1000] / 1e3, used / 1e3 / pairs,
        latencies[count - 1] / 1e3);
}

static const struct protocol *protocol_named(const char *name)
{
    const struct protocol *each[] = { &pqd, &own, &together, &redis, &beanstalkd };
    for (int i = 0; i < 5; i++)
        if (strcmp(each[i]->name, name) == 0)
            return each[i];
    fail("no such protocol");
    return NULL;
}

int main(int count, char **words)
{
    struct connection *all[MOST_CONNECTIONS];
    clockid_t server;
    int64_t before, elapsed;
    if (count != 8 || atoi(words[3]) < 1 || atoi(words[3]) > MOST_CONNECTIONS)
        fail("PROTOCOL PORT CONNECTIONS IN-FLIGHT PAIRS SECONDS PID");
    for (int i = 0; i < atoi(words[3]); i++)
        all[i] = new_connection(protocol_named(words[1]), i, words);
    if (clock_getcpuclockid(atoi(words[7]), &server) != 0)
        fail("no such process");
    before = nanoseconds(server);
    elapsed = run(all, atoi(words[3]), atof(words[6]));
    print(all, atoi(words[3]), elapsed, nanoseconds(server) - before);
    return 0;
}
