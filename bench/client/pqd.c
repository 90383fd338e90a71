/* pqd: a pair is `put` and `take`. A client has room for so many calls in a queue, so that a connection goes from queue
 * to queue, and begins at the one of its own number. Where queues are renewed it stays there (`own`), or all
 * connections use one queue (`together`). */
#include "client.h"
#include <stdio.h>

#define QUEUES 8
#define CALLS_A_QUEUE 4096

/* One connection creates the queues; the others begin when it has its replies. */
static int create(const struct lane *lane, int queues, char *text)
{
    int length = 0;
    if (lane->client != 0)
        return 0;
    for (int queue = 0; queue < queues; queue++)
        length += sprintf(text + length, "{\"op\":\"create\",\"queue\":\"q%d\",\"kind\":\"durable\"}\n", queue);
    return queues;
}

static int greeting(const struct lane *lane, char *text)
{
    return create(lane, QUEUES, text);
}

static int greeting_together(const struct lane *lane, char *text)
{
    return create(lane, 1, text);
}

static size_t request_in(struct lane *lane, int queue, char *text)
{
    if (lane->puts != lane->takes) {
        lane->takes++;
        return sprintf(text, "{\"op\":\"take\",\"client\":%d,\"queue\":\"q%d\"}\n", lane->client, queue);
    }
    if (lane->puts == lane->pairs)
        return 0;
    return sprintf(text, "{\"op\":\"put\",\"client\":%d,\"queue\":\"q%d\",\"value\":\"%08lx\"}\n", lane->client, queue,
        lane->puts++);
}

static size_t request(struct lane *lane, char *text)
{
    long calls = lane->puts + lane->takes;
    return request_in(lane, (lane->client + calls / CALLS_A_QUEUE) % QUEUES, text);
}

static size_t request_own(struct lane *lane, char *text)
{
    return request_in(lane, lane->client % QUEUES, text);
}

static size_t request_together(struct lane *lane, char *text)
{
    return request_in(lane, 0, text);
}

static ssize_t reply(struct lane *lane, const char *bytes, size_t length)
{
    size_t line = line_length(bytes, length);
    (void)lane;
    if (line == 0)
        return 0;
    if (begins(bytes, line, "{\"reply\":\"done\"}") || begins(bytes, line, "{\"got\":")
        || begins(bytes, line, "{\"reply\":\"created\""))
        return line;
    return -1;
}

const struct protocol pqd = { "pqd", 2, greeting, request, reply };
const struct protocol own = { "own", 2, greeting, request_own, reply };
const struct protocol together = { "together", 2, greeting_together, request_together, reply };
