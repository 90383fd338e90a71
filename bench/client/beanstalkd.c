/* beanstalkd: a pair is `put`, `reserve` and `delete` of a job, in a tube that the connection has for itself. A
 * `delete` names its job, so that it waits for the reply of its `reserve`. */
#include "client.h"
#include <stdio.h>
#include <stdlib.h>
#include <string.h>

static int greeting(const struct lane *lane, char *text)
{
    sprintf(text, "use q%d\r\nwatch q%d\r\nignore default\r\n", lane->client, lane->client);
    return 3;
}

static size_t delete_oldest(struct lane *lane, char *text)
{
    size_t length = sprintf(text, "delete %ld\r\n", lane->jobs[0]);
    lane->job_count--;
    memmove(lane->jobs, lane->jobs + 1, lane->job_count * sizeof lane->jobs[0]);
    return length;
}

static size_t request(struct lane *lane, char *text)
{
    char value[24];
    if (lane->job_count > 0)
        return delete_oldest(lane, text);
    if (lane->puts != lane->takes) {
        lane->takes++;
        return sprintf(text, "reserve\r\n");
    }
    if (lane->puts == lane->pairs)
        return 0;
    sprintf(value, "%ld", lane->puts++);
    return sprintf(text, "put 0 0 60 %zu\r\n%s\r\n", strlen(value), value);
}

/* `RESERVED ID BYTES`, and the job's bytes behind it. */
static ssize_t reserved(struct lane *lane, const char *bytes, size_t line, size_t length)
{
    char *end;
    long job = strtol(bytes + strlen("RESERVED "), &end, 10);
    line += strtoul(end, NULL, 10) + 2;
    if (line > length)
        return 0;
    lane->jobs[lane->job_count++] = job;
    return line;
}

static ssize_t reply(struct lane *lane, const char *bytes, size_t length)
{
    size_t line = line_length(bytes, length);
    if (line == 0)
        return 0;
    if (begins(bytes, line, "RESERVED "))
        return reserved(lane, bytes, line, length);
    if (begins(bytes, line, "INSERTED ") || begins(bytes, line, "DELETED") || begins(bytes, line, "USING ")
        || begins(bytes, line, "WATCHING "))
        return line;
    return -1;
}

const struct protocol beanstalkd = { "beanstalkd", 3, greeting, request, reply };
