/* redis: a pair is `RPUSH` and `LPOP` on a list that the connection has for itself. */
#include "client.h"
#include <stdio.h>
#include <stdlib.h>
#include <string.h>

static int greeting(const struct lane *lane, char *text)
{
    sprintf(text, "DEL q%d\r\n", lane->client);
    return 1;
}

static size_t request(struct lane *lane, char *text)
{
    char value[24];
    if (lane->puts != lane->takes) {
        lane->takes++;
        return sprintf(text, "*2\r\n$4\r\nLPOP\r\n$3\r\nq%02d\r\n", lane->client);
    }
    if (lane->puts == lane->pairs)
        return 0;
    sprintf(value, "%ld", lane->puts++);
    return sprintf(text, "*3\r\n$5\r\nRPUSH\r\n$3\r\nq%02d\r\n$%zu\r\n%s\r\n", lane->client, strlen(value), value);
}

static ssize_t reply(struct lane *lane, const char *bytes, size_t length)
{
    size_t line = line_length(bytes, length);
    (void)lane;
    if (line == 0)
        return 0;
    if (bytes[0] == ':')
        return line;
    if (bytes[0] != '$' || bytes[1] == '-')
        return -1;
    line += strtoul(bytes + 1, NULL, 10) + 2;
    return line <= length ? (ssize_t)line : 0;
}

const struct protocol redis = { "redis", 2, greeting, request, reply };
