/* A client that makes pairs of a put and a take on a queue, by one of several protocols. */
#ifndef CLIENT_H
#define CLIENT_H

#include <stddef.h>
#include <sys/types.h>

/* More bytes than any request or reply has. */
#define LARGEST 512

/* Most requests that are in flight on a connection. */
#define MOST_IN_FLIGHT 256

/* What a protocol remembers of a connection. */
struct lane {
    int client;                /* the connection's number, from 0 */
    long pairs;                /* how many it is to make */
    long puts, takes;          /* requests made so far */
    long jobs[MOST_IN_FLIGHT]; /* beanstalkd: jobs that are reserved and not deleted yet, the oldest first */
    int job_count;
};

struct protocol {
    const char *name;
    /* How many requests a pair has. */
    int requests;
    /* Writes what a connection sends first, and answers how many replies that has. */
    int (*greeting)(const struct lane *lane, char *text);
    /* Writes the next request and answers its length; 0 where there is none, or none before another reply. */
    size_t (*request)(struct lane *lane, char *text);
    /* The length of the reply that the bytes begin with; 0 where it is not whole yet; -1 where it is a wrong one. */
    ssize_t (*reply)(struct lane *lane, const char *bytes, size_t length);
};

extern const struct protocol pqd, own, together, redis, beanstalkd;

/* The length of the line that the bytes begin with, its newline included; 0 where it has no newline yet. */
size_t line_length(const char *bytes, size_t length);

/* Whether the bytes begin with the text. */
int begins(const char *bytes, size_t length, const char *text);

#endif
