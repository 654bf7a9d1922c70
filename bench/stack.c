// Measures how much stack reading and deciding a job takes: both run on a stack of their own that was painted before, and
// what is still painted afterwards was never used.
#include <pthread.h>
#include <stdio.h>
#include <stdlib.h>
#include <string.h>
#include "decide.h"

enum { SIZE = 1 << 20, PAINT = 0xa5, TYPICAL = 2000, LIMIT = 80 * 1024 };

static void fail(const char *what)
{
    fprintf(stderr, "bench: %s\n", what);
    exit(1);
}

static void *decide_all(void *unused)
{
    struct bytes job;
    for (size_t i = 0; worst_job(i, &job); i++)
        timed_decide(job.list, job.length);
    for (size_t i = 0; i < TYPICAL; i++) {
        typical_job(&job);
        timed_decide(job.list, job.length);
    }
    return unused;
}

// the same thread without a job: what the thread itself takes
static void *decide_none(void *unused)
{
    timed_decide((const uint8_t *)"", 0);
    return unused;
}

static size_t used(void *(*start)(void *))
{
    unsigned char *stack = NULL;
    pthread_attr_t attributes;
    pthread_t thread;
    if (posix_memalign((void **)&stack, 4096, SIZE))
        fail("no memory");
    memset(stack, PAINT, SIZE);
    if (pthread_attr_init(&attributes) || pthread_attr_setstack(&attributes, stack, SIZE)
        || pthread_create(&thread, &attributes, start, NULL) || pthread_join(thread, NULL))
        fail("no thread");
    size_t left = 0;
    while (left < SIZE && stack[left] == PAINT)
        left++;
    free(stack);
    return SIZE - left;
}

int main(void)
{
    size_t all = used(decide_all), none = used(decide_none);
    printf("Stack, at most: %zu bytes to read and decide a job, %zu to refuse an empty one; %d are allowed: %s.\n", all, none,
           LIMIT, all <= LIMIT ? "met" : "MISSED");
    return all > LIMIT;
}
