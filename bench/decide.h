// What bench/decide.c times, and the jobs that it times it on.
#include <stdbool.h>
#include <stddef.h>
#include <stdint.h>

// no job of document 01 has more columns or bytes
enum { COLUMNS = 16, LONGEST = 600 };

struct bytes {
    size_t length;
    uint8_t list[LONGEST];
};

// Reads a job and decides it, with the listing; reads it only. 255 where the job is refused, else the kind, or 0.
uint8_t timed_decide(const uint8_t *job, size_t length);
uint8_t timed_read(const uint8_t *job, size_t length);

struct verdict {
    uint8_t kind, listing[COLUMNS];
    uint64_t choices; // how many there were before the verdict was clear
};

// Decides a job that reading accepts by trying all choices. A sample tries only one in `every`: then it is just the time
// and the number of choices that count.
typedef struct verdict expansion(const uint8_t *job, uint64_t every);

expansion plain_o2, plain_o3;

// The jobs of the worst family, by their names; NULL after the last one.
const char *worst_job(size_t which, struct bytes *job);

// Draws a typical job, the same ones in every run.
void typical_job(struct bytes *job);
