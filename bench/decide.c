// Times verdicts, listing included: the product against an expansion of all choices in C, on the worst jobs known and on
// typical ones. Each figure is the median of several repeats in which all take turns; only a worst job's expansion, which
// takes seconds, is run once, or sampled where it would take too long. Both sides are handed job bytes, and reading them counts.
#include <stdio.h>
#include <stdlib.h>
#include <string.h>
#include <time.h>
#include "decide.h"

enum { REPEATS = 25, CALLS = 10, KINDS = 5, OF_EACH_KIND = 40, SAMPLE = 31, LEVELS = 2 };

static expansion *const expansions[LEVELS] = {plain_o2, plain_o3};

// nanoseconds: what a verdict of the worst family may take, and how long an expansion is waited for
static const double WORST_BAR = 150e3, PATIENCE = 10e9;

// the time of one call each, in nanoseconds
struct times {
    double decide, read, plain[LEVELS];
};

// what one line of the table says
struct line {
    uint8_t kind;
    double choices;
    bool estimated;
    struct times mean;
};

static void fail(const char *what, const char *name)
{
    fprintf(stderr, "bench: %s: %s\n", name, what);
    exit(1);
}

// what this program itself has used: the bars are absolute, so nothing else that the machine does may count
static double now(void)
{
    struct timespec t;
    clock_gettime(CLOCK_PROCESS_CPUTIME_ID, &t);
    return (double)t.tv_sec * 1e9 + (double)t.tv_nsec;
}

static double time_product(uint8_t (*call)(const uint8_t *, size_t), const struct bytes *job, int calls)
{
    double start = now();
    for (int i = 0; i < calls; i++)
        call(job->list, job->length);
    return (now() - start) / calls;
}

static double time_expansion(expansion *call, const struct bytes *job, int calls, uint64_t every, struct verdict *v)
{
    double start = now();
    for (int i = 0; i < calls; i++)
        *v = call(job->list, every);
    return (now() - start) / calls * (double)every;
}

static int ascending(const void *a, const void *b)
{
    double x = *(const double *)a, y = *(const double *)b;
    return (x > y) - (x < y);
}

static double median(double *list)
{
    qsort(list, REPEATS, sizeof *list, ascending);
    return list[REPEATS / 2];
}

static uint8_t kind_of(const struct bytes *job, const char *name)
{
    uint8_t kind = timed_decide(job->list, job->length);
    if (kind == 255 || timed_read(job->list, job->length) == 255)
        fail("the job is refused", name);
    return kind;
}

// the product must say what the expansions say
static void check(const struct bytes *job, const char *name, const struct verdict *v)
{
    for (int l = 0; l < LEVELS; l++)
        if (v[l].kind != kind_of(job, name))
            fail("the kinds differ", name);
    if (memcmp(v[0].listing, v[1].listing, COLUMNS))
        fail("the listings of the two expansions differ", name);
}

// A worst job. Its expansion is sampled first; only where that says that it can be waited for is it run, and checked.
static struct line time_worst(const struct bytes *job, const char *name)
{
    static double decide[REPEATS], read[REPEATS];
    struct line line = {.kind = kind_of(job, name)};
    struct verdict v[LEVELS];
    if (line.kind != 0 && line.kind != 4)
        fail("a choice is possible, so this isn't a worst job", name);
    for (int r = 0; r < REPEATS; r++) {
        decide[r] = time_product(timed_decide, job, 1);
        read[r] = time_product(timed_read, job, CALLS);
    }
    for (int l = 0; l < LEVELS; l++) {
        line.mean.plain[l] = time_expansion(expansions[l], job, 1, SAMPLE, &v[l]);
        line.estimated |= line.mean.plain[l] > PATIENCE;
    }
    if (!line.estimated) {
        for (int l = 0; l < LEVELS; l++)
            line.mean.plain[l] = time_expansion(expansions[l], job, 1, 1, &v[l]);
        check(job, name, v);
    }
    line.choices = (double)v[0].choices;
    line.mean.decide = median(decide);
    line.mean.read = median(read);
    return line;
}

// the typical jobs, and the time of one call each in every repeat
static struct {
    struct bytes job;
    struct verdict verdict;
    double decide[REPEATS], read[REPEATS], plain[LEVELS][REPEATS];
} typical[KINDS * OF_EACH_KIND];

// as many of each kind
static void draw_typical(void)
{
    int count[KINDS] = {0};
    for (int drawn = 0; drawn < KINDS * OF_EACH_KIND;) {
        struct bytes job;
        struct verdict v[LEVELS];
        typical_job(&job);
        for (int l = 0; l < LEVELS; l++)
            v[l] = expansions[l](job.list, 1);
        check(&job, "a typical job", v);
        if (count[v[0].kind]++ >= OF_EACH_KIND)
            continue;
        typical[drawn].job = job;
        typical[drawn++].verdict = v[0];
    }
}

// All jobs take turns in each repeat, so that a spell in which the machine is slow falls on each of them and on few of its repeats.
static void time_typical(void)
{
    struct verdict v;
    for (int r = 0; r < REPEATS; r++)
        for (int i = 0; i < KINDS * OF_EACH_KIND; i++) {
            const struct bytes *job = &typical[i].job;
            typical[i].decide[r] = time_product(timed_decide, job, CALLS);
            typical[i].read[r] = time_product(timed_read, job, CALLS);
            for (int l = 0; l < LEVELS; l++)
                typical[i].plain[l][r] = time_expansion(expansions[l], job, CALLS, 1, &v);
        }
}

// the slowest verdict's time, reading included, and the longest that reading takes by itself
struct slowest {
    double verdict, reading;
};

static void note(struct slowest *slowest, double decide, double read)
{
    if (decide > slowest->verdict)
        slowest->verdict = decide;
    if (read > slowest->reading)
        slowest->reading = read;
}

// Adds up the jobs' medians by kind.
static struct slowest sum_typical(struct line *lines)
{
    struct slowest slowest = {0, 0};
    for (int i = 0; i < KINDS * OF_EACH_KIND; i++) {
        struct line *line = &lines[typical[i].verdict.kind];
        double decide = median(typical[i].decide), read = median(typical[i].read);
        note(&slowest, decide, read);
        line->kind = typical[i].verdict.kind;
        line->choices += (double)typical[i].verdict.choices / OF_EACH_KIND;
        line->mean.decide += decide / OF_EACH_KIND;
        line->mean.read += read / OF_EACH_KIND;
        for (int l = 0; l < LEVELS; l++)
            line->mean.plain[l] += median(typical[i].plain[l]) / OF_EACH_KIND;
    }
    return slowest;
}

// the mean over all kinds, of which there are as many jobs each
static struct times mean_of(const struct line *lines)
{
    struct times mean = {0};
    for (int k = 0; k < KINDS; k++) {
        mean.decide += lines[k].mean.decide / KINDS;
        mean.read += lines[k].mean.read / KINDS;
        for (int l = 0; l < LEVELS; l++)
            mean.plain[l] += lines[k].mean.plain[l] / KINDS;
    }
    return mean;
}

static void print(const char *name, const struct line *line)
{
    const struct times *t = &line->mean;
    printf("%-19s %4d  %7.0f  %8.2f %7.2f  %10.1f %10.1f %c %6.1f %6.1f\n", name, line->kind, line->choices, t->decide / 1e3,
        t->read / 1e3, t->plain[0] / 1e3, t->plain[1] / 1e3, line->estimated ? '~' : ' ', t->plain[0] / t->decide,
        t->plain[1] / t->decide);
    fflush(stdout); // the next line may take a while
}

static bool judge_worst(struct slowest slowest)
{
    bool met = slowest.verdict <= WORST_BAR;
    printf("Worst family: the slowest takes %.1f microseconds, reading included; reading alone takes %.2f at most; %.0f are allowed: "
           "%s.\n", slowest.verdict / 1e3, slowest.reading / 1e3, WORST_BAR / 1e3, met ? "met" : "MISSED");
    return met;
}

static bool judge_typical(struct times mean, struct slowest slowest)
{
    bool met = mean.decide <= mean.plain[0];
    printf("Typical jobs: the mean is %.2f microseconds, reading included; reading alone takes %.2f on average; as much as C -O2 takes, "
           "%.2f, is allowed: %s.\n", mean.decide / 1e3, mean.read / 1e3, mean.plain[0] / 1e3, met ? "met" : "MISSED");
    printf("The slowest of them takes %.1f microseconds; reading alone takes %.2f at most.\n", slowest.verdict / 1e3,
        slowest.reading / 1e3);
    return met;
}

int main(void)
{
    struct line lines[KINDS] = {0};
    struct bytes job;
    const char *name;
    struct slowest worst = {0, 0};
    bool sampled = false;
    printf("Microseconds per verdict with its listing, reading included; medians of %d repeats, with typical jobs the\n"
           "mean of %d jobs' medians. C tries all choices; ratio: C to Rattle.\n\n", REPEATS, OF_EACH_KIND);
    printf("%-19s kind  choices  %8s %7s  %10s %10s   %6s %6s\n", "job", "Rattle", "reading", "C -O2", "C -O3", "by -O2",
        "by -O3");
    for (size_t i = 0; (name = worst_job(i, &job)); i++) {
        struct line line = time_worst(&job, name);
        note(&worst, line.mean.decide, line.mean.read);
        sampled |= line.estimated;
        print(name, &line);
    }
    draw_typical();
    time_typical();
    struct slowest usual = sum_typical(lines);
    for (int k = 0; k < KINDS; k++)
        print("typical jobs", &lines[k]);
    printf("\nRattle and C gave the same kinds.\n");
    if (sampled)
        printf("With ~ the time of C is estimated from one in %d choices, and its kind isn't known.\n", SAMPLE);
    bool met = judge_worst(worst);
    met &= judge_typical(mean_of(lines), usual);
    return !met;
}
