// Times one constraint more on a zone: zone::constrain against the same update in C, on the same constraints. Each figure
// is the median of several repeats, in which the three take turns, so that whatever else the machine does hits all of them.
#include <stdio.h>
#include <stdlib.h>
#include <string.h>
#include <time.h>
#include "zone.h"

enum { SEQUENCES = 100, LONGEST = 96, REPEATS = 25, UPDATES = 3 };

static update *const updates[UPDATES] = {timed_constrain, plain_o2, plain_o3};
static const char *const names[UPDATES] = {"Rattle", "C -O2", "C -O3"};

struct constraint {
    size_t left, right;
    uint64_t most;
};

// constraints of one box, all of which some row obeys
struct sequence {
    size_t length;
    struct constraint list[LONGEST];
};

static struct sequence all[SEQUENCES], changing[SEQUENCES];

// splitmix64, so that every run has the same constraints
static uint64_t state = 20240601;

static uint64_t draw(uint64_t below)
{
    uint64_t z = (state += 0x9e3779b97f4a7c15);
    z = (z ^ (z >> 30)) * 0xbf58476d1ce4e5b9;
    z = (z ^ (z >> 27)) * 0x94d049bb133111eb;
    return (z ^ (z >> 31)) % below;
}

// the box of n - 1 columns whose values are from -reach to reach
static void set_box(uint64_t *d, size_t n, uint64_t reach)
{
    for (size_t i = 0; i < n; i++)
        for (size_t j = 0; j < n; j++)
            d[i * STRIDE + j] = i == j ? LEVEL : LEVEL + (i ? reach : 0) + (j ? reach : 0);
}

// A constraint that the row x obeys: one in four is with node 0; one in four holds with nothing to spare, most with a
// little, and one in four with so much that it is often no news.
static struct constraint draw_constraint(const uint64_t *x, size_t n, uint64_t reach)
{
    struct constraint c;
    c.left = draw(4) ? 1 + draw(n - 1) : 0;
    do
        c.right = c.left && !draw(8) ? 0 : 1 + draw(n - 1);
    while (c.right == c.left);
    uint64_t spare[4] = {0, reach / 16, reach / 4, 2 * reach};
    c.most = LEVEL + x[c.left] - x[c.right] + draw(1 + spare[draw(4)]);
    return c;
}

static void fail(const char *what, size_t n)
{
    fprintf(stderr, "bench: %s at %zu columns\n", what, n - 1);
    exit(1);
}

// Applies a constraint by each update to a zone of its own, and aborts unless all say and leave the same.
static bool apply_by_each(uint64_t zones[UPDATES][SIZE], size_t n, struct constraint c)
{
    bool first = updates[0](zones[0], n, c.left, c.right, c.most);
    for (int u = 1; u < UPDATES; u++) {
        if (updates[u](zones[u], n, c.left, c.right, c.most) != first)
            fail("the answers differ", n);
        if (memcmp(zones[u], zones[0], sizeof zones[0]))
            fail("the zones differ", n);
    }
    return first;
}

// a constraint that no row of the zone obeys is refused by each update
static void refuse_by_each(uint64_t zones[UPDATES][SIZE], size_t n)
{
    size_t left = 1 + draw(n - 1);
    struct constraint c = {left, 0, 2 * LEVEL - zones[0][left] - 1};
    if (apply_by_each(zones, n, c))
        fail("a constraint that no row obeys is allowed", n);
}

// Draws a sequence, and copies those of its constraints that change the zone, which do so without the others too.
static void draw_sequence(size_t s, size_t n, uint64_t reach)
{
    static uint64_t zones[UPDATES][SIZE], old[SIZE];
    uint64_t x[STRIDE] = {BIAS};
    for (size_t i = 1; i < n; i++)
        x[i] = BIAS - reach + draw(2 * reach + 1);
    for (int u = 0; u < UPDATES; u++)
        set_box(zones[u], n, reach);
    all[s].length = 3 * (n - 1);
    changing[s].length = 0;
    for (size_t k = 0; k < all[s].length; k++) {
        struct constraint c = all[s].list[k] = draw_constraint(x, n, reach);
        memcpy(old, zones[0], sizeof old);
        if (!apply_by_each(zones, n, c))
            fail("a constraint that a row obeys is refused", n);
        if (memcmp(old, zones[0], sizeof old))
            changing[s].list[changing[s].length++] = c;
    }
    refuse_by_each(zones, n);
}

static double now(void)
{
    struct timespec t;
    clock_gettime(CLOCK_MONOTONIC, &t);
    return (double)t.tv_sec * 1e9 + (double)t.tv_nsec;
}

// nanoseconds per constraint; each sequence begins with the box, whose copying isn't counted
static double time_update(update *u, const struct sequence *sequences, const uint64_t *box, size_t n)
{
    static uint64_t d[SIZE];
    double spent = 0;
    size_t count = 0;
    for (size_t s = 0; s < SEQUENCES; s++) {
        memcpy(d, box, sizeof d);
        double start = now();
        for (size_t k = 0; k < sequences[s].length; k++) {
            struct constraint c = sequences[s].list[k];
            u(d, n, c.left, c.right, c.most);
        }
        spent += now() - start;
        count += sequences[s].length;
    }
    return spent / (double)count;
}

static int ascending(const void *a, const void *b)
{
    double x = *(const double *)a, y = *(const double *)b;
    return (x > y) - (x < y);
}

// One line of the table; whether Rattle takes at most twice the time of the C.
static bool report(const char *what, const struct sequence *sequences, const uint64_t *box, size_t n, uint64_t reach)
{
    static double times[UPDATES][REPEATS];
    double median[UPDATES];
    for (int r = 0; r < REPEATS; r++)
        for (int u = 0; u < UPDATES; u++)
            times[u][r] = time_update(updates[u], sequences, box, n);
    for (int u = 0; u < UPDATES; u++) {
        qsort(times[u], REPEATS, sizeof times[u][0], ascending);
        median[u] = times[u][REPEATS / 2];
    }
    size_t count = 0;
    for (size_t s = 0; s < SEQUENCES; s++)
        count += sequences[s].length;
    printf("%7zu  %7.0e  %-12s %6zu  %8.1f %8.1f %8.1f  %7.2f %7.2f\n", n - 1, (double)reach, what, count, median[0], median[1],
        median[2], median[0] / median[1], median[0] / median[2]);
    return median[0] <= 2 * median[1] && median[0] <= 2 * median[2];
}

int main(void)
{
    static uint64_t box[SIZE];
    const size_t nodes[] = {17, 33};
    const uint64_t reaches[] = {1000000, BIAS};
    bool met = true;
    printf("Nanoseconds per constraint, medians of %d repeats; ratio: %s to C.\n\n", REPEATS, names[0]);
    printf("columns  values±  constraints   count  %8s %8s %8s  to -O2  to -O3\n", names[0], names[1], names[2]);
    for (int i = 0; i < 2; i++)
        for (int j = 0; j < 2; j++) {
            set_box(box, nodes[i], reaches[j]);
            for (size_t s = 0; s < SEQUENCES; s++)
                draw_sequence(s, nodes[i], reaches[j]);
            met &= report("changing", changing, box, nodes[i], reaches[j]);
            met &= report("all", all, box, nodes[i], reaches[j]);
        }
    printf("\nAll three left the same zone after every constraint. Rattle takes %s.\n",
        met ? "at most twice the time of C" : "MORE THAN TWICE THE TIME OF C");
    return !met;
}
