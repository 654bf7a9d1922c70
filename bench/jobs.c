// The jobs on which deciding is timed.
#include <string.h>
#include "decide.h"

// A job of the worst family: columns a to p, evenly in its tables. For each column stand its bounds: from 0 to a digit, - for
// the widest up to 0, * for the widest. The stored columns are those from `stored` on, and the query's output is one column.
struct worst {
    const char *name;
    uint8_t tables;
    const char *bounds;
    char stored, output;
    const char *extract[4], *query[4];
};

// In all of them each clause of the query implies the extract's condition, and together they cover it, so that every
// choice has to be refuted; but what refutes it shows only after other clauses are broken, in every way that they have.
//
// Two clauses: the extract has a<=b. Then one of the query's last two clauses holds, since breaking both takes a>0 together
// with b<1 or a<b; but each alone can be broken, so looking ahead at single clauses sees nothing. The first two imply a<=0
// by a low column, and each of their 12 ways to be broken stays possible whatever else is chosen. Broken in the order in which
// they stand, they would take 12 zones and then 144 for each clause of the extract with each of the query, and no job can need
// more: with three clauses broken, looking ahead at the fourth is exact.
#define A_TO_B \
    {"a<=b a<=b a<=b a<=b a<=b a<=b", "a<=b n=o o=p n=p n=o o=p", "a<=b n=o n=o n=o n=o n=o", "a<=b o=p o=p o=p o=p o=p"}
#define STAR "a=c c=d c=e c=f c=g c=h"
#define LOW "a<=0 a<=0 a<=0 a<=0 a<=0 a<=0"
#define TWO_COVER A_TO_B, {STAR, "a=i i=d i=j i=k i=l i=m", LOW, "a=b b=1 a=b b=1 a=b b=1"}
#define ALL_AT_MOST "c<=a c<=b d<=a d<=b"

static const struct worst family[] = {
    {"two clauses cover", 1, "*1*-************", 'p', 'p', TWO_COVER},
    {"an output differs", 1, "*1*-************", 'p', 'e', TWO_COVER},
    {"four tables", 4, "*1*-************", 'n', 'p', TWO_COVER},
    // the extract's clauses do the same by c<=d, so that the search for a row outside the extract is as long
    {"both searches", 1, "*1*1************", 'p', 'p',
        {"a=k k=b c=l l=0 m=n o=p", "a=m m=b c=n n=0 k=o l=p", "a<=b c<=0 c<=0 c<=0 c<=0 c<=0", "a<=b c=d d=1 c=d d=1 c=d"},
        {"a=e e=0 c=f f=d g=h i=j", "a=g g=0 c=h h=d e=i f=j", "c<=d a<=0 a<=0 a<=0 a<=0 a<=0", "c<=d a=b b=1 a=b b=1 a=b"}},
    // a and b are equal, or c and d are: 12 ways of one clause, each looked at with 8 of the other
    {"many ways", 1, "1111************", 'p', 'p',
        {ALL_AT_MOST " c<=a d<=b", ALL_AT_MOST " c<=b d<=a", ALL_AT_MOST " c<=a d<=a", "a=b a=b a=b a=b a=b a=b"},
        {"a=e e=b f=g h=i j=k l=m", "a=n n=b f=o g=j h=k i=l", "a=b a=b a=b a=b a=b a=b", "c<=a c<=b c=d c=d c=d c=d"}},
    // the same with 8 possible ways in each clause, so that no order of the clauses is better than another
    {"eight ways each", 1, "1111*-**********", 'p', 'p',
        {ALL_AT_MOST " c<=a d<=b", ALL_AT_MOST " n=o o=p", ALL_AT_MOST " n=p o=p", ALL_AT_MOST " l=m m=n"},
        {"c<=a c<=b c=e d=e e=f g=h", "d<=a d<=b c=i d=i i=f j=k", "c<=a d<=a a=b a=b a=b a=b",
            "c<=a c<=b c=d c=d c=d c=d"}},
    // a<=b, but only where the other of the two rows has o=p, which are stored
    {"by the other row", 1, "*1*-**********11", 'o', 'p',
        {"a<=o p<=b a<=o p<=b a<=o p<=b", "a<=o p<=b m=n m=n m=n m=n", "a<=o p<=b m=o m=o m=o m=o",
            "a<=o p<=b n=p n=p n=p n=p"},
        {"o=p a=e e=d p=f f=b g=h", "o=p a=i i=d p=j j=b k=l", "o=p p<=b a<=0 a<=0 a<=0 a<=0", "o=p a<=o b=1 b=1 b=1 b=1"}},
    // b up to 2: a<=0, or b is 2, or both are 1; no two of the three cover
    {"three clauses cover", 1, "*2*-************", 'p', 'p', A_TO_B,
        {STAR, LOW, "a<=b b=2 b=2 b=2 b=2 b=2", "a=1 b=1 a=1 b=1 a=1 b=1"}},
    // b up to 3: a<=0, or b is 3, or a is 1, or b is 2; no three of the four cover
    {"four clauses cover", 1, "*3*-************", 'p', 'p', A_TO_B,
        {LOW, "a<=b b=3 b=3 b=3 b=3 b=3", "a<=b a=1 a=1 a=1 a=1 a=1", "a<=b b=2 b=2 b=2 b=2 b=2"}},
    // The same padded with comparisons of columns that are always 0: no row breaks these, so how many comparisons a clause has
    // says nothing of how many ways lead on.
    {"two, padded", 1, "*1*-****00000***", 'p', 'p', A_TO_B,
        {"a=c c=d c=e c=f c=g c<=h", "a=n n=d n=e n=f n=g n<=h", "a<=0 i=0 j=0 k=0 l=0 m=0", "a=b b=1 i=0 j=0 k=0 l=0"}},
    {"three, padded", 1, "*2*-****00000***", 'p', 'p', A_TO_B,
        {"a=c c=d c=e c=f c=g c<=h", "a<=0 i=0 j=0 k=0 l=0 m=0", "a<=b b=2 i=0 j=0 k=0 l=0", "a=1 b=1 i=0 j=0 k=0 l=0"}},
    {"eight ways, padded", 1, "1111*-**00000***", 'p', 'p',
        {ALL_AT_MOST " c<=a d<=b", ALL_AT_MOST " n=o o=p", ALL_AT_MOST " n=p o=p", ALL_AT_MOST " g=h h=n"},
        {"c<=a c<=b c=e d=e e=f g=h", "d<=a d<=b c=n d=n n=f n=o", "c<=a d<=a a=b i=0 j=0 k=0", "c<=a c<=b c=d i=0 j=0 k=0"}},
    // padded with comparisons of all sorts
    {"padded, p output", 1, "32*-1***00000*2-", 'p', 'p',
        {"a<=b o=p h=n b=f o=p", "a<=b h=o n=o a=c e=g f=c", "l=0 a<=b a<=b a<=b n=n m=i", "a<=b g=j o=p n=o h>2 o=c"},
        {"a<=0 i=0 i=l k=0 k<=1", "a=1 b=1 i=0 j=0 j=0", "a<=b b=2 k=0 j=0", "a=c c=d e=g c=f n=o c<=h"}},
    {"padded, c output", 1, "-123*-31*2**-***", 'p', 'c',
        {"c<=a c=k i=3 c=d h=n c<=m", "c=m o=1 k=g p=1 c=d d<=a", "c=k e=b d=l c<=a o<=a c=d", "c<=a c=d c<=a c=d"},
        {"c<=a k=g i=c d=e e=f h=n", "h=f c<=i c=d d<=a b=o e=d", "c<=a d<=a c=d", "c=o d<=a c=i n=a l=h c<=m"}},
};

static void put(struct bytes *job, uint8_t byte)
{
    job->list[job->length++] = byte;
}

static void put_number(struct bytes *job, int32_t v)
{
    for (int shift = 0; shift < 32; shift += 8)
        put(job, (uint8_t)((uint32_t)v >> shift));
}

static void put_column(struct bytes *job, int32_t lo, int32_t hi)
{
    put(job, 0x11);
    put_number(job, lo);
    put_number(job, hi);
}

static void start(struct bytes *job)
{
    memcpy(job->list, "PSJ1", 4);
    job->length = 4;
}

// the number of the op that a text begins with, and the text behind it
static uint8_t read_op(const char **text)
{
    static const char *const ops[] = {"<", "<=", "=", ">=", ">"};
    uint8_t op = 0;
    size_t length = strspn(*text, "<=>");
    while (strlen(ops[op]) != length || strncmp(ops[op], *text, length))
        op++;
    *text += length;
    return op;
}

// A clause as it is written above: a column, an op, and a column or a digit, with a space after it.
static void put_clause(struct bytes *job, const char *text)
{
    put(job, 0x40);
    while (*text) {
        uint8_t left = (uint8_t)(*text++ - 'a'), op = read_op(&text);
        bool number = *text < 'a';
        put(job, number ? 0x41 : 0x42);
        put(job, op);
        put(job, left);
        if (number)
            put_number(job, *text - '0');
        else
            put(job, (uint8_t)(*text - 'a'));
        text += text[1] ? 2 : 1;
    }
}

static void put_tables(struct bytes *job, uint8_t count)
{
    for (uint8_t t = 0; t < count; t++) {
        put(job, 0x30);
        put(job, t);
    }
}

// output columns from first to last
static void put_outputs(struct bytes *job, uint8_t first, uint8_t last)
{
    for (uint8_t c = first; c <= last; c++) {
        put(job, 0x31);
        put(job, c);
    }
}

static void put_clauses(struct bytes *job, const char *const *clauses)
{
    for (int k = 0; k < 4; k++)
        put_clause(job, clauses[k]);
}

const char *worst_job(size_t which, struct bytes *job)
{
    if (which == sizeof family / sizeof family[0])
        return NULL;
    const struct worst *w = &family[which];
    start(job);
    for (int c = 0; c < COLUMNS; c++) {
        if (c % (COLUMNS / w->tables) == 0)
            put(job, 0x10);
        char b = w->bounds[c];
        bool narrow = b >= '0' && b <= '9';
        put_column(job, narrow ? 0 : -1000000, narrow ? b - '0' : b == '-' ? 0 : 1000000);
    }
    put(job, 0x20);
    put_tables(job, w->tables);
    put_outputs(job, (uint8_t)(w->stored - 'a'), COLUMNS - 1);
    put_clauses(job, w->extract);
    put(job, 0x21);
    put_tables(job, w->tables);
    put_outputs(job, (uint8_t)(w->output - 'a'), (uint8_t)(w->output - 'a'));
    put_clauses(job, w->query);
    put(job, 0xff);
    return w->name;
}

// splitmix64, so that every run has the same jobs
static uint64_t state = 20240601;

static uint8_t draw(uint8_t below)
{
    uint64_t z = (state += 0x9e3779b97f4a7c15);
    z = (z ^ (z >> 30)) * 0xbf58476d1ce4e5b9;
    z = (z ^ (z >> 27)) * 0x94d049bb133111eb;
    return (uint8_t)((z ^ (z >> 31)) % below);
}

// a few comparisons of the first `width` columns with each other or with numbers
static void put_comparisons(struct bytes *job, uint8_t count, uint8_t width)
{
    for (; count; count--) {
        bool number = draw(2);
        put(job, number ? 0x41 : 0x42);
        put(job, draw(5));
        put(job, draw(width));
        if (number)
            put_number(job, draw(50));
        else
            put(job, draw(width));
    }
}

// a clause that begins with the comparisons in `asked`
static void put_asked(struct bytes *job, const struct bytes *asked, uint8_t more, uint8_t width)
{
    put(job, 0x40);
    memcpy(job->list + job->length, asked->list, asked->length);
    job->length += asked->length;
    put_comparisons(job, more, width);
}

// Two to six columns, sometimes in two tables, of which the extract may use the first only. Half of the queries ask what
// the extract asks and more of stored columns, as a query does that is meant to be answered from it.
void typical_job(struct bytes *job)
{
    uint8_t width = 2 + draw(5), cut = draw(4) ? width : 1 + draw(width - 1);
    bool joined = cut < width, narrower = joined && !draw(3);
    uint8_t seen = narrower ? cut : width, stored = 1 + draw(seen);
    struct bytes asked = {0}, nothing = {0};
    start(job);
    for (uint8_t c = 0; c < width; c++) {
        if (c == 0 || c == cut)
            put(job, 0x10);
        put_column(job, 0, 10 + draw(90));
    }
    put_comparisons(&asked, draw(3), seen);
    bool meant = draw(2);
    uint8_t clauses = meant ? 1 : 1 + draw(2), output = draw(meant ? stored : width);
    put(job, 0x20);
    put_tables(job, 1 + (joined && !narrower));
    put_outputs(job, 0, stored - 1);
    for (uint8_t k = 0; k < clauses; k++)
        put_asked(job, meant ? &asked : &nothing, meant ? 0 : draw(3), seen);
    put(job, 0x21);
    put_tables(job, 1 + joined);
    put_outputs(job, output, output);
    for (uint8_t k = 0; k < clauses; k++)
        put_asked(job, meant ? &asked : &nothing, draw(3), meant ? stored : width);
    put(job, 0xff);
}
