// Deciding in plain C by trying every choice: a clause for each condition that is to hold, and for the condition that isn't
// a comparison of each clause, broken in one of its ways. For each choice the matrix of all bounds and comparisons is made
// and closed anew (Floyd and Warshall): no look ahead, nothing shared.
// bench/run builds it once for each level of optimisation, with PLAIN as the function's name.
#include <string.h>
#include "decide.h"

enum { CLAUSES = 4, COMPARISONS = 6, NODES = 2 * COLUMNS + 1, MOST = 6 * COMPARISONS };
enum { LESS, AT_MOST, EQUAL, AT_LEAST, MORE, NUMBER = 255 };

struct comparison {
    uint8_t op, left, right; // right is NUMBER where the column is set against one
    int32_t number;
};

struct expression {
    unsigned tables; // a bit for each that it uses
    size_t width, size, sizes[CLAUSES];
    uint8_t outputs[COLUMNS];
    struct comparison clauses[CLAUSES][COMPARISONS];
};

// node `left` exceeds node `right` by at most `most`
struct constraint {
    size_t left, right;
    int32_t most;
};

// the job; node 0 is zero, first and second give a column's node in each of two rows that agree in the stored columns
static struct expression extract, query;
static size_t columns, nodes, first[COLUMNS], second[COLUMNS];
static int32_t lo[NODES], hi[NODES];
static uint8_t table[COLUMNS];

// what the present choice demands, and the matrix that it leads to
static struct constraint demanded[MOST];
static size_t demands;
static int32_t d[NODES][NODES];
static uint64_t tried, stride;

static int32_t number(const uint8_t *b)
{
    return (int32_t)(b[0] | (uint32_t)b[1] << 8 | (uint32_t)b[2] << 16 | (uint32_t)b[3] << 24);
}

static void read_job(const uint8_t *b)
{
    struct expression *e = &extract;
    uint8_t tables = 0;
    memset(&extract, 0, sizeof extract);
    memset(&query, 0, sizeof query);
    columns = 0;
    for (b += 4; *b != 0xff;) {
        uint8_t command = *b++;
        if (command == 0x10) {
            tables++;
        } else if (command == 0x11) {
            table[columns++] = tables - 1;
            lo[columns] = number(b);
            hi[columns] = number(b + 4);
            b += 8;
        } else if (command == 0x21) {
            e = &query;
        } else if (command == 0x30) {
            e->tables |= 1u << *b++;
        } else if (command == 0x31) {
            e->outputs[e->width++] = *b++;
        } else if (command == 0x40) {
            e->size++;
        } else if (command == 0x41) {
            e->clauses[e->size - 1][e->sizes[e->size - 1]++] = (struct comparison){b[0], b[1], NUMBER, number(b + 2)};
            b += 6;
        } else if (command == 0x42) {
            e->clauses[e->size - 1][e->sizes[e->size - 1]++] = (struct comparison){b[0], b[1], b[2], 0};
            b += 3;
        }
    }
}

// The stored columns share their node in both rows.
static void set_nodes(void)
{
    bool stored[COLUMNS] = {false};
    for (size_t k = 0; k < extract.width; k++)
        stored[extract.outputs[k]] = true;
    nodes = columns + 1;
    for (size_t c = 0; c < columns; c++) {
        first[c] = second[c] = c + 1;
        if (!stored[c]) {
            lo[nodes] = lo[c + 1];
            hi[nodes] = hi[c + 1];
            second[c] = nodes++;
        }
    }
}

static void demand(size_t left, size_t right, int32_t most)
{
    demanded[demands++] = (struct constraint){left, right, most};
}

static void demand_comparison(uint8_t op, const struct comparison *k, const size_t *node)
{
    size_t left = node[k->left], right = k->right == NUMBER ? 0 : node[k->right];
    if (op <= EQUAL)
        demand(left, right, k->number - (op == LESS));
    if (op >= EQUAL)
        demand(right, left, -k->number - (op == MORE));
}

static void demand_clause(const struct expression *e, size_t clause, const size_t *node)
{
    for (size_t k = 0; k < e->sizes[clause]; k++)
        demand_comparison(e->clauses[clause][k].op, &e->clauses[clause][k], node);
}

// Closes the matrix of the first n nodes under what is demanded; false where nothing meets it.
static bool possible(size_t n)
{
    if (tried++ % stride)
        return false;
    for (size_t i = 0; i < n; i++)
        for (size_t j = 0; j < n; j++)
            d[i][j] = i == j ? 0 : hi[i] - lo[j];
    for (size_t k = 0; k < demands; k++) {
        struct constraint c = demanded[k];
        if (c.most < d[c.left][c.right])
            d[c.left][c.right] = c.most;
    }
    for (size_t k = 0; k < n; k++) {
        for (size_t i = 0; i < n; i++) {
            int32_t there = d[i][k];
            for (size_t j = 0; j < n; j++) {
                int32_t way = there + d[k][j];
                d[i][j] = d[i][j] <= way ? d[i][j] : way;
            }
        }
        for (size_t i = 0; i < n; i++)
            if (d[i][i] < 0)
                return false;
    }
    return true;
}

// Whether what is demanded can be met and every clause from `clause` on be broken.
static bool breakable(const struct expression *e, size_t clause, const size_t *node, size_t n)
{
    static const uint8_t ways[5][2] = {{AT_LEAST, EQUAL}, {MORE, EQUAL}, {LESS, MORE}, {LESS, EQUAL}, {AT_MOST, EQUAL}};
    if (clause == e->size)
        return possible(n);
    for (size_t k = 0; k < e->sizes[clause]; k++)
        for (int w = 0; w < 2; w++) {
            const struct comparison *broken = &e->clauses[clause][k];
            uint8_t op = ways[broken->op][w];
            if (op == EQUAL) // no second way
                continue;
            size_t before = demands;
            demand_comparison(op, broken, node);
            if (breakable(e, clause + 1, node, n))
                return true;
            demands = before;
        }
    return false;
}

static bool met(void)
{
    for (size_t q = 0; q < query.size; q++) {
        demands = 0;
        demand_clause(&query, q, first);
        if (possible(columns + 1))
            return true;
    }
    return false;
}

static bool outside_extract(void)
{
    for (size_t q = 0; q < query.size; q++) {
        demands = 0;
        demand_clause(&query, q, first);
        if (breakable(&extract, 0, first, columns + 1))
            return true;
    }
    return false;
}

static bool told_apart(void)
{
    for (size_t x = 0; x < extract.size; x++)
        for (size_t q = 0; q < query.size; q++) {
            demands = 0;
            demand_clause(&extract, x, second);
            demand_clause(&query, q, first);
            if (breakable(&query, 0, second, nodes))
                return true;
        }
    return false;
}

// In which columns two rows that meet the condition can differ: on a closed matrix that is one look each way.
static void mark_differing(const struct expression *e, bool *differ)
{
    for (size_t x = 0; x < e->size; x++)
        for (size_t y = 0; y < e->size; y++) {
            demands = 0;
            demand_clause(e, x, first);
            demand_clause(e, y, second);
            if (possible(nodes))
                for (size_t c = 0; c < columns; c++)
                    differ[c] |= d[first[c]][second[c]] || d[second[c]][first[c]];
        }
}

static bool outputs_differ(void)
{
    bool differ[COLUMNS] = {false}, some = false;
    mark_differing(&query, differ);
    for (size_t k = 0; k < query.width; k++)
        some |= differ[query.outputs[k]];
    return some;
}

struct verdict PLAIN(const uint8_t *job, uint64_t every)
{
    struct verdict v = {0};
    bool differ[COLUMNS] = {false};
    read_job(job);
    set_nodes();
    tried = 0;
    stride = every;
    if (extract.tables != query.tables && met())
        v.kind = 1;
    else if (outside_extract())
        v.kind = 2;
    else if (told_apart())
        v.kind = 3;
    else if (outputs_differ())
        v.kind = 4;
    mark_differing(&extract, differ);
    for (size_t c = 0; c < columns; c++)
        v.listing[c] = !(extract.tables >> table[c] & 1) ? 0 : first[c] == second[c] ? 1 : differ[c] ? 3 : 2;
    v.choices = tried;
    return v;
}
