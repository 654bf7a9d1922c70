// The layout of a zone, as crate zone has it.
#include <stdbool.h>
#include <stddef.h>
#include <stdint.h>

enum { STRIDE = 33, SIZE = STRIDE * STRIDE };

// the value of node 0, and how much more than the excess that it allows an entry is
static const uint64_t BIAS = 1000000000000000;
static const uint64_t LEVEL = 4000000000000000;

// One constraint more: node `left` exceeds node `right` by at most what `most` allows. False where no row is left.
typedef bool update(uint64_t *d, size_t n, size_t left, size_t right, uint64_t most);

update timed_constrain, plain_o2, plain_o3;
