// One constraint more on a closed zone, in plain C: the data and the early exits of zone::constrain, and a pass over all places of each row
// that comes nearer, where zone::constrain lists rows and places first.
// bench/run builds it once for each level of optimisation, with PLAIN as the function's name.
#include "zone.h"

bool PLAIN(uint64_t *d, size_t n, size_t left, size_t right, uint64_t most)
{
    if (d[right * STRIDE + left] + most < 2 * LEVEL)
        return false;
    if (d[left * STRIDE + right] <= most)
        return true;
    const uint64_t *from = d + right * STRIDE;
    for (size_t i = 0; i < n; i++) {
        uint64_t *row = d + i * STRIDE;
        uint64_t p = row[left] + most;
        if (p >= row[right] + LEVEL)
            continue;
        for (size_t j = 0; j < n; j++) {
            uint64_t way = p + from[j] - 2 * LEVEL;
            row[j] = row[j] <= way ? row[j] : way;
        }
    }
    return true;
}
