/* jimrawel_bracket against a plain C loop of the same recurrence: drawn calls, refused ones among them, with every lent entry; then the time of 4,096 blocks. */
#include "jimrawel.h"
#include <stdio.h>
#include <stdlib.h>
#include <string.h>
#include <time.h>

#define ROOM 4200

/* The last row, in place from the highest entry down. */
static void plain(size_t n, size_t k, uint64_t d, uint64_t *row)
{
    uint64_t q = ((uint64_t)1 << k) - d;
    row[0] = (uint64_t)1 << 40;
    for (size_t t = 1; t <= n; t++) {
        row[t] = 0;
        for (size_t j = t; j > 0; j--)
            row[j] = (row[j] * q + row[j - 1] * d) >> k;
        row[0] = row[0] * q >> k;
    }
}

/* What the call has to answer and to leave, by the rule. */
static uint32_t expected(size_t n, size_t c, size_t k, size_t d, uint64_t *scratch, size_t room, uint64_t *low, uint64_t *high)
{
    *low = *high = 0;
    if (n > 4096 || c > n)
        return 19;
    if (k == 0 || k > 20)
        return 2;
    if (d == 0 || d >= (size_t)1 << k)
        return 14;
    if (room < n + 1)
        return 7;
    plain(n, k, d, scratch);
    for (size_t j = c; j <= n; j++)
        *low += scratch[j];
    *high = *low + n * (n + 3) / 2;
    return 0;
}

/* splitmix64 */
static uint64_t state;

static uint64_t draw(void)
{
    uint64_t z = state += 0x9E3779B97F4A7C15;
    z = (z ^ (z >> 30)) * 0xBF58476D1CE4E5B9;
    z = (z ^ (z >> 27)) * 0x94D049BB133111EB;
    return z ^ (z >> 31);
}

static uint64_t below(uint64_t m)
{
    return draw() % m;
}

/* A number about a limit, or anything, one time in 40. */
static uint64_t astray(uint64_t x, uint64_t limit)
{
    uint64_t strays[] = {0, limit - 1, limit, limit + 1, draw(), UINT64_MAX};
    return below(40) == 0 ? strays[below(6)] : x;
}

static void call(unsigned long *refused)
{
    static uint64_t ours[ROOM], theirs[ROOM];
    size_t limit = below(50) == 0 ? 4097 : below(4) == 0 ? 300 : 40;
    size_t n = below(limit), k = 1 + below(20), d = 1 + below(((size_t)1 << k) - 1);
    if (below(4) == 0)
        d = below(2) ? 1 + below(2) : ((size_t)1 << k) - 1 - below(2);
    size_t c = astray(below(n + 1), n), room = n + 1 + below(3);
    n = astray(n, 4096);
    k = astray(k, 20);
    d = astray(d, k < 21 ? (uint64_t)1 << k : 1);
    room = astray(room, n + 1);
    room = room < ROOM ? room : ROOM;
    for (size_t j = 0; j < ROOM; j++)
        ours[j] = theirs[j] = draw();
    uint64_t low, high, l, h;
    uint32_t r = jimrawel_bracket(n, c, k, d, ours, room, &low, &high);
    uint32_t e = expected(n, c, k, d, theirs, room, &l, &h);
    if (r != e || low != l || high != h || memcmp(ours, theirs, sizeof ours)) {
        printf("different: n %zu c %zu k %zu d %zu room %zu: %u %lu %lu, not %u %lu %lu\n", n, c, k, d, room, r, low, high, e, l, h);
        exit(1);
    }
    *refused += r != 0;
}

static double seconds(void)
{
    struct timespec t;
    clock_gettime(CLOCK_MONOTONIC, &t);
    return t.tv_sec + 1e-9 * t.tv_nsec;
}

/* The least of 15 times each, in turn. */
static void timed(size_t k, size_t d)
{
    static uint64_t row[ROOM];
    double ours = 1, theirs = 1;
    for (int turn = 0; turn < 15; turn++) {
        uint64_t low, high, l, h;
        double t = seconds();
        jimrawel_bracket(4096, 2048, k, d, row, ROOM, &low, &high);
        double u = seconds();
        expected(4096, 2048, k, d, row, ROOM, &l, &h);
        double v = seconds();
        ours = u - t < ours ? u - t : ours;
        theirs = v - u < theirs ? v - u : theirs;
        if (low != l || high != h)
            exit(1);
    }
    printf("n 4096, k %2zu, d %7zu: %6.3f ms, the plain loop %6.3f ms, ratio %.3f\n", k, d, ours * 1e3, theirs * 1e3, ours / theirs);
}

int main(int argc, char **argv)
{
    if (argc != 3)
        return 2;
    state = strtoull(argv[1], NULL, 10);
    unsigned long calls = strtoul(argv[2], NULL, 10), refused = 0;
    for (unsigned long i = 0; i < calls; i++)
        call(&refused);
    printf("%lu calls, %lu refused, 0 different\n", calls, refused);
    timed(1, 1);
    timed(3, 4);
    timed(3, 1);
    timed(8, 128);
    timed(20, 1);
    timed(20, 349525);
    timed(20, 524288);
    timed(20, 1048575);
}
