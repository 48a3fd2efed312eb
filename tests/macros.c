/* The header's macros at every kind and n, beside values computed another way: products and sums, step by step. C99 and C++98. */
#include "hokrund.h"
#include <stdio.h>

#define ROOM 16

static int differences = 0;

static void same(const char *what, int kind, int n, unsigned long at, uint64_t found, uint64_t expected)
{
    if (found != expected) {
        printf("%s of kind %d, n %d, at %lu: %lu instead of %lu\n", what, kind, n, at, (unsigned long)found, (unsigned long)expected);
        differences++;
    }
}

/* n! is the product of 1 to n, and n! x 2^n that of 2, 4 .. 2n. */
static uint64_t product(int n, int step)
{
    uint64_t count = 1;
    for (int i = 1; i <= n; i++)
        count *= (uint64_t)(i * step);
    return count;
}

static int most_panes(int kind)
{
    return kind == 0 ? 12 : kind == 1 ? 10 : 0;
}

static uint64_t stacks(int kind, int n)
{
    return n < 1 || most_panes(kind) < n ? 0 : product(n, kind + 1);
}

/* The weights of the turns, from the first one's on, each twice the one before. */
static uint64_t groups(int kind, int n)
{
    uint64_t set = 0, weight = kind == 0 ? 2 : 1;
    if (stacks(kind, n) > 0)
        for (int k = kind == 0 ? 2 : 1; k <= n; k++, weight *= 2)
            set += weight;
    return set;
}

/* Any kind and n, as an int and as a byte. */
static void counts(void)
{
    for (int kind = -1; kind <= 256; kind++)
        for (int n = -1; n <= 256; n++) {
            uint8_t small_kind = (uint8_t)kind, small_n = (uint8_t)n;
            same("N", kind, n, 0, HOKRUND_STACKS(kind, n), stacks(kind, n));
            same("N of bytes", small_kind, small_n, 0, HOKRUND_STACKS(small_kind, small_n), stacks(small_kind, small_n));
            same("groups", kind, n, 0, HOKRUND_ALL_GROUPS(kind, n), groups(kind, n));
            same("groups of bytes", small_kind, small_n, 0, HOKRUND_ALL_GROUPS(small_kind, small_n), groups(small_kind, small_n));
        }
    for (int n = -1; n <= 256; n++)
        same("n!", 0, n, 0, HOKRUND_FACTORIAL(n), n < 0 || 12 < n ? 0 : product(n, 1));
}

/* Every segment, one past the last and the last number of all; as 32 bits without a sign, and as ints. */
static void segments(int kind, int n, uint32_t size)
{
    uint64_t left = stacks(kind, n), bytes = 0, words = 0;
    uint32_t j = 0;
    while (left > 0) {
        uint64_t m = left < size ? left : size;
        same("m", kind, n, j, HOKRUND_SEGMENT_STACKS(HOKRUND_STACKS(kind, n), size, j), m);
        same("m of ints", kind, n, j, HOKRUND_SEGMENT_STACKS(HOKRUND_STACKS(kind, n), (int)size, (int)j), m);
        same("bytes", kind, n, j, HOKRUND_SEGMENT_BYTES(m), m / 4 + (m % 4 != 0));
        same("changed list", kind, n, j, HOKRUND_CHANGED_BYTES(m), m / 8 + (m % 8 != 0));
        same("changed list of ints", kind, n, j, HOKRUND_CHANGED_BYTES((int)m), m / 8 + (m % 8 != 0));
        same("start", kind, n, j, HOKRUND_SEGMENT_START(size, j), bytes);
        same("start of ints", kind, n, j, HOKRUND_SEGMENT_START((int)size, (int)j), bytes);
        left -= m;
        bytes += m / 4 + (m % 4 != 0);
        words += ROOM;
        j++;
    }
    same("m past the last", kind, n, j, HOKRUND_SEGMENT_STACKS(HOKRUND_STACKS(kind, n), size, j), 0);
    same("m far past", kind, n, j, HOKRUND_SEGMENT_STACKS(HOKRUND_STACKS(kind, n), size, UINT32_MAX), 0);
    same("G", kind, n, size, HOKRUND_SEGMENT_COUNT(HOKRUND_STACKS(kind, n), size), j);
    same("G of ints", kind, n, size, HOKRUND_SEGMENT_COUNT(HOKRUND_STACKS(kind, n), (int)size), j);
    same("table", kind, n, size, HOKRUND_TABLE_BYTES(HOKRUND_STACKS(kind, n)), bytes);
    same("log", kind, n, size, HOKRUND_LOG_WORDS(j, ROOM), words);
}

/* Sizes that make at most 64 segments, from the smallest on; the last is the largest of all. */
static void sizes(int kind, int n)
{
    uint64_t smallest = (stacks(kind, n) + 255) / 256 * 4;
    for (uint64_t size = smallest; size < 67108864; size = size * 2 + 4)
        segments(kind, n, (uint32_t)size);
    segments(kind, n, 67108864);
}

/* As constants: the sizes of arrays, and of the largest table, log area and changed list. */
#define ARRAY(count) sizeof(char[count])
static const uint64_t plain[] = {
    ARRAY(HOKRUND_STACKS(HOKRUND_PLAIN, 1)), ARRAY(HOKRUND_STACKS(HOKRUND_PLAIN, 2)), ARRAY(HOKRUND_STACKS(HOKRUND_PLAIN, 3)),
    ARRAY(HOKRUND_STACKS(HOKRUND_PLAIN, 4)), ARRAY(HOKRUND_STACKS(HOKRUND_PLAIN, 5)), ARRAY(HOKRUND_STACKS(HOKRUND_PLAIN, 6)),
    ARRAY(HOKRUND_STACKS(HOKRUND_PLAIN, 7)), ARRAY(HOKRUND_STACKS(HOKRUND_PLAIN, 8)), ARRAY(HOKRUND_STACKS(HOKRUND_PLAIN, 9)),
    ARRAY(HOKRUND_STACKS(HOKRUND_PLAIN, 10)), ARRAY(HOKRUND_STACKS(HOKRUND_PLAIN, 11)), ARRAY(HOKRUND_STACKS(HOKRUND_PLAIN, 12))};
static const uint64_t coated[] = {
    ARRAY(HOKRUND_STACKS(HOKRUND_COATED, 1)), ARRAY(HOKRUND_STACKS(HOKRUND_COATED, 2)), ARRAY(HOKRUND_STACKS(HOKRUND_COATED, 3)),
    ARRAY(HOKRUND_STACKS(HOKRUND_COATED, 4)), ARRAY(HOKRUND_STACKS(HOKRUND_COATED, 5)), ARRAY(HOKRUND_STACKS(HOKRUND_COATED, 6)),
    ARRAY(HOKRUND_STACKS(HOKRUND_COATED, 7)), ARRAY(HOKRUND_STACKS(HOKRUND_COATED, 8)), ARRAY(HOKRUND_STACKS(HOKRUND_COATED, 9)),
    ARRAY(HOKRUND_STACKS(HOKRUND_COATED, 10))};

/* Sets from n = 0 to one past the last; one more each, as an array is not empty. */
#define SET(kind, n) ARRAY(HOKRUND_ALL_GROUPS(kind, n) + 1)
#define SETS(kind)                                                                                                    \
    {SET(kind, 0), SET(kind, 1), SET(kind, 2), SET(kind, 3), SET(kind, 4), SET(kind, 5), SET(kind, 6),                \
     SET(kind, 7), SET(kind, 8), SET(kind, 9), SET(kind, 10), SET(kind, 11), SET(kind, 12), SET(kind, 13)}
static const uint64_t sets[][14] = {SETS(HOKRUND_PLAIN), SETS(HOKRUND_COATED), SETS(2)};

#define LARGEST_COUNT HOKRUND_SEGMENT_COUNT(HOKRUND_STACKS(HOKRUND_COATED, 10), 67108864)
#define LARGEST_STACKS(j) HOKRUND_SEGMENT_STACKS(HOKRUND_STACKS(HOKRUND_COATED, 10), 67108864, j)

static void constants(void)
{
    uint64_t all = product(10, 2);
    for (int n = 1; n <= 12; n++)
        same("plain N as a constant", 0, n, 0, plain[n - 1], product(n, 1));
    for (int n = 1; n <= 10; n++)
        same("coated N as a constant", 1, n, 0, coated[n - 1], product(n, 2));
    for (int kind = 0; kind <= 2; kind++)
        for (int n = 0; n <= 13; n++)
            same("groups as a constant", kind, n, 0, sets[kind][n], groups(kind, n) + 1);
    same("table as a constant", 1, 10, 0, ARRAY(HOKRUND_TABLE_BYTES(HOKRUND_STACKS(HOKRUND_COATED, 10))), all / 4);
    same("log as a constant", 1, 10, 0, ARRAY(HOKRUND_LOG_WORDS(64, 1048576)), (uint64_t)64 * 1048576);
    same("changed list as a constant", 1, 10, 35, ARRAY(HOKRUND_CHANGED_BYTES(LARGEST_STACKS(35))), 8388608);
    same("m as a constant", 1, 10, 35, ARRAY(LARGEST_STACKS(35)), 67108864);
    same("the last m as a constant", 1, 10, 55, ARRAY(LARGEST_STACKS(LARGEST_COUNT - 1)), all % 67108864);
}

/* No segments by an S of 0, as a constant of any width and as a number; nothing is divided by it. */
static void no_size(void)
{
    uint32_t size = 0;
    uint64_t wide = 0;
    for (int n = 0; n <= 13; n++) {
        same("G of S 0", 0, n, 0, HOKRUND_SEGMENT_COUNT(HOKRUND_STACKS(0, n), 0), 0);
        same("G of S 0u", 0, n, 0, HOKRUND_SEGMENT_COUNT(HOKRUND_STACKS(0, n), (uint32_t)0), 0);
        same("G of a size 0", 0, n, 0, HOKRUND_SEGMENT_COUNT(HOKRUND_STACKS(0, n), size), 0);
        same("G of a wide size 0", 0, n, 0, HOKRUND_SEGMENT_COUNT(HOKRUND_STACKS(0, n), wide), 0);
        for (uint32_t j = 0; j <= 65; j++) {
            same("m of S 0", 0, n, j, HOKRUND_SEGMENT_STACKS(HOKRUND_STACKS(0, n), 0, j), 0);
            same("m of a size 0", 0, n, j, HOKRUND_SEGMENT_STACKS(HOKRUND_STACKS(0, n), size, j), 0);
            same("start of S 0", 0, n, j, HOKRUND_SEGMENT_START(size, j), 0);
        }
    }
    same("G of S 0 as a constant", 0, 0, 0, ARRAY(HOKRUND_SEGMENT_COUNT(24, 0) + 1), 1);
    same("m of S 0 as a constant", 0, 0, 0, ARRAY(HOKRUND_SEGMENT_STACKS(24, 0, 0) + 1), 1);
}

/* What the structs hold, and the least turn list; the changed lists of few stacks. */
static void held(void)
{
    HokrundJob *job = 0;
    for (int m = 0; m <= 24; m++)
        same("changed list of few", 0, m, 0, HOKRUND_CHANGED_BYTES(m), (m > 0) + (m > 8) + (m > 16));
    same("levels", 0, 0, 0, sizeof job->counts / sizeof job->counts[0], 256);
    same("segments", 0, 0, 0, sizeof job->passed / sizeof job->passed[0], 64);
    same("pairs", 0, 0, 0, 8 * sizeof job->swept, 64 * 64);
    same("no segment", 0, 0, 0, HOKRUND_NO_SEGMENT, HOKRUND_SEGMENTS);
    same("places", 0, 0, 0, sizeof job->wanted.places, 12);
    same("reserved", 0, 0, 0, sizeof job->reserved, 2);
    same("turn list", 0, 0, 0, HOKRUND_TURN_LIST, 254);
}

int main(void)
{
    counts();
    for (int kind = 0; kind <= 1; kind++)
        for (int n = 1; n <= most_panes(kind); n++)
            sizes(kind, n);
    constants();
    no_size();
    held();
    return differences != 0;
}
