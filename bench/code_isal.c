/* Times ISA-L at the work that code.sh gives the crate poly_code: the parity of a stripe of 1 MiB, and its data blocks back
 * from the parity, for sets of which half are parity. The code is the same one, by Lagrange's coefficients. A line has the
 * work, the number of parity blocks, MB/s of the stripe by processor time, and a digest of the bytes. */
#include <isa-l/erasure_code.h>
#include <stdint.h>
#include <stdio.h>
#include <stdlib.h>
#include <string.h>
#include <time.h>

enum { STRIPE = 1048576, MOST = 16 };

static unsigned char body[STRIPE], made[STRIPE], back[STRIPE];

/* How often the value at rows[index] is counted in the value at point. */
static unsigned char coefficient(const unsigned char *rows, int count, int index, int point)
{
    unsigned char above = 1, below = 1;
    for (int j = 0; j < count; j++) {
        if (j == index)
            continue;
        above = gf_mul(above, (unsigned char)(point ^ rows[j]));
        below = gf_mul(below, (unsigned char)(rows[index] ^ rows[j]));
    }
    return gf_mul(above, gf_inv(below));
}

/* The mean time in nanoseconds of making the blocks from `to` on from those from `from` on, of both `count`. */
static double measure(int count, int from, int to, unsigned char *source, unsigned char *target, int rounds)
{
    unsigned char rows[MOST], matrix[MOST * MOST], tables[MOST * MOST * 32];
    unsigned char *sources[MOST], *targets[MOST];
    struct timespec start, end;
    int width = STRIPE / count;
    for (int j = 0; j < count; j++) {
        rows[j] = (unsigned char)(from + j);
        sources[j] = source + j * width;
        targets[j] = target + j * width;
    }
    clock_gettime(CLOCK_THREAD_CPUTIME_ID, &start);
    for (int round = 0; round < rounds; round++) {
        for (int i = 0; i < count; i++)
            for (int j = 0; j < count; j++)
                matrix[i * count + j] = coefficient(rows, count, j, to + i);
        ec_init_tables(count, count, matrix, tables);
        ec_encode_data(width, count, count, tables, sources, targets);
    }
    clock_gettime(CLOCK_THREAD_CPUTIME_ID, &end);
    return ((end.tv_sec - start.tv_sec) * 1e9 + (end.tv_nsec - start.tv_nsec)) / rounds;
}

static void report(const char *name, int parity, double nanoseconds, const unsigned char *bytes)
{
    uint32_t digest = 0;
    for (int i = 0; i < STRIPE; i++)
        digest = digest * 31 + bytes[i];
    printf("%s %d %.0f %u\n", name, parity, STRIPE * 1000.0 / nanoseconds, digest);
}

int main(int count, char **words)
{
    int rounds = count > 1 ? atoi(words[1]) : 50;
    uint32_t state = 1;
    if (rounds < 1)
        return 2;
    for (int i = 0; i < STRIPE; i++) {
        state = state * 1664525u + 1013904223u;
        body[i] = (unsigned char)(state >> 24);
    }
    for (int parity = 2; parity <= 8; parity *= 2) {
        report("encode", parity, measure(parity, 0, parity, body, made, rounds), made);
        report("rebuild", parity, measure(parity, parity, 0, made, back, rounds), back);
        if (memcmp(back, body, STRIPE) != 0)
            return 1;
    }
    return 0;
}
