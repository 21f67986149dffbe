/* The response-time calculation on a full table of 32 rows: the proved library against the same calculation in plain
 * C, in one run. Prints nanoseconds a call for each and their ratio. */
#include "../include/byanghosu.h"
#include <stdio.h>
#include <time.h>

enum { ROWS = 32, TABLES = 64, ROUNDS = 400, REPEATS = 9 };

/* The same work in plain C: the checks of refusal 18, the start, the trials. */
static uint64_t plain_response(const uint64_t *table, size_t numbers, uint64_t own, uint64_t limit, uint64_t *response,
                               uint64_t *trials, uint64_t *place) {
    *place = 0;
    if (numbers % 3 != 0 || numbers / 3 > 32) return 18;
    for (size_t at = 0; at < numbers; at += 3) {
        if (table[at] < 1 || table[at] > 200) return 18;
        if (table[at + 1] < 1 || table[at + 1] > 60000) return 18;
    }
    if (own < 1 || own > 200 || limit < 1 || limit > 60000) return 18;
    uint64_t r = own, k = 0;
    for (size_t at = 0; at < numbers; at += 3) r += table[at];
    while (r <= limit) {
        uint64_t need = own;
        for (size_t at = 0; at < numbers; at += 3) {
            uint64_t p = table[at + 1];
            need += table[at] * ((uint32_t)(r + p - 1) / (uint32_t)p);
        }
        k++;
        if (need == r) {
            *response = r;
            *trials = k;
            return 0;
        }
        r = need;
    }
    *response = 0;
    *trials = k;
    return 0;
}

typedef uint64_t call(const uint64_t *, size_t, uint64_t, uint64_t, uint64_t *, uint64_t *, uint64_t *);

static uint64_t tables[TABLES][3 * ROWS];

static uint64_t next(uint64_t *seed) {
    *seed = *seed * 6364136223846793005u + 1442695040888963407u;
    return *seed >> 33;
}

/* Links loaded to about nine tenths, with periods from 500 to 7,000. */
static void fill(void) {
    uint64_t seed = 2026;
    for (int t = 0; t < TABLES; t++)
        for (int i = 0; i < ROWS; i++) {
            uint64_t p = 500 + next(&seed) % 6500, c = p * 9 / 10 / ROWS;
            tables[t][3 * i] = c;
            tables[t][3 * i + 1] = p;
            tables[t][3 * i + 2] = p;
        }
}

static double nanoseconds(call *f, uint64_t *sum, uint64_t *all) {
    struct timespec a, b;
    uint64_t response = 0, trials = 0, place = 0;
    clock_gettime(CLOCK_MONOTONIC, &a);
    for (int n = 0; n < ROUNDS; n++)
        for (int t = 0; t < TABLES; t++) {
            *sum += f(tables[t], 3 * ROWS, 1 + n % 200, 60000, &response, &trials, &place) + response;
            *all += trials;
        }
    clock_gettime(CLOCK_MONOTONIC, &b);
    return ((b.tv_sec - a.tv_sec) * 1e9 + (b.tv_nsec - a.tv_nsec)) / (ROUNDS * TABLES);
}

int main(void) {
    uint64_t ours = 0, theirs = 0, k = 0, l = 0;
    double best = 1e18, plain = 1e18;
    fill();
    for (int i = 0; i < REPEATS; i++) {
        double a = nanoseconds(byanghosu_response, &ours, &k), b = nanoseconds(plain_response, &theirs, &l);
        best = a < best ? a : best;
        plain = b < plain ? b : plain;
    }
    if (ours != theirs || k != l) {
        printf("response: the two disagree\n");
        return 1;
    }
    printf("response, 32 rows, %.1f trials a call: proved %.0f ns, plain C %.0f ns, ratio %.2f\n",
           (double)k / (REPEATS * ROUNDS * TABLES), best, plain, best / plain);
    return 0;
}
