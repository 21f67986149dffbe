/* Whether a full room is sound: the proved library against the same check in plain C, in one run. Prints nanoseconds a
 * call for each and their ratio. The room has 16 links with 32 rows each and 64 channels over 8 links each. */
#include "plain.h"
#include <stdio.h>

enum { ROUNDS = 2000, REPEATS = 9 };

typedef bool call(const uint64_t *, size_t);

static uint64_t store[BYANGHOSU_STORE];

static void fill(void) {
    add_links(store);
    store[1] = CHANNELS;
    for (uint64_t n = 0; n < CHANNELS; n++) {
        uint64_t *c = store + channel_at(n);
        c[C] = 1 + n % 2, c[P] = 1000 + 10 * n, c[D] = 5000, c[B] = 4, c[LENGTH] = HOPS;
        for (uint64_t j = 0; j < HOPS; j++) {
            c[ROUTE + j] = link_on_route(n, j);
            c[DELAY + j] = 1 + (7 * n + 13 * j) % 200;
            add_row(store, c[ROUTE + j], n, j, c[DELAY + j]);
        }
        add_messages(store, n);
    }
}

/* The clock is written before each call, so that none can be left out. */
static double nanoseconds(call *f, uint64_t *sum) {
    double start = now();
    for (uint64_t n = 0; n < ROUNDS; n++) {
        store[2] = n;
        *sum += f(store, BYANGHOSU_STORE);
    }
    return (now() - start) / ROUNDS;
}

int main(void) {
    uint64_t ours = 0, theirs = 0;
    double best = 1e18, plain = 1e18;
    fill();
    for (int i = 0; i < REPEATS; i++) {
        double a = nanoseconds(byanghosu_sound, &ours), b = nanoseconds(plain_sound, &theirs);
        best = a < best ? a : best;
        plain = b < plain ? b : plain;
    }
    if (ours != REPEATS * ROUNDS || theirs != REPEATS * ROUNDS) {
        printf("sound: the room should be sound, and both should say so\n");
        return 1;
    }
    printf("sound, full room, %d messages under way a channel: proved %.0f ns, plain C %.0f ns, ratio %.2f\n",
           UNDER_WAY, best, plain, best / plain);
    return 0;
}
