/* A network set up in a lent store: two links, then a list with a link whose two nodes are the same. */
#include "../include/byanghosu.h"
#include <inttypes.h>
#include <stdio.h>

static uint64_t store[BYANGHOSU_STORE]; /* 512 KiB: too much for most stacks */

static void set_up(const uint64_t *links, size_t numbers) {
    uint64_t place;
    uint64_t refusal = byanghosu_set_up(store, BYANGHOSU_STORE, links, numbers, &place);
    if (refusal != BYANGHOSU_RAN)
        printf("refused %" PRIu64 " at link %" PRIu64 ": %s\n", refusal, place, byanghosu_text(refusal));
    else
        printf("links %" PRIu64 "\n", store[BYANGHOSU_AT_LINKS]);
}

int main(void) {
    const uint64_t good[] = {0, 1, 0, 64, 1, 2, 0, 64}; /* from, to, horizon, buffer of each link */
    const uint64_t bad[] = {0, 1, 0, 64, 2, 2, 0, 64};
    printf("an empty store: %s\n", byanghosu_sound(store, BYANGHOSU_STORE) ? "sound" : "not sound");
    set_up(good, 8);
    printf("after set-up: %s\n", byanghosu_sound(store, BYANGHOSU_STORE) ? "sound" : "not sound");
    set_up(bad, 8);
    printf("after a refused set-up: %s, links %" PRIu64 "\n",
           byanghosu_sound(store, BYANGHOSU_STORE) ? "sound" : "not sound", store[BYANGHOSU_AT_LINKS]);
    return 0;
}
