/* Streams asked for in a room of two links, 0 to 1 and 1 to 2: the four of document 01's listing. */
#include "../include/byanghosu.h"
#include <inttypes.h>
#include <stdio.h>

static uint64_t store[BYANGHOSU_STORE]; /* 512 KiB: too much for most stacks */

static void open_stream(const char *name, uint64_t c, uint64_t p, uint64_t d, uint64_t b, const uint64_t *route, size_t hops) {
    enum { HOPS = BYANGHOSU_MOST_HOPS };
    uint64_t channel, responses[HOPS], delays[HOPS], reserved[HOPS], place;
    uint64_t refusal = byanghosu_open(store, BYANGHOSU_STORE, c, p, d, b, route, hops, &channel, responses, delays, reserved,
                                      &place);
    if (refusal != BYANGHOSU_RAN) {
        printf("%s: refused %" PRIu64 " %" PRIu64 ", %s\n", name, refusal, place, byanghosu_text(refusal));
        return;
    }
    printf("%s: channel %" PRIu64 "\n", name, channel);
    for (size_t j = 0; j < hops; j++)
        printf("  link %" PRIu64 ": response %" PRIu64 ", delay %" PRIu64 ", reserved %" PRIu64 "\n", route[j], responses[j],
               delays[j], reserved[j]);
}

int main(void) {
    const uint64_t links[] = {0, 1, 0, 64, 1, 2, 0, 64}; /* from, to, horizon, buffer of each link */
    const uint64_t both[] = {0, 1}, first[] = {0}, second[] = {1};
    uint64_t place;
    if (byanghosu_set_up(store, BYANGHOSU_STORE, links, 8, &place) != BYANGHOSU_RAN) return 1;
    open_stream("2 packets every 10 slots, within 8", 2, 10, 8, 2, both, 2);
    open_stream("3 packets every 12 slots, within 6", 3, 12, 6, 1, first, 1);
    open_stream("1 packet every 5 slots, within 4", 1, 5, 4, 1, second, 1);
    open_stream("3 packets every 10 slots, within 5", 3, 10, 5, 1, first, 1);
    printf("channels open: %" PRIu64 "\n", store[BYANGHOSU_AT_CHANNELS]);
    return 0;
}
