/* A room of two links, 0 to 1 and 1 to 2, from set-up to sends: what document 01's listing asks for, printed as its program
 * prints it, with the reason beside each refusal. Then a long wait. */
#include "../include/byanghosu.h"
#include <inttypes.h>
#include <stdio.h>

static uint64_t store[BYANGHOSU_STORE]; /* 512 KiB: too much for most stacks */

/* Whether a call ran; prints why not. */
static bool ran(uint64_t number, uint64_t place) {
    if (number != BYANGHOSU_RAN) printf("refused %" PRIu64 " %" PRIu64 ": %s\n", number, place, byanghosu_text(number));
    return number == BYANGHOSU_RAN;
}

static void open_stream(uint64_t c, uint64_t p, uint64_t d, uint64_t b, const uint64_t *route, size_t hops) {
    enum { HOPS = BYANGHOSU_MOST_HOPS };
    uint64_t channel, responses[HOPS], delays[HOPS], reserved[HOPS], place;
    uint64_t number = byanghosu_open(store, BYANGHOSU_STORE, c, p, d, b, route, hops, &channel, responses, delays, reserved,
                                     &place);
    if (!ran(number, place)) return;
    printf("channel %" PRIu64, channel);
    for (size_t j = 0; j < hops; j++) printf(" %" PRIu64 "/%" PRIu64 "/%" PRIu64, responses[j], delays[j], reserved[j]);
    printf("\n");
}

static void offer(uint64_t channel, uint64_t packets) {
    uint64_t message, logical, place;
    uint64_t number = byanghosu_offer(store, BYANGHOSU_STORE, channel, packets, &message, &logical, &place);
    if (ran(number, place)) printf("accept %" PRIu64 " %" PRIu64 " %" PRIu64 "\n", channel, message, logical);
}

static void tick(uint64_t slots) {
    enum { SEND = BYANGHOSU_SEND, ROOM = SEND * BYANGHOSU_MOST_LINKS };
    uint64_t out[ROOM], number, place;
    for (uint64_t n = 0; n < slots; n++) {
        size_t sends = byanghosu_slot(store, BYANGHOSU_STORE, out, ROOM, &number, &place);
        if (!ran(number, place)) break;
        for (const uint64_t *send = out; send < out + SEND * sends; send += SEND)
            printf("send %" PRIu64 " %" PRIu64 " %" PRIu64 " %" PRIu64 " %" PRIu64 "\n", send[0], send[1], send[2], send[3],
                   send[4]);
    }
    printf("slot %" PRIu64 "\n", store[BYANGHOSU_AT_CLOCK]);
}

/* How long nothing can be sent, and so many of these slots at once, at most `most`. */
static void skip(uint64_t most) {
    uint64_t slots, place;
    uint64_t number = byanghosu_idle(store, BYANGHOSU_STORE, &slots, &place);
    if (ran(number, place)) printf("nothing to send for %" PRIu64 " slots\n", slots);
    number = byanghosu_skip(store, BYANGHOSU_STORE, most, &slots, &place);
    if (ran(number, place)) printf("skipped %" PRIu64 "\n", slots);
}

int main(void) {
    const uint64_t links[] = {0, 1, 0, 64, 1, 2, 0, 64}; /* from, to, horizon, buffer of each link */
    const uint64_t both[] = {0, 1}, first[] = {0}, second[] = {1};
    uint64_t place;
    uint64_t number = byanghosu_set_up(store, BYANGHOSU_STORE, links, sizeof links / sizeof *links, &place);
    if (!ran(number, place)) return 1;
    printf("links %" PRIu64 "\n", store[BYANGHOSU_AT_LINKS]);
    open_stream(2, 10, 8, 2, both, 2); /* 2 packets every 10 slots, within 8, in bursts of 2 messages */
    open_stream(3, 12, 6, 1, first, 1);
    open_stream(1, 5, 4, 1, second, 1);
    open_stream(3, 10, 5, 1, first, 1);
    offer(0, 2);
    offer(0, 2); /* its logical time is 10 */
    offer(0, 1);
    offer(1, 3);
    tick(6);
    skip(100);
    tick(1);
    return 0;
}
