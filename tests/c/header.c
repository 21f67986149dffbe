/* Holds include/byanghosu.h to document 01's numbers and to what the library does: each refusal number has its own text, and each
 * size is the one at which a call changes its answer. It is C99 and C++11. */
#include "../../include/byanghosu.h"
#include <inttypes.h>
#include <stdio.h>
#include <string.h>

enum { HOPS = BYANGHOSU_MOST_HOPS, NUMBERS = BYANGHOSU_LINK * (BYANGHOSU_MOST_LINKS + 1), OTHERS = 3 };

static uint64_t store[BYANGHOSU_STORE], place;
static int failed;

static void expect(const char *what, uint64_t got, uint64_t wanted) {
    if (got == wanted) return;
    printf("%s: %" PRIu64 ", not %" PRIu64 "\n", what, got, wanted);
    failed = 1;
}

/* Document 01's numbers, in their order. */
static const uint64_t refusals[] = {
    BYANGHOSU_RAN,         BYANGHOSU_RANGE,         BYANGHOSU_ROUTE_LENGTH,   BYANGHOSU_NO_LINK,     BYANGHOSU_LINK_TWICE,
    BYANGHOSU_LINKS_APART, BYANGHOSU_CHANNELS_FULL, BYANGHOSU_ROWS_FULL,      BYANGHOSU_NO_RESPONSE, BYANGHOSU_OVER_D,
    BYANGHOSU_BUFFER_FULL, BYANGHOSU_NO_CHANNEL,    BYANGHOSU_MESSAGE_LENGTH, BYANGHOSU_BURST,       BYANGHOSU_END_SLOT,
    BYANGHOSU_OUT_SHORT,   BYANGHOSU_BAD_LINKS,     BYANGHOSU_NOT_SOUND,      BYANGHOSU_BAD_TABLE,
};

static void texts(void) {
    const size_t count = sizeof refusals / sizeof *refusals;
    const uint64_t others[OTHERS] = {19, 255, UINT64_MAX};
    expect("refusal numbers", count, 19);
    for (size_t i = 0; i < count; i++) {
        expect("the number of a refusal", refusals[i], i);
        expect("a text of no letters", strlen(byanghosu_text(i)) == 0, 0);
        for (size_t j = 0; j < i; j++) expect("two numbers with one text", strcmp(byanghosu_text(i), byanghosu_text(j)) == 0, 0);
        for (size_t j = 0; j < OTHERS; j++)
            expect("the text of another number", strcmp(byanghosu_text(i), byanghosu_text(others[j])) == 0, 0);
    }
    for (size_t j = 0; j < OTHERS; j++) expect("no text", strlen(byanghosu_text(others[j])) == 0, 0);
}

static uint64_t set_up(size_t length, size_t links) {
    uint64_t numbers[NUMBERS];
    for (size_t i = 0; i < NUMBERS; i++) numbers[i] = i % BYANGHOSU_LINK == 1 || i % BYANGHOSU_LINK == 3;
    return byanghosu_set_up(store, length, numbers, BYANGHOSU_LINK * links, &place);
}

static uint64_t open_over(size_t hops) {
    const uint64_t route[HOPS + 1] = {0};
    uint64_t channel, responses[HOPS], delays[HOPS], reserved[HOPS];
    return byanghosu_open(store, BYANGHOSU_STORE, 1, 10, 10, 1, route, hops, &channel, responses, delays, reserved, &place);
}

static uint64_t slot(size_t length, size_t room) {
    uint64_t out[BYANGHOSU_SEND * BYANGHOSU_MOST_LINKS], number;
    byanghosu_slot(store, length, out, room, &number, &place);
    return number;
}

static uint64_t idle(size_t length) {
    uint64_t slots;
    return byanghosu_idle(store, length, &slots, &place);
}

static uint64_t skip(size_t length, uint64_t n) {
    uint64_t slots;
    return byanghosu_skip(store, length, n, &slots, &place);
}

static uint64_t response(size_t numbers) {
    uint64_t table[BYANGHOSU_ROW * (BYANGHOSU_MOST_ROWS + 1)], found, trials;
    for (size_t i = 0; i < sizeof table / sizeof *table; i++) table[i] = 1;
    return byanghosu_response(table, numbers, 1, 1, &found, &trials, &place);
}

/* Each size, and one less or more. A length of 0 is lent a number that is not null. */
static void sizes(void) {
    const size_t links = BYANGHOSU_MOST_LINKS, rows = BYANGHOSU_ROW * BYANGHOSU_MOST_ROWS;
    expect("set-up in a store that is too short", set_up(BYANGHOSU_STORE - 1, links), BYANGHOSU_NOT_SOUND);
    expect("set-up without links", set_up(BYANGHOSU_STORE, 0), BYANGHOSU_BAD_LINKS);
    expect("set-up with a link too many", set_up(BYANGHOSU_STORE, links + 1), BYANGHOSU_BAD_LINKS);
    expect("set-up", set_up(BYANGHOSU_STORE, links), BYANGHOSU_RAN);
    expect("the number of links", store[BYANGHOSU_AT_LINKS], links);
    expect("an open without links", open_over(0), BYANGHOSU_ROUTE_LENGTH);
    expect("an open with a link too many", open_over(HOPS + 1), BYANGHOSU_ROUTE_LENGTH);
    expect("an open with as many as may be, one of them twice", open_over(HOPS), BYANGHOSU_LINK_TWICE);
    expect("an open", open_over(1), BYANGHOSU_RAN);
    expect("the number of channels", store[BYANGHOSU_AT_CHANNELS], 1);
    expect("a slot with too little room", slot(BYANGHOSU_STORE, BYANGHOSU_SEND * links - 1), BYANGHOSU_OUT_SHORT);
    expect("a slot with no room", slot(BYANGHOSU_STORE, 0), BYANGHOSU_OUT_SHORT);
    expect("a slot in a store that is too short", slot(BYANGHOSU_STORE - 1, BYANGHOSU_SEND * links), BYANGHOSU_NOT_SOUND);
    expect("a slot", slot(BYANGHOSU_STORE, BYANGHOSU_SEND * links), BYANGHOSU_RAN);
    expect("the clock", store[BYANGHOSU_AT_CLOCK], 1);
    expect("a sound store", byanghosu_sound(store, BYANGHOSU_STORE), true);
    expect("a store that is too short", byanghosu_sound(store, BYANGHOSU_STORE - 1), false);
    expect("a store of no numbers", byanghosu_sound(store, 0), false);
    expect("the wait of a store that is too short", idle(BYANGHOSU_STORE - 1), BYANGHOSU_NOT_SOUND);
    expect("a skip in a store that is too short", skip(BYANGHOSU_STORE - 1, 1), BYANGHOSU_NOT_SOUND);
    expect("a wait", idle(BYANGHOSU_STORE), BYANGHOSU_RAN);
    expect("a skip to the end slot", skip(BYANGHOSU_STORE, UINT64_MAX), BYANGHOSU_RAN);
    expect("the wait at the end slot", idle(BYANGHOSU_STORE), BYANGHOSU_END_SLOT);
    expect("a skip at the end slot", skip(BYANGHOSU_STORE, 1), BYANGHOSU_END_SLOT);
    expect("a response without rows", response(0), BYANGHOSU_RAN);
    expect("a response with as many rows as may be", response(rows), BYANGHOSU_RAN);
    expect("a response with a row too many", response(rows + BYANGHOSU_ROW), BYANGHOSU_BAD_TABLE);
    expect("a response with a part of a row", response(rows - 1), BYANGHOSU_BAD_TABLE);
}

int main(void) {
    texts();
    sizes();
    if (!failed) printf("the header has document 01's numbers and the library's sizes\n");
    return failed;
}
