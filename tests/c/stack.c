/* How much stack the library's calls need: each is made on a stack of its own that was painted before, and the lowest byte that
 * is no longer painted is looked for. Fails if one needs more than BYANGHOSU_STACK. All is done twice, and the second time
 * counts: the first call of memcpy or memset may enter the dynamic linker. */
#define _XOPEN_SOURCE 700
#include "../../include/byanghosu.h"
#include <inttypes.h>
#include <stdio.h>
#include <string.h>
#include <ucontext.h>

enum { HOPS = BYANGHOSU_MOST_HOPS, LINKS = HOPS, ROOM = BYANGHOSU_SEND * LINKS, PAINT = 0xa5 };

static unsigned char stack[1 << 16];
static uint64_t store[BYANGHOSU_STORE], place, number, first, second, responses[HOPS], delays[HOPS], reserved[HOPS], out[ROOM];
static uint64_t links[BYANGHOSU_LINK * LINKS], route[HOPS], table[BYANGHOSU_ROW * BYANGHOSU_MOST_ROWS];
static ucontext_t here, there;

static void nothing(void) {}
static void set_up(void) { number = byanghosu_set_up(store, BYANGHOSU_STORE, links, BYANGHOSU_LINK * LINKS, &place); }
static void open_stream(void) {
    number = byanghosu_open(store, BYANGHOSU_STORE, 2, 60, 480, 2, route, HOPS, &first, responses, delays, reserved, &place);
}
static void offer(void) { number = byanghosu_offer(store, BYANGHOSU_STORE, 0, 2, &first, &second, &place); }
static void slot(void) { first = byanghosu_slot(store, BYANGHOSU_STORE, out, ROOM, &number, &place); }
static void idle(void) { number = byanghosu_idle(store, BYANGHOSU_STORE, &first, &place); }
static void skip(void) { number = byanghosu_skip(store, BYANGHOSU_STORE, 1, &first, &place); }
static void sound(void) { number = !byanghosu_sound(store, BYANGHOSU_STORE); }
static void response(void) {
    number = byanghosu_response(table, BYANGHOSU_ROW * BYANGHOSU_MOST_ROWS, 1, 60000, &first, &second, &place);
}

/* The bytes of the painted stack that `call` wrote to, from the lowest one up. */
static size_t used(void (*call)(void)) {
    memset(stack, PAINT, sizeof stack);
    getcontext(&there);
    there.uc_stack.ss_sp = stack;
    there.uc_stack.ss_size = sizeof stack;
    there.uc_link = &here;
    makecontext(&there, call, 0);
    swapcontext(&here, &there);
    size_t low = 0;
    while (low < sizeof stack && stack[low] == PAINT) low++;
    return sizeof stack - low;
}

/* The calls in turn, and how often each. */
static const struct { const char *name; void (*call)(void); int times; } calls[] = {
    {"set_up", set_up, 1}, {"open", open_stream, 3}, {"offer", offer, 2}, {"sound", sound, 1},
    {"slot", slot, 9},     {"idle", idle, 1},        {"skip", skip, 1},   {"response", response, 1},
};

/* The most bytes that a call needed; SIZE_MAX where one was refused, for all of them must run. */
static size_t most(bool print) {
    size_t own = used(nothing), largest = 0;
    for (size_t i = 0; i < sizeof calls / sizeof *calls; i++) {
        size_t needed = 0;
        for (int n = 0; n < calls[i].times; n++) {
            size_t bytes = used(calls[i].call) - own;
            if (number != BYANGHOSU_RAN) return SIZE_MAX;
            if (bytes > needed) needed = bytes;
        }
        if (print) printf("byanghosu_%s: %zu bytes of stack\n", calls[i].name, needed);
        if (needed > largest) largest = needed;
    }
    return largest;
}

int main(void) {
    for (size_t l = 0; l < LINKS; l++) {
        const uint64_t link[BYANGHOSU_LINK] = {l, l + 1, 8, 256};
        memcpy(links + BYANGHOSU_LINK * l, link, sizeof link);
        route[l] = l;
    }
    for (size_t i = 0; i < BYANGHOSU_MOST_ROWS; i++) table[BYANGHOSU_ROW * i] = 1, table[BYANGHOSU_ROW * i + 1] = 60000;
    most(false);
    size_t bytes = most(true);
    if (bytes <= BYANGHOSU_STACK) return 0;
    printf("a call needs more than the header's %d bytes, or was refused: %s\n", BYANGHOSU_STACK, byanghosu_text(number));
    return 1;
}
