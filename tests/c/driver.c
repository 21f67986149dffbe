/* The C side of the tests. Reads questions from standard input, one a line, calls the library through its header and
 * writes one line an answer, so that an implementation in another language can be held against it.
 *
 * response OWN LIMIT COUNT NUMBERS..   ->   NUMBER PLACE RESPONSE TRIALS, the last two 111 and 222 before the call
 *
 * One store is held from line to line. It is longer than the library's, so that a number written beyond is seen.
 *
 * fill VALUE                    every number becomes VALUE
 * put AT COUNT VALUES..         the numbers from AT on become VALUES
 * get AT                        ->   the number at AT
 * sum COUNT                     ->   a sum of the first COUNT numbers, of which each place counts differently
 * setup LENGTH COUNT NUMBERS..  ->   NUMBER PLACE of a set-up in the first LENGTH numbers, the place 333 before the call
 * sound LENGTH                  ->   1 if the first LENGTH numbers are a sound store, 0 if not
 * open LENGTH C P D B COUNT ROUTE..
 *                               ->   NUMBER PLACE CHANNEL of an open in the first LENGTH numbers, then the 8 responses, the 8
 *                                    delays and the 8 reserved; the place 333, the channel 444, the others 555 before the call
 * offer LENGTH CHANNEL PACKETS  ->   NUMBER PLACE MESSAGE LOGICAL of an offer in the first LENGTH numbers; the place 333, the
 *                                    message 444, the logical time 555 before the call
 * slot LENGTH ROOM              ->   NUMBER PLACE SENDS CHANGED of a slot in the first LENGTH numbers with an output of ROOM
 *                                    numbers, then five numbers a send; the place 333, the number 444 before the call. CHANGED
 *                                    is how many numbers past the sends, in the output and beyond it, are not what they were
 * run LENGTH ROOM COUNT         ->   NUMBER PLACE SLOTS SENDS CHANGED SUM of so many slots, or up to the first that is refused:
 *                                    its number and place, how many ran, the sends of all, and a sum over them in turn
 * tick LENGTH ROOM COUNT        ->   five numbers a send, then NUMBER PLACE SLOTS CHANGED of so many slots; those in which
 *                                    nothing can be sent are skipped
 * idle LENGTH                   ->   NUMBER PLACE SLOTS, the last of which is how many slots no link can send in; the place 333,
 *                                    the slots 444 before the call
 * skip LENGTH COUNT             ->   the same, with how many of them were skipped */
#include "../../include/byanghosu.h"
#include <inttypes.h>
#include <stdio.h>
#include <stdlib.h>
#include <string.h>

enum { WORD = 32, MOST = 4096, HELD = BYANGHOSU_STORE + 464, SEND = 5, BEYOND = 16, UNWRITTEN = 666 };

static uint64_t store[HELD], out[MOST + BEYOND];

/* The next word, cut to what `word` holds; of no letters at the end. By hand, as scanf takes several times as long. */
static void next(char word[WORD]) {
    static char part[1 << 16];
    static size_t at, all;
    for (size_t n = 0;; at++) {
        if (at == all) all = fread(part, 1, sizeof part, stdin), at = 0;
        bool space = at == all || part[at] == ' ' || part[at] == '\n';
        if (!space && n < WORD - 1) word[n++] = part[at];
        word[n] = 0;
        if (at == all || (space && n > 0)) return;
    }
}

static uint64_t number(void) {
    char word[WORD];
    uint64_t n = 0;
    next(word);
    for (char *digit = word; *digit; digit++) n = 10 * n + (uint64_t)(*digit - '0');
    if (!*word) fprintf(stderr, "driver: a number is missing\n");
    return n;
}

/* A number that is a length, a count or a place. */
static size_t number_to(size_t most) {
    uint64_t n = number();
    if (n > most) {
        fprintf(stderr, "driver: %" PRIu64 " is above %zu\n", n, most);
        exit(1);
    }
    return n;
}

static void response(void) {
    static uint64_t table[MOST];
    uint64_t own = number(), limit = number();
    size_t count = number_to(MOST);
    uint64_t found = 111, trials = 222, place = 333;
    for (size_t i = 0; i < count; i++) table[i] = number();
    uint64_t refusal = byanghosu_response(table, count, own, limit, &found, &trials, &place);
    printf("%" PRIu64 " %" PRIu64 " %" PRIu64 " %" PRIu64 "\n", refusal, place, found, trials);
}

static void fill(void) {
    uint64_t value = number();
    for (size_t i = 0; i < HELD; i++) store[i] = value;
}

static void put(void) {
    size_t at = number_to(HELD), count = number_to(HELD - at);
    for (size_t i = 0; i < count; i++) store[at + i] = number();
}

static void get(void) { printf("%" PRIu64 "\n", store[number_to(HELD - 1)]); }

/* A sum with one number more. */
static uint64_t with(uint64_t all, uint64_t n) { return (all ^ n) * 1099511628211u; }

static void sum(void) {
    size_t count = number_to(HELD);
    uint64_t all = 0;
    for (size_t i = 0; i < count; i++) all = with(all, store[i]);
    printf("%" PRIu64 "\n", all);
}

static void set_up(void) {
    static uint64_t links[MOST];
    size_t length = number_to(HELD), count = number_to(MOST);
    uint64_t place = 333;
    for (size_t i = 0; i < count; i++) links[i] = number();
    uint64_t refusal = byanghosu_set_up(store, length, links, count, &place);
    printf("%" PRIu64 " %" PRIu64 "\n", refusal, place);
}

static void sound(void) { printf("%d\n", byanghosu_sound(store, number_to(HELD))); }

static void open_channel(void) {
    static uint64_t route[MOST];
    size_t length = number_to(HELD);
    uint64_t c = number(), p = number(), d = number(), b = number();
    size_t hops = number_to(MOST);
    uint64_t channel = 444, place = 333, per_link[3][8];
    for (size_t i = 0; i < hops; i++) route[i] = number();
    for (size_t i = 0; i < 24; i++) per_link[i / 8][i % 8] = 555;
    uint64_t refusal = byanghosu_open(store, length, c, p, d, b, route, hops, &channel, per_link[0], per_link[1],
                                      per_link[2], &place);
    printf("%" PRIu64 " %" PRIu64 " %" PRIu64, refusal, place, channel);
    for (size_t i = 0; i < 24; i++) printf(" %" PRIu64, per_link[i / 8][i % 8]);
    printf("\n");
}

static void offer(void) {
    size_t length = number_to(HELD);
    uint64_t channel = number(), packets = number(), message = 444, logical = 555, place = 333;
    uint64_t refusal = byanghosu_offer(store, length, channel, packets, &message, &logical, &place);
    printf("%" PRIu64 " %" PRIu64 " %" PRIu64 " %" PRIu64 "\n", refusal, place, message, logical);
}

/* What a slot answered; `numbers` are those of its sends that the output has room for. */
struct turn {
    uint64_t refusal, place, changed;
    size_t sends, numbers;
};

static struct turn turn(size_t length, size_t room) {
    struct turn t = {444, 333, 0, 0, 0};
    for (size_t i = 0; i < room + BEYOND; i++) out[i] = UNWRITTEN;
    t.sends = byanghosu_slot(store, length, out, room, &t.refusal, &t.place);
    t.numbers = t.sends < room / SEND ? SEND * t.sends : room / SEND * SEND;
    for (size_t i = t.numbers; i < room + BEYOND; i++) t.changed += out[i] != UNWRITTEN;
    return t;
}

static void slot(void) {
    size_t length = number_to(HELD), room = number_to(MOST);
    struct turn t = turn(length, room);
    printf("%" PRIu64 " %" PRIu64 " %zu %" PRIu64, t.refusal, t.place, t.sends, t.changed);
    for (size_t i = 0; i < t.numbers; i++) printf(" %" PRIu64, out[i]);
    printf("\n");
}

static void run(void) {
    size_t length = number_to(HELD), room = number_to(MOST);
    uint64_t count = number(), slots = 0, sends = 0, changed = 0, all = 0;
    struct turn t = {0};
    while (slots < count) {
        t = turn(length, room);
        sends += t.sends;
        changed += t.changed;
        if (t.refusal) break;
        slots++;
        all = with(with(all, t.sends), t.place);
        for (size_t i = 0; i < t.numbers; i++) all = with(all, out[i]);
    }
    printf("%" PRIu64 " %" PRIu64 " %" PRIu64 " %" PRIu64 " %" PRIu64 " %" PRIu64 "\n", t.refusal, t.place, slots, sends,
           changed, all);
}

static void tick(void) {
    size_t length = number_to(HELD), room = number_to(MOST);
    uint64_t count = number(), slots = 0, changed = 0;
    struct turn t = {0};
    while (slots < count) {
        t = turn(length, room);
        changed += t.changed;
        if (t.refusal) break;
        for (size_t i = 0; i < t.numbers; i++) printf("%" PRIu64 " ", out[i]);
        slots++;
        if (t.sends > 0) continue;
        uint64_t skipped = 0, place; /* a refused skip leaves `skipped` */
        byanghosu_skip(store, length, count - slots, &skipped, &place);
        slots += skipped;
    }
    printf("%" PRIu64 " %" PRIu64 " %" PRIu64 " %" PRIu64 "\n", t.refusal, t.place, slots, changed);
}

static void idle(void) {
    uint64_t slots = 444, place = 333;
    uint64_t refusal = byanghosu_idle(store, number_to(HELD), &slots, &place);
    printf("%" PRIu64 " %" PRIu64 " %" PRIu64 "\n", refusal, place, slots);
}

static void skip(void) {
    size_t length = number_to(HELD);
    uint64_t count = number(), slots = 444, place = 333;
    uint64_t refusal = byanghosu_skip(store, length, count, &slots, &place);
    printf("%" PRIu64 " %" PRIu64 " %" PRIu64 "\n", refusal, place, slots);
}

int main(void) {
    static const struct { const char *word; void (*answer)(void); } questions[] = {
        {"response", response}, {"fill", fill}, {"put", put}, {"get", get}, {"sum", sum},
        {"setup", set_up}, {"sound", sound}, {"open", open_channel}, {"offer", offer}, {"slot", slot}, {"run", run},
        {"tick", tick}, {"idle", idle}, {"skip", skip},
    };
    char word[WORD];
    for (next(word); *word; next(word)) {
        size_t i = 0, all = sizeof questions / sizeof *questions;
        while (i < all && strcmp(word, questions[i].word) != 0) i++;
        if (i == all) {
            fprintf(stderr, "driver: no such question: %s\n", word);
            return 1;
        }
        questions[i].answer();
    }
    return 0;
}
