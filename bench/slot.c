/* Running slots, offering messages and long waits: the proved library against the same work in plain C, in one run. Prints
 * microseconds a call for each and their ratio, how much of a slot the soundness check takes, and how the time of a slot
 * grows. The full room has 16 links, 64 channels over 8 links each, and so 32 rows a link; offers between the slots, which are
 * timed apart, keep every link busy in every slot. */
#include "traffic.h"
#include <stdio.h>
#include <stdlib.h>
#include <string.h>

enum { SLOTS = 1024, REPEATS = 15, CALLS = 20, RECORDS = RECORD * (17 + CHANNELS) };

struct calls {
    uint64_t (*offer)(uint64_t *, size_t, uint64_t, uint64_t, uint64_t *, uint64_t *, uint64_t *);
    size_t (*slot)(uint64_t *, size_t, uint64_t *, size_t, uint64_t *, uint64_t *);
    uint64_t (*idle)(const uint64_t *, size_t, uint64_t *, uint64_t *);
    uint64_t (*skip)(uint64_t *, size_t, uint64_t, uint64_t *, uint64_t *);
    bool (*sound)(const uint64_t *, size_t);
};

/* One side, with the least time of each slot and of each offer over all repeats, so that what else the machine does is left
 * out, and the least of the other calls, in nanoseconds. */
struct side {
    struct calls f;
    double slot[SLOTS], offer[CHANNELS * SLOTS], sound, idle, skip;
};

static struct side proved = {.f = {byanghosu_offer, byanghosu_slot, byanghosu_idle, byanghosu_skip, byanghosu_sound}};
static struct side plain = {.f = {plain_offer, plain_slot, plain_idle, plain_skip, plain_sound}};

/* What a run of slots did; `sum` is one over all answers in turn. */
struct run {
    uint64_t offers, sends, sum;
};

/* The store, and its records as they are before the calls that are timed. */
static uint64_t store[BYANGHOSU_STORE], room[RECORDS];

static void fail(const char *what) {
    printf("slot: %s\n", what);
    exit(1);
}

/* A room whose channels have a message of C packets every `spacing` * C slots, C being 1, 2 and 4 in turn up to `most`, and as
 * much time on each link. */
struct shape {
    uint64_t channels, hops, spacing, most, burst;
};

static uint64_t rows_of(const struct shape *s) { return s->channels * s->hops / LINKS; }

static void open_all(const struct shape *s) {
    uint64_t route[HOPS], channel, per_link[3][HOPS], place;
    memset(store, 0, sizeof store);
    add_links(store);
    for (uint64_t n = 0; n < s->channels; n++) {
        uint64_t c = UINT64_C(1) << n / 8 % 3;
        if (c > s->most) c = s->most;
        for (uint64_t j = 0; j < s->hops; j++) route[j] = link_on_route(n, j);
        if (byanghosu_open(store, BYANGHOSU_STORE, c, s->spacing * c, 480000, s->burst, route, s->hops, &channel, per_link[0],
                           per_link[1], per_link[2], &place))
            fail("every channel should be opened");
    }
}

/* Whether the next message of a channel is accepted now; the first ones come one after the other. */
static bool due(uint64_t n) {
    const uint64_t *c = store + channel_at(n), m = c[MESSAGES];
    return m ? c[TIME + m % KEPT] + c[P] <= store[2] + (c[B] - 1) * c[P] : store[2] >= n;
}

static void lessen(double *best, double time) {
    if (time < *best) *best = time;
}

static void forget(struct side *s) {
    for (size_t i = 0; i < SLOTS; i++) s->slot[i] = 1e18;
    for (size_t i = 0; i < CHANNELS * SLOTS; i++) s->offer[i] = 1e18;
    s->sound = s->idle = s->skip = 1e18;
}

/* Microseconds a call. */
static double mean(const double *times, uint64_t count) {
    double all = 0;
    for (uint64_t i = 0; i < count; i++) all += times[i];
    return all / (count ? count : 1) / 1000;
}

static void offer_due(struct side *s, struct run *r) {
    uint64_t message, logical, place;
    for (uint64_t n = 0; n < store[1]; n++) {
        if (!due(n)) continue;
        double start = now();
        if (s->f.offer(store, BYANGHOSU_STORE, n, store[channel_at(n) + C], &message, &logical, &place))
            fail("every message should be accepted");
        lessen(&s->offer[r->offers++], now() - start);
        r->sum = (r->sum ^ message ^ logical) * 31;
    }
}

/* Slots from the present one on, with the offers before each. */
static struct run drive(struct side *s) {
    uint64_t out[SEND * LINKS], number, place;
    struct run r = {0, 0, 0};
    for (uint64_t i = 0; i < SLOTS; i++) {
        offer_due(s, &r);
        double start = now();
        size_t sends = s->f.slot(store, BYANGHOSU_STORE, out, SEND * LINKS, &number, &place);
        lessen(&s->slot[i], now() - start);
        if (number) fail("every slot should run");
        r.sends += sends;
        for (uint64_t k = 0; k < SEND * sends; k++) r.sum = (r.sum ^ out[k]) * 31;
    }
    return r;
}

static void check(struct side *s) {
    uint64_t sound = 0;
    double start = now();
    for (uint64_t n = 0; n < CALLS; n++) {
        store[2]++;
        sound += s->f.sound(store, BYANGHOSU_STORE);
    }
    lessen(&s->sound, (now() - start) / CALLS);
    if (sound != CALLS) fail("the room should be sound");
}

static struct run measure(struct side *s) {
    memcpy(store, room, sizeof room);
    struct run r = drive(s);
    for (int i = 0; i < REPEATS; i++) check(s);
    return r;
}

/* Messages of all channels that are not wholly delivered, in the room that is timed. */
static uint64_t under_way(void) {
    uint64_t all = 0;
    for (uint64_t n = 0; n < room[1]; n++) {
        const uint64_t *c = room + channel_at(n);
        for (uint64_t m = c[MESSAGES]; c[END + m % KEPT] > c[SENT + c[LENGTH] - 1]; m--) all++;
    }
    return all;
}

/* Times a room of this shape once it is in its stride. */
static struct run compare(const struct shape *s) {
    struct run a = {0, 0, 0}, b;
    open_all(s);
    for (int i = 0; i < 4; i++) drive(&plain);
    memcpy(room, store, sizeof room);
    forget(&proved);
    forget(&plain);
    for (int i = 0; i < REPEATS; i++) {
        a = measure(&proved);
        b = measure(&plain);
        if (a.sum != b.sum || a.sends != b.sends || a.offers != b.offers) fail("both should do alike");
    }
    return a;
}

static void print_both(double ours, double theirs) {
    printf("proved %.2f µs, plain C %.2f µs, ratio %.2f\n", ours, theirs, ours / theirs);
}

static void full_room(void) {
    const struct shape full = {CHANNELS, HOPS, ROWS, 4, 2};
    struct run r = compare(&full);
    double ours = mean(proved.slot, SLOTS), theirs = mean(plain.slot, SLOTS);
    if (r.sends < LINKS * SLOTS) fail("every link should be busy in every slot");
    printf("slot, full room, 32 rows a link, every link busy: ");
    print_both(ours, theirs);
    printf("  slots a second: proved %.0f, plain C %.0f\n", 1e6 / ours, 1e6 / theirs);
    printf("  of which the soundness check: proved %.2f µs (%.0f%%), plain C %.2f µs (%.0f%%)\n", proved.sound / 1000,
           proved.sound / ours / 10, plain.sound / 1000, plain.sound / theirs / 10);
    printf("offer in the same room: ");
    print_both(mean(proved.offer, r.offers), mean(plain.offer, r.offers));
}

/* How the time of a slot grows with channels and rows, with rows alone, and with messages. */
static void growth(void) {
    static const struct shape shapes[] = {
        {8, 8, 4, 4, 2}, {16, 8, 8, 4, 2}, {32, 8, 16, 4, 2}, {64, 8, 32, 4, 2}, {64, 2, 8, 4, 2}, {64, 4, 16, 4, 2},
        {64, 8, 32, 1, 1}, {64, 8, 32, 1, 4}, {64, 8, 32, 1, 16},
    };
    for (size_t i = 0; i < sizeof shapes / sizeof *shapes; i++) {
        const struct shape *s = shapes + i;
        struct run r = compare(s);
        printf("  slot, %2u channels, %2u rows a link, %4.1f messages under way a channel, %3.0f%% busy: ", (unsigned)s->channels,
               (unsigned)rows_of(s), (double)under_way() / s->channels, 100.0 * r.sends / LINKS / SLOTS);
        print_both(mean(proved.slot, SLOTS), mean(plain.slot, SLOTS));
    }
}

/* A skip and the question before it; the clock is put back after each. */
static void wait_for(struct side *s, uint64_t slots) {
    uint64_t clock = store[2], wrong = 0, found, place;
    double start = now();
    for (uint64_t n = 0; n < CALLS; n++) {
        store[2] = clock + n % 2;
        wrong += s->f.idle(store, BYANGHOSU_STORE, &found, &place) || found != slots - n % 2;
    }
    lessen(&s->idle, (now() - start) / CALLS);
    start = now();
    for (uint64_t n = 0; n < CALLS; n++) {
        store[2] = clock + n % 2;
        wrong += s->f.skip(store, BYANGHOSU_STORE, slots, &found, &place) || found != slots - n % 2;
    }
    lessen(&s->skip, (now() - start) / CALLS);
    store[2] = clock;
    if (wrong) fail("both should wait alike");
}

/* A full room that has sent what is current, with two messages more of each channel to come. */
static void long_wait(void) {
    const struct shape quiet = {CHANNELS, HOPS, 6000, 1, 3};
    struct run r = {0, 0, 0};
    uint64_t slots, out[SEND * LINKS], number, place;
    open_all(&quiet);
    store[2] = CHANNELS;
    for (int i = 0; i < 3; i++) offer_due(&plain, &r);
    while (plain_idle(store, BYANGHOSU_STORE, &slots, &place) == 0 && slots == 0) {
        plain_slot(store, BYANGHOSU_STORE, out, SEND * LINKS, &number, &place);
        if (number) fail("every slot should run");
    }
    for (int i = 0; i < REPEATS * REPEATS; i++) {
        wait_for(&proved, slots);
        wait_for(&plain, slots);
    }
    printf("idle, full room that waits for %u slots: ", (unsigned)slots);
    print_both(proved.idle / 1000, plain.idle / 1000);
    printf("skip in the same room: ");
    print_both(proved.skip / 1000, plain.skip / 1000);
}

int main(void) {
    full_room();
    growth();
    long_wait();
    return 0;
}
