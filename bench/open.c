/* Opening the 64th channel of a full room: the proved library against the same work in plain C, in one run. Prints
 * microseconds a call for each, their ratio, and how much of each the soundness check takes. The room has 16 links and 63
 * channels over 8 links each; on the 8 links of the new channel's route stand 31 rows. */
#include "plain.h"
#include <stdio.h>
#include <string.h>

enum { CALLS = 400, REPEATS = 9, RECORDS = RECORD * (17 + CHANNELS) };

/* A link's rows under the new channel, which is row 0. */
struct table {
    uint32_t rows, c[ROWS + 1], p[ROWS + 1], delay[ROWS + 1];
};

/* The numbers per link that an open works out, 0 past the end of the route. */
struct numbers {
    uint64_t response[HOPS], delay[HOPS], reserved[HOPS];
};

/* The response of a channel with `own` packets below rows `first` to `last` - 1; 0 where there is none. */
static uint32_t response(const struct table *t, uint32_t first, uint32_t last, uint32_t own, uint32_t limit) {
    uint32_t r = own;
    for (uint32_t i = first; i < last; i++) r += t->c[i];
    while (r <= limit) {
        uint32_t need = own;
        for (uint32_t i = first; i < last; i++) need += t->c[i] * ((r + t->p[i] - 1) / t->p[i]);
        if (need == r) return r;
        r = need;
    }
    return 0;
}

static void copy_table(struct table *t, const uint64_t *store, uint64_t l, uint64_t c, uint64_t p) {
    const uint64_t *k = store + link_at(l);
    t->rows = (uint32_t)k[IN_USE], t->c[0] = (uint32_t)c, t->p[0] = (uint32_t)p;
    for (uint32_t i = 1; i <= t->rows; i++) {
        const uint64_t *row = k + ROW + 2 * (i - 1), *old = store + channel_at(row[0]);
        t->c[i] = (uint32_t)old[C], t->p[i] = (uint32_t)old[P], t->delay[i] = (uint32_t)old[DELAY + row[1]];
    }
}

/* The new channel's response on a link, at the highest place at which every old row after it has a response. */
static uint32_t response_on(const uint64_t *store, uint64_t l, uint64_t c, uint64_t p) {
    struct table t;
    copy_table(&t, store, l, c, p);
    uint32_t q = t.rows;
    while (q > 0 && response(&t, 0, q, t.c[q], t.delay[q])) q--;
    return response(&t, 1, q + 1, (uint32_t)c, (uint32_t)p);
}

/* Checks 3, 4 and 5. */
static uint64_t route_refusal(const uint64_t *store, const uint64_t *route, uint64_t hops, uint64_t *place) {
    uint32_t seen = 0;
    for (*place = 0; *place < hops; ++*place)
        if (route[*place] >= store[0]) return 3;
    for (*place = 0; *place < hops; ++*place) {
        if (seen >> route[*place] & 1) return 4;
        seen |= UINT32_C(1) << route[*place];
    }
    for (*place = 1; *place < hops; ++*place)
        if (store[link_at(route[*place]) + FROM] != store[link_at(route[*place - 1]) + TO]) return 5;
    *place = 0;
    return 0;
}

/* Checks 6 to 9, and the responses. */
static uint64_t search_refusal(const uint64_t *store, const uint64_t *new, struct numbers *found, uint64_t *place) {
    uint64_t all = 0, hops = new[LENGTH];
    if (store[1] == CHANNELS) return 6;
    for (*place = 0; *place < hops; ++*place)
        if (store[link_at(new[ROUTE + *place]) + IN_USE] == ROWS) return 7;
    for (*place = 0; *place < hops; ++*place) {
        uint32_t r = response_on(store, new[ROUTE + *place], new[C], new[P]);
        if (r == 0) return 8;
        found->response[*place] = r;
        all += r;
    }
    *place = 0;
    return all > new[D] ? 9 : 0;
}

/* The delays, which go into the new record, and what is reserved; check 10. */
static uint64_t space_refusal(const uint64_t *store, uint64_t *new, struct numbers *found, uint64_t *place) {
    uint64_t all = 0, hops = new[LENGTH];
    for (uint64_t j = 0; j < hops; j++) all += found->response[j];
    for (uint64_t j = 0; j < hops; j++) {
        uint64_t r = found->response[j], share = r + (new[D] - all) * r / all;
        found->delay[j] = new[DELAY + j] = share < new[P] ? share : new[P];
    }
    for (*place = 0; *place < hops; ++*place) {
        const uint64_t *k = store + link_at(new[ROUTE + *place]);
        uint64_t sum = found->reserved[*place] = reserved_for(store, new, *place);
        for (uint64_t i = 0; i < k[IN_USE]; i++)
            sum += reserved_for(store, store + channel_at(k[ROW + 2 * i]), k[ROW + 2 * i + 1]);
        if (sum > k[BUFFER]) return 10;
    }
    *place = 0;
    return 0;
}

/* All checks in their order. Where they pass, `new` is the new channel's record. */
static uint64_t open_refusal(const uint64_t *store, size_t length, const uint64_t *route, uint64_t *new,
                             struct numbers *found, uint64_t *place) {
    *place = 0;
    if (!plain_sound(store, length)) return 17;
    if (store[2] == end_slot) return 14;
    if (!in(new[C], 1, 200) || !in(new[P], 1, 60000) || !in(new[D], 1, 480000) || !in(new[B], 1, 16)) return 1;
    if (!in(new[LENGTH], 1, HOPS)) return 2;
    uint64_t refusal = route_refusal(store, route, new[LENGTH], place);
    if (refusal) return refusal;
    memcpy(new + ROUTE, route, new[LENGTH] * sizeof *route);
    refusal = search_refusal(store, new, found, place);
    return refusal ? refusal : space_refusal(store, new, found, place);
}

/* The same work in plain C. */
static uint64_t plain_open(uint64_t *store, size_t length, uint64_t c, uint64_t p, uint64_t d, uint64_t b,
                           const uint64_t *route, size_t hops, uint64_t *channel, uint64_t responses[8],
                           uint64_t delays[8], uint64_t reserved[8], uint64_t *place) {
    static const struct numbers none;
    struct numbers found = none;
    uint64_t new[RECORD] = {c, p, d, b, hops};
    uint64_t refusal = open_refusal(store, length, route, new, &found, place);
    if (refusal) found = none;
    memcpy(responses, found.response, sizeof found.response);
    memcpy(delays, found.delay, sizeof found.delay);
    memcpy(reserved, found.reserved, sizeof found.reserved);
    if (refusal) return refusal;
    *channel = store[1]++;
    memcpy(store + channel_at(*channel), new, sizeof new);
    for (uint64_t j = 0; j < hops; j++) add_row(store, route[j], *channel, j, new[DELAY + j]);
    return 0;
}

typedef uint64_t call(uint64_t *, size_t, uint64_t, uint64_t, uint64_t, uint64_t, const uint64_t *, size_t, uint64_t *,
                      uint64_t[8], uint64_t[8], uint64_t[8], uint64_t *);
typedef bool check(const uint64_t *, size_t);

/* The store, its records as they are before the open that is timed, and the answer. */
static uint64_t store[BYANGHOSU_STORE], room[RECORDS];
static uint64_t channel, place, per_link[3][HOPS];

/* Opens channel n. The periods make for links loaded to about two thirds. */
static uint64_t open_nth(call *f, uint64_t n) {
    uint64_t route[HOPS], p = 50 + 27 * n % 64 * 4;
    for (uint64_t j = 0; j < HOPS; j++) route[j] = link_on_route(n, j);
    return f(store, BYANGHOSU_STORE, 2 + n % 3, p, HOPS * p * 9 / 10, 4, route, HOPS, &channel, per_link[0], per_link[1],
             per_link[2], &place);
}

static bool fill(void) {
    add_links(store);
    for (uint64_t n = 0; n < CHANNELS - 1; n++)
        if (open_nth(plain_open, n)) return false;
    for (uint64_t n = 0; n < CHANNELS - 1; n++) add_messages(store, n);
    memcpy(room, store, sizeof room);
    return true;
}

/* The room is brought back before each call, outside the time that is taken; its clock differs from call to call. */
static double microseconds(call *f, uint64_t *refused) {
    double all = 0;
    for (uint64_t n = 0; n < CALLS; n++) {
        memcpy(store, room, sizeof room);
        store[2] = n;
        double start = now();
        *refused += open_nth(f, CHANNELS - 1) != 0;
        all += now() - start;
    }
    return all / CALLS / 1000;
}

static double microseconds_sound(check *f, uint64_t *refused) {
    memcpy(store, room, sizeof room);
    double start = now();
    for (uint64_t n = 0; n < CALLS; n++) {
        store[2] = n;
        *refused += !f(store, BYANGHOSU_STORE);
    }
    return (now() - start) / CALLS / 1000;
}

struct times {
    double proved, plain;
};

static double least(double a, double b) { return a < b ? a : b; }

/* Whether the two leave the same store and the same answer. */
static bool agree(void) {
    static uint64_t left[BYANGHOSU_STORE], answer[3][HOPS];
    uint64_t refused = 0;
    microseconds(byanghosu_open, &refused);
    memcpy(left, store, sizeof store);
    memcpy(answer, per_link, sizeof per_link);
    microseconds(plain_open, &refused);
    return !refused && !memcmp(left, store, sizeof store) && !memcmp(answer, per_link, sizeof per_link);
}

int main(void) {
    struct times opens = {1e18, 1e18}, checks = {1e18, 1e18};
    uint64_t refused = 0;
    if (!fill() || !agree()) {
        printf("open: the channel should be opened, and both should do it alike\n");
        return 1;
    }
    for (int i = 0; i < REPEATS; i++) {
        opens.proved = least(opens.proved, microseconds(byanghosu_open, &refused));
        opens.plain = least(opens.plain, microseconds(plain_open, &refused));
        checks.proved = least(checks.proved, microseconds_sound(byanghosu_sound, &refused));
        checks.plain = least(checks.plain, microseconds_sound(plain_sound, &refused));
    }
    if (refused) {
        printf("open: the room should be sound and the channel opened each time\n");
        return 1;
    }
    printf("open, 64th channel, 8 links with 31 rows each: proved %.1f µs, plain C %.1f µs, ratio %.2f\n", opens.proved,
           opens.plain, opens.proved / opens.plain);
    printf("  of which the soundness check: proved %.1f µs (%.0f%%), plain C %.1f µs (%.0f%%)\n", checks.proved,
           100 * checks.proved / opens.proved, checks.plain, 100 * checks.plain / opens.plain);
    return 0;
}
