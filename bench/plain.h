/* What the benchmarks have in common: the store as docs/STORE.md lays it out, its soundness in plain C, and the clock. */
#ifndef PLAIN_H
#define PLAIN_H

#define _POSIX_C_SOURCE 199309L /* clock_gettime */
#include "../include/byanghosu.h"
#include <time.h>

enum { LINKS = 16, CHANNELS = 64, ROWS = 32, HOPS = 8, KEPT = 24, UNDER_WAY = 10 };

static const uint64_t end_slot = 1000000000000, latest = 1000002000000;

/* The records of docs/STORE.md, and the places of their fields. */
enum { RECORD = 96 };
enum { FROM, TO, HORIZON, BUFFER, IN_USE, ROW = 16 };
enum { C, P, D, B, LENGTH, MESSAGES, ROUTE = 8, DELAY = 16, SENT = 24, TIME = 32, END = 56 };

static inline size_t link_at(uint64_t l) { return RECORD * (1 + l); }
static inline size_t channel_at(uint64_t c) { return RECORD * (17 + c); }

static inline bool in(uint64_t n, uint64_t least, uint64_t most) { return least <= n && n <= most; }

static inline bool link_passes(const uint64_t *k) {
    return k[FROM] <= 255 && k[TO] <= 255 && k[FROM] != k[TO] && k[HORIZON] <= 4096 && in(k[BUFFER], 1, 256) &&
           k[IN_USE] <= ROWS;
}

/* The route with its delays, and that no more was sent than had come. */
static inline bool route_passes(const uint64_t *store, const uint64_t *c) {
    uint64_t come = c[END + c[MESSAGES] % KEPT], at = 0;
    uint32_t seen = 0;
    for (uint64_t j = 0; j < c[LENGTH]; j++) {
        uint64_t l = c[ROUTE + j];
        if (l >= store[0] || (seen >> l & 1)) return false;
        const uint64_t *k = store + link_at(l);
        if ((j > 0 && k[FROM] != at) || !in(c[DELAY + j], 1, c[P]) || c[SENT + j] > come) return false;
        seen |= UINT32_C(1) << l;
        at = k[TO];
        come = c[SENT + j];
    }
    return true;
}

/* A message's time on the last link of its route: where it is early enough for any route, the delays are not added up. */
static inline bool time_passes(const uint64_t *c, uint64_t time) {
    if (time <= latest - (HOPS - 1) * UINT64_C(60000)) return true;
    if (time > latest) return false;
    for (uint64_t j = 0; j + 1 < c[LENGTH]; j++) time += c[DELAY + j];
    return time <= latest;
}

/* The messages, from the last back to a delivered one. */
static inline bool messages_pass(const uint64_t *c) {
    uint64_t n = c[MESSAGES], at = n % KEPT, delivered = c[SENT + c[LENGTH] - 1];
    if (n > latest || (n > 0 && !time_passes(c, c[TIME + at])) || c[END + at] > c[C] * n) return false;
    for (uint64_t left = n < KEPT ? n : KEPT - 1; c[END + at] > delivered; left--) {
        if (left == 0) return false;
        uint64_t before = at == 0 ? KEPT - 1 : at - 1;
        if (c[END + before] >= c[END + at] || c[END + at] - c[END + before] > c[C]) return false;
        if (c[END + before] > delivered && (c[TIME + at] < c[P] || c[TIME + before] > c[TIME + at] - c[P])) return false;
        at = before;
    }
    return true;
}

static inline bool channel_passes(const uint64_t *store, const uint64_t *c) {
    return in(c[C], 1, 200) && in(c[P], 1, 60000) && in(c[D], 1, 480000) && in(c[B], 1, 16) && in(c[LENGTH], 1, HOPS) &&
           route_passes(store, c) && messages_pass(c);
}

static inline uint64_t reserved_for(const uint64_t *store, const uint64_t *c, uint64_t j) {
    if (j == 0) return c[B] * c[C];
    uint64_t stretch = store[link_at(c[ROUTE + j - 1]) + HORIZON] + c[DELAY + j - 1] + c[DELAY + j] - 2;
    return c[C] * (1 + (uint32_t)stretch / (uint32_t)c[P]);
}

static inline bool rows_pass(const uint64_t *store, uint64_t l) {
    const uint64_t *k = store + link_at(l);
    uint64_t all = 0, delay = 0, channel = 0;
    for (uint64_t i = 0; i < k[IN_USE]; i++) {
        uint64_t n = k[ROW + 2 * i], j = k[ROW + 2 * i + 1];
        if (n >= store[1]) return false;
        const uint64_t *c = store + channel_at(n);
        if (j >= c[LENGTH] || c[ROUTE + j] != l) return false;
        if (i > 0 && (c[DELAY + j] < delay || (c[DELAY + j] == delay && n <= channel))) return false;
        uint64_t come = j == 0 ? c[END + c[MESSAGES] % KEPT] : c[SENT + j - 1], most = reserved_for(store, c, j);
        if (come - c[SENT + j] > most) return false;
        all += most;
        delay = c[DELAY + j];
        channel = n;
    }
    return all <= k[BUFFER];
}

/* The same work in plain C. Rows that pass are all different, so that none is missing where they are as many as the
 * places of all routes. */
static inline bool plain_sound(const uint64_t *store, size_t length) {
    if (length < BYANGHOSU_STORE || !in(store[0], 1, LINKS) || store[1] > CHANNELS || store[2] > end_slot) return false;
    uint64_t rows = 0, places = 0;
    for (uint64_t l = 0; l < store[0]; l++) {
        if (!link_passes(store + link_at(l))) return false;
        rows += store[link_at(l) + IN_USE];
    }
    for (uint64_t c = 0; c < store[1]; c++) {
        if (!channel_passes(store, store + channel_at(c))) return false;
        places += store[channel_at(c) + LENGTH];
    }
    for (uint64_t l = 0; l < store[0]; l++)
        if (!rows_pass(store, l)) return false;
    return rows == places;
}

/* A row more, in its place by delay; the channels come in order. */
static inline void add_row(uint64_t *store, uint64_t l, uint64_t channel, uint64_t place, uint64_t delay) {
    uint64_t *k = store + link_at(l), i = k[IN_USE]++;
    for (; i > 0; i--) {
        uint64_t *row = k + ROW + 2 * (i - 1);
        if (store[channel_at(row[0]) + DELAY + row[1]] <= delay) break;
        row[2] = row[0];
        row[3] = row[1];
    }
    k[ROW + 2 * i] = channel;
    k[ROW + 2 * i + 1] = place;
}

/* A network of eight links there and eight back between two nodes, and a route over eight of them; of 64 channels with such
 * routes each link has 32. */
static inline void add_links(uint64_t *store) {
    store[0] = LINKS;
    for (uint64_t l = 0; l < LINKS; l++) {
        uint64_t *k = store + link_at(l);
        k[FROM] = l % 2, k[TO] = 1 - l % 2, k[HORIZON] = 8, k[BUFFER] = 256;
    }
}

static inline uint64_t link_on_route(uint64_t n, uint64_t j) { return 2 * ((n + j / 2) % HOPS) + j % 2; }

/* Messages of channel n: three on its first link and one on each of the others. */
static inline void add_messages(uint64_t *store, uint64_t n) {
    uint64_t *c = store + channel_at(n), last = 100 + n;
    c[MESSAGES] = last;
    for (uint64_t m = last - KEPT + 1; m <= last; m++) c[TIME + m % KEPT] = m * c[P], c[END + m % KEPT] = m * c[C];
    for (uint64_t j = 0; j < HOPS; j++) c[SENT + j] = (last - (UNDER_WAY - HOPS + 1) - j) * c[C];
}

/* The time, in nanoseconds. */
static inline double now(void) {
    struct timespec t;
    clock_gettime(CLOCK_MONOTONIC, &t);
    return t.tv_sec * 1e9 + t.tv_nsec;
}

#endif
