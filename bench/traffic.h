/* An offer, a slot and long waits in plain C, for the benchmark: document 01, "Offering" and "A slot", on the store of
 * docs/STORE.md. */
#ifndef TRAFFIC_H
#define TRAFFIC_H

#include "plain.h"

enum { SEND = 5 };

/* The packet of a row's channel that goes next; where none is held, `held` is 0 and the rest is not worked out. */
struct head {
    uint64_t held, message, packet, logical, deadline;
};

/* What a link sends: the next packet of `channel`, at `place` of its route. */
struct pick {
    bool any;
    uint64_t channel, place, message, packet;
};

static inline uint64_t come_to(const uint64_t *c, uint64_t j) { return j ? c[SENT + j - 1] : c[END + c[MESSAGES] % KEPT]; }

/* The message is looked for from the last one back. */
static inline struct head head_at(const uint64_t *c, uint64_t j) {
    uint64_t sent = c[SENT + j], n = c[MESSAGES], at = n % KEPT, before;
    struct head h = {come_to(c, j) - sent, 0, 0, 0, 0};
    if (!h.held) return h;
    for (; before = at ? at - 1 : KEPT - 1, c[END + before] > sent; n--) at = before;
    h.message = n - 1;
    h.packet = sent - c[END + before];
    h.logical = c[TIME + at];
    for (uint64_t i = 0; i < j; i++) h.logical += c[DELAY + i];
    h.deadline = h.logical + c[DELAY + j];
    return h;
}

/* The current packet with the earliest deadline, or else the early one with the least logical time. */
static inline struct pick pick_of(const uint64_t *store, uint64_t l) {
    const uint64_t *k = store + link_at(l), clock = store[2];
    struct pick best = {0};
    bool current = false;
    uint64_t least = clock + k[HORIZON];
    for (uint64_t i = 0; i < k[IN_USE]; i++) {
        uint64_t n = k[ROW + 2 * i], j = k[ROW + 2 * i + 1];
        struct head h = head_at(store + channel_at(n), j);
        if (!h.held || (current && h.logical > clock)) continue;
        bool first = h.logical <= clock && !current;
        uint64_t key = h.logical <= clock ? h.deadline : h.logical;
        if (!first && (key > least || (key == least && best.any && n > best.channel))) continue;
        current |= first;
        least = key;
        best = (struct pick){true, n, j, h.message, h.packet};
    }
    return best;
}

/* Whether a packet picked has room at the next place: fewer are held there than are reserved, or one leaves. */
static inline bool next_has_room(const uint64_t *store, const struct pick *picks, const struct pick *p) {
    const uint64_t *c = store + channel_at(p->channel), next = p->place + 1;
    if (next == c[LENGTH] || c[SENT + p->place] - c[SENT + next] < reserved_for(store, c, next)) return true;
    const struct pick *there = picks + c[ROUTE + next];
    return there->any && there->channel == p->channel;
}

static inline size_t refuse(uint64_t *number, uint64_t why) {
    *number = why;
    return 0;
}

static inline size_t plain_slot(uint64_t *store, size_t length, uint64_t *out, size_t room, uint64_t *number, uint64_t *place) {
    struct pick picks[LINKS];
    size_t sends = 0;
    *number = *place = 0;
    if (!plain_sound(store, length)) return refuse(number, 17);
    if (store[2] == end_slot) return refuse(number, 14);
    if (room < SEND * store[0]) return refuse(number, 15);
    for (uint64_t l = 0; l < store[0]; l++) picks[l] = pick_of(store, l);
    for (uint64_t l = 0; l < store[0]; l++)
        if (picks[l].any && !next_has_room(store, picks, picks + l)) return refuse(number, 17);
    for (uint64_t l = 0; l < store[0]; l++) {
        const struct pick *p = picks + l;
        if (!p->any) continue;
        uint64_t *send = out + SEND * sends++;
        send[0] = store[2], send[1] = l, send[2] = p->channel, send[3] = p->message, send[4] = p->packet;
        store[channel_at(p->channel) + SENT + p->place]++;
    }
    store[2]++;
    return sends;
}

/* Whether a message more may be counted and kept, with at most 22 under way before it, and its packets be held. */
static inline bool message_has_room(const uint64_t *c, uint64_t packets) {
    uint64_t at = c[MESSAGES] % KEPT, held = c[END + at] - c[SENT], under_way = 0;
    for (; c[END + at] > c[SENT + c[LENGTH] - 1]; under_way++) at = at ? at - 1 : KEPT - 1;
    return c[MESSAGES] < latest && under_way <= KEPT - 2 && held + packets <= c[B] * c[C];
}

static inline uint64_t plain_offer(uint64_t *store, size_t length, uint64_t channel, uint64_t packets, uint64_t *message,
                                   uint64_t *logical, uint64_t *place) {
    *place = 0;
    if (!plain_sound(store, length)) return 17;
    if (store[2] == end_slot) return 14;
    if (channel >= store[1]) return 11;
    uint64_t *c = store + channel_at(channel), n = c[MESSAGES], time = store[2];
    if (!in(packets, 1, c[C])) return 12;
    if (n > 0 && c[TIME + n % KEPT] + c[P] > time) time = c[TIME + n % KEPT] + c[P];
    if (time - store[2] > (c[B] - 1) * c[P]) return 13;
    if (!message_has_room(c, packets)) return 17;
    c[TIME + (n + 1) % KEPT] = time;
    c[END + (n + 1) % KEPT] = c[END + n % KEPT] + packets;
    c[MESSAGES] = n + 1;
    *message = n;
    *logical = time;
    return 0;
}

static inline uint64_t plain_idle(const uint64_t *store, size_t length, uint64_t *slots, uint64_t *place) {
    *place = 0;
    if (!plain_sound(store, length)) return 17;
    if (store[2] == end_slot) return 14;
    uint64_t first = end_slot;
    for (uint64_t l = 0; l < store[0]; l++) {
        const uint64_t *k = store + link_at(l);
        for (uint64_t i = 0; i < k[IN_USE]; i++) {
            struct head h = head_at(store + channel_at(k[ROW + 2 * i]), k[ROW + 2 * i + 1]);
            if (!h.held) continue;
            uint64_t from = h.logical < k[HORIZON] ? 0 : h.logical - k[HORIZON];
            if (from < first) first = from;
        }
    }
    *slots = first < store[2] ? 0 : first - store[2];
    return 0;
}

static inline uint64_t plain_skip(uint64_t *store, size_t length, uint64_t n, uint64_t *slots, uint64_t *place) {
    uint64_t idle, number = plain_idle(store, length, &idle, place);
    if (number) return number;
    *slots = n < idle ? n : idle;
    store[2] += *slots;
    return 0;
}

#endif
