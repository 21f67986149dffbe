/* Byanghosu: what the router's control board calls. Numbers and lent buffers only. For C99 and C++11, on x86-64.
 *
 * A call that can be refused returns the refusal number of document 01, or 0 where it ran; a slot gives back its sends, and
 * writes that number to a lent one. A refused call writes no output but this, `place`, the place that the refusal names (0
 * where none is named), and an open's numbers per link, all 0; a call that ran sets `place` to 0.
 *
 * What C must keep:
 * - Pointers. None may be null: where a length is 0, pass a pointer to any number of yours, which is then not touched. All are
 *   aligned as uint64_t is. No two lent buffers of one call may share a number.
 * - Lengths count numbers of 8 bytes, not bytes. One that is too small, too large for what it counts or ends within a link or a
 *   row is answered, as each call says below; one that is larger than what is really there cannot be seen, and the call may
 *   then read or write beyond it.
 * - The store. It is C's memory, and nothing in it is a pointer: it may be copied, saved and put back. Between calls C may read
 *   it and writes nothing to it. A change that leaves it unsound is answered with 17; any other is taken for true. In a store
 *   that only these calls have written since its set-up, no open, offer, slot, idle or skip gives 17.
 * - Threads. One call at a time for each store and buffer, and nobody else touches it until that call returns. The library has
 *   no memory of its own, so calls that are lent other stores and buffers may run at the same time.
 * - The stack. A call needs at most BYANGHOSU_STACK bytes, among them up to 128 below the stack pointer, as x86-64 allows. It
 *   calls memcpy and memset, which are the C library's, and nothing else; it allocates nothing, waits for nothing and uses no
 *   floating point, but it does use the SSE2 registers. `tools/exec target/tests/stack` prints what each call is seen to need. */
#ifndef BYANGHOSU_H
#define BYANGHOSU_H

#include <stdbool.h>
#include <stddef.h>
#include <stdint.h>

#ifdef __cplusplus
extern "C" {
#endif

/* Sizes, in numbers. */
#define BYANGHOSU_STORE 65536   /* a store */
#define BYANGHOSU_LINK 4        /* a link of a set-up: from, to, horizon, buffer */
#define BYANGHOSU_ROW 3         /* a row of a response's table: C, p, delay */
#define BYANGHOSU_SEND 5        /* a send of a slot: slot, link, channel, message, packet */
#define BYANGHOSU_MOST_LINKS 16 /* most links of a network, and so most sends of a slot */
#define BYANGHOSU_MOST_HOPS 8   /* most links of a route */
#define BYANGHOSU_MOST_ROWS 32  /* most rows of a table */

/* Numbers of a store that C may read, by their places; docs/STORE.md has all of them. */
#define BYANGHOSU_AT_LINKS 0    /* how many links there are */
#define BYANGHOSU_AT_CHANNELS 1 /* how many channels have been opened */
#define BYANGHOSU_AT_CLOCK 2    /* the present slot */

/* The most stack that a call needs, in bytes. */
#define BYANGHOSU_STACK 2048

/* Document 01's refusal numbers, and what `place` then counts, if it is not 0. */
#define BYANGHOSU_RAN UINT64_C(0)              /* not refused */
#define BYANGHOSU_RANGE UINT64_C(1)            /* open: C, p, D or B outside its range */
#define BYANGHOSU_ROUTE_LENGTH UINT64_C(2)     /* open: the route has 0 or more than 8 links */
#define BYANGHOSU_NO_LINK UINT64_C(3)          /* open: a link number does not exist; place on the route */
#define BYANGHOSU_LINK_TWICE UINT64_C(4)       /* open: a link stands twice; place on the route */
#define BYANGHOSU_LINKS_APART UINT64_C(5)      /* open: a link does not start where the one before ends; place on the route */
#define BYANGHOSU_CHANNELS_FULL UINT64_C(6)    /* open: 64 channels exist */
#define BYANGHOSU_ROWS_FULL UINT64_C(7)        /* open: a link of the route has 32 rows; place on the route */
#define BYANGHOSU_NO_RESPONSE UINT64_C(8)      /* open: on a link no response within p; place on the route */
#define BYANGHOSU_OVER_D UINT64_C(9)           /* open: the responses add up to more than D */
#define BYANGHOSU_BUFFER_FULL UINT64_C(10)     /* open: a link's reserved packets would exceed its buffer; place on the route */
#define BYANGHOSU_NO_CHANNEL UINT64_C(11)      /* offer: no such channel */
#define BYANGHOSU_MESSAGE_LENGTH UINT64_C(12)  /* offer: 0 packets or more than C */
#define BYANGHOSU_BURST UINT64_C(13)           /* offer: burst exceeded */
#define BYANGHOSU_END_SLOT UINT64_C(14)        /* open, offer, slot, idle, skip: the clock is at the end slot */
#define BYANGHOSU_OUT_SHORT UINT64_C(15)       /* slot: output has room for fewer sends than there are links */
#define BYANGHOSU_BAD_LINKS UINT64_C(16)       /* set-up: no links or more than 16, or one that is out of range; its place */
#define BYANGHOSU_NOT_SOUND UINT64_C(17)       /* set-up: the store is too short; any other: it is not sound */
#define BYANGHOSU_BAD_TABLE UINT64_C(18)       /* response: over 32 rows, or a number out of range */

/* What to print for a refusal number. Never null, and for a number that is none of the above it says so. */
static inline const char *byanghosu_text(uint64_t refusal) {
    switch (refusal) {
    case BYANGHOSU_RAN: return "ran";
    case BYANGHOSU_RANGE: return "C, p, D or B out of range";
    case BYANGHOSU_ROUTE_LENGTH: return "no links on the route, or more than 8";
    case BYANGHOSU_NO_LINK: return "no such link";
    case BYANGHOSU_LINK_TWICE: return "a link twice on the route";
    case BYANGHOSU_LINKS_APART: return "a link that does not start where the one before ends";
    case BYANGHOSU_CHANNELS_FULL: return "64 channels are open already";
    case BYANGHOSU_ROWS_FULL: return "32 channels go over that link already";
    case BYANGHOSU_NO_RESPONSE: return "no response within p on that link";
    case BYANGHOSU_OVER_D: return "the responses add up to more than D";
    case BYANGHOSU_BUFFER_FULL: return "that link's buffer is too small for what would be reserved";
    case BYANGHOSU_NO_CHANNEL: return "no such channel";
    case BYANGHOSU_MESSAGE_LENGTH: return "no packets, or more than C";
    case BYANGHOSU_BURST: return "too soon, the burst is used up";
    case BYANGHOSU_END_SLOT: return "the clock is at the end slot";
    case BYANGHOSU_OUT_SHORT: return "room for fewer sends than there are links";
    case BYANGHOSU_BAD_LINKS: return "no links, more than 16, or a number of that link is wrong";
    case BYANGHOSU_NOT_SOUND: return "the store is not sound, or too short";
    case BYANGHOSU_BAD_TABLE: return "more than 32 rows, or C, p or the limit out of range";
    default: return "no refusal number";
    }
}

/* Network set-up.
 *
 * store    where the network is kept from now on; `length` numbers, at least BYANGHOSU_STORE. What it held is not read.
 *          The first BYANGHOSU_STORE numbers are all written, those beyond are left as they are
 * links    from, to, horizon and buffer of each link in turn; `numbers` of them, BYANGHOSU_LINK a link
 *
 * Returns 16 for no links or more than 16 (place 0, looked at first), and for the first link, counted from 0 by `place`, of
 * which a node (0 to 255), the horizon (0 to 4,096) or the buffer (1 to 256) is out of range, whose nodes are equal, or
 * of which only a part is there; then 17 for a store that is too short. A refused call leaves the store as it was. */
uint64_t byanghosu_set_up(uint64_t *store, size_t length, const uint64_t *links, size_t numbers, uint64_t *place);

/* Whether a store is sound, as docs/STORE.md says. Any numbers may stand in it, and it may have any length. Nothing is
 * written. Set-up leaves a sound store. */
bool byanghosu_sound(const uint64_t *store, size_t length);

/* Opening a channel.
 *
 * store     what set-up and the calls since have left; `length` numbers. A channel that is opened stands in it from now on
 * c, p      most packets in a message (1 to 200); least spacing of messages, in slots (1 to 60,000)
 * d, b      asked end-to-end delay, in slots (1 to 480,000); burst, in messages (1 to 16)
 * route     the links that it goes over, in their order; `hops` of them, 1 to 8
 * channel   the new channel's number; channels are numbered from 0 as opened
 * responses the response found on each link of the route
 * delays    the delay given to it there, at most p
 * reserved  the packets reserved for it there
 *
 * The last three have 8 numbers each, 0 past the end of the route, and all 0 on a refusal; `channel` is then left as it was.
 * Returns, in the order in which they are looked at: 17 for
 * a store that is not sound, 14 for a clock at the end slot, 1 for c, p, d or b out of range, 2 for 0 or more than 8 hops;
 * then, `place` counting along the route, 3 for a link that does not exist, 4 for one that stands twice, 5 for one that does
 * not start where the one before ends, 6 where 64 channels exist, 7 for a link with 32 rows, 8 for one with no response
 * within p, 9 where the responses add up to more than d, 10 for a link whose buffer is too small for what would be reserved.
 * A refused call leaves the store as it was. */
uint64_t byanghosu_open(uint64_t *store, size_t length, uint64_t c, uint64_t p, uint64_t d, uint64_t b,
                        const uint64_t *route, size_t hops, uint64_t *channel,
                        uint64_t responses[BYANGHOSU_MOST_HOPS], uint64_t delays[BYANGHOSU_MOST_HOPS],
                        uint64_t reserved[BYANGHOSU_MOST_HOPS], uint64_t *place);

/* Offering a message; all its packets are offered at once.
 *
 * store    what set-up and the calls since have left; `length` numbers. A message that is accepted stands in it from now on
 * channel  the channel that it goes over
 * packets  how many packets it has, 1 to the channel's C
 * message  its number; a channel's messages are numbered from 0 as accepted
 * logical  its logical time on the first link, in slots: the present slot, or p after the message before it if that is later
 *
 * Returns, in the order in which they are looked at: 17 for a store that is not sound, 14 for a clock at the end slot, 11 where
 * there is no such channel, 12 for 0 packets or more than C, 13 for a logical time more than (B - 1) * p slots from now, and 17
 * where the store would not be sound with the message in it, which never happens to a store that only these calls have written
 * since its set-up. A refused call leaves the store as it was; `place` is always 0. */
uint64_t byanghosu_offer(uint64_t *store, size_t length, uint64_t channel, uint64_t packets, uint64_t *message,
                         uint64_t *logical, uint64_t *place);

/* Running a slot: each link sends one packet, or none, and the clock rises by one.
 *
 * store    what set-up and the calls since have left; `length` numbers
 * out      takes the sends at its front, in the order of the links, five numbers each: slot, link, channel, message and
 *          packet, the last two from 0. It has `room` numbers, at least BYANGHOSU_SEND a link. The rest of it is left as it was
 * number   the refusal number, 0 where the slot ran
 *
 * Returns how many sends there are, 0 on a refusal. Refused, in the order in which they are looked at: 17 for a store that is not
 * sound, 14 for a clock at the end slot, 15 for an `out` with room for fewer sends than there are links, and 17 where the store
 * would not be sound after the slot, which never happens to a store that only these calls have written since its set-up. A
 * refused call leaves the store and `out` as they were; `place` is always 0. */
size_t byanghosu_slot(uint64_t *store, size_t length, uint64_t *out, size_t room, uint64_t *number, uint64_t *place);

/* Long waits: how many slots from now no link can send in, if nothing is offered until then.
 *
 * store    what set-up and the calls since have left; `length` numbers. Nothing is written to it
 * slots    how many: 0 if a link can send now, all that are left up to the end slot if no packet is held
 *
 * Returns, in the order in which they are looked at: 17 for a store that is not sound, 14 for a clock at the end slot; `place` is
 * always 0. */
uint64_t byanghosu_idle(const uint64_t *store, size_t length, uint64_t *slots, uint64_t *place);

/* Runs slots in which no link can send, all at once.
 *
 * store    what set-up and the calls since have left; `length` numbers. The clock rises by `slots`
 * n        how many to run at most
 * slots    how many were run: n, or what `byanghosu_idle` says if that is less
 *
 * Returns, in the order in which they are looked at: 17 for a store that is not sound, 14 for a clock at the end slot. A refused
 * call leaves the store as it was; `place` is always 0. */
uint64_t byanghosu_skip(uint64_t *store, size_t length, uint64_t n, uint64_t *slots, uint64_t *place);

/* The response-time calculation by itself.
 *
 * table    C, p and delay of each row in turn, highest priority first; `numbers` of them, BYANGHOSU_ROW a row
 * own      C of the channel that stands below all the rows
 * limit    the longest response asked for
 * response the least length from 1 to the limit whose need is at most that length; 0 where there is none
 * trials   how many needs were worked out
 *
 * Returns 18 for over 32 rows, a part of a row, a row's C (1 to 200) or p (1 to 60,000), own C or the limit (p's range)
 * out of range. A row's delay is not looked at. */
uint64_t byanghosu_response(const uint64_t *table, size_t numbers, uint64_t own, uint64_t limit,
                            uint64_t *response, uint64_t *trials, uint64_t *place);

#ifdef __cplusplus
}
#endif

#endif
