/* Waxglimmer for C: one option series, held in a buffer that the caller owns.
 *
 * Every function answers a number: 0, or a refusal. What each answers, and what every lent byte holds afterwards, is proved for all inputs
 * (crates/server). A refusal leaves state and room as they stood; *count, *display, *working, *rule, *first and *second are then 0.
 *
 * Refusals, in the order in which they are tested:
 *
 *  10  the report room is under WAXGLIMMER_ROOM bytes
 *  11  the state buffer holds no sound series, or has not WAXGLIMMER_STATE bytes
 *   1  a message (or a setup) of wrong length, unknown kind, a nonzero unused bit or field; a setup of other values
 *   2  party: outside 1 to 99; quotes, withdrawals of quotes and enabling: outside 1 to 16
 *   3  a price out of range, or off the grid (but for the underlying)
 *   4  quantity outside 1 to 99,999, or a phase above 2
 *   5  a quote or order, and the series is not open
 *   6  a quote, and its maker is blocked
 *   7  a quote or order, and 64 entries rest, not counting the quote that it replaces
 *   9  a quote or order, and entry number 1,000,000 has been given
 *   8  a cancellation: no such entry of that party, or no such quote
 *  12  why: the message has no report at that place
 *
 * Bytes: fields in bits, from the first byte's most significant bit on. What a kind does not name is 0. Prices are cents.
 *
 * M names two steps: 1 is 1 and 5 cents, 5 is 5 and 10; any other is refused. Prices lie from the small step to 100,000, below 300 on multiples of
 * the small step, from 300 on on multiples of the large one. One step below 300 is 299 or 295, one step above it 305 or 310. K counts steps.
 *
 *   setup     put 1, exempt 1, M 4, K 7, strike 17, zero 2
 *               44 50 03 20: a call, exempt, M 1, K 10, strike 200
 *   message   kind 4, party 7, side 1 (0 buy, 1 sell), price 17, quantity 17, second price 17, entry 20, zero 5
 *               1 to 4 plain, MMLO, MMALO, MMRP quote, 5 displayed order, 6 dark order: party, side, price (limit), quantity
 *               7 cancel own entry: party, entry         8 cancel own quote: party, side
 *               9 away bid and offer: price, second price (0 for none)
 *              10 underlying: price (0 for none)        11 phase (0 closed, 1 open, 2 halted): quantity        12 enable a maker: party
 *               40 60 07 08 00 C8 00 00 00 00 00: MMRP quote, party 3, buy, 225 x 50
 *   report    kind 3, reason 5, side 1, party 7, entry 20, other entry 20, price 17, second price 17, quantity 17, zero 5
 *               1 noted: no field
 *               2 rejected: reason, side, party, entry, price (limit), quantity entered
 *               3 traded: side, party and entry of the taker, other entry (the one that rested), price, quantity traded
 *               4 rested, 5 repriced: side, party, entry, price (display, 0 if dark), second price (working), quantity left
 *               6 cancelled: reason, side, party, entry, price (limit), quantity cancelled
 *               docs/TEACHER.md says what each reason, 20 to 31, means
 *
 * Why: the reason's number as the rule, and the two figures that its test compared, the entry's own and what that is held against; what
 * holds of them, for a buy (for a sell). NBO is the lower of the away offer and the lowest displayed sell, NBB its mirror.
 *
 *  20  limit, away offer (away bid)                                             first >= second (<=)
 *  21  limit, the best undisplayed contra working price                          first >= second (<=)
 *  22  from the limit to the display it would get, K; both in steps              first > second
 *  23  the display it would get, the small step (100,000)                        first < second (>)
 *  24  NBO at most 100: bid, NBO + 100; above: twice (bid - NBO), NBO
 *      (twice (NBB - offer), NBB)                                                first >= second
 *  25  bid, underlying                                                           first >= second
 *  26  bid, strike                                                               first >= second
 *  27 to 31 compare no prices: 0, 0
 *
 * A series is its state buffer and nothing else: it can be copied, moved, stored and gone on with elsewhere. Its bytes have no version and no
 * checksum, and do not count the messages: keep these beside it. Refusal 11 finds bytes that no series can have, not one series damaged into
 * another. To try a stored state without a message, hand over one of length 0: the answer is 11, or 1 for a sound series, and nothing changes.
 *
 * The archive: `rt lib`, in the folder crates/server, proves it and writes out/libserver.a there, for x86-64 Linux; in the repository's first
 * folder `cc -o example c/example.c crates/server/out/libserver.a` links it, and a shared library can take it in. It allocates nothing, keeps
 * nothing between calls, does no input or output, and calls nothing but memcpy, memmove and memset. It is compiled without sanitizers: a memory
 * sanitizer does not see what it writes, so fill the buffers first if you use one.
 *
 * What no header can promise is the caller's to see to:
 *   - a length beside a pointer is the number of bytes that may be read (and, of state and room, written) from there; a wrong length is
 *     undefined, and so is a null or dangling pointer, even with length 0; byte buffers may stand at any address, count, display, working,
 *     rule, first and second where their types may;
 *   - two buffers that one call is lent do not overlap, if the call writes one of them: state, room, count, display, working, rule, first
 *     and second are written, setup, message and run are only read, and so is the state where the call takes it as const. No buffer is
 *     kept: each is the caller's again when the call is over;
 *   - no other thread uses a lent buffer during the call. Calls on different buffers may run at the same time.
 * What count, display, working, rule, first and second held before, a state before its setup, and a room, does not matter.
 */
#ifndef WAXGLIMMER_H
#define WAXGLIMMER_H

#include <stddef.h>
#include <stdint.h>

#ifdef __cplusplus
extern "C" {
#endif

#define WAXGLIMMER_SETUP 4     /* bytes of a setup */
#define WAXGLIMMER_MESSAGE 11  /* bytes of a message */
#define WAXGLIMMER_REPORT 14   /* bytes of a report */
#define WAXGLIMMER_REPORTS 2280 /* the most reports that one message gives */
#define WAXGLIMMER_ROOM 31920  /* the least bytes of a report room: 2,280 reports of 14 */
#define WAXGLIMMER_STATE 1564  /* bytes of a series; crates/series_buffer/src/lib.rt has the layout */
#define WAXGLIMMER_STACK 98304 /* bytes of stack with which a thread can make every call: tried by c/test.sh, not proved */
#define WAXGLIMMER_HANDLING_STACK 65536 /* the same of every call but waxglimmer_why and waxglimmer_why_at, which keep a room of their own */

/* The aims of one quote. kind 3 (MMALO) or 4 (MMRP); side 0 buy, 1 sell; limit; away and contra price, 0 for none; m 1 or 5.
 * Answers 0, 1 (another kind, side or m) or 3 (an illegal price). Both aims are written: 0 on a refusal. An aim may fall one step outside the
 * legal prices: 0, or 100,000 and one large step. */
uint32_t waxglimmer_aims(uint32_t kind, uint32_t side, uint32_t limit, uint32_t away, uint32_t contra, uint32_t m, uint32_t *display,
                         uint32_t *working);

/* Is this byte string a message? 0, or 1 for none. _at, here and below, is of the 11 bytes from byte `at` of a run on, where they stand; they
 * are fewer, and so no message, where the run ends before. Any `at` may be asked. */
uint32_t waxglimmer_is_message(const uint8_t *message, size_t length);
uint32_t waxglimmer_is_message_at(const uint8_t *run, size_t length, size_t at);

/* Which of the refusals 1 to 4 would a series with this m give the message? The first that applies; 0 for none of them. First of all, 11
 * for an m that is not 1 or 5, since no sound series has it. */
uint32_t waxglimmer_check(const uint8_t *message, size_t length, uint32_t m);
uint32_t waxglimmer_check_at(const uint8_t *run, size_t length, size_t at, uint32_t m);

/* Sets up a new series in the state buffer, whatever that held. 0; 1 for a setup that is refused; then 11 for a buffer that has not
 * WAXGLIMMER_STATE bytes. */
uint32_t waxglimmer_setup(const uint8_t *setup, size_t setup_length, uint8_t *state, size_t state_length);

/* Answers a message (or the one from byte `at` of a run on). On 0 the state buffer holds the series afterwards and the first
 * *count * WAXGLIMMER_REPORT bytes of the room its reports, in order; no byte of the room beyond them is written. On any other number
 * state and room are as they were and *count is 0. */
uint32_t waxglimmer_handle(uint8_t *state, size_t state_length, const uint8_t *message, size_t message_length, uint8_t *room,
                           size_t room_length, size_t *count);
uint32_t waxglimmer_handle_at(uint8_t *state, size_t state_length, const uint8_t *run, size_t run_length, size_t at, uint8_t *room,
                              size_t room_length, size_t *count);

/* Why does a report say what it says? `place` is its place, from 0 on, among those that the message (or the one from byte `at` of a run on)
 * would give a series in this state: the state before the message, which is only read. On 0, *rule, *first and *second are the rule's number
 * and its two figures, or three zeros where there is no reason to give: the report is neither a rejection nor a cancellation. The front of the
 * room then holds the message's reports, as waxglimmer_handle writes them; no byte beyond them is written. The refusals are those of
 * waxglimmer_handle for the same message, and behind all of them 12, for a place at or beyond the count. On any of them the room is as it was
 * and *rule, *first and *second are 0. */
uint32_t waxglimmer_why(const uint8_t *state, size_t state_length, const uint8_t *message, size_t message_length, size_t place, uint8_t *room,
                        size_t room_length, uint32_t *rule, uint32_t *first, uint32_t *second);
uint32_t waxglimmer_why_at(const uint8_t *state, size_t state_length, const uint8_t *run, size_t run_length, size_t at, size_t place,
                           uint8_t *room, size_t room_length, uint32_t *rule, uint32_t *first, uint32_t *second);

#ifdef __cplusplus
}
#endif

#endif
