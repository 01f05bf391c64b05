/*
 * Double-and-add sheets for kP + lQ: the calls for a host program in C on x86-64 Linux. Link with libsheets.a, by what
 * `pkg-config --cflags --libs sheets` says.
 *
 * There are two sets of calls, which do the same within other limits: those of a card, which are described one by one, and those of a
 * gateway at the end, for longer scalars. Up to there the limits named are the card's.
 *
 * A scalar has 1 to 66 bytes, the most significant byte first, and behind their number its sign: 0 for plus, any other number for minus.
 * Leading zero bytes and zero are allowed; zero with a minus is zero. With a minus each digit of the scalar's row is negated, and a sheet's
 * header has a minus before its figures. The places of a row, weights, codes, additions and the plan chosen are the same with any sign.
 * Digits are one byte each in two's complement, the least significant place (place 0) first; a digit buffer may be read as int8_t.
 * Sheets are ASCII lines, each ended by a line feed, with no byte 0 behind the last.
 *
 * Every call returns 64 bits. Bits 32 to 63, sheets_number, are the number of the question missed, 0 where none is. Below them a call
 * that writes a row, a joint form or a sheet has two numbers, both 0 where a question is missed: in bits 0 to 15, sheets_length, the length
 * written; in bits 16 to 31 for a row or a joint form, sheets_weight, how many of its digits, or of its columns, are not zero, and for a
 * sheet, sheets_additions, its additions, those that fill the table included. sheets_next_limit has the limit that pays in bits 0 to 15,
 * sheets_limit, and its additions in bits 16 to 31, sheets_additions. sheets_dearest has in bits 0 to 31, sheets_most, the most digits that
 * are not 0, and sheets_read has there, sheets_line, the line at fault, 0 where the sheet is accepted. sheets_pack and sheets_unpack have 0
 * there. Questions are asked in the order given at each call, and the first one missed is the answer:
 *
 *    1   has each scalar 1 to 66 bytes?
 *    2   is each window odd, 1 to 31?
 *    3   has each buffer room: a digit or code buffer 8 places for each byte of the scalar, of the longer one for two, and one more
 *        (SHEETS_PLACES); a sheet buffer 16,384 bytes (SHEETS_BYTES); of columns that are packed or unpacked, each row and the buffer
 *        a place for each column? Has the buffer for the dearest scalar 66 bytes (SHEETS_DEAREST_BYTES), no fewer and no more?
 *    4   is the slot limit at most 31?
 *   12   is each digit to be packed -1, 0 or 1, and each byte to be unpacked at most 8?
 *   15   is the size 1 to 528 bits?
 *
 * A refusal changes no byte of any buffer. What is handed in as const is only read. Nothing is kept between calls, and nothing is
 * allocated.
 *
 * What the caller owes: each pointer has as many bytes behind it as the length after it says, and a buffer overlaps neither another
 * buffer nor an input. With length 0 a pointer may be NULL.
 */
#ifndef SHEETS_H
#define SHEETS_H

#include <stddef.h>
#include <stdint.h>

#ifdef __cplusplus
extern "C" {
#endif

/*
 * The places that a digit or code buffer needs for a scalar of so many bytes; the bytes that a sheet buffer needs, and the gateway's; the
 * bytes that the dearest scalar fills.
 */
#define SHEETS_PLACES(bytes) (8 * (size_t)(bytes) + 1)
#define SHEETS_BYTES 16384
#define SHEETS_GATEWAY_BYTES 32768
#define SHEETS_DEAREST_BYTES 66

/*
 * The row of a scalar for the window m. Questions 1, 2, 3. The length is the number of places, at most 529, and the weight the number of
 * digits that are not 0; the places above the length hold 0, up to the end of the buffer.
 */
uint64_t sheets_row(const uint8_t *scalar, size_t n, uint32_t sign, uint32_t m, uint8_t *digits, size_t places);

/*
 * The row of a scalar for the window m as it is found from the top down, while sheets_row finds its own from place 0 up. The two have the
 * same value and the same weight, but their digits, and so their lengths, may differ. Questions, answer and buffer are those of sheets_row.
 */
uint64_t sheets_row_down(const uint8_t *scalar, size_t n, uint32_t sign, uint32_t m, uint8_t *digits, size_t places);

/*
 * The joint sparse form of k and l, a row into each buffer. Questions 1, 3. The length is the number of columns, at most 529, and the
 * weight the number of columns of which a digit is not 0; in both buffers the places above the length hold 0.
 */
uint64_t sheets_joint(const uint8_t *k, size_t kn, uint32_t ks, const uint8_t *l, size_t ln, uint32_t ls, uint8_t *k_digits, size_t k_places,
                      uint8_t *l_digits, size_t l_places);

/*
 * The same, and beside each row the rule behind each of its digits, a code to a byte. The remainder at a place is the scalar less its
 * digits below, divided by 2^place. The code is 0 for an even remainder, whose digit is 0; 1 where the digit is the remainder by four,
 * taken as 1 or -1; 2 where the sign of that is turned: the remainder is 3 or 5 modulo 8, and the other scalar's is 2 modulo 4. Questions
 * 1, 3, and then 3 of the code buffers, which need as many places as the digit buffers. The places above the length hold 0 in all four.
 */
uint64_t sheets_joint_codes(const uint8_t *k, size_t kn, uint32_t ks, const uint8_t *l, size_t ln, uint32_t ls, uint8_t *k_digits,
                            size_t k_places, uint8_t *l_digits, size_t l_places, uint8_t *k_codes, size_t k_room, uint8_t *l_codes,
                            size_t l_room);

/*
 * The first columns of two rows, a byte for each: for the digits a and b of a column 3 * (a + 1) + (b + 1). Questions 3, 12. The answer is
 * the number alone. Only the digits of these columns are looked at, and only their bytes are written: what lies past them stays as lent. A
 * joint form is packed by its length, or by any number of places that its rows have.
 */
uint64_t sheets_pack(size_t columns, const uint8_t *k_digits, size_t k_places, const uint8_t *l_digits, size_t l_places, uint8_t *packed,
                     size_t room);

/*
 * The columns of the first bytes of a buffer, their digits into two rows: what sheets_pack has packed comes back, and what is unpacked is
 * packed to the same bytes. Questions 3, 12. The answer is the number alone; what lies past the columns stays as lent.
 */
uint64_t sheets_unpack(size_t columns, const uint8_t *packed, size_t room, uint8_t *k_digits, size_t k_places, uint8_t *l_digits,
                       size_t l_places);

/*
 * The sheet of plan J. Questions 1, 3. The length is the sheet's, in bytes, at most 16,384, and the additions are those that its header
 * states; the bytes behind it stay as lent. So too for the next three calls.
 */
uint64_t sheets_plan_j(const uint8_t *k, size_t kn, uint32_t ks, const uint8_t *l, size_t ln, uint32_t ls, uint8_t *sheet, size_t room);

/* The sheet of plan I with the windows m1 for P and m2 for Q. Questions 1, 2, 3. */
uint64_t sheets_plan_i(const uint8_t *k, size_t kn, uint32_t ks, const uint8_t *l, size_t ln, uint32_t ls, uint32_t m1, uint32_t m2,
                       uint8_t *sheet, size_t room);

/* The same from rows from the top down: as many additions, though the steps may differ. A cheapest sheet has rows of the other kind. */
uint64_t sheets_plan_i_down(const uint8_t *k, size_t kn, uint32_t ks, const uint8_t *l, size_t ln, uint32_t ls, uint32_t m1, uint32_t m2,
                            uint8_t *sheet, size_t room);

/*
 * The cheapest sheet over plan J and all plans I that need no more slots than the limit: fewest additions; then fewest doublings; then fewest
 * slots; then J before I; then smaller m1. Questions 1, 4, 3. Plan J needs 2 slots, plan I (m1 + m2 - 2) / 2 for the multiples that it stores,
 * and 1 for the double of P, and later of Q, if m1 or m2 is 3 or more.
 */
uint64_t sheets_cheapest(const uint8_t *k, size_t kn, uint32_t ks, const uint8_t *l, size_t ln, uint32_t ls, uint32_t limit, uint8_t *sheet,
                         size_t room);

/*
 * How many more slots would pay: the smallest limit above this one, up to 31, at which the cheapest sheet has fewer additions, and how many
 * it has there. Questions 1, 4. The limit and the additions are 0 where none pays; a limit that pays is never 0. This is the card's call, and
 * the gateway has none.
 */
uint64_t sheets_next_limit(const uint8_t *k, size_t kn, uint32_t ks, const uint8_t *l, size_t ln, uint32_t ls, uint32_t limit);

/*
 * The dearest scalar of so many bits: the smallest, without a sign, below 2^bits whose row with window 1 has the most digits that are not 0.
 * Questions 15, 3. It fills the 66 bytes of the buffer, the most significant first, zeros in front; sheets_most is how many digits are not 0.
 * With it for k and for l the sheet of plan I with windows 1 and 1 has the most additions that scalars of the size have, with any signs. This
 * is the card's call, and the gateway has none.
 */
uint64_t sheets_dearest(uint32_t bits, uint8_t *scalar, size_t room);

/*
 * Judges a sheet, whatever its n bytes are: 0 if it is accepted for the scalars of its header; else the number of the question missed
 * and the line at fault, counted from 1:
 *
 *    5   is it at most 16,384 bytes? Line 0.
 *    6   is each line spelled and placed as it must be? The first that is not, one past the last where a line is missing.
 *    7   are the windows, the slots and the T lines the plan's? Line 1, or the first T line that differs, or the line after them where
 *        one is missing.
 *    8   is each step allowed by the plan? Its line.
 *    9   are there at most 528 D lines? The 529th.
 *   10   are both counts true? Line 1.
 *   11   is the result (k, l), each with its sign? Line 1.
 */
uint64_t sheets_read(const uint8_t *sheet, size_t n);

/*
 * The calls of the gateway: each does what the card's call of the same name does, by the gateway's limits, which are in these questions:
 *
 *    1   has each scalar 1 to 128 bytes? A row or a joint form then has at most 1,025 places.
 *    3   has a sheet buffer 32,768 bytes (SHEETS_GATEWAY_BYTES)? Digit and code buffers need SHEETS_PLACES, as at the card.
 *    5   has the sheet that is read at most 32,768 bytes?
 *    6   has each scalar of its header at most 256 figures? The card's reader takes 132.
 *    9   are there at most 1,024 D lines? The 1,025th.
 *
 * What the card takes, the gateway takes with the same answer: the same digits and codes, the same sheet in a buffer of its own size, and a
 * sheet that the card accepts is accepted.
 */
uint64_t sheets_gateway_row(const uint8_t *scalar, size_t n, uint32_t sign, uint32_t m, uint8_t *digits, size_t places);
uint64_t sheets_gateway_row_down(const uint8_t *scalar, size_t n, uint32_t sign, uint32_t m, uint8_t *digits, size_t places);
uint64_t sheets_gateway_joint(const uint8_t *k, size_t kn, uint32_t ks, const uint8_t *l, size_t ln, uint32_t ls, uint8_t *k_digits,
                              size_t k_places, uint8_t *l_digits, size_t l_places);
uint64_t sheets_gateway_joint_codes(const uint8_t *k, size_t kn, uint32_t ks, const uint8_t *l, size_t ln, uint32_t ls, uint8_t *k_digits,
                                    size_t k_places, uint8_t *l_digits, size_t l_places, uint8_t *k_codes, size_t k_room, uint8_t *l_codes,
                                    size_t l_room);
uint64_t sheets_gateway_plan_j(const uint8_t *k, size_t kn, uint32_t ks, const uint8_t *l, size_t ln, uint32_t ls, uint8_t *sheet,
                               size_t room);
uint64_t sheets_gateway_plan_i(const uint8_t *k, size_t kn, uint32_t ks, const uint8_t *l, size_t ln, uint32_t ls, uint32_t m1, uint32_t m2,
                               uint8_t *sheet, size_t room);
uint64_t sheets_gateway_plan_i_down(const uint8_t *k, size_t kn, uint32_t ks, const uint8_t *l, size_t ln, uint32_t ls, uint32_t m1,
                                    uint32_t m2, uint8_t *sheet, size_t room);
uint64_t sheets_gateway_cheapest(const uint8_t *k, size_t kn, uint32_t ks, const uint8_t *l, size_t ln, uint32_t ls, uint32_t limit,
                                 uint8_t *sheet, size_t room);
uint64_t sheets_gateway_read(const uint8_t *sheet, size_t n);

/* The parts of an answer. */
static inline uint32_t sheets_number(uint64_t answer) { return (uint32_t)(answer >> 32); }
static inline uint32_t sheets_length(uint64_t answer) { return (uint32_t)(answer & 0xffffu); }
static inline uint32_t sheets_limit(uint64_t answer) { return (uint32_t)(answer & 0xffffu); }
static inline uint32_t sheets_weight(uint64_t answer) { return (uint32_t)((answer >> 16) & 0xffffu); }
static inline uint32_t sheets_additions(uint64_t answer) { return (uint32_t)((answer >> 16) & 0xffffu); }
static inline uint32_t sheets_most(uint64_t answer) { return (uint32_t)(answer & 0xffffffffu); }
static inline uint32_t sheets_line(uint64_t answer) { return (uint32_t)(answer & 0xffffffffu); }

#ifdef __cplusplus
}
#endif

#endif
