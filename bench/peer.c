/* Compiled twice: as it stands for the card's calls, and by peer_gateway.c for the gateway's. Only the limits differ. */
#include "peer.h"

#include <string.h>

/* WORDS hold a scalar and a bit above it. A plan with its load and its top place has fewer doublings than DOUBLINGS. */
#ifdef GATEWAY
#define CALLS peer_gateway
enum { MOST_BYTES = 128, WORDS = 17, MOST_DOUBLES = 1024, DOUBLINGS = 2048, SHEET_BYTES = 32768 };
#else
#define CALLS peer_card
enum { MOST_BYTES = 66, WORDS = 9, MOST_DOUBLES = 528, DOUBLINGS = 1024, SHEET_BYTES = 16384 };
#endif

enum {
    MOST_FIGURES = 2 * MOST_BYTES,
    PLACES = 8 * MOST_BYTES + 1,
    WIDEST = 31,
    WINDOWS = 16,
    MOST_SLOTS = 31,
    JOINT_SLOTS = 2,
    LIMB_BITS = 32,
    LIMBS = MOST_DOUBLES / LIMB_BITS + 2
};

/* ---- answers and questions 1 to 4 ---- */

static uint64_t refusal(unsigned number, unsigned line)
{
    return (uint64_t)number << 32 | line;
}

/* The length written, or the limit that pays, and the weight or the additions. */
static uint64_t written(size_t length, unsigned count)
{
    return (uint64_t)count << 16 | length;
}

static int is_scalar(size_t n)
{
    return 1 <= n && n <= MOST_BYTES;
}

static int is_window(uint32_t m)
{
    return m % 2 == 1 && m <= WIDEST;
}

/* The question that a row misses, and a sheet of plan I; 0 where they miss none. */

static unsigned row_question(size_t n, uint32_t m, size_t places)
{
    if (!is_scalar(n))
        return 1;
    if (!is_window(m))
        return 2;
    return places < 8 * n + 1 ? 3 : 0;
}

static unsigned plan_i_question(size_t kn, size_t ln, uint32_t m1, uint32_t m2, size_t room)
{
    if (!is_scalar(kn) || !is_scalar(ln))
        return 1;
    if (!is_window(m1) || !is_window(m2))
        return 2;
    return room < SHEET_BYTES ? 3 : 0;
}

static size_t larger(size_t a, size_t b)
{
    return a < b ? b : a;
}

/* ---- scalars as bits ---- */

/* A scalar's words, the least significant first, a word of zeros above them, its bit length, and whether it is below zero. */
struct bits {
    uint64_t word[WORDS + 1];
    unsigned length;
    int negative;
};

static unsigned bit_length(const uint64_t *word)
{
    for (unsigned i = WORDS; i > 0; i--)
        if (word[i - 1] != 0)
            return 64 * i - (unsigned)__builtin_clzll(word[i - 1]);
    return 0;
}

static struct bits bits_of(const uint8_t *bytes, size_t n, uint32_t sign)
{
    struct bits b = {{0}, 0, 0};

    for (size_t i = 0; i < n; i++)
        b.word[i / 8] |= (uint64_t)bytes[n - 1 - i] << 8 * (i % 8);
    b.length = bit_length(b.word);
    b.negative = sign != 0 && b.length > 0;
    return b;
}

/* The 64 bits from a place on. */
static uint64_t bits_from(const struct bits *b, unsigned at)
{
    unsigned i = at / 64, shift = at % 64;

    return b->word[i] >> shift | b->word[i + 1] << 1 << (63 - shift);
}

/* ---- rows and joint columns ---- */

/* How many places were written, and how many digits of a row, or columns of a joint form, are not zero. */
struct recoded {
    unsigned places, weight;
};

/* W of a window: the smallest with m < 2^(W-1). */
static unsigned width_of(unsigned m)
{
    return 33 - (unsigned)__builtin_clz(m);
}

/* The signed residue of x for a width. */
static int residue(uint64_t x, unsigned width)
{
    return (int)((int64_t)(x << (64 - width)) >> (64 - width));
}

static unsigned size_of(int digit)
{
    return (unsigned)(digit < 0 ? -digit : digit);
}

/* The row of a negative scalar, from that of its bits. */
static void negate(const struct bits *b, uint8_t *digits, unsigned places)
{
    if (!b->negative)
        return;
    for (unsigned i = 0; i < places; i++)
        digits[i] = (uint8_t)-digits[i];
}

/* Writes the row of the bits into places that hold 0. The remainder at a place is the bits from there on, and the carry. */
static struct recoded recode_row(const struct bits *b, unsigned m, uint8_t *digits)
{
    struct recoded row = {0, 0};
    unsigned w = width_of(m), at = 0, carry = 0;

    while (at < b->length || carry) {
        uint64_t x = bits_from(b, at), ends = x ^ -(uint64_t)carry;
        unsigned zeros, width = w;
        int digit;

        /* Where every bit is the carry, the digits are 0; the six uppermost stay for the next window. */
        if (ends << 6 == 0) {
            at += 58;
            continue;
        }
        zeros = (unsigned)__builtin_ctzll(ends);
        at += zeros;
        x = (x >> zeros) + carry;
        digit = residue(x, w);
        if (size_of(digit) > m)
            digit = residue(x, --width);
        digits[at] = (uint8_t)digit;
        carry = digit < 0;
        row.places = at + 1;
        row.weight++;
        at += width;
    }
    return row;
}

/* Four bytes, the first uppermost; zeros behind the last of n. */
static uint32_t four_bytes(const uint8_t *bytes, size_t n, size_t at)
{
    uint32_t four = 0;

    if (at + 4 <= n)
        return (uint32_t)bytes[at] << 24 | (uint32_t)bytes[at + 1] << 16 | (uint32_t)bytes[at + 2] << 8 | bytes[at + 3];
    for (size_t i = at; i < at + 4; i++)
        four = four << 8 | (i < n ? bytes[i] : 0u);
    return four;
}

/*
 * Writes the row from the top down of a scalar's bytes into places that hold 0. `at` is the place that is reached, and `bit` the bit there;
 * the uppermost `held` bits of x are those below it. Complemented if the bit is 1, they begin with the digits that are 0, and the window begins
 * at the first 1. Each caller settles whether the window is full, m = 2^(W-1) - 1, where no digit is beyond m.
 */
static inline __attribute__((always_inline)) struct recoded recode_from_top(const uint8_t *bytes, size_t n, unsigned negative, unsigned m,
                                                                            int full, uint8_t *digits)
{
    struct recoded row = {0, 0};
    unsigned w = width_of(m), bit = 0, held = 0;
    int at = 8 * (int)n;
    size_t read = 0;
    uint64_t x = 0;

    while (at > 0 || bit) {
        unsigned minus = bit ^ negative, width = w, zeros, top, size, twos;
        uint64_t ends;

        if (held < 32) {
            x |= (uint64_t)four_bytes(bytes, n, read) << (32 - held);
            read += 4;
            held += 32;
        }
        ends = x ^ -(uint64_t)bit;
        /* Where every bit is the same, the digits are 0; six bits stay for the next window. */
        if (ends >> 38 == 0) {
            at -= 26;
            x <<= 26;
            held -= 26;
            continue;
        }
        zeros = (unsigned)__builtin_clzll(ends);
        top = (unsigned)(ends << zeros >> (64 - w));
        size = (top + 1) >> 1;
        if (!full) {
            unsigned beyond = size & (m - size) >> 31;

            width -= beyond;
            top >>= beyond;
            size = (top + 1) >> 1;
        }
        bit ^= top & 1;
        at -= (int)(zeros + width);
        x <<= zeros + width;
        held -= zeros + width;
        twos = (unsigned)__builtin_ctz(size);
        digits[at + 1 + (int)twos] = (uint8_t)((size >> twos ^ -minus) + minus);
        if (row.weight++ == 0)
            row.places = (unsigned)at + 2 + twos;
    }
    return row;
}

static struct recoded recode_down(const uint8_t *bytes, size_t n, uint32_t sign, unsigned m, uint8_t *digits)
{
    if ((m & (m + 1)) == 0)
        return recode_from_top(bytes, n, sign != 0, m, 1, digits);
    return recode_from_top(bytes, n, sign != 0, m, 0, digits);
}

/* In bit 0, for an odd x, whether its sign turns: it is 3 or 5 by 8, and y is 2 by 4. */
static unsigned turned(unsigned x, unsigned y)
{
    return (x >> 1 ^ x >> 2) & y >> 1 & ~y;
}

/* The digit of a remainder x beside y: of an odd x the residue by 4, or that with its sign turned. */
static int joint_digit(unsigned x, unsigned y)
{
    unsigned negative = (x >> 1 ^ turned(x, y)) & 1;

    return (int)(x & 1) * (1 - 2 * (int)negative);
}

/* Its code: 0 for an even x, 1 for the residue, 2 for the turned sign. */
static uint8_t joint_code(unsigned x, unsigned y)
{
    return (uint8_t)((x & 1) << (turned(x, y) & 1));
}

/* The carry to the next place, from the bit, the carry and the digit of this one. */
static unsigned carry_of(uint64_t bits, unsigned carry, int digit)
{
    return (unsigned)((int)(bits & 1) + (int)carry - digit) / 2;
}

/*
 * Writes the joint columns of the bits, two rows, into places that hold 0; and their codes, unless k_codes is NULL, which each caller
 * settles. The codes are the same with any sign.
 */
static inline __attribute__((always_inline)) struct recoded recode_columns(const struct bits *k, const struct bits *l,
                                                                           uint8_t *k_digits, uint8_t *l_digits,
                                                                           uint8_t *k_codes, uint8_t *l_codes)
{
    struct recoded joint = {0, 0};
    unsigned length = k->length < l->length ? l->length : k->length, at = 0, k_carry = 0, l_carry = 0;

    while (at < length || k_carry || l_carry) {
        uint64_t k_bits = bits_from(k, at), l_bits = bits_from(l, at);
        uint64_t ends = (k_bits ^ -(uint64_t)k_carry) | (l_bits ^ -(uint64_t)l_carry);
        unsigned zeros, x, y;
        int p, q;

        /* As in a row; three bits stay for the next column. */
        if (ends << 3 == 0) {
            at += 61;
            continue;
        }
        zeros = (unsigned)__builtin_ctzll(ends);
        at += zeros;
        x = (unsigned)(k_bits >> zeros & 7) + k_carry;
        y = (unsigned)(l_bits >> zeros & 7) + l_carry;
        p = joint_digit(x, y);
        q = joint_digit(y, x);
        k_digits[at] = (uint8_t)p;
        l_digits[at] = (uint8_t)q;
        if (k_codes) {
            k_codes[at] = joint_code(x, y);
            l_codes[at] = joint_code(y, x);
        }
        k_carry = carry_of(k_bits >> zeros, k_carry, p);
        l_carry = carry_of(l_bits >> zeros, l_carry, q);
        joint.weight++;
        joint.places = ++at;
    }
    return joint;
}

static struct recoded recode_joint(const struct bits *k, const struct bits *l, uint8_t *k_digits, uint8_t *l_digits)
{
    return recode_columns(k, l, k_digits, l_digits, NULL, NULL);
}

static uint64_t answer(struct recoded r)
{
    return written(r.places, r.weight);
}

static uint64_t peer_row(const uint8_t *scalar, size_t n, uint32_t sign, uint32_t m, uint8_t *digits, size_t places)
{
    unsigned question = row_question(n, m, places);
    struct recoded row;
    struct bits b;

    if (question)
        return refusal(question, 0);
    b = bits_of(scalar, n, sign);
    memset(digits, 0, places);
    row = recode_row(&b, m, digits);
    negate(&b, digits, row.places);
    return answer(row);
}

static uint64_t peer_row_down(const uint8_t *scalar, size_t n, uint32_t sign, uint32_t m, uint8_t *digits, size_t places)
{
    unsigned question = row_question(n, m, places);

    if (question)
        return refusal(question, 0);
    memset(digits, 0, places);
    return answer(recode_down(scalar, n, sign, m, digits));
}

static uint64_t peer_joint(const uint8_t *k, size_t kn, uint32_t ks, const uint8_t *l, size_t ln, uint32_t ls, uint8_t *k_digits,
                           size_t k_places, uint8_t *l_digits, size_t l_places)
{
    struct recoded joint;
    struct bits kb, lb;

    if (!is_scalar(kn) || !is_scalar(ln))
        return refusal(1, 0);
    if (k_places < 8 * larger(kn, ln) + 1 || l_places < 8 * larger(kn, ln) + 1)
        return refusal(3, 0);
    kb = bits_of(k, kn, ks);
    lb = bits_of(l, ln, ls);
    memset(k_digits, 0, k_places);
    memset(l_digits, 0, l_places);
    joint = recode_joint(&kb, &lb, k_digits, l_digits);
    negate(&kb, k_digits, joint.places);
    negate(&lb, l_digits, joint.places);
    return answer(joint);
}

static uint64_t peer_joint_codes(const uint8_t *k, size_t kn, uint32_t ks, const uint8_t *l, size_t ln, uint32_t ls,
                                 uint8_t *k_digits, size_t k_places, uint8_t *l_digits, size_t l_places, uint8_t *k_codes,
                                 size_t k_room, uint8_t *l_codes, size_t l_room)
{
    struct recoded joint;
    struct bits kb, lb;
    size_t least;

    if (!is_scalar(kn) || !is_scalar(ln))
        return refusal(1, 0);
    least = 8 * larger(kn, ln) + 1;
    if (k_places < least || l_places < least || k_room < least || l_room < least)
        return refusal(3, 0);
    kb = bits_of(k, kn, ks);
    lb = bits_of(l, ln, ls);
    memset(k_digits, 0, k_places);
    memset(l_digits, 0, l_places);
    memset(k_codes, 0, k_room);
    memset(l_codes, 0, l_room);
    joint = recode_columns(&kb, &lb, k_digits, l_digits, k_codes, l_codes);
    negate(&kb, k_digits, joint.places);
    negate(&lb, l_digits, joint.places);
    return answer(joint);
}

/* ---- plans ---- */

/* Plan J, whose windows are both 1, or plan I. */
struct plan {
    int joint;
    unsigned m1, m2;
};

static struct plan plan_i(unsigned m1, unsigned m2)
{
    struct plan plan = {0, m1, m2};

    return plan;
}

static struct plan plan_j(void)
{
    struct plan plan = {1, 1, 1};

    return plan;
}

static unsigned slots_of(struct plan plan)
{
    return plan.joint ? JOINT_SLOTS : (plan.m1 + plan.m2 - 2) / 2 + (plan.m1 >= 3 || plan.m2 >= 3);
}

static unsigned table_additions(struct plan plan)
{
    return plan.joint ? 2 : (plan.m1 - 1) / 2 + (plan.m2 - 1) / 2;
}

static unsigned table_doublings(struct plan plan)
{
    return (unsigned)(plan.m1 >= 3) + (unsigned)(plan.m2 >= 3);
}

static unsigned less_one(unsigned n)
{
    return n == 0 ? 0 : n - 1;
}

/* The rows of plan I, over the same places. */
static struct recoded side_by_side(struct recoded first, struct recoded second)
{
    if (first.places < second.places)
        first.places = second.places;
    first.weight += second.weight;
    return first;
}

/* ---- the sheet ---- */

/* Each of these writes bytes at p and returns the place behind them. */

static uint8_t *put_decimal(uint8_t *p, unsigned n)
{
    if (n >= 10)
        p = put_decimal(p, n / 10);
    *p++ = (uint8_t)('0' + n % 10);
    return p;
}

static uint8_t *put_digit(uint8_t *p, int digit)
{
    unsigned n = size_of(digit);

    if (digit < 0)
        *p++ = '-';
    if (n >= 10)
        *p++ = (uint8_t)('0' + n / 10);
    *p++ = (uint8_t)('0' + n % 10);
    return p;
}

static uint8_t *put_point(uint8_t *p, char letter, int a, int b)
{
    *p++ = (uint8_t)letter;
    *p++ = ',';
    p = put_digit(p, a);
    *p++ = ',';
    p = put_digit(p, b);
    *p++ = '\n';
    return p;
}

static uint8_t *put_letter(uint8_t *p, char letter)
{
    *p++ = (uint8_t)letter;
    *p++ = '\n';
    return p;
}

static uint8_t *put_scalar(uint8_t *p, const struct bits *b)
{
    static const char figures[] = "0123456789abcdef";
    unsigned i = (b->length + 3) / 4;

    if (b->negative)
        *p++ = '-';
    if (i == 0)
        *p++ = '0';
    while (i-- > 0)
        *p++ = (uint8_t)figures[b->word[i / 16] >> 4 * (i % 16) & 15];
    return p;
}

static uint8_t *put_field(uint8_t *p, unsigned n)
{
    p = put_decimal(p, n);
    *p++ = ',';
    return p;
}

static uint8_t *put_header(uint8_t *p, struct plan plan, unsigned additions, unsigned doublings, const struct bits *k,
                           const struct bits *l)
{
    *p++ = 'S';
    *p++ = ',';
    *p++ = plan.joint ? 'J' : 'I';
    *p++ = ',';
    p = put_field(p, plan.m1);
    p = put_field(p, plan.m2);
    p = put_field(p, slots_of(plan));
    p = put_field(p, additions);
    p = put_field(p, doublings);
    p = put_scalar(p, k);
    *p++ = ',';
    p = put_scalar(p, l);
    *p++ = '\n';
    return p;
}

/* The T lines of a window: 2, then 3, 5 and so on to m. */
static uint8_t *put_multiples(uint8_t *p, int of_q, unsigned m)
{
    if (m < 3)
        return p;
    p = of_q ? put_point(p, 'T', 0, 2) : put_point(p, 'T', 2, 0);
    for (int n = 3; n <= (int)m; n += 2)
        p = of_q ? put_point(p, 'T', 0, n) : put_point(p, 'T', n, 0);
    return p;
}

static uint8_t *put_tables(uint8_t *p, struct plan plan)
{
    if (plan.joint) {
        p = put_point(p, 'T', 1, 1);
        return put_point(p, 'T', 1, -1);
    }
    p = put_multiples(p, 0, plan.m1);
    return put_multiples(p, 1, plan.m2);
}

/* The steps of a place, the first one with the letter. */
static uint8_t *put_steps(uint8_t *p, int joint, char letter, int a, int b)
{
    if (joint)
        return a || b ? put_point(p, letter, a, b) : p;
    if (a) {
        p = put_point(p, letter, a, 0);
        letter = 'A';
    }
    return b ? put_point(p, letter, 0, b) : p;
}

static uint8_t *put_places(uint8_t *p, int joint, const uint8_t *k_digits, const uint8_t *l_digits, unsigned places)
{
    char letter = 'L';

    for (unsigned i = places; i-- > 0; letter = 'A') {
        if (letter == 'A')
            p = put_letter(p, 'D');
        p = put_steps(p, joint, letter, (int8_t)k_digits[i], (int8_t)l_digits[i]);
    }
    return p;
}

/* The digits of both scalars' bits by a plan, into places that hold 0. */
static struct recoded recode_plan(struct plan plan, const struct bits *k, const struct bits *l, uint8_t *k_digits,
                                  uint8_t *l_digits)
{
    if (plan.joint)
        return recode_joint(k, l, k_digits, l_digits);
    return side_by_side(recode_row(k, plan.m1, k_digits), recode_row(l, plan.m2, l_digits));
}

/* Puts the sheet of a plan with these digits and returns its length and its additions. */
static uint64_t put_sheet(uint8_t *sheet, struct plan plan, const struct bits *k, const struct bits *l, struct recoded r,
                          const uint8_t *k_digits, const uint8_t *l_digits)
{
    unsigned additions = table_additions(plan) + less_one(r.weight);
    unsigned doublings = table_doublings(plan) + less_one(r.places);
    uint8_t *p = put_header(sheet, plan, additions, doublings, k, l);

    p = put_tables(p, plan);
    p = put_places(p, plan.joint, k_digits, l_digits, r.places);
    p = put_letter(p, 'E');
    return written((size_t)(p - sheet), additions);
}

static uint64_t write_sheet(struct plan plan, const struct bits *k, const struct bits *l, uint8_t *sheet)
{
    uint8_t k_digits[PLACES] = {0}, l_digits[PLACES] = {0};
    struct recoded r = recode_plan(plan, k, l, k_digits, l_digits);

    negate(k, k_digits, r.places);
    negate(l, l_digits, r.places);
    return put_sheet(sheet, plan, k, l, r, k_digits, l_digits);
}

static uint64_t peer_plan_j(const uint8_t *k, size_t kn, uint32_t ks, const uint8_t *l, size_t ln, uint32_t ls, uint8_t *sheet,
                            size_t room)
{
    struct bits kb, lb;

    if (!is_scalar(kn) || !is_scalar(ln))
        return refusal(1, 0);
    if (room < SHEET_BYTES)
        return refusal(3, 0);
    kb = bits_of(k, kn, ks);
    lb = bits_of(l, ln, ls);
    return write_sheet(plan_j(), &kb, &lb, sheet);
}

static uint64_t peer_plan_i(const uint8_t *k, size_t kn, uint32_t ks, const uint8_t *l, size_t ln, uint32_t ls, uint32_t m1,
                            uint32_t m2, uint8_t *sheet, size_t room)
{
    unsigned question = plan_i_question(kn, ln, m1, m2, room);
    struct bits kb, lb;

    if (question)
        return refusal(question, 0);
    kb = bits_of(k, kn, ks);
    lb = bits_of(l, ln, ls);
    return write_sheet(plan_i(m1, m2), &kb, &lb, sheet);
}

static uint64_t peer_plan_i_down(const uint8_t *k, size_t kn, uint32_t ks, const uint8_t *l, size_t ln, uint32_t ls, uint32_t m1,
                                 uint32_t m2, uint8_t *sheet, size_t room)
{
    unsigned question = plan_i_question(kn, ln, m1, m2, room);
    uint8_t k_digits[PLACES] = {0}, l_digits[PLACES] = {0};
    struct bits kb, lb;
    struct recoded r;

    if (question)
        return refusal(question, 0);
    kb = bits_of(k, kn, ks);
    lb = bits_of(l, ln, ls);
    r = side_by_side(recode_down(k, kn, ks, m1, k_digits), recode_down(l, ln, ls, m2, l_digits));
    return put_sheet(sheet, plan_i(m1, m2), &kb, &lb, r, k_digits, l_digits);
}

/* ---- the cheapest sheet ---- */

/* Only the lengths and the weights count here, so the places need not hold 0. */

/* How many of the windows 1, 3, .. 31 a plan I within the limit can have: one slot is for the double, and each behind 1 needs one more. */
static unsigned windows_within(unsigned limit)
{
    return limit < 2 ? 1 : limit < WINDOWS ? limit : WINDOWS;
}

/* A scalar's rows for these windows. */
static void measure_rows(const struct bits *b, unsigned limit, struct recoded *rows)
{
    uint8_t digits[PLACES];

    for (unsigned i = 0; i < windows_within(limit); i++)
        rows[i] = recode_row(b, 2 * i + 1, digits);
}

static struct recoded measure_joint(const struct bits *k, const struct bits *l)
{
    uint8_t k_digits[PLACES], l_digits[PLACES];

    return recode_joint(k, l, k_digits, l_digits);
}

/* Additions first, then doublings, then slots. The load and the top place, which a sheet does not count, are counted for every plan alike. */
static unsigned cost_of(struct plan plan, struct recoded r)
{
    unsigned additions = table_additions(plan) + r.weight, doublings = table_doublings(plan) + r.places;

    return (additions * DOUBLINGS + doublings) * 64 + slots_of(plan);
}

/* The first of the least plans within the limit: J, then the plans I by m1. */
static struct plan choose(const struct recoded *k_rows, const struct recoded *l_rows, struct recoded joint, unsigned limit)
{
    struct plan best = plan_i(1, 1);
    unsigned least = cost_of(best, side_by_side(k_rows[0], l_rows[0]));

    if (JOINT_SLOTS <= limit && cost_of(plan_j(), joint) < least) {
        best = plan_j();
        least = cost_of(best, joint);
    }
    for (unsigned i = 0; i < windows_within(limit); i++)
        for (unsigned j = 0; j < WINDOWS && slots_of(plan_i(2 * i + 1, 2 * j + 1)) <= limit; j++) {
            struct plan plan = plan_i(2 * i + 1, 2 * j + 1);
            unsigned cost = cost_of(plan, side_by_side(k_rows[i], l_rows[j]));

            if (cost < least) {
                best = plan;
                least = cost;
            }
        }
    return best;
}

static uint64_t peer_cheapest(const uint8_t *k, size_t kn, uint32_t ks, const uint8_t *l, size_t ln, uint32_t ls, uint32_t limit,
                              uint8_t *sheet, size_t room)
{
    struct recoded k_rows[WINDOWS], l_rows[WINDOWS], joint = {0, 0};
    struct bits kb, lb;

    if (!is_scalar(kn) || !is_scalar(ln))
        return refusal(1, 0);
    if (limit > MOST_SLOTS)
        return refusal(4, 0);
    if (room < SHEET_BYTES)
        return refusal(3, 0);
    kb = bits_of(k, kn, ks);
    lb = bits_of(l, ln, ls);
    measure_rows(&kb, limit, k_rows);
    measure_rows(&lb, limit, l_rows);
    if (JOINT_SLOTS <= limit)
        joint = measure_joint(&kb, &lb);
    return write_sheet(choose(k_rows, l_rows, joint, limit), &kb, &lb, sheet);
}

/* ---- the next limit that pays ---- */

/*
 * For each number of slots the fewest additions of the plans that need just so many; where none does, more than any plan has. The load is
 * counted for every plan alike.
 */
static void fewest_additions(const struct recoded *k_rows, const struct recoded *l_rows, struct recoded joint, unsigned *fewest)
{
    memset(fewest, 255, (MOST_SLOTS + 1) * sizeof *fewest);
    fewest[JOINT_SLOTS] = table_additions(plan_j()) + joint.weight;
    for (unsigned i = 0; i < WINDOWS; i++)
        for (unsigned j = 0; j < WINDOWS; j++) {
            struct plan plan = plan_i(2 * i + 1, 2 * j + 1);
            unsigned slots = slots_of(plan), additions = table_additions(plan) + k_rows[i].weight + l_rows[j].weight;

            if (additions < fewest[slots])
                fewest[slots] = additions;
        }
}

/* Goes up the limits to the first beyond this one with fewer additions than all below it, and answers both; 0 where there is none. */
static uint64_t first_fewer(const unsigned *fewest, unsigned limit)
{
    unsigned least = fewest[0];

    for (unsigned slots = 1; slots <= MOST_SLOTS; slots++)
        if (fewest[slots] < least) {
            least = fewest[slots];
            if (slots > limit)
                return written(slots, least - 1);
        }
    return 0;
}

static uint64_t peer_next_limit(const uint8_t *k, size_t kn, uint32_t ks, const uint8_t *l, size_t ln, uint32_t ls, uint32_t limit)
{
    struct recoded k_rows[WINDOWS], l_rows[WINDOWS];
    unsigned fewest[MOST_SLOTS + 1];
    struct bits kb, lb;

    if (!is_scalar(kn) || !is_scalar(ln))
        return refusal(1, 0);
    if (limit > MOST_SLOTS)
        return refusal(4, 0);
    kb = bits_of(k, kn, ks);
    lb = bits_of(l, ln, ls);
    measure_rows(&kb, MOST_SLOTS, k_rows);
    measure_rows(&lb, MOST_SLOTS, l_rows);
    fewest_additions(k_rows, l_rows, measure_joint(&kb, &lb), fewest);
    return first_fewer(fewest, limit);
}

/* ---- the dearest scalar of a size ---- */

/* A 1 at place 0 and at every odd place below the size: bytes of four such places, above them what is left of one, and zeros. */
static uint64_t peer_dearest(uint32_t bits, uint8_t *scalar, size_t room)
{
    size_t whole = bits / 8, above = MOST_BYTES - whole;

    if (bits < 1 || bits > 8 * MOST_BYTES)
        return refusal(15, 0);
    if (room != MOST_BYTES)
        return refusal(3, 0);
    memset(scalar, 0, above);
    memset(scalar + above, 0xaa, whole);
    if (above > 0)
        scalar[above - 1] = 0xaa & ((1u << bits % 8) - 1);
    scalar[MOST_BYTES - 1] |= 1;
    return bits / 2 + 1;
}

/* ---- the reader ---- */

/* A scalar of the header. */
struct signed_words {
    uint64_t word[WORDS];
    int negative;
};

/*
 * The place on the sheet, the line there, and the first line that misses each of the questions 7 to 9; 0 where none does.
 * `place` counts the D lines to come, as many as the header's doublings leave behind those of the table: a digit is added
 * where it stands, and a D line moves nothing. A header that claims another number is refused before the sum is asked for.
 */
struct reader {
    const uint8_t *at, *end;
    unsigned line, off_plan, disallowed, excess;
    struct plan plan;
    unsigned slots, additions, doublings;
    struct signed_words k, l;
    unsigned tables, turn, doubles, place, counted_additions, counted_doublings;
    int64_t p[LIMBS], q[LIMBS];
};

struct point {
    int a, b;
};

/* Each of these takes what is spelled at the place, or answers 0. */

static int take_byte(struct reader *r, char byte)
{
    if (r->at == r->end || *r->at != (uint8_t)byte)
        return 0;
    r->at++;
    return 1;
}

static int take_decimal(struct reader *r, int most, unsigned *n)
{
    const uint8_t *start = r->at;

    *n = 0;
    while (r->at < r->end && r->at - start < most && '0' <= *r->at && *r->at <= '9')
        *n = 10 * *n + (*r->at++ - (unsigned)'0');
    return r->at > start && (r->at - start == 1 || *start != '0');
}

static int take_digit(struct reader *r, int *digit)
{
    int negative = take_byte(r, '-');
    unsigned n;

    if (!take_decimal(r, 2, &n) || (negative && n == 0))
        return 0;
    *digit = negative ? -(int)n : (int)n;
    return 1;
}

/* A point behind a letter, and the end of the line. */
static int take_point(struct reader *r, struct point *t)
{
    return take_byte(r, ',') && take_digit(r, &t->a) && take_byte(r, ',') && take_digit(r, &t->b) && take_byte(r, '\n');
}

/* The figure of a byte: 0 to 9, then a to f; 16 where there is none. */
static unsigned figure_of(uint8_t byte)
{
    unsigned figure = byte - (unsigned)'0', letter = byte - (unsigned)'a';

    figure = figure < 10 ? figure : 16;
    return letter < 6 ? letter + 10 : figure;
}

static int take_scalar(struct reader *r, struct signed_words *scalar)
{
    uint8_t figures[MOST_FIGURES];
    unsigned n = 0, figure;

    scalar->negative = take_byte(r, '-');
    while (r->at < r->end && n < MOST_FIGURES && (figure = figure_of(*r->at)) < 16) {
        figures[n++] = (uint8_t)figure;
        r->at++;
    }
    if (n == 0 || ((n > 1 || scalar->negative) && figures[0] == 0))
        return 0;
    for (unsigned i = 0; i < n; i++)
        scalar->word[i / 16] |= (uint64_t)figures[n - 1 - i] << 4 * (i % 16);
    return 1;
}

static int take_kind(struct reader *r)
{
    r->plan.joint = take_byte(r, 'J');
    return r->plan.joint || take_byte(r, 'I');
}

static int take_field(struct reader *r, unsigned *n)
{
    return take_decimal(r, 4, n) && take_byte(r, ',');
}

static int take_header(struct reader *r)
{
    return take_byte(r, 'S') && take_byte(r, ',') && take_kind(r) && take_byte(r, ',') && take_field(r, &r->plan.m1)
        && take_field(r, &r->plan.m2) && take_field(r, &r->slots) && take_field(r, &r->additions)
        && take_field(r, &r->doublings) && take_scalar(r, &r->k) && take_byte(r, ',') && take_scalar(r, &r->l)
        && take_byte(r, '\n');
}

/* The first line that misses a question. */
static void miss(const struct reader *r, unsigned *line)
{
    if (*line == 0)
        *line = r->line;
}

static int is_on_plan(const struct reader *r)
{
    if (r->plan.joint)
        return r->plan.m1 == 1 && r->plan.m2 == 1 && r->slots == JOINT_SLOTS;
    return is_window(r->plan.m1) && is_window(r->plan.m2) && r->slots == slots_of(r->plan);
}

static unsigned multiples_of(unsigned m)
{
    return m < 3 ? 0 : (m - 1) / 2 + 1;
}

static unsigned table_lines(struct plan plan)
{
    return plan.joint ? 2 : multiples_of(plan.m1) + multiples_of(plan.m2);
}

/* The multiple on a window's T line with n before it. */
static int multiple(unsigned n)
{
    return n == 0 ? 2 : (int)(2 * n + 1);
}

/* Whether t is the plan's T line with n before it. */
static int is_table(struct plan plan, unsigned n, struct point t)
{
    unsigned first = multiples_of(plan.m1);

    if (n >= table_lines(plan))
        return 0;
    if (plan.joint)
        return t.a == 1 && t.b == (n == 0 ? 1 : -1);
    return n < first ? t.a == multiple(n) && t.b == 0 : t.a == 0 && t.b == multiple(n - first);
}

static void table(struct reader *r, struct point t)
{
    if (!is_table(r->plan, r->tables, t))
        miss(r, &r->off_plan);
    r->tables++;
    if ((t.a == 2 && t.b == 0) || (t.a == 0 && t.b == 2))
        r->counted_doublings++;
    else
        r->counted_additions++;
}

static int is_digit(int digit, unsigned m)
{
    return digit % 2 != 0 && digit <= (int)m && -digit <= (int)m;
}

/* The turn of a step in its place: 1 for P, 2 for Q or a joint one, 0 for no step of the plan. */
static unsigned turn_of(struct plan plan, struct point t)
{
    if (plan.joint)
        return -1 <= t.a && t.a <= 1 && -1 <= t.b && t.b <= 1 && (t.a || t.b) ? 2 : 0;
    if (t.b == 0)
        return is_digit(t.a, plan.m1) ? 1 : 0;
    return t.a == 0 && is_digit(t.b, plan.m2) ? 2 : 0;
}

/* Adds a digit at a place. A sheet has too few lines for a limb to overflow. */
static void add(int64_t *limb, unsigned place, int digit)
{
    limb[place / LIMB_BITS] += (int64_t)digit * ((int64_t)1 << place % LIMB_BITS);
}

static void step(struct reader *r, struct point t)
{
    unsigned turn = turn_of(r->plan, t);

    if (turn <= r->turn)
        miss(r, &r->disallowed);
    r->turn = turn;
    add(r->p, r->place, t.a);
    add(r->q, r->place, t.b);
}

static void lower(struct reader *r)
{
    r->turn = 0;
    r->counted_doublings++;
    if (++r->doubles > MOST_DOUBLES)
        miss(r, &r->excess);
    r->place -= r->place > 0;
}

static int take_tables(struct reader *r)
{
    struct point t;

    for (; take_byte(r, 'T'); r->line++) {
        if (!take_point(r, &t))
            return 0;
        table(r, t);
    }
    if (r->tables < table_lines(r->plan))
        miss(r, &r->off_plan);
    return 1;
}

static int take_load(struct reader *r)
{
    struct point t;

    if (!take_point(r, &t))
        return 0;
    step(r, t);
    r->line++;
    return 1;
}

static int take_move(struct reader *r)
{
    struct point t;

    if (take_byte(r, 'D')) {
        if (!take_byte(r, '\n'))
            return 0;
        lower(r);
    } else {
        if (!take_byte(r, 'A') || !take_point(r, &t))
            return 0;
        step(r, t);
        r->counted_additions++;
    }
    r->line++;
    return 1;
}

static int take_steps(struct reader *r)
{
    if (!take_byte(r, 'L'))
        return 1;
    if (!take_load(r))
        return 0;
    while (r->at < r->end && (*r->at == 'D' || *r->at == 'A'))
        if (!take_move(r))
            return 0;
    return 1;
}

static int take_end(struct reader *r)
{
    if (!take_byte(r, 'E') || !take_byte(r, '\n'))
        return 0;
    r->line++;
    return r->at == r->end;
}

/* The D lines that the header claims; 0 where they are none or too many. */
static unsigned claimed(const struct reader *r)
{
    unsigned n = r->doublings - table_doublings(r->plan);

    return n <= MOST_DOUBLES ? n : 0;
}

/* Question 6: the lines of the sheet, of which `line` is the first that is out of place. */
static int take_sheet(struct reader *r)
{
    if (!take_header(r))
        return 0;
    if (!is_on_plan(r))
        miss(r, &r->off_plan);
    r->place = claimed(r);
    r->line++;
    return take_tables(r) && take_steps(r) && take_end(r);
}

/* Whether the sum, negated for a negative scalar, has the scalar's words, once its carries are taken. */
static int is_sum(const int64_t *limb, const struct signed_words *scalar)
{
    int64_t carry = 0, sign = scalar->negative ? -1 : 1;

    for (unsigned i = 0; i < LIMBS; i++) {
        int64_t sum = sign * limb[i] + carry;
        uint64_t wanted = i / 2 < WORDS ? scalar->word[i / 2] >> LIMB_BITS * (i % 2) : 0;

        if ((uint32_t)sum != (uint32_t)wanted)
            return 0;
        carry = sum >> LIMB_BITS;
    }
    return carry == 0;
}

static uint64_t peer_read(const uint8_t *sheet, size_t n)
{
    struct reader r = {.at = sheet, .end = sheet + n, .line = 1};

    if (n > SHEET_BYTES)
        return refusal(5, 0);
    if (!take_sheet(&r))
        return refusal(6, r.line);
    if (r.off_plan)
        return refusal(7, r.off_plan);
    if (r.disallowed)
        return refusal(8, r.disallowed);
    if (r.excess)
        return refusal(9, r.excess);
    if (r.additions != r.counted_additions || r.doublings != r.counted_doublings)
        return refusal(10, 1);
    if (!is_sum(r.p, &r.k) || !is_sum(r.q, &r.l))
        return refusal(11, 1);
    return 0;
}

/* ---- one byte for a column ---- */

static int is_small(uint8_t digit)
{
    return digit <= 1 || digit == 255;
}

static uint64_t peer_pack(size_t columns, const uint8_t *k, size_t k_places, const uint8_t *l, size_t l_places, uint8_t *packed, size_t room)
{
    if (k_places < columns || l_places < columns || room < columns)
        return refusal(3, 0);
    for (size_t i = 0; i < columns; i++)
        if (!is_small(k[i]) || !is_small(l[i]))
            return refusal(12, 0);
    for (size_t i = 0; i < columns; i++)
        packed[i] = (uint8_t)(3 * ((int8_t)k[i] + 1) + (int8_t)l[i] + 1);
    return 0;
}

static uint64_t peer_unpack(size_t columns, const uint8_t *packed, size_t room, uint8_t *k, size_t k_places, uint8_t *l, size_t l_places)
{
    if (k_places < columns || l_places < columns || room < columns)
        return refusal(3, 0);
    for (size_t i = 0; i < columns; i++)
        if (packed[i] > 8)
            return refusal(12, 0);
    for (size_t i = 0; i < columns; i++) {
        k[i] = (uint8_t)(packed[i] / 3 - 1);
        l[i] = (uint8_t)(packed[i] % 3 - 1);
    }
    return 0;
}

const struct calls CALLS = {
    peer_row,         peer_row_down, peer_joint, peer_joint_codes, peer_plan_j, peer_plan_i,
    peer_plan_i_down, peer_cheapest, peer_read,  peer_pack,        peer_unpack, peer_next_limit,
    peer_dearest,
};
