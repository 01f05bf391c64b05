/*
 * Calls every function of sheets.h with good and bad input, and checks the answers and every byte of the buffers: against the samples
 * of the scope document, and for other scalars by reading the digits back and counting those that are not 0; with every pair of signs.
 * All this by the card's calls and by the gateway's, each at its own limits; then both sets at the limits of either. What has to do with
 * rows is done once more with rows from the top down. Columns are packed and unpacked, those of joint forms and others. The next limit that
 * pays is asked at every limit, beside the cheapest sheets there. The dearest scalar is asked for every size, beside a search of the small
 * ones and the sheets of plan I.
 */
#include "sheets.h"

#include <stdarg.h>
#include <stdio.h>
#include <stdlib.h>
#include <string.h>

/* ---- the sets of calls ---- */

struct calls {
    const char *name;
    uint64_t (*row)(const uint8_t *, size_t, uint32_t, uint32_t, uint8_t *, size_t);
    uint64_t (*joint)(const uint8_t *, size_t, uint32_t, const uint8_t *, size_t, uint32_t, uint8_t *, size_t, uint8_t *, size_t);
    uint64_t (*joint_codes)(const uint8_t *, size_t, uint32_t, const uint8_t *, size_t, uint32_t, uint8_t *, size_t, uint8_t *, size_t,
                            uint8_t *, size_t, uint8_t *, size_t);
    uint64_t (*plan_j)(const uint8_t *, size_t, uint32_t, const uint8_t *, size_t, uint32_t, uint8_t *, size_t);
    uint64_t (*plan_i)(const uint8_t *, size_t, uint32_t, const uint8_t *, size_t, uint32_t, uint32_t, uint32_t, uint8_t *, size_t);
    uint64_t (*cheapest)(const uint8_t *, size_t, uint32_t, const uint8_t *, size_t, uint32_t, uint32_t, uint8_t *, size_t);
    uint64_t (*read)(const uint8_t *, size_t);
    size_t bytes;       /* of a scalar, at most */
    size_t sheet_bytes; /* of a sheet at most, and of its buffer at least */
    unsigned figures;   /* of a scalar in a header, at most */
    unsigned doublings; /* the D lines of a sheet, at most */
    int down;           /* 1 where `row` and `plan_i` are the calls for rows from the top down, else 0 */
};

#define CARD(name, row, plan_i, down) \
    {name, row, sheets_joint, sheets_joint_codes, sheets_plan_j, plan_i, sheets_cheapest, sheets_read, 66, 16384, 132, 528, down}
#define GATEWAY(name, row, plan_i, down) \
    {name, row, sheets_gateway_joint, sheets_gateway_joint_codes, sheets_gateway_plan_j, plan_i, sheets_gateway_cheapest, \
     sheets_gateway_read, 128, 32768, 256, 1024, down}

static const struct calls card = CARD("card", sheets_row, sheets_plan_i, 0);
static const struct calls card_down = CARD("card, from the top down", sheets_row_down, sheets_plan_i_down, 1);
static const struct calls gateway = GATEWAY("gateway", sheets_gateway_row, sheets_gateway_plan_i, 0);
static const struct calls gateway_down = GATEWAY("gateway, from the top down", sheets_gateway_row_down, sheets_gateway_plan_i_down, 1);

/* The set that is tried. */
static const struct calls *by = &card;

/* The most bytes and places of either set, and more places than any call asks for. */
enum { MOST_BYTES = 128, MOST_PLACES = SHEETS_PLACES(MOST_BYTES), PLENTY = 2 * MOST_PLACES };

/* ---- checks ---- */

static unsigned long checks, failed;

static void check(int met, const char *what, int line)
{
    checks++;
    if (!met) {
        failed++;
        printf("%s:%d: failed at the %s: %s\n", __FILE__, line, by->name, what);
    }
}

#define CHECK(fact) check((fact), #fact, __LINE__)

/* ---- answers ---- */

/* An answer that is to have this length, and this weight or these additions: every bit of it, and each part by its shift and its mask. */
static void written(uint64_t answer, size_t length, size_t count, int line)
{
    check(answer == ((uint64_t)count << 16 | length), "the whole answer", line);
    check(sheets_number(answer) == 0 && answer >> 32 == 0, "no question is missed", line);
    check(sheets_length(answer) == length && (answer & 0xffff) == length, "the length", line);
    check(sheets_weight(answer) == count && sheets_additions(answer) == count, "the weight or the additions", line);
    check((answer >> 16 & 0xffff) == count, "the weight or the additions, in their bits", line);
}

/* The length that is answered, or the room where it is more, which `written` then refuses. */
static size_t length_within(uint64_t answer, size_t room)
{
    size_t length = sheets_length(answer);
    return length < room ? length : room;
}

/* An answer that is to be a refusal by a call that writes: below the number all is 0. */
static void refused(uint64_t answer, uint32_t number, int line)
{
    check(answer == (uint64_t)number << 32 && sheets_number(answer) == number, "the question missed", line);
    check(sheets_length(answer) == 0 && sheets_weight(answer) == 0 && sheets_additions(answer) == 0, "no length and no weight", line);
    check(sheets_limit(answer) == 0, "no limit", line);
    check(sheets_most(answer) == 0, "no most", line);
}

/* The parts of made-up answers, of which none runs into another. */
static void parts(void)
{
    uint64_t all = UINT64_C(0x89abcdef76543210), late = UINT64_C(0x0000000b00012345);
    unsigned bit;
    CHECK(sheets_number(all) == 0x89abcdef && sheets_line(all) == 0x76543210);
    CHECK(sheets_length(all) == 0x3210 && sheets_weight(all) == 0x7654 && sheets_additions(all) == 0x7654);
    CHECK(sheets_limit(all) == 0x3210);
    CHECK(sheets_most(all) == 0x76543210 && sheets_most(late) == 0x12345);
    CHECK(sheets_number(late) == 11 && sheets_line(late) == 0x12345);
    for (bit = 0; bit < 64; bit++) {
        uint64_t answer = UINT64_C(1) << bit;
        CHECK(sheets_length(answer) == (bit < 16 ? answer : 0));
        CHECK(sheets_weight(answer) == (16 <= bit && bit < 32 ? answer >> 16 : 0));
        CHECK(sheets_additions(answer) == sheets_weight(answer));
        CHECK(sheets_limit(answer) == (bit < 16 ? answer : 0));
        CHECK(sheets_most(answer) == (bit < 32 ? answer : 0));
        CHECK(sheets_line(answer) == (bit < 32 ? answer : 0));
        CHECK(sheets_number(answer) == (32 <= bit ? answer >> 32 : 0));
    }
}

/* ---- inputs, each in a block of its own size ---- */

struct bytes {
    uint8_t *at;   /* what is handed in; NULL if there are none */
    uint8_t *copy; /* the same again, to see that they are only read */
    size_t n;
    uint32_t sign; /* of a scalar: 0 for plus, any other number for minus */
};

static struct bytes bytes_of(const uint8_t *from, size_t n)
{
    struct bytes b = {NULL, NULL, n, 0};
    if (n > 0) {
        b.at = malloc(n);
        b.copy = malloc(n);
        if (b.at == NULL || b.copy == NULL)
            exit(2);
        memcpy(b.at, from, n);
        memcpy(b.copy, from, n);
    }
    return b;
}

static struct bytes filled(uint8_t byte, size_t n)
{
    uint8_t *all = malloc(n + 1);
    struct bytes b;
    if (all == NULL)
        exit(2);
    memset(all, byte, n);
    b = bytes_of(all, n);
    free(all);
    return b;
}

/* A word, so many times. The text is good until two more are made. */
static const char *times(size_t n, const char *word)
{
    static char all[2][4096];
    static unsigned made;
    char *at = all[made++ % 2];
    size_t length = strlen(word), i;
    if (n * length >= sizeof *all)
        exit(2);
    for (i = 0; i < n; i++)
        memcpy(at + i * length, word, length);
    at[n * length] = 0;
    return at;
}

/* A text of these parts, good until the next is made. */
static const char *spelled(const char *parts, ...)
{
    static char all[4096];
    va_list list;
    int length;
    va_start(list, parts);
    length = vsnprintf(all, sizeof all, parts, list);
    va_end(list);
    if (length < 0 || (size_t)length >= sizeof all)
        exit(2);
    return all;
}

static struct bytes text(const char *s) { return bytes_of((const uint8_t *)s, strlen(s)); }

/* A scalar of one byte. */
static struct bytes byte(uint8_t value) { return bytes_of(&value, 1); }

/* A scalar with another sign. */
static struct bytes with_sign(struct bytes scalar, uint32_t sign)
{
    scalar.sign = sign;
    return scalar;
}

static struct bytes minus(struct bytes scalar) { return with_sign(scalar, 1); }

/* Plus, and numbers that are all minus. */
static const uint32_t signs[] = {0, 1, 2, 256, 65536, 2147483648u, 4294967295u};
enum { SIGNS = sizeof signs / sizeof *signs };

/*
 * A longest scalar whose row for window 1 is as heavy as any: from the bottom up it has a digit that is not 0 at every second place, from
 * place 0 to the last; from the top down at every second place from the last but one to place 3, and at places 2 and 0.
 */
static struct bytes heavy(void)
{
    uint8_t all[MOST_BYTES];
    memset(all, 0xaa, by->bytes);
    all[by->bytes - 1] = 0xab;
    return bytes_of(all, by->bytes);
}

/* A longest scalar that ends in these three bytes, and has them over and over. */
static struct bytes repeated(uint8_t a, uint8_t b, uint8_t c)
{
    uint8_t all[MOST_BYTES];
    size_t i;
    for (i = 0; i < by->bytes; i++)
        all[by->bytes - 1 - i] = i % 3 == 0 ? c : i % 3 == 1 ? b : a;
    return bytes_of(all, by->bytes);
}

/* The next of a fixed sequence of numbers that look random. */
static uint32_t next_number(void)
{
    static uint32_t state = 2463534242u;
    state ^= state << 13;
    state ^= state >> 17;
    state ^= state << 5;
    return state;
}

/* A scalar of so many bytes; about half of them have a plus. */
static struct bytes any_scalar(size_t n)
{
    uint8_t all[MOST_BYTES];
    size_t i;
    uint32_t kind = next_number() % 4, sign = next_number() % (2 * SIGNS - 2);
    for (i = 0; i < n; i++)
        all[i] = kind == 0 ? 255 : kind == 1 ? (uint8_t)(next_number() & next_number()) : (uint8_t)next_number();
    return with_sign(bytes_of(all, n), sign < SIGNS ? signs[sign] : 0);
}

/* A scalar of any number of bytes that the set takes. */
static struct bytes any_within(void) { return any_scalar(1 + next_number() % by->bytes); }

/* Frees an input, and says whether it is as it was handed in. */
static int only_read(struct bytes b)
{
    int same = b.n == 0 || memcmp(b.at, b.copy, b.n) == 0;
    free(b.at);
    free(b.copy);
    return same;
}

/* ---- buffers, with guard bytes on both sides ---- */

enum { GUARD = 64, MOST = SHEETS_GATEWAY_BYTES + 64 };

struct lent {
    uint8_t all[GUARD + MOST + GUARD];
};

/* What a buffer and its guards hold when they are lent. */
static const uint8_t *before(void)
{
    static struct lent made;
    size_t i;
    if (made.all[0] == 0)
        for (i = 0; i < sizeof made.all; i++)
            made.all[i] = (uint8_t)(37 * i + 11);
    return made.all;
}

static uint8_t *lend(struct lent *b)
{
    memcpy(b->all, before(), sizeof b->all);
    return b->all + GUARD;
}

/* Whether only the first n bytes of the buffer may have changed. */
static int kept(const struct lent *b, size_t n)
{
    size_t behind = GUARD + n;
    return memcmp(b->all, before(), GUARD) == 0 && memcmp(b->all + behind, before() + behind, sizeof b->all - behind) == 0;
}

static struct lent first, second, third, fourth;

/* ---- digits ---- */

static int digit(const uint8_t *digits, size_t i)
{
    int8_t d;
    memcpy(&d, digits + i, 1);
    return d;
}

static int zeros_above(const uint8_t *digits, size_t length, size_t places)
{
    size_t i;
    for (i = length; i < places; i++)
        if (digits[i] != 0)
            return 0;
    return 1;
}

/* How many digits are not 0. */
static size_t weight_of(const uint8_t *digits, size_t places)
{
    size_t i, weight = 0;
    for (i = 0; i < places; i++)
        weight += digits[i] != 0;
    return weight;
}

/* How many columns are not zero. */
static size_t columns_of(const uint8_t *p, const uint8_t *q, size_t places)
{
    size_t i, weight = 0;
    for (i = 0; i < places; i++)
        weight += p[i] != 0 || q[i] != 0;
    return weight;
}

/*
 * Whether the digits' sum of digit times 2^place is the scalar, by the digits negated where it has a minus. The number is kept in bytes, the
 * least significant first.
 */
static int reads_back(const uint8_t *digits, size_t length, struct bytes scalar)
{
    uint8_t number[MOST_BYTES + 8] = {0};
    size_t i, j;
    for (i = length; i > 0; i--) {
        int carry = scalar.sign == 0 ? digit(digits, i - 1) : -digit(digits, i - 1);
        for (j = 0; j < sizeof number; j++) {
            int sum = 2 * number[j] + carry;
            number[j] = (uint8_t)(sum & 255);
            carry = (sum - number[j]) / 256;
        }
    }
    for (j = 0; j < sizeof number; j++)
        if (number[j] != (j < scalar.n ? scalar.at[scalar.n - 1 - j] : 0))
            return 0;
    return 1;
}

static size_t bit_length(struct bytes scalar)
{
    size_t i, bits;
    for (i = 0; i < scalar.n && scalar.at[i] == 0; i++)
        ;
    if (i == scalar.n)
        return 0;
    for (bits = 0; scalar.at[i] >> bits != 0; bits++)
        ;
    return 8 * (scalar.n - i - 1) + bits;
}

/* Whether a row is another one, with each digit negated where the sign is a minus. */
static int has_sign(const uint8_t *row, const uint8_t *plus, size_t places, uint32_t sign)
{
    size_t i;
    for (i = 0; i < places; i++)
        if (digit(row, i) != (sign == 0 ? digit(plus, i) : -digit(plus, i)))
            return 0;
    return 1;
}

/* ---- rows ---- */

/* A row call that is to give these digits, of which so many are not 0. */
static void row_is(struct bytes scalar, uint32_t m, size_t places, size_t weight, const int8_t *digits, size_t length, int line)
{
    uint8_t *out = lend(&first);
    written(by->row(scalar.at, scalar.n, scalar.sign, m, out, places), length, weight, line);
    check(weight_of(out, places) == weight, "its weight", line);
    check(length <= places && memcmp(out, digits, length) == 0, "its digits", line);
    check(zeros_above(out, length, places), "zeros above", line);
    check(kept(&first, places), "no other byte", line);
    check(only_read(scalar), "the scalar is only read", line);
}

#define ROW(scalar, m, places, weight, ...) \
    row_is((scalar), (m), (places), (weight), (const int8_t[]){__VA_ARGS__}, sizeof(const int8_t[]){__VA_ARGS__}, __LINE__)

/* A row call that is to be refused. */
static void row_refused(struct bytes scalar, uint32_t m, size_t places, uint32_t number, int line)
{
    refused(by->row(scalar.at, scalar.n, scalar.sign, m, lend(&first), places), number, line);
    check(kept(&first, 0), "the buffer is as lent", line);
    check(only_read(scalar), "the scalar is only read", line);
}

#define ROW_REFUSED(scalar, m, places, number) row_refused((scalar), (m), (places), (number), __LINE__)

/* Rows with a digit that is not 0 at about every second place. */
static void heavy_rows(void)
{
    int8_t positive[MOST_PLACES], negative[MOST_PLACES], down[MOST_PLACES];
    size_t n = by->bytes, i;
    for (i = 0; i < MOST_PLACES; i++) {
        positive[i] = i % 2 == 0 ? 0 : 1;
        negative[i] = i % 2 == 0 ? -1 : 0;
        down[i] = i < 3 ? (int8_t)(i - 1) : positive[i];
    }
    negative[8 * n] = 1;
    row_is(filled(0xaa, n), 1, SHEETS_PLACES(n), 4 * n, positive, 8 * n, __LINE__);
    row_is(filled(0x55, n), 1, SHEETS_PLACES(n), 4 * n, positive + 1, 8 * n - 1, __LINE__);
    row_is(heavy(), 1, SHEETS_PLACES(n), 4 * n + 1, by->down ? down : negative, by->down ? 8 * n : 8 * n + 1, __LINE__);
}

/* With every sign the same answer, and the row with each digit negated or not; all that is not plus gives the same bytes. */
static void signed_row(struct bytes scalar, uint32_t m, int line)
{
    static uint8_t plus[MOST_PLACES], negated[MOST_PLACES];
    size_t places = SHEETS_PLACES(scalar.n), i;
    uint64_t expected = by->row(scalar.at, scalar.n, 0, m, plus, places);
    by->row(scalar.at, scalar.n, 1, m, negated, places);
    for (i = 0; i < SIGNS; i++) {
        uint8_t *out = lend(&first);
        check(by->row(scalar.at, scalar.n, signs[i], m, out, places) == expected, "the answer with a sign", line);
        check(has_sign(out, plus, places, signs[i]), "the row with a sign", line);
        check(memcmp(out, signs[i] == 0 ? plus : negated, places) == 0, "the row of any minus", line);
        check(reads_back(out, places, with_sign(scalar, signs[i])), "it reads back to the signed scalar", line);
        check(kept(&first, places), "no other byte with a sign", line);
    }
    check(only_read(scalar), "the scalar is only read", line);
}

/* Zero, small scalars and long ones with every sign; and refusals with every sign. */
static void negative_rows(void)
{
    int8_t ones[MOST_PLACES] = {1}, none[1] = {0};
    unsigned value;
    uint32_t m;
    size_t n = by->bytes, i;

    ones[8 * n] = -1;
    row_is(minus(filled(255, n)), 1, SHEETS_PLACES(n), 2, ones, 8 * n + 1, __LINE__);
    for (m = 1; m <= 31; m += 2) {
        for (value = 0; value < 64; value++)
            signed_row(byte((uint8_t)value), m, __LINE__);
        signed_row(any_scalar(n), m, __LINE__);
        signed_row(filled(0, n), m, __LINE__);
    }
    for (i = 0; i < SIGNS; i++) {
        row_is(with_sign(byte(0), signs[i]), 1, 9, 0, none, 0, __LINE__);
        row_is(with_sign(filled(0, n), signs[i]), 31, SHEETS_PLACES(n), 0, none, 0, __LINE__);
        ROW_REFUSED(with_sign(filled(1, 0), signs[i]), 4, 0, 1);
        ROW_REFUSED(with_sign(filled(1, n + 1), signs[i]), 1, PLENTY, 1);
        ROW_REFUSED(with_sign(byte(7), signs[i]), 4, 9, 2);
        ROW_REFUSED(with_sign(byte(7), signs[i]), 5, 8, 3);
    }
}

/* 22369, which source document 000 recodes. */
static struct bytes printed(void) { return bytes_of((const uint8_t *)"\x57\x61", 2); }

/* The samples, and with a minus. */
static void row_samples(void)
{
    ROW(byte(9), 5, 9, 2, 1, 0, 0, 1);
    ROW(byte(9), 7, 9, 2, -7, 0, 0, 0, 1);
    ROW(byte(11), 1, 9, 3, -1, 0, -1, 0, 1);
    ROW(byte(33), 31, 9, 2, -31, 0, 0, 0, 0, 0, 1);
    ROW(byte(53), 3, 9, 3, -3, 0, 0, -1, 0, 0, 1);
    ROW(printed(), 5, 17, 4, 1, 0, 0, 0, 0, -5, 0, 0, 0, 0, 0, -5, 0, 0, 0, 1);
    ROW(minus(byte(9)), 5, 9, 2, -1, 0, 0, -1);
    ROW(minus(byte(9)), 7, 9, 2, 7, 0, 0, 0, -1);
    ROW(minus(byte(11)), 1, 9, 3, 1, 0, 1, 0, -1);
    ROW(minus(byte(33)), 31, 9, 2, 31, 0, 0, 0, 0, 0, -1);
    ROW(minus(byte(53)), 3, 9, 3, 3, 0, 0, 1, 0, 0, -1);
}

/* The same scalars from the top down. */
static void row_down_samples(void)
{
    ROW(byte(9), 5, 9, 2, -1, 5);
    ROW(byte(9), 7, 9, 2, -1, 5);
    ROW(byte(11), 1, 9, 3, -1, 0, 1, 1);
    ROW(byte(33), 31, 9, 2, -1, 17);
    ROW(byte(53), 3, 9, 3, -1, 3, 0, 0, 3);
    ROW(printed(), 5, 17, 4, 1, 0, 0, 0, 0, -5, 0, 0, 0, 0, 0, 1, 5);
    ROW(minus(byte(11)), 1, 9, 3, 1, 0, -1, -1);
    ROW(minus(printed()), 5, 17, 4, -1, 0, 0, 0, 0, 5, 0, 0, 0, 0, 0, -1, -5);
}

static void rows(void)
{
    int8_t ones[MOST_PLACES] = {-1}, none[1] = {0};
    size_t most = by->bytes, n;
    uint32_t m;

    if (by->down)
        row_down_samples();
    else
        row_samples();

    /* what is the same from either end */
    row_is(byte(0), 1, 9, 0, none, 0, __LINE__);
    ROW(byte(7), 5, 9, 2, -1, 0, 0, 1);
    ROW(minus(byte(7)), 5, 9, 2, 1, 0, 0, -1);
    ones[8 * most] = 1;
    row_is(filled(255, most), 1, SHEETS_PLACES(most), 2, ones, 8 * most + 1, __LINE__);
    heavy_rows();

    /* leading zero bytes, more room than is needed, the carry out of the top place */
    ROW(bytes_of((const uint8_t *)"\0\0\7", 3), 5, PLENTY, 2, -1, 0, 0, 1);
    ROW(byte(255), 1, 9, 2, -1, 0, 0, 0, 0, 0, 0, 0, 1);
    row_is(filled(0, most), 31, SHEETS_PLACES(most), 0, none, 0, __LINE__);

    /* 1. has the scalar a byte, and no more than the limit? */
    ROW_REFUSED(filled(1, 0), 1, 1, 1);
    ROW_REFUSED(filled(1, most + 1), 1, PLENTY, 1);
    ROW_REFUSED(filled(0, most + 1), 1, PLENTY, 1);
    ROW_REFUSED(filled(1, 1000), 1, MOST, 1);
    ROW_REFUSED(filled(1, most + 1), 4, 0, 1);

    /* 2. is m odd, 1 to 31? */
    ROW_REFUSED(byte(7), 0, 9, 2);
    ROW_REFUSED(byte(7), 4, 9, 2);
    ROW_REFUSED(byte(7), 32, 9, 2);
    ROW_REFUSED(byte(7), 33, 9, 2);
    ROW_REFUSED(byte(7), 257, 9, 2);
    ROW_REFUSED(byte(7), 65537, 9, 2);
    ROW_REFUSED(byte(7), 4294967295u, 9, 2);
    ROW_REFUSED(byte(7), 2, 0, 2);

    /* 3. has the digit buffer at least 8 times bytes + 1 places? */
    ROW_REFUSED(byte(7), 5, 8, 3);
    ROW_REFUSED(byte(7), 5, 0, 3);
    ROW_REFUSED(byte(0), 5, 0, 3);
    ROW_REFUSED(filled(255, most), 1, SHEETS_PLACES(most) - 1, 3);
    ROW_REFUSED(bytes_of((const uint8_t *)"\0\0\7", 3), 5, 24, 3);

    /* no buffer at all */
    CHECK(by->row(NULL, 0, 0, 1, NULL, 0) == (uint64_t)1 << 32);
    CHECK(by->row(NULL, 0, 1, 1, NULL, 0) == (uint64_t)1 << 32);
    CHECK(by->row((const uint8_t *)"\7", 1, 0, 2, NULL, 0) == (uint64_t)2 << 32);
    CHECK(by->row((const uint8_t *)"\7", 1, 0, 1, NULL, 0) == (uint64_t)3 << 32);
    CHECK(by->row((const uint8_t *)"\7", 1, 4294967295u, 1, NULL, 0) == (uint64_t)3 << 32);

    /* every window, and scalars of every length */
    for (n = 1; n <= most; n++)
        for (m = 1; m <= 31; m += 2) {
            struct bytes scalar = any_scalar(n);
            size_t places = SHEETS_PLACES(n), i, length;
            uint8_t *out = lend(&first);
            uint64_t answer = by->row(scalar.at, n, scalar.sign, m, out, places);
            int allowed = 1;
            length = length_within(answer, places);
            written(answer, length, weight_of(out, places), __LINE__);
            CHECK(length <= bit_length(scalar) + 1);
            for (i = 0; i < length; i++) {
                int d = digit(out, i);
                allowed &= d == 0 || (d % 2 != 0 && -(int)m <= d && d <= (int)m);
            }
            CHECK(allowed);
            CHECK(length == 0 || out[length - 1] != 0);
            CHECK(reads_back(out, length, scalar));
            CHECK(zeros_above(out, length, places) && kept(&first, places));
            CHECK(only_read(scalar));
        }
    negative_rows();
}

/* ---- joint forms ---- */

/* A joint call that is to give these digits, with so many columns that are not zero. */
static void joint_is(struct bytes k, struct bytes l, size_t weight, const int8_t *k_digits, const int8_t *l_digits, size_t length,
                     int line)
{
    uint8_t *p = lend(&first), *q = lend(&second);
    size_t places = SHEETS_PLACES(k.n > l.n ? k.n : l.n);
    written(by->joint(k.at, k.n, k.sign, l.at, l.n, l.sign, p, places, q, places + 3), length, weight, line);
    check(columns_of(p, q, places) == weight, "its weight", line);
    check(memcmp(p, k_digits, length) == 0, "the digits of k", line);
    check(memcmp(q, l_digits, length) == 0, "the digits of l", line);
    check(zeros_above(p, length, places) && zeros_above(q, length, places + 3), "zeros above", line);
    check(kept(&first, places) && kept(&second, places + 3), "no other byte", line);
    check(only_read(k) & only_read(l), "the scalars are only read", line);
}

static void joint_refused(struct bytes k, struct bytes l, size_t k_places, size_t l_places, uint32_t number, int line)
{
    refused(by->joint(k.at, k.n, k.sign, l.at, l.n, l.sign, lend(&first), k_places, lend(&second), l_places), number, line);
    check(kept(&first, 0) && kept(&second, 0), "the buffers are as lent", line);
    check(only_read(k) & only_read(l), "the scalars are only read", line);
}

#define JOINT_REFUSED(k, l, k_places, l_places, number) joint_refused((k), (l), (k_places), (l_places), (number), __LINE__)

/* The joint sparse rules (a), (b) and (c) at all places of two rows; above their length the rows hold 0. */
static int keeps_rules(const uint8_t *p, const uint8_t *q, size_t places)
{
    size_t i;
    for (i = 0; i < places; i++) {
        int a = digit(p, i), b = digit(q, i);
        if (a < -1 || a > 1 || b < -1 || b > 1)
            return 0;
        if (i + 2 < places && (a | b) != 0 && (p[i + 1] | q[i + 1]) != 0 && (p[i + 2] | q[i + 2]) != 0)
            return 0;
        if (i + 1 < places) {
            int above_a = digit(p, i + 1), above_b = digit(q, i + 1);
            if (a * above_a == -1 || b * above_b == -1)
                return 0;
            if (a != 0 && above_a != 0 && (above_b == 0 || b != 0))
                return 0;
            if (b != 0 && above_b != 0 && (above_a == 0 || a != 0))
                return 0;
        }
    }
    return 1;
}

/* The places and the weight of a joint form of the longest scalars in which the columns at places 2, 5, 8 and so on are zero, no others. */
static size_t two_of_three(size_t *weight)
{
    size_t places = 8 * by->bytes - (8 * by->bytes % 3 == 0), i;
    for (*weight = i = 0; i < places; i++)
        *weight += i % 3 != 2;
    return places;
}

/* A joint form in which two columns of every three are not zero, the most that the rules allow; and two rows with the same columns. */
static void heavy_joints(void)
{
    int8_t third[MOST_PLACES + 1] = {0}, ones[MOST_PLACES] = {-1};
    size_t n = by->bytes, i, weight, places = two_of_three(&weight);
    for (i = 1; i < sizeof third; i += 3)
        third[i] = 1;
    ones[8 * n] = 1;
    joint_is(repeated(0x24, 0x92, 0x49), repeated(0x49, 0x24, 0x92), weight, third + 1, third, places, __LINE__);
    joint_is(filled(255, n), filled(255, n), 2, ones, ones, 8 * n + 1, __LINE__);
}

/* The samples with a minus in k, in l and in both: each row is negated with its own scalar. Zero with a minus; refusals with every sign. */
static void negative_joints(void)
{
    static const int8_t thirteen[] = {-1, -1, 0, 0, 1}, less_thirteen[] = {1, 1, 0, 0, -1};
    static const int8_t ten[] = {0, 1, 0, 1, 0}, less_ten[] = {0, -1, 0, -1, 0}, none[] = {0}, one[] = {1};
    size_t i;
    for (i = 1; i < SIGNS; i++) {
        joint_is(with_sign(byte(13), signs[i]), byte(10), 4, less_thirteen, ten, 5, __LINE__);
        joint_is(byte(13), with_sign(byte(10), signs[i]), 4, thirteen, less_ten, 5, __LINE__);
        joint_is(with_sign(byte(13), signs[i]), minus(byte(10)), 4, less_thirteen, less_ten, 5, __LINE__);
    }
    for (i = 0; i < SIGNS; i++) {
        joint_is(with_sign(byte(0), signs[i]), with_sign(filled(0, by->bytes), signs[i]), 0, none, none, 0, __LINE__);
        joint_is(byte(1), with_sign(byte(0), signs[i]), 1, one, none, 1, __LINE__);
        joint_is(with_sign(byte(0), signs[i]), byte(1), 1, none, one, 1, __LINE__);
        JOINT_REFUSED(with_sign(byte(7), signs[i]), with_sign(filled(1, 0), signs[i]), PLENTY, PLENTY, 1);
        JOINT_REFUSED(with_sign(filled(1, by->bytes + 1), signs[i]), with_sign(byte(7), signs[i]), 0, 0, 1);
        JOINT_REFUSED(with_sign(byte(7), signs[i]), with_sign(byte(2), signs[i]), 9, 8, 3);
    }
}

static void joints(void)
{
    size_t most = by->bytes, n;

    /* the samples */
    joint_is(byte(13), byte(10), 4, (const int8_t[]){-1, -1, 0, 0, 1}, (const int8_t[]){0, 1, 0, 1, 0}, 5, __LINE__);
    joint_is(byte(7), byte(2), 3, (const int8_t[]){-1, 0, 0, 1}, (const int8_t[]){0, 1, 0, 0}, 4, __LINE__);
    joint_is(byte(3), byte(2), 2, (const int8_t[]){1, 1}, (const int8_t[]){0, 1}, 2, __LINE__);
    joint_is(byte(1), byte(2), 2, (const int8_t[]){1, 0}, (const int8_t[]){0, 1}, 2, __LINE__);
    joint_is(byte(0), byte(0), 0, (const int8_t[]){0}, (const int8_t[]){0}, 0, __LINE__);
    joint_is(byte(3), bytes_of((const uint8_t *)"\0\2", 2), 2, (const int8_t[]){1, 1}, (const int8_t[]){0, 1}, 2, __LINE__);
    heavy_joints();

    /* 1. has each scalar a byte, and no more than the limit? */
    JOINT_REFUSED(filled(1, 0), byte(2), PLENTY, PLENTY, 1);
    JOINT_REFUSED(byte(7), filled(1, 0), PLENTY, PLENTY, 1);
    JOINT_REFUSED(filled(1, most + 1), byte(2), PLENTY, PLENTY, 1);
    JOINT_REFUSED(byte(7), filled(1, most + 1), PLENTY, PLENTY, 1);
    JOINT_REFUSED(byte(7), filled(1, most + 1), 0, 0, 1);

    /* 3. have both digit buffers room, by the longer scalar? */
    JOINT_REFUSED(byte(7), byte(2), 8, 9, 3);
    JOINT_REFUSED(byte(7), byte(2), 9, 8, 3);
    JOINT_REFUSED(byte(7), byte(2), 0, 0, 3);
    JOINT_REFUSED(byte(7), filled(0, 2), 9, 17, 3);
    JOINT_REFUSED(byte(7), filled(0, 2), 17, 16, 3);
    JOINT_REFUSED(filled(0, 2), byte(7), 17, 9, 3);
    JOINT_REFUSED(filled(255, most), byte(7), SHEETS_PLACES(most), SHEETS_PLACES(most) - 1, 3);

    /* no buffer at all */
    CHECK(by->joint(NULL, 0, 0, NULL, 0, 0, NULL, 0, NULL, 0) == (uint64_t)1 << 32);
    CHECK(by->joint(NULL, 0, 1, NULL, 0, 2, NULL, 0, NULL, 0) == (uint64_t)1 << 32);
    CHECK(by->joint((const uint8_t *)"\7", 1, 0, (const uint8_t *)"\2", 1, 0, NULL, 0, NULL, 0) == (uint64_t)3 << 32);
    CHECK(by->joint((const uint8_t *)"\7", 1, 256, (const uint8_t *)"\2", 1, 1, NULL, 0, NULL, 0) == (uint64_t)3 << 32);

    /* scalars of every length */
    for (n = 1; n <= most; n++) {
        struct bytes k = any_scalar(n), l = any_within();
        size_t places = SHEETS_PLACES(k.n > l.n ? k.n : l.n), bits, length;
        uint8_t *p = lend(&first), *q = lend(&second);
        uint64_t answer = by->joint(k.at, k.n, k.sign, l.at, l.n, l.sign, p, places, q, places);
        length = length_within(answer, places);
        bits = bit_length(k) > bit_length(l) ? bit_length(k) : bit_length(l);
        written(answer, length, columns_of(p, q, places), __LINE__);
        CHECK(length <= bits + 1);
        CHECK(length == 0 || (p[length - 1] | q[length - 1]) != 0);
        CHECK(keeps_rules(p, q, places));
        CHECK(reads_back(p, length, k));
        CHECK(reads_back(q, length, l));
        CHECK(zeros_above(p, length, places) && zeros_above(q, length, places));
        CHECK(kept(&first, places) && kept(&second, places));
        CHECK(only_read(k) & only_read(l));
    }
    negative_joints();
}

/* ---- joint forms with codes ---- */

/* The two rows of a joint form and their codes. */
struct form {
    size_t length, weight;
    int8_t k_digits[MOST_PLACES], l_digits[MOST_PLACES];
    uint8_t k_codes[MOST_PLACES], l_codes[MOST_PLACES];
};

static void form_is(struct bytes k, struct bytes l, const struct form *form, int line)
{
    uint8_t *p = lend(&first), *q = lend(&second), *pc = lend(&third), *qc = lend(&fourth);
    size_t n = form->length, places = SHEETS_PLACES(k.n > l.n ? k.n : l.n);
    uint64_t answer = by->joint_codes(k.at, k.n, k.sign, l.at, l.n, l.sign, p, places, q, places + 3, pc, places + 5, qc, places + 7);
    written(answer, n, form->weight, line);
    check(columns_of(p, q, places) == form->weight, "its weight", line);
    check(memcmp(p, form->k_digits, n) == 0 && memcmp(q, form->l_digits, n) == 0, "the digits of k and l", line);
    check(memcmp(pc, form->k_codes, n) == 0, "the codes of k", line);
    check(memcmp(qc, form->l_codes, n) == 0, "the codes of l", line);
    check(zeros_above(p, n, places) && zeros_above(q, n, places + 3), "zeros above the digits", line);
    check(zeros_above(pc, n, places + 5) && zeros_above(qc, n, places + 7), "zeros above the codes", line);
    check(kept(&first, places) && kept(&second, places + 3), "no other byte beside the digits", line);
    check(kept(&third, places + 5) && kept(&fourth, places + 7), "no other byte beside the codes", line);
    check(only_read(k) & only_read(l), "the scalars are only read", line);
}

static void codes_refused(struct bytes k, struct bytes l, const size_t rooms[4], uint32_t number, int line)
{
    uint64_t answer = by->joint_codes(k.at, k.n, k.sign, l.at, l.n, l.sign, lend(&first), rooms[0], lend(&second), rooms[1],
                                         lend(&third), rooms[2], lend(&fourth), rooms[3]);
    refused(answer, number, line);
    check(kept(&first, 0) && kept(&second, 0) && kept(&third, 0) && kept(&fourth, 0), "the buffers are as lent", line);
    check(only_read(k) & only_read(l), "the scalars are only read", line);
}

#define CODES_REFUSED(k, l, a, b, c, d, number) codes_refused((k), (l), (const size_t[]){(a), (b), (c), (d)}, (number), __LINE__)

/*
 * The code at a place of a row beside the other row. A row that reads back to its scalar tells the remainder by eight at a place by the
 * digit there and the two above it.
 */
static int code_at(const uint8_t *row, const uint8_t *other, size_t i, size_t places)
{
    unsigned c = 0, o = 0, weight = 1;
    size_t j;
    for (j = i; j < i + 3 && j < places; j++) {
        c += weight * (unsigned)digit(row, j);
        o += weight * (unsigned)digit(other, j);
        weight *= 2;
    }
    if (c % 2 == 0)
        return 0;
    return (c % 8 == 3 || c % 8 == 5) && o % 4 == 2 ? 2 : 1;
}

/* With every two signs the same answer and the same codes, and each row negated with its own scalar or not, by both calls. */
static void signed_joint(struct bytes k, struct bytes l, int line)
{
    static uint8_t k_plus[MOST_PLACES], l_plus[MOST_PLACES], k_codes[MOST_PLACES], l_codes[MOST_PLACES];
    size_t places = SHEETS_PLACES(k.n > l.n ? k.n : l.n), i;
    uint64_t expected = by->joint_codes(k.at, k.n, 0, l.at, l.n, 0, k_plus, places, l_plus, places, k_codes, places, l_codes, places);
    for (i = 0; i < SIGNS * SIGNS; i++) {
        uint32_t ks = signs[i / SIGNS], ls = signs[i % SIGNS];
        uint8_t *p = lend(&first), *q = lend(&second), *pc = lend(&third), *qc = lend(&fourth);
        check(by->joint_codes(k.at, k.n, ks, l.at, l.n, ls, p, places, q, places, pc, places, qc, places) == expected,
              "the answer with signs", line);
        check(has_sign(p, k_plus, places, ks) && has_sign(q, l_plus, places, ls), "the rows with signs", line);
        check(memcmp(pc, k_codes, places) == 0 && memcmp(qc, l_codes, places) == 0, "the codes with signs", line);
        check(reads_back(p, places, with_sign(k, ks)) && reads_back(q, places, with_sign(l, ls)), "they read back", line);
        check(kept(&first, places) && kept(&second, places) && kept(&third, places) && kept(&fourth, places), "no other byte", line);
        p = lend(&first);
        q = lend(&second);
        check(by->joint(k.at, k.n, ks, l.at, l.n, ls, p, places, q, places) == expected, "the joint call's answer with signs", line);
        check(has_sign(p, k_plus, places, ks) && has_sign(q, l_plus, places, ls), "the joint call's rows with signs", line);
        check(kept(&first, places) && kept(&second, places), "no other byte by the joint call", line);
    }
    check(only_read(k) & only_read(l), "the scalars are only read", line);
}

/* A sign that turns, with a minus in k, in l and in both; small and long scalars with every two signs; refusals with every sign. */
static void negative_codes(void)
{
    uint8_t value;
    size_t n = by->bytes, i;
    form_is(minus(byte(13)), byte(10), &(const struct form){5, 4, {1, 1, 0, 0, -1}, {0, 1, 0, 1, 0}, {2, 1, 0, 0, 1}, {0, 1, 0, 1, 0}}, __LINE__);
    form_is(byte(13), minus(byte(10)),
            &(const struct form){5, 4, {-1, -1, 0, 0, 1}, {0, -1, 0, -1, 0}, {2, 1, 0, 0, 1}, {0, 1, 0, 1, 0}}, __LINE__);
    form_is(minus(byte(3)), minus(byte(2)), &(const struct form){2, 2, {-1, -1}, {0, -1}, {2, 1}, {0, 1}}, __LINE__);
    for (value = 0; value < 64; value++)
        signed_joint(byte(value / 8), byte(value % 8), __LINE__);
    for (i = 1; i <= n; i += 13)
        signed_joint(any_scalar(i), any_scalar(n + 1 - i), __LINE__);
    signed_joint(filled(255, n), filled(0, n), __LINE__);
    for (i = 0; i < SIGNS; i++) {
        form_is(with_sign(byte(0), signs[i]), with_sign(byte(0), signs[i]), &(const struct form){0, 0, {0}, {0}, {0}, {0}}, __LINE__);
        CODES_REFUSED(with_sign(filled(1, n + 1), signs[i]), with_sign(byte(2), signs[i]), PLENTY, PLENTY, PLENTY, PLENTY, 1);
        CODES_REFUSED(with_sign(byte(7), signs[i]), with_sign(byte(2), signs[i]), 9, 9, 9, 8, 3);
    }
}

static void codes(void)
{
    size_t most = by->bytes, room = SHEETS_PLACES(most), n, i;

    /* a sign that turns at 5 and at 3 beside 2, in either row; one that does not, at 7 */
    form_is(byte(13), byte(10), &(const struct form){5, 4, {-1, -1, 0, 0, 1}, {0, 1, 0, 1, 0}, {2, 1, 0, 0, 1}, {0, 1, 0, 1, 0}}, __LINE__);
    form_is(byte(7), byte(2), &(const struct form){4, 3, {-1, 0, 0, 1}, {0, 1, 0, 0}, {1, 0, 0, 1}, {0, 1, 0, 0}}, __LINE__);
    form_is(byte(3), byte(2), &(const struct form){2, 2, {1, 1}, {0, 1}, {2, 1}, {0, 1}}, __LINE__);
    form_is(byte(2), byte(3), &(const struct form){2, 2, {0, 1}, {1, 1}, {0, 1}, {2, 1}}, __LINE__);
    form_is(byte(0), byte(0), &(const struct form){0, 0, {0}, {0}, {0}, {0}}, __LINE__);
    form_is(byte(3), bytes_of((const uint8_t *)"\0\2", 2), &(const struct form){2, 2, {1, 1}, {0, 1}, {2, 1}, {0, 1}}, __LINE__);

    /* 1. has each scalar a byte, and no more than the limit? */
    CODES_REFUSED(filled(1, 0), byte(2), PLENTY, PLENTY, PLENTY, PLENTY, 1);
    CODES_REFUSED(byte(7), filled(1, most + 1), PLENTY, PLENTY, PLENTY, PLENTY, 1);
    CODES_REFUSED(byte(7), filled(1, most + 1), 0, 0, 0, 0, 1);

    /* 3. have both digit buffers room, and both code buffers, by the longer scalar? */
    CODES_REFUSED(byte(7), byte(2), 8, 9, 9, 9, 3);
    CODES_REFUSED(byte(7), byte(2), 9, 8, 9, 9, 3);
    CODES_REFUSED(byte(7), byte(2), 9, 9, 8, 9, 3);
    CODES_REFUSED(byte(7), byte(2), 9, 9, 9, 8, 3);
    CODES_REFUSED(byte(7), byte(2), 9, 9, 0, 0, 3);
    CODES_REFUSED(byte(7), filled(0, 2), 17, 17, 9, 17, 3);
    CODES_REFUSED(filled(0, 2), byte(7), 17, 17, 17, 9, 3);
    CODES_REFUSED(filled(255, most), byte(7), room, room, room - 1, room, 3);
    CODES_REFUSED(filled(255, most), byte(7), room, room, room, room - 1, 3);

    /* no buffer at all */
    CHECK(by->joint_codes(NULL, 0, 0, NULL, 0, 1, NULL, 0, NULL, 0, NULL, 0, NULL, 0) == (uint64_t)1 << 32);
    CHECK(by->joint_codes((const uint8_t *)"\7", 1, 0, (const uint8_t *)"\2", 1, 0, NULL, 0, NULL, 0, NULL, 0, NULL, 0)
          == (uint64_t)3 << 32);
    CHECK(by->joint_codes((const uint8_t *)"\7", 1, 2, (const uint8_t *)"\2", 1, 1, NULL, 0, NULL, 0, NULL, 0, NULL, 0)
          == (uint64_t)3 << 32);

    /* scalars of every length: the rows of the joint call, and at every place the code of its remainders */
    for (n = 1; n <= most; n++) {
        static uint8_t k_row[MOST_PLACES], l_row[MOST_PLACES];
        struct bytes k = any_scalar(n), l = any_within();
        size_t places = SHEETS_PLACES(k.n > l.n ? k.n : l.n);
        uint8_t *p = lend(&first), *q = lend(&second), *pc = lend(&third), *qc = lend(&fourth);
        uint64_t answer = by->joint_codes(k.at, k.n, k.sign, l.at, l.n, l.sign, p, places, q, places, pc, places, qc, places);
        int right = 1;
        written(answer, sheets_length(answer), columns_of(p, q, places), __LINE__);
        CHECK(answer == by->joint(k.at, k.n, k.sign, l.at, l.n, l.sign, k_row, places, l_row, places));
        CHECK(memcmp(p, k_row, places) == 0 && memcmp(q, l_row, places) == 0);
        CHECK(reads_back(p, places, k) && reads_back(q, places, l));
        for (i = 0; i < places; i++)
            right &= pc[i] == code_at(p, q, i, places) && qc[i] == code_at(q, p, i, places);
        CHECK(right);
        CHECK(kept(&first, places) && kept(&second, places) && kept(&third, places) && kept(&fourth, places));
        CHECK(only_read(k) & only_read(l));
    }
    negative_codes();
}

/* ---- one byte for a column ---- */

/* The columns of the bytes 0 to 8. */
static const int8_t nine_columns[9][2] = {{-1, -1}, {-1, 0}, {-1, 1}, {0, -1}, {0, 0}, {0, 1}, {1, -1}, {1, 0}, {1, 1}};

/* The byte whose column stands at a place of two rows, 9 where there is none. */
static unsigned byte_at(struct bytes k, struct bytes l, size_t i)
{
    unsigned b = 0;
    while (b < 9 && (nine_columns[b][0] != digit(k.copy, i) || nine_columns[b][1] != digit(l.copy, i)))
        b++;
    return b;
}

/* A row of n digits: in each column the one that it has in this row, of the columns of these bytes over and over. */
static struct bytes row_of(const uint8_t *packed, size_t columns, int row, size_t n)
{
    uint8_t all[PLENTY];
    size_t i;
    for (i = 0; i < n; i++)
        all[i] = (uint8_t)nine_columns[packed[i % columns]][row];
    return bytes_of(all, n);
}

/* The rows packed into a buffer with more room than that, unpacked into longer rows, and these packed again. */
static void packs(size_t columns, struct bytes k, struct bytes l, size_t more, int line)
{
    uint8_t *packed = lend(&first), *p = lend(&second), *q = lend(&third), *again = lend(&fourth);
    size_t i, wrong = 0;
    check(sheets_pack(columns, k.at, k.n, l.at, l.n, packed, columns + more) == 0, "they are packed", line);
    for (i = 0; i < columns; i++)
        wrong += packed[i] != byte_at(k, l, i);
    check(wrong == 0, "the byte of each column", line);
    check(kept(&first, columns), "no other byte", line);
    check(sheets_unpack(columns, packed, columns + more, p, columns + more / 2, q, columns + 2 * more) == 0, "they are unpacked", line);
    check(columns == 0 || (memcmp(p, k.copy, columns) == 0 && memcmp(q, l.copy, columns) == 0), "the digits of each column", line);
    check(kept(&second, columns) && kept(&third, columns) && kept(&first, columns), "no other digit, and no byte", line);
    check(sheets_pack(columns, p, columns, q, columns + more, again, columns) == 0, "they are packed again", line);
    check(memcmp(again, packed, columns) == 0 && kept(&fourth, columns), "the same bytes", line);
    check(kept(&second, columns) && kept(&third, columns), "the rows are only read", line);
    check(only_read(k) & only_read(l), "the rows are only read", line);
}

static void pack_refused(size_t columns, struct bytes k, struct bytes l, size_t room, uint32_t number, int line)
{
    refused(sheets_pack(columns, k.at, k.n, l.at, l.n, lend(&first), room), number, line);
    check(kept(&first, 0), "the buffer is as lent", line);
    check(only_read(k) & only_read(l), "the rows are only read", line);
}

static void unpack_refused(size_t columns, struct bytes packed, size_t k_places, size_t l_places, uint32_t number, int line)
{
    refused(sheets_unpack(columns, packed.at, packed.n, lend(&first), k_places, lend(&second), l_places), number, line);
    check(kept(&first, 0) && kept(&second, 0), "the rows are as lent", line);
    check(only_read(packed), "the bytes are only read", line);
}

#define PACKS(columns, k, l, more) packs((columns), (k), (l), (more), __LINE__)
#define PACK_REFUSED(columns, k, l, room, number) pack_refused((columns), (k), (l), (room), (number), __LINE__)
#define UNPACK_REFUSED(columns, packed, k_places, l_places, number) \
    unpack_refused((columns), (packed), (k_places), (l_places), (number), __LINE__)

/* The bytes 0 to 8. */
static const uint8_t nine_bytes[] = {0, 1, 2, 3, 4, 5, 6, 7, 8};

/* So many zeros, but one byte at a place. */
static struct bytes but_one(size_t n, size_t place, uint8_t value)
{
    struct bytes b = filled(0, n);
    b.at[place] = b.copy[place] = value;
    return b;
}

/* Bytes that are no digit, and bytes that are no column: at the first, a middle and the last place refused, past it let pass. */
static void bad_columns(void)
{
    unsigned value, place;
    for (value = 0; value < 256; value++)
        for (place = 0; place <= 20; place += 10) {
            uint8_t b = (uint8_t)value;
            if (value > 1 && value < 255) {
                PACK_REFUSED(21, but_one(21, place, b), filled(0, 21), 21, 12);
                PACK_REFUSED(21, filled(255, 30), but_one(30, place, b), 30, 12);
                PACKS(place, but_one(21, place, b), filled(1, 21), 3);
                PACKS(place, filled(255, 21), but_one(21, place, b), 3);
            } else {
                PACKS(21, but_one(21, place, b), filled(255, 24), 5);
                PACKS(21, filled(1, 24), but_one(21, place, b), 5);
            }
            if (value > 8) {
                struct bytes packed = but_one(21, place, b);
                uint8_t *p = lend(&first), *q = lend(&second);
                UNPACK_REFUSED(21, but_one(21, place, b), 21, 21, 12);
                UNPACK_REFUSED(21, but_one(30, place, b), 30, 30, 12);
                CHECK(sheets_unpack(place, packed.at, packed.n, p, place, q, place) == 0);
                CHECK(kept(&first, place) && kept(&second, place) && only_read(packed));
            }
        }
}

/* Rows and buffers that are too short, and 3 before 12. */
static void short_columns(void)
{
    size_t n;
    for (n = 1; n <= 3; n++) {
        PACK_REFUSED(n, filled(0, n - 1), filled(0, n), n, 3);
        PACK_REFUSED(n, filled(0, n), filled(0, n - 1), n, 3);
        PACK_REFUSED(n, filled(0, n), filled(0, n), n - 1, 3);
        PACK_REFUSED(n, filled(2, n - 1), filled(254, n), n, 3);
        PACK_REFUSED(n, filled(2, n), filled(254, n - 1), n, 3);
        PACK_REFUSED(n, filled(2, n), filled(254, n), n - 1, 3);
        UNPACK_REFUSED(n, filled(0, n - 1), n, n, 3);
        UNPACK_REFUSED(n, filled(0, n), n - 1, n, 3);
        UNPACK_REFUSED(n, filled(0, n), n, n - 1, 3);
        UNPACK_REFUSED(n, filled(9, n - 1), n, n, 3);
        UNPACK_REFUSED(n, filled(9, n), n - 1, n, 3);
        UNPACK_REFUSED(n, filled(9, n), n, n - 1, 3);
        PACK_REFUSED(SIZE_MAX - n + 1, filled(2, n), filled(2, n), n, 3);
        UNPACK_REFUSED(SIZE_MAX - n + 1, filled(9, n), n, n, 3);
        PACK_REFUSED((size_t)1 << 32, filled(0, n), filled(0, n), n, 3);
        UNPACK_REFUSED((size_t)1 << 32, filled(0, n), n, n, 3);
    }
}

/* The rows that the joint call of the set writes: its columns, and all places that the rows have. */
static void packed_joint(struct bytes k, struct bytes l, int line)
{
    size_t places = SHEETS_PLACES(k.n > l.n ? k.n : l.n), n;
    uint8_t *p = lend(&first), *q = lend(&second);
    struct bytes k_row, l_row;
    n = length_within(by->joint(k.at, k.n, k.sign, l.at, l.n, l.sign, p, places, q, places), places);
    k_row = bytes_of(p, places);
    l_row = bytes_of(q, places);
    packs(n, bytes_of(p, n), bytes_of(q, n), 0, line);
    packs(n, bytes_of(k_row.at, places), bytes_of(l_row.at, places), 9, line);
    packs(places, k_row, l_row, 2, line);
    check(only_read(k) & only_read(l), "the scalars are only read", line);
}

static void columns(void)
{
    size_t i;
    CHECK(sheets_pack(0, NULL, 0, NULL, 0, NULL, 0) == 0 && sheets_unpack(0, NULL, 0, NULL, 0, NULL, 0) == 0);
    PACKS(0, filled(2, 3), filled(254, 1), 4);
    for (i = 0; i < 9; i++) {
        struct bytes k = row_of(nine_bytes + i, 1, 0, 1), l = row_of(nine_bytes + i, 1, 1, 1);
        CHECK(byte_at(k, l, 0) == i);
        PACKS(1, k, l, 0);
        PACKS(1, row_of(nine_bytes + i, 1, 0, 2), row_of(nine_bytes + i, 1, 1, 40), 6);
    }
    for (i = 0; i <= MOST_PLACES; i++)
        PACKS(i, row_of(nine_bytes, 9, 0, i), row_of(nine_bytes + i % 9, 9 - i % 9, 1, i + i % 3), i % 4);
    bad_columns();
    short_columns();
}

static void packed_joints(void)
{
    size_t n;
    packed_joint(byte(13), byte(10), __LINE__);
    packed_joint(byte(0), byte(0), __LINE__);
    packed_joint(heavy(), minus(heavy()), __LINE__);
    for (n = 1; n <= by->bytes; n++) {
        packed_joint(any_scalar(n), any_within(), __LINE__);
        packed_joint(any_within(), any_scalar(n), __LINE__);
    }
}

/* ---- sheets ---- */

/* A call for a sheet: of plan J, of plan I with two windows, or the cheapest under a limit. */
struct order {
    char kind;
    uint32_t m1, m2;
};

static const struct order plan_j = {'J', 0, 0};
static struct order plan_i(uint32_t m1, uint32_t m2) { return (struct order){'I', m1, m2}; }
static struct order cheapest(uint32_t limit) { return (struct order){'C', limit, 0}; }

static uint64_t write_sheet(struct order o, struct bytes k, struct bytes l, uint8_t *sheet, size_t room)
{
    if (o.kind == 'J')
        return by->plan_j(k.at, k.n, k.sign, l.at, l.n, l.sign, sheet, room);
    if (o.kind == 'I')
        return by->plan_i(k.at, k.n, k.sign, l.at, l.n, l.sign, o.m1, o.m2, sheet, room);
    return by->cheapest(k.at, k.n, k.sign, l.at, l.n, l.sign, o.m1, sheet, room);
}

/* The additions that a sheet's header states, behind S, the kind, the windows and the slots. */
static size_t stated_additions(const uint8_t *sheet, size_t length)
{
    size_t i, commas = 0, additions = 0;
    for (i = 0; i < length && sheet[i] != '\n'; i++)
        if (sheet[i] == ',')
            commas++;
        else if (commas == 5)
            additions = 10 * additions + (size_t)(sheet[i] - '0');
    return additions;
}

/* The additions among a sheet's lines: the A lines, and the T lines other than those of 2P and 2Q. */
static size_t counted_additions(const uint8_t *sheet, size_t length)
{
    size_t i, additions = 0;
    for (i = 0; i < length; i++)
        if (i == 0 || sheet[i - 1] == '\n') {
            int doubling = length - i >= 6 && (memcmp(sheet + i, "T,2,0\n", 6) == 0 || memcmp(sheet + i, "T,0,2\n", 6) == 0);
            additions += sheet[i] == 'A' || (sheet[i] == 'T' && !doubling);
        }
    return additions;
}

/* Whether the header has a minus before a scalar, the field behind so many commas, just where its sign is one and it is not zero. */
static int states_sign(const uint8_t *sheet, size_t length, size_t commas, struct bytes scalar)
{
    size_t i;
    for (i = 0; i < length && commas > 0; i++)
        commas -= sheet[i] == ',';
    return i < length && (sheet[i] == '-') == (scalar.sign != 0 && bit_length(scalar) > 0);
}

/* A call that is to write a sheet that begins so, with the additions that it states, and that the reader accepts. Returns the answer. */
static uint64_t sheet_begins(struct order o, struct bytes k, struct bytes l, const char *begins, int line)
{
    uint8_t *sheet = lend(&first);
    uint64_t answer = write_sheet(o, k, l, sheet, by->sheet_bytes);
    size_t length = length_within(answer, by->sheet_bytes);
    struct bytes lines;
    written(answer, length, counted_additions(sheet, length), line);
    check(stated_additions(sheet, length) == sheets_additions(answer), "the additions of the header", line);
    check(strlen(begins) <= length && memcmp(sheet, begins, strlen(begins)) == 0, "it begins so", line);
    check(states_sign(sheet, length, 7, k) && states_sign(sheet, length, 8, l), "the signs of the header", line);
    check(kept(&first, length), "no byte behind it", line);
    lines = bytes_of(sheet, length);
    check(by->read(lines.at, lines.n) == 0, "the reader accepts it", line);
    check(only_read(lines), "the sheet is only read", line);
    check(only_read(k) & only_read(l), "the scalars are only read", line);
    return answer;
}

/* A call that is to write a sheet with this header. */
static void header_is(struct order o, struct bytes k, struct bytes l, size_t additions, const char *header, int line)
{
    check(sheets_additions(sheet_begins(o, k, l, header, line)) == additions, "the additions", line);
}

/* A call that is to write this sheet. */
static void sheet_is(struct order o, struct bytes k, struct bytes l, size_t additions, const char *whole, int line)
{
    written(sheet_begins(o, k, l, whole, line), strlen(whole), additions, line);
}

static void sheet_refused(struct order o, struct bytes k, struct bytes l, size_t room, uint32_t number, int line)
{
    refused(write_sheet(o, k, l, lend(&first), room), number, line);
    check(kept(&first, 0), "the buffer is as lent", line);
    check(only_read(k) & only_read(l), "the scalars are only read", line);
}

#define SHEET_REFUSED(o, k, l, room, number) sheet_refused((o), (k), (l), (room), (number), __LINE__)

/* The header of a sheet of plan I for scalars of any length: `S,I,m1,m2,slots,`. */
static void windows_begin(uint32_t m1, uint32_t m2, int line)
{
    char begins[32];
    snprintf(begins, sizeof begins, "S,I,%u,%u,%u,", (unsigned)m1, (unsigned)m2, (unsigned)((m1 + m2 - 2) / 2 + (m1 >= 3 || m2 >= 3)));
    sheet_begins(plan_i(m1, m2), any_within(), any_within(), begins, line);
}

static const char seven_two[] = "S,I,1,1,0,2,3,7,2\nL,1,0\nD\nD\nA,0,1\nD\nA,-1,0\nE\n";

static const char thirteen_ten[] =
    "S,J,1,1,2,5,4,d,a\nT,1,1\nT,1,-1\nL,1,0\nD\nA,0,1\nD\nD\nA,-1,1\nD\nA,-1,0\nE\n";

static const char nine[] = "S,I,5,1,3,3,4,9,0\nT,2,0\nT,3,0\nT,5,0\nL,1,0\nD\nD\nD\nA,1,0\nE\n";
static const char nine_down[] = "S,I,5,1,3,3,2,9,0\nT,2,0\nT,3,0\nT,5,0\nL,5,0\nD\nA,-1,0\nE\n";

/*
 * The most steps of plan I. Two heavy rows: a header with all figures, two steps at the top place, a D line for each place below, two steps
 * at 4n of these, all of them -1 from the bottom up, and only that at place 0 from the top down; and E. Two steps are 12 bytes, and 14 with
 * a minus. With both signs minus each minus turns, and the header has two bytes more. Then a heavy row behind the table of the widest window.
 */
static void heavy_plan_i(void)
{
    size_t n = by->bytes, doublings = 8 * n - (size_t)by->down, minuses = by->down ? 1 : 4 * n, additions = 8 * n + 1, bytes;
    const char *begins = spelled("S,I,1,1,0,%u,%u,", (unsigned)additions, (unsigned)doublings);
    bytes = strlen(begins) + 4 * n + 2 + 12 * (4 * n + 1) + 2 * doublings + 2;
    written(sheet_begins(plan_i(1, 1), heavy(), heavy(), begins, __LINE__), bytes + 2 * minuses, additions, __LINE__);
    begins = spelled("S,I,1,1,0,%u,%u,-", (unsigned)additions, (unsigned)doublings);
    written(sheet_begins(plan_i(1, 1), minus(heavy()), minus(heavy()), begins, __LINE__), bytes + 2 + 2 * (4 * n + 1 - minuses), additions,
            __LINE__);
    begins = spelled("S,I,31,1,16,%u,%u,0,aaaa", (unsigned)(4 * n + 15), (unsigned)(doublings + 1));
    header_is(plan_i(31, 1), byte(0), heavy(), 4 * n + 15, begins, __LINE__);
}

/* The most steps of plan J. */
static void heavy_plan_j(void)
{
    size_t weight, places = two_of_three(&weight);
    const char *begins = spelled("S,J,1,1,2,%u,%u,", (unsigned)(weight + 1), (unsigned)(places - 1));
    header_is(plan_j, repeated(0x24, 0x92, 0x49), repeated(0x49, 0x24, 0x92), weight + 1, begins, __LINE__);
}

/*
 * The sheet with a minus in k, in l and in both: the same additions, the steps with the digits of each negative scalar negated, and any sign
 * but 0 the same bytes. The texts are those of plus and plus, minus and plus, plus and minus, minus and minus.
 */
static void signed_sheet(struct order o, uint8_t k, uint8_t l, size_t additions, const char *const texts[4], int line)
{
    size_t i;
    for (i = 0; i < SIGNS * SIGNS; i++) {
        uint32_t ks = signs[i / SIGNS], ls = signs[i % SIGNS];
        sheet_is(o, with_sign(byte(k), ks), with_sign(byte(l), ls), additions, texts[(ks != 0) + 2 * (ls != 0)], line);
    }
}

static const char less_seven_two[] = "S,I,1,1,0,2,3,-7,2\nL,-1,0\nD\nD\nA,0,1\nD\nA,1,0\nE\n";
static const char seven_less_two[] = "S,I,1,1,0,2,3,7,-2\nL,1,0\nD\nD\nA,0,-1\nD\nA,-1,0\nE\n";
static const char less_seven_less_two[] = "S,I,1,1,0,2,3,-7,-2\nL,-1,0\nD\nD\nA,0,-1\nD\nA,1,0\nE\n";
static const char *const seven_two_texts[] = {seven_two, less_seven_two, seven_less_two, less_seven_less_two};

/* Sheets of plan J and cheapest ones with every two signs; zero with a minus; and refusals with every sign. */
static void negative_sheets(void)
{
    static const char *const thirteen_ten_texts[] = {
        thirteen_ten,
        "S,J,1,1,2,5,4,-d,a\nT,1,1\nT,1,-1\nL,-1,0\nD\nA,0,1\nD\nD\nA,1,1\nD\nA,1,0\nE\n",
        "S,J,1,1,2,5,4,d,-a\nT,1,1\nT,1,-1\nL,1,0\nD\nA,0,-1\nD\nD\nA,-1,-1\nD\nA,-1,0\nE\n",
        "S,J,1,1,2,5,4,-d,-a\nT,1,1\nT,1,-1\nL,-1,0\nD\nA,0,-1\nD\nD\nA,1,-1\nD\nA,1,0\nE\n",
    };
    size_t n = by->bytes, i;

    signed_sheet(cheapest(0), 7, 2, 2, seven_two_texts, __LINE__);
    signed_sheet(cheapest(31), 7, 2, 2, seven_two_texts, __LINE__);
    signed_sheet(plan_j, 13, 10, 5, thirteen_ten_texts, __LINE__);

    /* the chosen plan stays */
    header_is(cheapest(2), minus(byte(3)), byte(0), 1, "S,I,3,1,2,1,1,-3,0\n", __LINE__);
    header_is(cheapest(2), byte(6), minus(byte(11)), 4, "S,J,1,1,2,4,3,6,-b\n", __LINE__);
    header_is(cheapest(2), minus(byte(3)), minus(byte(3)), 3, "S,I,1,1,0,3,2,-3,-3\n", __LINE__);

    for (i = 0; i < SIGNS; i++) {
        /* zero is written 0 */
        sheet_is(plan_j, with_sign(byte(0), signs[i]), with_sign(filled(0, n), signs[i]), 2, "S,J,1,1,2,2,0,0,0\nT,1,1\nT,1,-1\nE\n", __LINE__);
        sheet_is(cheapest(0), with_sign(byte(0), signs[i]), byte(1), 0, "S,I,1,1,0,0,0,0,1\nL,0,1\nE\n", __LINE__);
        sheet_is(cheapest(31), minus(byte(1)), with_sign(byte(0), signs[i]), 0, "S,I,1,1,0,0,0,-1,0\nL,-1,0\nE\n", __LINE__);

        SHEET_REFUSED(plan_j, with_sign(filled(1, 0), signs[i]), with_sign(byte(2), signs[i]), by->sheet_bytes, 1);
        SHEET_REFUSED(plan_j, with_sign(byte(7), signs[i]), with_sign(byte(2), signs[i]), by->sheet_bytes - 1, 3);
        SHEET_REFUSED(cheapest(32), with_sign(filled(1, by->bytes + 1), signs[i]), with_sign(byte(2), signs[i]), 0, 1);
        SHEET_REFUSED(cheapest(32), with_sign(byte(7), signs[i]), with_sign(byte(2), signs[i]), 0, 4);
        SHEET_REFUSED(cheapest(31), with_sign(byte(7), signs[i]), with_sign(byte(2), signs[i]), 0, 3);
    }
}

/* Sheets of plan I with every two signs; all figures behind a minus, and zero; and refusals with every sign. */
static void negative_plan_i(void)
{
    static const char less_nine[] = "S,I,5,1,3,3,4,-9,0\nT,2,0\nT,3,0\nT,5,0\nL,-1,0\nD\nD\nD\nA,-1,0\nE\n";
    static const char less_nine_down[] = "S,I,5,1,3,3,2,-9,0\nT,2,0\nT,3,0\nT,5,0\nL,-5,0\nD\nA,1,0\nE\n";
    static const char *const nine_texts[] = {nine, less_nine, nine, less_nine};
    static const char *const nine_down_texts[] = {nine_down, less_nine_down, nine_down, less_nine_down};
    size_t n = by->bytes, i;
    const char *begins = spelled("S,I,1,1,0,1,%u,-%s,0\n", (unsigned)(8 * n), times(2 * n, "f"));

    header_is(plan_i(1, 1), minus(filled(255, n)), byte(0), 1, begins, __LINE__);
    signed_sheet(plan_i(1, 1), 7, 2, 2, seven_two_texts, __LINE__);
    signed_sheet(plan_i(5, 1), 9, 0, 3, by->down ? nine_down_texts : nine_texts, __LINE__);
    for (i = 0; i < SIGNS; i++) {
        sheet_is(plan_i(1, 1), with_sign(filled(0, n), signs[i]), with_sign(byte(0), signs[i]), 0, "S,I,1,1,0,0,0,0,0\nE\n", __LINE__);
        SHEET_REFUSED(plan_i(2, 1), with_sign(byte(7), signs[i]), with_sign(filled(1, n + 1), signs[i]), 0, 1);
        SHEET_REFUSED(plan_i(1, 33), with_sign(byte(7), signs[i]), with_sign(byte(2), signs[i]), 0, 2);
        SHEET_REFUSED(plan_i(1, 1), with_sign(byte(7), signs[i]), with_sign(byte(2), signs[i]), 0, 3);
    }
}

static void plan_i_sheets(void)
{
    uint32_t m;
    size_t n = by->bytes, room = by->sheet_bytes;

    /* 7 and 2, 9, and 11 with window 1, the last two of which have other rows from the top down */
    sheet_is(plan_i(1, 1), byte(7), byte(2), 2, seven_two, __LINE__);
    sheet_is(plan_i(5, 1), byte(9), byte(0), 3, by->down ? nine_down : nine, __LINE__);
    sheet_is(plan_i(1, 1), byte(0), byte(11), 2,
             by->down ? "S,I,1,1,0,2,3,0,b\nL,0,1\nD\nA,0,1\nD\nD\nA,0,-1\nE\n"
                      : "S,I,1,1,0,2,4,0,b\nL,0,1\nD\nD\nA,0,-1\nD\nD\nA,0,-1\nE\n",
             __LINE__);
    sheet_is(plan_i(1, 1), filled(0, n), byte(0), 0, "S,I,1,1,0,0,0,0,0\nE\n", __LINE__);

    /* the longest scalars, and every window */
    sheet_begins(plan_i(1, 1), filled(85, n), filled(85, n), "S,I,1,1,0,", __LINE__);
    sheet_begins(plan_i(31, 31), filled(255, n), filled(255, n), "S,I,31,31,31,", __LINE__);
    heavy_plan_i();
    for (m = 1; m <= 31; m += 2) {
        windows_begin(m, 32 - m, __LINE__);
        windows_begin(m, m, __LINE__);
    }

    /* 1. has each scalar a byte, and no more than the limit? */
    SHEET_REFUSED(plan_i(1, 1), filled(1, 0), byte(2), room, 1);
    SHEET_REFUSED(plan_i(1, 1), byte(7), filled(1, n + 1), room, 1);
    SHEET_REFUSED(plan_i(2, 1), filled(1, n + 1), byte(2), 0, 1);

    /* 2. is each window odd, 1 to 31? */
    SHEET_REFUSED(plan_i(0, 1), byte(7), byte(2), room, 2);
    SHEET_REFUSED(plan_i(1, 4), byte(7), byte(2), room, 2);
    SHEET_REFUSED(plan_i(33, 1), byte(7), byte(2), room, 2);
    SHEET_REFUSED(plan_i(1, 33), byte(7), byte(2), room, 2);
    SHEET_REFUSED(plan_i(257, 1), byte(7), byte(2), room, 2);
    SHEET_REFUSED(plan_i(1, 257), byte(7), byte(2), room, 2);
    SHEET_REFUSED(plan_i(65537, 4294967295u), byte(7), byte(2), room, 2);
    SHEET_REFUSED(plan_i(1, 2), byte(7), byte(2), 0, 2);

    /* 3. has the sheet buffer as many bytes as the longest sheet may have? */
    SHEET_REFUSED(plan_i(1, 1), byte(7), byte(2), room - 1, 3);
    SHEET_REFUSED(plan_i(1, 1), byte(7), byte(2), 0, 3);

    /* no buffer at all */
    CHECK(by->plan_i(NULL, 0, 1, NULL, 0, 0, 0, 0, NULL, 0) == (uint64_t)1 << 32);
    CHECK(by->plan_i((const uint8_t *)"\7", 1, 0, (const uint8_t *)"\2", 1, 1, 1, 1, NULL, 0) == (uint64_t)3 << 32);
    negative_plan_i();
}

static void sheets(void)
{
    uint32_t limit;
    size_t n;

    /* the samples */
    sheet_is(cheapest(0), byte(7), byte(2), 2, seven_two, __LINE__);
    header_is(cheapest(1), byte(3), byte(0), 1, "S,I,1,1,0,1,2,3,0\n", __LINE__);

    /* windows 3, 1 need two slots */
    header_is(cheapest(1), byte(45), byte(0), 3, "S,I,1,1,0,3,6,2d,0\n", __LINE__);
    header_is(cheapest(2), byte(45), byte(0), 2, "S,I,3,1,2,2,5,2d,0\n", __LINE__);

    /* of equal additions fewer doublings decide, whatever slots they take; of equal doublings too fewer slots do */
    header_is(cheapest(2), byte(3), byte(0), 1, "S,I,3,1,2,1,1,3,0\n", __LINE__);
    header_is(cheapest(2), byte(6), byte(11), 4, "S,J,1,1,2,4,3,6,b\n", __LINE__);
    header_is(cheapest(2), byte(45), byte(11), 5, "S,I,3,1,2,5,5,2d,b\n", __LINE__);
    header_is(cheapest(2), byte(3), byte(3), 3, "S,I,1,1,0,3,2,3,3\n", __LINE__);

    /* plan J, and zeros */
    sheet_is(plan_j, byte(13), byte(10), 5, thirteen_ten, __LINE__);
    sheet_is(plan_j, byte(0), byte(0), 2, "S,J,1,1,2,2,0,0,0\nT,1,1\nT,1,-1\nE\n", __LINE__);
    sheet_is(cheapest(31), byte(0), byte(0), 0, "S,I,1,1,0,0,0,0,0\nE\n", __LINE__);

    /* the longest scalars, every limit, scalars of every length */
    sheet_begins(plan_j, filled(255, by->bytes), filled(255, by->bytes), "S,J,1,1,2,", __LINE__);
    sheet_begins(plan_j, filled(85, by->bytes), filled(255, by->bytes), "S,J,1,1,2,", __LINE__);
    heavy_plan_j();
    for (limit = 0; limit <= 31; limit++)
        sheet_begins(cheapest(limit), any_within(), any_within(), "S,", __LINE__);
    for (n = 1; n <= by->bytes; n++)
        sheet_begins(plan_j, any_scalar(n), any_scalar(by->bytes + 1 - n), "S,J,1,1,2,", __LINE__);

    /* 1. has each scalar a byte, and no more than the limit? */
    SHEET_REFUSED(plan_j, filled(1, 0), byte(2), by->sheet_bytes, 1);
    SHEET_REFUSED(plan_j, byte(7), filled(1, 0), by->sheet_bytes, 1);
    SHEET_REFUSED(plan_j, filled(1, by->bytes + 1), byte(2), by->sheet_bytes, 1);
    SHEET_REFUSED(plan_j, byte(7), filled(1, by->bytes + 1), 0, 1);
    SHEET_REFUSED(cheapest(0), filled(1, 0), byte(2), by->sheet_bytes, 1);
    SHEET_REFUSED(cheapest(0), byte(7), filled(1, by->bytes + 1), by->sheet_bytes, 1);
    SHEET_REFUSED(cheapest(32), filled(1, by->bytes + 1), byte(2), 0, 1);

    /* 4. is the limit at most 31? */
    SHEET_REFUSED(cheapest(32), byte(7), byte(2), by->sheet_bytes, 4);
    SHEET_REFUSED(cheapest(256), byte(7), byte(2), by->sheet_bytes, 4);
    SHEET_REFUSED(cheapest(65536), byte(7), byte(2), by->sheet_bytes, 4);
    SHEET_REFUSED(cheapest(4294967295u), byte(7), byte(2), by->sheet_bytes, 4);
    SHEET_REFUSED(cheapest(32), byte(7), byte(2), by->sheet_bytes - 1, 4);

    /* 3. has the sheet buffer as many bytes as the longest sheet may have? */
    SHEET_REFUSED(plan_j, byte(7), byte(2), by->sheet_bytes - 1, 3);
    SHEET_REFUSED(plan_j, byte(7), byte(2), 0, 3);
    SHEET_REFUSED(cheapest(0), byte(7), byte(2), by->sheet_bytes - 1, 3);
    SHEET_REFUSED(cheapest(31), byte(7), byte(2), 0, 3);

    /* no buffer at all */
    CHECK(by->plan_j(NULL, 0, 0, NULL, 0, 1, NULL, 0) == (uint64_t)1 << 32);
    CHECK(by->cheapest(NULL, 0, 0, NULL, 0, 0, 32, NULL, 0) == (uint64_t)1 << 32);
    CHECK(by->plan_j((const uint8_t *)"\7", 1, 0, (const uint8_t *)"\2", 1, 0, NULL, 0) == (uint64_t)3 << 32);
    CHECK(by->cheapest((const uint8_t *)"\7", 1, 1, (const uint8_t *)"\2", 1, 2, 0, NULL, 0) == (uint64_t)3 << 32);
    negative_sheets();
}

/* ---- the next limit that pays ---- */

/* The card's call alone; the gateway has none. */
enum { LARGEST_LIMIT = 31 };

static uint64_t next_limit(struct bytes k, struct bytes l, uint32_t limit)
{
    return sheets_next_limit(k.at, k.n, k.sign, l.at, l.n, l.sign, limit);
}

/* An answer that is to be this limit and its additions, or 0 and 0 where none pays: every bit of it, and each part. */
static void pays(uint64_t answer, uint32_t limit, uint32_t additions, int line)
{
    check(answer == ((uint64_t)additions << 16 | limit), "the limit that pays and its additions", line);
    check(sheets_number(answer) == 0 && sheets_limit(answer) == limit && sheets_additions(answer) == additions, "each part of them", line);
}

/* The additions of the cheapest sheet under a limit. */
static uint32_t cheapest_additions(struct bytes k, struct bytes l, uint32_t limit, int line)
{
    static uint8_t sheet[SHEETS_BYTES];
    uint64_t answer = sheets_cheapest(k.at, k.n, k.sign, l.at, l.n, l.sign, limit, sheet, sizeof sheet);
    check(sheets_number(answer) == 0, "there is a cheapest sheet", line);
    return sheets_additions(answer);
}

/* Additions that the cheapest sheet has from a limit on. */
struct fall {
    uint32_t limit, additions;
};

/* Scalars whose cheapest sheet has these additions, each from its limit on, the first from 0: every limit asked. */
static void falls_are(struct bytes k, struct bytes l, const struct fall *falls, size_t n, int line)
{
    size_t next = 0;
    uint32_t limit;
    for (limit = 0; limit <= LARGEST_LIMIT; limit++) {
        next += next < n && falls[next].limit == limit;
        check(cheapest_additions(k, l, limit, line) == falls[next - 1].additions, "the additions at the limit", line);
        pays(next_limit(k, l, limit), next < n ? falls[next].limit : 0, next < n ? falls[next].additions : 0, line);
    }
    check(next == n, "they fall so often", line);
    check(only_read(k) & only_read(l), "the scalars are only read", line);
}

#define FALLS(k, l, ...) \
    falls_are((k), (l), (const struct fall[]){__VA_ARGS__}, sizeof(const struct fall[]){__VA_ARGS__} / sizeof(struct fall), __LINE__)

/* The smallest limit that is larger, and at which there are fewer additions; 0 where there is none. */
static uint32_t paying_limit(const uint32_t *additions, uint32_t limit)
{
    uint32_t larger;
    for (larger = limit + 1; larger <= LARGEST_LIMIT; larger++)
        if (additions[larger] < additions[limit])
            return larger;
    return 0;
}

/* Every limit asked, beside the cheapest sheets of all limits. */
static void every_limit(struct bytes k, struct bytes l, int line)
{
    uint32_t additions[LARGEST_LIMIT + 1], limit;
    for (limit = 0; limit <= LARGEST_LIMIT; limit++)
        additions[limit] = cheapest_additions(k, l, limit, line);
    for (limit = 0; limit <= LARGEST_LIMIT; limit++) {
        uint32_t larger = paying_limit(additions, limit);
        pays(next_limit(k, l, limit), larger, larger == 0 ? 0 : additions[larger], line);
    }
    check(next_limit(k, l, LARGEST_LIMIT) == 0, "none is larger than the largest", line);
    check(only_read(k) & only_read(l), "the scalars are only read", line);
}

/* With every two signs the same answer. */
static void signed_next_limit(struct bytes k, struct bytes l, uint32_t limit, uint32_t paying, uint32_t additions, int line)
{
    size_t i;
    for (i = 0; i < SIGNS * SIGNS; i++)
        pays(next_limit(with_sign(k, signs[i / SIGNS]), with_sign(l, signs[i % SIGNS]), limit), paying, additions, line);
    check(only_read(k) & only_read(l), "the scalars are only read", line);
}

/* Scalars between guard bytes have the answer that they have elsewhere, and no byte is changed; one scalar may be handed in twice. */
static void next_limit_between(struct bytes k, struct bytes l, uint32_t limit, int line)
{
    uint8_t *p = lend(&first), *q = lend(&second);
    memcpy(p, k.at, k.n);
    memcpy(q, l.at, l.n);
    check(sheets_next_limit(p, k.n, k.sign, q, l.n, l.sign, limit) == next_limit(k, l, limit), "the same between guard bytes", line);
    check(memcmp(p, k.copy, k.n) == 0 && memcmp(q, l.copy, l.n) == 0, "the scalars are only read there", line);
    check(kept(&first, k.n) && kept(&second, l.n), "no other byte", line);
    check(sheets_next_limit(p, k.n, k.sign, k.at, k.n, l.sign, limit) == next_limit(k, with_sign(k, l.sign), limit), "one scalar twice", line);
    check(only_read(k) & only_read(l), "the scalars are only read", line);
}

static void next_limit_refused(struct bytes k, struct bytes l, uint32_t limit, uint32_t number, int line)
{
    refused(next_limit(k, l, limit), number, line);
    check(only_read(k) & only_read(l), "the scalars are only read", line);
}

#define NEXT_LIMIT_REFUSED(k, l, limit, number) next_limit_refused((k), (l), (limit), (number), __LINE__)

/*
 * A scalar of 66 bytes with a number below 32 in every second byte: this one in the first n of them, the other in the rest. They are so far
 * apart that each has digits of its own in a row: 21 three for window 1, two for windows 3 to 19, and one beyond; 29 three for window 1, two
 * for windows 3 to 27, and one beyond; 31 two for windows 1 to 29, and one for window 31.
 */
static struct bytes apart(uint8_t number, size_t n, uint8_t other)
{
    uint8_t all[66] = {0};
    size_t i;
    for (i = 0; i < 33; i++)
        all[2 * i + 1] = i < n ? number : other;
    return bytes_of(all, sizeof all);
}

/* Samples worked out by hand. */
static void next_limit_samples(void)
{
    /* none pays: nothing to add; one addition, by window 1 and, with a doubling fewer, by 3; two scalars of two digits each, also in J */
    FALLS(byte(0), byte(0), {0, 0});
    FALLS(byte(3), byte(0), {0, 1});
    FALLS(filled(255, 66), byte(0), {0, 1});
    FALLS(filled(255, 66), filled(255, 66), {0, 3});

    /* 45 has four digits for window 1, and 3 * 16 - 3 needs two slots; three times 5 has six for windows 1 and 3, and three for 5 */
    FALLS(byte(45), byte(0), {0, 3}, {2, 2});
    FALLS(byte(0), byte(45), {0, 3}, {2, 2});
    FALLS(bytes_of((const uint8_t *)"\5\5\5", 3), byte(0), {0, 5}, {3, 4});

    /* 33 times 21 by windows 1, 3 and 21, in either scalar; in both by windows 1, by J and by windows 21 */
    FALLS(apart(21, 33, 21), byte(0), {0, 98}, {2, 66}, {11, 42});
    FALLS(byte(0), apart(21, 33, 21), {0, 98}, {2, 66}, {11, 42});
    FALLS(apart(21, 33, 21), apart(21, 33, 21), {0, 197}, {2, 100}, {21, 85});

    /* 29s and 31s in both by windows 1, by J and, at the last limits, by windows 29, 29, by 31, 29 and by 31, 31; or by the last of these alone */
    FALLS(apart(29, 31, 31), apart(29, 31, 31), {0, 193}, {2, 98}, {29, 97}, {30, 96}, {31, 95});
    FALLS(apart(29, 30, 31), apart(29, 30, 31), {0, 191}, {2, 97}, {31, 95});

    /* leading zero bytes */
    FALLS(bytes_of((const uint8_t *)"\0\0\x2d", 3), filled(0, 66), {0, 3}, {2, 2});
    FALLS(filled(0, 66), bytes_of((const uint8_t *)"\0\5\5\5", 4), {0, 5}, {3, 4});
}

/* The samples with every two signs, and zero with a minus; refusals with every sign. */
static void negative_next_limits(void)
{
    size_t i;
    signed_next_limit(byte(0), filled(0, 66), 0, 0, 0, __LINE__);
    signed_next_limit(byte(3), byte(0), 0, 0, 0, __LINE__);
    signed_next_limit(byte(45), byte(0), 1, 2, 2, __LINE__);
    signed_next_limit(byte(0), byte(45), 0, 2, 2, __LINE__);
    signed_next_limit(byte(45), byte(45), 31, 0, 0, __LINE__);
    signed_next_limit(apart(21, 33, 21), apart(21, 33, 21), 2, 21, 85, __LINE__);
    for (i = 0; i < SIGNS; i++) {
        NEXT_LIMIT_REFUSED(with_sign(filled(1, 67), signs[i]), with_sign(byte(2), signs[i]), 31, 1);
        NEXT_LIMIT_REFUSED(with_sign(byte(7), signs[i]), with_sign(filled(1, 0), signs[i]), 32, 1);
        NEXT_LIMIT_REFUSED(with_sign(byte(7), signs[i]), with_sign(byte(2), signs[i]), 32, 4);
    }
}

static void next_limits(void)
{
    static const uint32_t beyond[] = {32, 33, 255, 256, 287, 65536, 65567, 2147483648u, 4294967295u};
    unsigned value;
    size_t n, i;

    next_limit_samples();

    /* scalars of one byte, the longest, and scalars of every length */
    for (value = 0; value < 256; value++)
        every_limit(byte((uint8_t)value), byte((uint8_t)(7 * value + 3)), __LINE__);
    every_limit(filled(255, 66), heavy(), __LINE__);
    every_limit(minus(heavy()), heavy(), __LINE__);
    every_limit(repeated(0x24, 0x92, 0x49), repeated(0x49, 0x24, 0x92), __LINE__);
    for (n = 1; n <= 66; n++)
        every_limit(any_scalar(n), any_scalar(67 - n), __LINE__);

    /* the scalars are only read, and no byte beside them */
    next_limit_between(byte(45), byte(0), 0, __LINE__);
    next_limit_between(filled(255, 66), minus(heavy()), 8, __LINE__);
    for (n = 1; n <= 66; n += 13)
        next_limit_between(any_scalar(n), any_scalar(67 - n), next_number() % 32, __LINE__);
    next_limit_between(filled(1, 67), byte(7), 0, __LINE__);
    next_limit_between(byte(7), byte(2), 32, __LINE__);

    /* 1. has each scalar 1 to 66 bytes? */
    NEXT_LIMIT_REFUSED(filled(1, 0), byte(2), 0, 1);
    NEXT_LIMIT_REFUSED(byte(7), filled(1, 0), 0, 1);
    NEXT_LIMIT_REFUSED(filled(1, 67), byte(2), 0, 1);
    NEXT_LIMIT_REFUSED(byte(7), filled(1, 67), 0, 1);
    NEXT_LIMIT_REFUSED(filled(0, 67), filled(0, 67), 31, 1);
    NEXT_LIMIT_REFUSED(filled(255, 128), filled(255, 66), 31, 1);
    NEXT_LIMIT_REFUSED(filled(255, 66), filled(255, 1000), 31, 1);

    /* 4. is the limit at most 31? 1 comes before it */
    for (i = 0; i < sizeof beyond / sizeof *beyond; i++) {
        NEXT_LIMIT_REFUSED(byte(7), byte(2), beyond[i], 4);
        NEXT_LIMIT_REFUSED(filled(255, 66), filled(255, 66), beyond[i], 4);
        NEXT_LIMIT_REFUSED(filled(1, 0), byte(2), beyond[i], 1);
        NEXT_LIMIT_REFUSED(byte(7), filled(1, 0), beyond[i], 1);
        NEXT_LIMIT_REFUSED(filled(1, 67), byte(2), beyond[i], 1);
        NEXT_LIMIT_REFUSED(byte(7), filled(1, 67), beyond[i], 1);
    }

    /* no scalar at all */
    CHECK(sheets_next_limit(NULL, 0, 0, NULL, 0, 0, 0) == (uint64_t)1 << 32);
    CHECK(sheets_next_limit(NULL, 0, 1, NULL, 0, 2, 32) == (uint64_t)1 << 32);
    CHECK(sheets_next_limit((const uint8_t *)"\7", 1, 0, NULL, 0, 0, 31) == (uint64_t)1 << 32);
    CHECK(sheets_next_limit(NULL, 0, 0, (const uint8_t *)"\2", 1, 256, 4294967295u) == (uint64_t)1 << 32);
    negative_next_limits();
}

/* ---- the dearest scalar of a size ---- */

/* The card's call alone; the gateway has none. */
enum { MOST_BITS = 528, DEAREST_BYTES = 66 };

/* An answer that is to tell so many digits: every bit of it, and each part by its shift and its mask. */
static void tells(uint64_t answer, uint32_t most, int line)
{
    check(answer == most, "the whole answer", line);
    check(sheets_number(answer) == 0 && answer >> 32 == 0, "no question is missed", line);
    check(sheets_most(answer) == most && (answer & 0xffffffff) == most, "how many digits are not 0", line);
}

/* The scalar that a call writes that is to tell so many digits. */
static struct bytes dearest(uint32_t bits, uint32_t most, int line)
{
    uint8_t *scalar = lend(&first);
    tells(sheets_dearest(bits, scalar, DEAREST_BYTES), most, line);
    check(kept(&first, DEAREST_BYTES), "no other byte", line);
    return bytes_of(scalar, DEAREST_BYTES);
}

/* A call that is to tell so many digits, and to write these bytes behind zeros. */
static void dearest_is(uint32_t bits, uint32_t most, const uint8_t *last, size_t n, int line)
{
    struct bytes scalar = dearest(bits, most, line);
    check(zeros_above(scalar.at, 0, DEAREST_BYTES - n), "zeros in front", line);
    check(memcmp(scalar.at + DEAREST_BYTES - n, last, n) == 0, "the bytes behind them", line);
    check(only_read(scalar), "the scalar is only read", line);
}

#define DEAREST(bits, most, ...) \
    dearest_is((bits), (most), (const uint8_t[]){__VA_ARGS__}, sizeof(const uint8_t[]){__VA_ARGS__}, __LINE__)

static void dearest_refused(uint32_t bits, size_t room, uint32_t number, int line)
{
    refused(sheets_dearest(bits, lend(&first), room), number, line);
    check(kept(&first, 0), "the buffer is as lent", line);
}

#define DEAREST_REFUSED(bits, room, number) dearest_refused((bits), (room), (number), __LINE__)

/* Samples written out. The last odd place of 527 bits is 525. */
static void dearest_samples(void)
{
    uint8_t all[DEAREST_BYTES];

    DEAREST(1, 1, 0x01);
    DEAREST(2, 2, 0x03);
    DEAREST(3, 2, 0x03);
    DEAREST(4, 3, 0x0b);
    DEAREST(5, 3, 0x0b);
    DEAREST(8, 5, 0xab);
    DEAREST(16, 9, 0xaa, 0xab);
    memset(all, 0xaa, sizeof all);
    all[DEAREST_BYTES - 1] = 0xab;
    dearest_is(256, 129, all + 34, 32, __LINE__);
    dearest_is(528, 265, all, 66, __LINE__);
    all[0] = 0x2a;
    dearest_is(527, 264, all, 66, __LINE__);
}

/* The sizes to 16 bits: of all scalars below 2^bits the first whose row tells the most. Each row is asked for once. */
static void searched_sizes(void)
{
    uint8_t found[2] = {0, 0};
    uint32_t bits = 1, most = 0, value;
    for (value = 0; value < 65536; value++) {
        uint8_t scalar[2] = {(uint8_t)(value >> 8), (uint8_t)value}, digits[SHEETS_PLACES(2)];
        uint32_t weight = sheets_weight(sheets_row(scalar, 2, 0, 1, digits, sizeof digits));
        if (weight > most) {
            most = weight;
            memcpy(found, scalar, 2);
        }
        if (value + 1 == UINT32_C(1) << bits)
            dearest_is(bits++, most, found, 2, __LINE__);
    }
    CHECK(bits == 17);
}

/* Whether a scalar has a 1 at place 0 and at every odd place below the size, and nowhere else. */
static int alternates(struct bytes scalar, uint32_t bits)
{
    uint8_t all[DEAREST_BYTES] = {0};
    uint32_t place;
    all[DEAREST_BYTES - 1] = 1;
    for (place = 1; place < bits; place += 2)
        all[DEAREST_BYTES - 1 - place / 8] |= (uint8_t)(1 << place % 8);
    return memcmp(scalar.at, all, sizeof all) == 0;
}

/* A scalar that is not 0, less one. */
static struct bytes less_one(struct bytes scalar)
{
    uint8_t all[DEAREST_BYTES];
    size_t i = scalar.n;
    memcpy(all, scalar.at, scalar.n);
    while (i > 0 && all[i - 1]-- == 0)
        i--;
    return bytes_of(all, scalar.n);
}

/* The weight that the row call tells for window 1. */
static uint32_t row_weight(struct bytes scalar, int line)
{
    uint8_t digits[MOST_PLACES];
    uint64_t answer = by->row(scalar.at, scalar.n, scalar.sign, 1, digits, SHEETS_PLACES(scalar.n));
    check(sheets_number(answer) == 0, "there is a row", line);
    return sheets_weight(answer);
}

/* Every size, beside the row of the scalar and of the one before it; and asked once more. */
static void every_size(void)
{
    uint32_t bits, smaller = 0;
    for (bits = 1; bits <= MOST_BITS; bits++) {
        struct bytes scalar = dearest(bits, bits / 2 + 1, __LINE__), less = less_one(scalar);
        uint32_t most = sheets_most(sheets_dearest(bits, lend(&second), DEAREST_BYTES));
        CHECK(memcmp(first.all, second.all, sizeof first.all) == 0);
        CHECK(most >= smaller);
        CHECK(alternates(scalar, bits));
        CHECK(bit_length(scalar) <= bits);
        CHECK(row_weight(scalar, __LINE__) == most);
        CHECK(row_weight(less, __LINE__) < most);
        CHECK(only_read(scalar) & only_read(less));
        smaller = most;
    }
}

/* The additions of the sheet of plan I with windows 1 and 1. */
static uint32_t plain_additions(struct bytes k, struct bytes l, int line)
{
    static uint8_t sheet[SHEETS_BYTES];
    uint64_t answer = write_sheet(plan_i(1, 1), k, l, sheet, sizeof sheet);
    check(sheets_number(answer) == 0, "there is a sheet", line);
    return sheets_additions(answer);
}

/* Two scalars that are to have no more additions than this. */
static void no_dearer(struct bytes k, struct bytes l, uint32_t additions, int line)
{
    check(plain_additions(k, l, line) <= additions, "no more additions", line);
    check(only_read(k) & only_read(l), "the scalars are only read", line);
}

/* A scalar of the size: any, or the dearest with one bit turned. */
static struct bytes any_of_size(uint32_t bits, struct bytes scalar)
{
    size_t n = (bits + 7) / 8, place = next_number() % bits;
    struct bytes any = any_scalar(n);
    if (next_number() % 2 == 0) {
        memcpy(any.at, scalar.at + scalar.n - n, n);
        any.at[n - 1 - place / 8] ^= (uint8_t)(1 << place % 8);
    }
    any.at[0] &= (uint8_t)(255 >> (8 * n - bits));
    memcpy(any.copy, any.at, n);
    return any;
}

/*
 * Every size: the additions with the dearest scalar twice, with every two signs. No two scalars have more: all of the sizes to 6 bits, and
 * some of some others, 528 bits among them.
 */
static void dearest_sheets(void)
{
    uint32_t bits, i;
    for (bits = 1; bits <= MOST_BITS; bits++) {
        uint32_t most = bits / 2 + 1, additions = 2 * most - 1, values = bits <= 6 ? UINT32_C(1) << bits : 0;
        struct bytes scalar = dearest(bits, most, __LINE__);
        for (i = 0; i < 4; i++)
            CHECK(plain_additions(with_sign(scalar, i % 2), with_sign(scalar, i / 2), __LINE__) == additions);
        for (i = 0; i < values * values; i++) {
            struct bytes k = byte((uint8_t)(i / values)), l = byte((uint8_t)(i % values));
            no_dearer(with_sign(k, next_number() % 2), with_sign(l, next_number() % 2), additions, __LINE__);
        }
        for (i = 0; i < 16 && bits % 17 == 1; i++)
            no_dearer(any_of_size(bits, scalar), any_of_size(bits, scalar), additions, __LINE__);
        CHECK(only_read(scalar));
    }
}

static void dearests(void)
{
    static const struct calls *const ends[] = {&card, &card_down};
    static const uint32_t no_sizes[] = {0, 529, 530, 784, 65536, 65537, 66064, 2147483648u, 2147483904u, 4294967295u};
    static const size_t no_rooms[] = {0, 1, 65, 67, 132, 322};
    enum { NO_SIZES = sizeof no_sizes / sizeof *no_sizes, NO_ROOMS = sizeof no_rooms / sizeof *no_rooms };
    uint32_t bits;
    size_t i, j;

    CHECK(DEAREST_BYTES == SHEETS_DEAREST_BYTES);
    dearest_samples();
    searched_sizes();
    for (i = 0; i < 2; i++) {
        by = ends[i];
        every_size();
        dearest_sheets();
    }
    by = &card;

    /* 15. is the size 1 to 528 bits? */
    for (i = 0; i < NO_SIZES; i++) {
        DEAREST_REFUSED(no_sizes[i], 66, 15);
        for (j = 0; j < NO_ROOMS; j++)
            DEAREST_REFUSED(no_sizes[i], no_rooms[j], 15);
    }

    /* 3. has the buffer 66 bytes, no fewer and no more? 1 and 528 bits, and sizes between */
    for (bits = 1; bits <= MOST_BITS; bits += 17)
        for (j = 0; j < NO_ROOMS; j++)
            DEAREST_REFUSED(bits, no_rooms[j], 3);

    /* no buffer at all */
    for (i = 0; i < NO_SIZES; i++)
        CHECK(sheets_dearest(no_sizes[i], NULL, 0) == (uint64_t)15 << 32);
    for (bits = 1; bits <= MOST_BITS; bits += 17)
        CHECK(sheets_dearest(bits, NULL, 0) == (uint64_t)3 << 32);
}

/* ---- the reader ---- */

static void read_is(struct bytes sheet, uint32_t number, uint32_t at, int line)
{
    uint64_t answer = by->read(sheet.at, sheet.n);
    check(answer == ((uint64_t)number << 32 | at), "the whole answer", line);
    check(sheets_number(answer) == number && answer >> 32 == number, "the question", line);
    check(sheets_line(answer) == at && (answer & 0xffffffff) == at, "the line", line);
    check(only_read(sheet), "the sheet is only read", line);
}

#define READ(sheet, number, at) read_is(text(sheet), (number), (at), __LINE__)

/* A sheet of plan I for so many figures f behind this sign, with so many D lines between a load of the top digit and the last. */
static struct bytes long_sheet(unsigned figures, unsigned doublings, const char *sign, const char *top, const char *last)
{
    return text(spelled("S,I,1,1,0,1,%u,%s%s,0\nL,%s,0\n%sA,%s,0\nE\n", doublings, sign, times(figures, "f"), top, times(doublings, "D\n"),
                        last));
}

/* A sheet of eight lines, with every byte replaced by every other, and cut at every byte. */
static void damaged(const char *good)
{
    size_t n = strlen(good), i;
    unsigned value;
    int refused = 1, placed = 1, cut = 1;
    for (i = 0; i < n; i++) {
        struct bytes sheet = text(good), prefix = bytes_of((const uint8_t *)good, i);
        for (value = 0; value < 256; value++)
            if (value != (uint8_t)good[i]) {
                uint64_t answer;
                sheet.at[i] = (uint8_t)value;
                answer = by->read(sheet.at, sheet.n);
                refused &= 6 <= sheets_number(answer) && sheets_number(answer) <= 11;
                placed &= 1 <= sheets_line(answer) && sheets_line(answer) <= 9;
            }
        free(sheet.at);
        free(sheet.copy);
        cut &= sheets_number(by->read(prefix.at, prefix.n)) == 6;
        CHECK(only_read(prefix));
    }
    CHECK(refused);
    CHECK(placed);
    CHECK(cut);
}

/* Signs in the header. */
static void negative_readings(void)
{
    unsigned figures = by->figures, most = by->doublings;

    READ(less_seven_two, 0, 0);
    READ(seven_less_two, 0, 0);
    READ(less_seven_less_two, 0, 0);

    /* 6. a minus stands alone before figures, of which there are no more than the limit, and not before 0 */
    READ("S,I,1,1,0,0,0,-0,0\nE\n", 6, 1);
    READ("S,I,1,1,0,0,0,0,-0\nE\n", 6, 1);
    READ("S,I,1,1,0,2,3,-07,2\nE\n", 6, 1);
    READ("S,I,1,1,0,2,3,--7,2\nE\n", 6, 1);
    READ("S,I,1,1,0,2,3,7,-\nE\n", 6, 1);
    READ("S,I,1,1,0,2,3,+7,2\nE\n", 6, 1);
    READ("S,I,1,1,0,2,3,7,2-\nE\n", 6, 1);
    READ("S,I,1,1,-0,2,3,7,2\nE\n", 6, 1);

    /* 11. the steps to 7, 2 under other signs, and steps to another pair under theirs */
    READ("S,I,1,1,0,2,3,-7,2\nL,1,0\nD\nD\nA,0,1\nD\nA,-1,0\nE\n", 11, 1);
    READ("S,I,1,1,0,2,3,7,-2\nL,1,0\nD\nD\nA,0,1\nD\nA,-1,0\nE\n", 11, 1);
    READ("S,I,1,1,0,2,3,-7,-2\nL,1,0\nD\nD\nA,0,1\nD\nA,-1,0\nE\n", 11, 1);
    READ("S,I,1,1,0,2,3,7,2\nL,-1,0\nD\nD\nA,0,1\nD\nA,1,0\nE\n", 11, 1);
    READ("S,I,1,1,0,2,3,7,2\nL,1,0\nD\nD\nA,0,-1\nD\nA,-1,0\nE\n", 11, 1);
    READ("S,I,1,1,0,0,0,-1,0\nE\n", 11, 1);

    /* the longest scalar with a minus, its steps, and those without */
    read_is(long_sheet(figures, most, "-", "-1", "1"), 0, 0, __LINE__);
    read_is(long_sheet(figures, most, "-", "1", "-1"), 11, 1, __LINE__);
    read_is(long_sheet(figures, most, "", "-1", "1"), 11, 1, __LINE__);
    read_is(long_sheet(figures + 1, most, "-", "-1", "1"), 6, 1, __LINE__);
}

static void readings(void)
{
    unsigned figures = by->figures, most = by->doublings;

    READ(seven_two, 0, 0);
    READ(thirteen_ten, 0, 0);
    READ(nine, 0, 0);
    READ(nine_down, 0, 0);
    READ("S,I,1,1,0,0,0,0,0\nE\n", 0, 0);
    /* a sheet for 3, 0 that no call writes */
    READ("S,I,1,1,0,2,2,3,0\nL,1,0\nD\nA,-1,0\nD\nA,1,0\nE\n", 0, 0);

    /* 5. has it no more bytes than the limit? */
    read_is(filled('\n', by->sheet_bytes + 1), 5, 0, __LINE__);
    read_is(filled('\n', by->sheet_bytes), 6, 1, __LINE__);
    read_is(filled('D', by->sheet_bytes + 1), 5, 0, __LINE__);

    /* 6. is each line spelled and placed as it must be? */
    read_is(filled(0, 0), 6, 1, __LINE__);
    READ("\n", 6, 1);
    READ("E\n", 6, 1);
    READ("S,I,1,1,0,2,3,7,2", 6, 1);
    READ("S,I,1,1,0,2,3,7,2\n", 6, 2);
    READ("S,I,1,1,0,2,3,07,2\nE\n", 6, 1);
    READ("S,I,1,1,0,2,3,A,2\nE\n", 6, 1);
    READ("S,I,1,1,0,2,3,7,2\nL,1,0\nD\nD\nA,0,1\nD\nA,-1,0\nE", 6, 8);
    READ("S,I,1,1,0,2,3,7,2\nL,1,0\nD\nD\nA,0,1\nD\nA,-1,0\n", 6, 8);
    READ("S,I,1,1,0,2,3,7,2\nL,1,0\nD\nD\nA,0,1\nD\nA,-1,0\nE\nE\n", 6, 9);
    READ("S,I,1,1,0,2,3,7,2\nL,1,0\nD\nD\nA,+0,1\nD\nA,-1,0\nE\n", 6, 5);
    READ("S,I,1,1,0,2,3,7,2\nL,1,0\nD\nD\nA,-0,1\nD\nA,-1,0\nE\n", 6, 5);
    READ("S,I,1,1,0,2,3,7,2\nD\nL,1,0\nE\n", 6, 2);
    READ("S,I,1,1,0,2,3,7,2\r\nE\r\n", 6, 1);

    /* 7. are the windows, the slots and the T lines the plan's? */
    READ("S,I,2,1,0,2,3,7,2\nE\n", 7, 1);
    READ("S,I,33,1,17,2,3,7,2\nE\n", 7, 1);
    READ("S,J,1,3,2,2,0,0,0\nT,1,1\nT,1,-1\nE\n", 7, 1);
    READ("S,I,1,1,1,2,3,7,2\nL,1,0\nE\n", 7, 1);
    READ("S,I,3,1,1,1,1,3,0\nT,2,0\nT,3,0\nL,3,0\nE\n", 7, 1);
    READ("S,I,3,1,2,1,1,3,0\nT,2,0\nT,3,0\nL,3,0\nE\n", 0, 0);
    READ("S,I,1,1,0,2,3,7,2\nT,2,0\nL,1,0\nE\n", 7, 2);
    READ("S,J,1,1,2,1,0,0,0\nT,1,1\nE\n", 7, 3);
    READ("S,J,1,1,2,2,0,0,0\nT,1,1\nT,1,1\nE\n", 7, 3);
    READ("S,J,1,1,2,3,0,0,0\nT,1,1\nT,1,-1\nT,1,1\nE\n", 7, 4);

    /* 8. is each step allowed by the plan? */
    READ("S,I,1,1,0,0,0,0,0\nL,0,0\nE\n", 8, 2);
    READ("S,I,1,1,0,0,0,3,0\nL,3,0\nE\n", 8, 2);
    READ("S,I,1,1,0,1,0,1,1\nL,1,1\nE\n", 8, 2);
    READ("S,I,1,1,0,1,0,1,1\nL,0,1\nA,1,0\nE\n", 8, 3);
    READ("S,I,1,1,0,2,3,7,2\nL,1,0\nD\nD\nA,0,1\nA,0,1\nD\nA,-1,0\nE\n", 8, 6);
    READ("S,J,1,1,2,3,0,1,1\nT,1,1\nT,1,-1\nL,1,0\nA,0,1\nE\n", 8, 5);

    /* 9. are there no more D lines than the limit? */
    read_is(long_sheet(figures, most, "", "1", "-1"), 0, 0, __LINE__);
    read_is(long_sheet(figures, most + 1, "", "1", "-1"), 9, most + 3, __LINE__);
    read_is(long_sheet(figures, most + 172, "", "1", "-1"), 9, most + 3, __LINE__);

    /* 10. are both counts true? */
    READ("S,I,1,1,0,3,3,7,2\nL,1,0\nD\nD\nA,0,1\nD\nA,-1,0\nE\n", 10, 1);
    READ("S,I,1,1,0,2,4,7,2\nL,1,0\nD\nD\nA,0,1\nD\nA,-1,0\nE\n", 10, 1);
    READ("S,J,1,1,2,0,0,0,0\nT,1,1\nT,1,-1\nE\n", 10, 1);

    /* 11. is the result (k, l)? */
    READ("S,I,1,1,0,2,3,6,2\nL,1,0\nD\nD\nA,0,1\nD\nA,-1,0\nE\n", 11, 1);
    READ("S,I,1,1,0,2,3,7,3\nL,1,0\nD\nD\nA,0,1\nD\nA,-1,0\nE\n", 11, 1);
    READ("S,I,1,1,0,0,0,7,2\nL,1,0\nE\n", 11, 1);
    READ("S,I,1,1,0,0,0,7,2\nE\n", 11, 1);

    /* the first question missed decides, wherever its line is */
    READ("S,I,2,1,0,9,9,9,9\nL,0,0\nX\n", 6, 3);
    READ("S,I,1,1,5,9,9,9,9\nL,0,0\nE\n", 7, 1);
    READ("S,I,1,1,0,9,9,9,9\nL,0,0\nE\n", 8, 2);
    READ("S,I,1,1,0,9,9,9,9\nL,1,0\nE\n", 10, 1);

    negative_readings();
    damaged(seven_two);
    damaged(less_seven_less_two);
}

/* ---- the limits ---- */

/*
 * Scalars of so many bytes, all of them 255, by every call. Where the set takes them: 2^(8n) - 1 has a digit at place 0 and one at place 8n,
 * and a buffer one short is refused. Where it does not they are refused first, whatever else is missed.
 */
static void taken(size_t n)
{
    struct form form = {8 * n + 1, 2, {-1}, {-1}, {1}, {1}};
    const char *figures = times(2 * n, "f"), *doublings = times(8 * n, "D\n");
    size_t places = 8 * n + 1, i;

    form.k_digits[8 * n] = form.l_digits[8 * n] = 1;
    form.k_codes[8 * n] = form.l_codes[8 * n] = 1;
    row_is(filled(255, n), 1, places, 2, form.k_digits, places, __LINE__);
    row_is(filled(255, n), 31, places, 2, form.k_digits, places, __LINE__);
    ROW_REFUSED(filled(255, n), 1, places - 1, 3);
    ROW_REFUSED(filled(255, n), 32, places - 1, 2);
    joint_is(filled(255, n), filled(255, n), 2, form.k_digits, form.l_digits, places, __LINE__);
    JOINT_REFUSED(filled(255, n), byte(7), places - 1, places, 3);
    JOINT_REFUSED(byte(7), filled(255, n), places, places - 1, 3);
    form_is(filled(255, n), filled(255, n), &form, __LINE__);
    for (i = 0; i < 4; i++)
        CODES_REFUSED(filled(255, n), byte(7), places - (i == 0), places - (i == 1), places - (i == 2), places - (i == 3), 3);

    sheet_is(plan_j, filled(255, n), filled(255, n), 3,
             spelled("S,J,1,1,2,3,%u,%s,%s\nT,1,1\nT,1,-1\nL,1,1\n%sA,-1,-1\nE\n", (unsigned)(8 * n), figures, figures, doublings), __LINE__);
    for (i = 0; i < 2; i++)
        sheet_is(i == 0 ? plan_i(1, 1) : cheapest(31), filled(255, n), byte(0), 1,
                 spelled("S,I,1,1,0,1,%u,%s,0\nL,1,0\n%sA,-1,0\nE\n", (unsigned)(8 * n), figures, doublings), __LINE__);
    SHEET_REFUSED(plan_j, filled(255, n), filled(255, n), by->sheet_bytes - 1, 3);
    SHEET_REFUSED(plan_i(1, 1), filled(255, n), byte(0), by->sheet_bytes - 1, 3);
    SHEET_REFUSED(plan_i(1, 33), filled(255, n), byte(0), by->sheet_bytes - 1, 2);
    SHEET_REFUSED(cheapest(31), byte(0), filled(255, n), by->sheet_bytes - 1, 3);
    SHEET_REFUSED(cheapest(32), byte(0), filled(255, n), by->sheet_bytes - 1, 4);
}

static void not_taken(size_t n)
{
    static const size_t rooms[] = {0, PLENTY, SHEETS_BYTES, SHEETS_GATEWAY_BYTES};
    size_t i;
    for (i = 0; i < sizeof rooms / sizeof *rooms; i++) {
        size_t room = rooms[i];
        ROW_REFUSED(filled(255, n), 1, room, 1);
        ROW_REFUSED(filled(255, n), 32, room, 1);
        JOINT_REFUSED(filled(255, n), byte(7), room, room, 1);
        JOINT_REFUSED(byte(7), filled(255, n), room, room, 1);
        CODES_REFUSED(filled(255, n), byte(7), room, room, room, room, 1);
        CODES_REFUSED(byte(7), filled(255, n), room, room, room, room, 1);
        SHEET_REFUSED(plan_j, filled(255, n), byte(7), room, 1);
        SHEET_REFUSED(plan_j, byte(7), filled(255, n), room, 1);
        SHEET_REFUSED(plan_i(31, 31), filled(255, n), byte(7), room, 1);
        SHEET_REFUSED(plan_i(2, 33), byte(7), filled(255, n), room, 1);
        SHEET_REFUSED(cheapest(31), filled(255, n), byte(7), room, 1);
        SHEET_REFUSED(cheapest(32), byte(7), filled(255, n), room, 1);
    }
}

/* By the calls of a card and of a gateway with the same kind of row. */
static void scalar_limits(const struct calls *narrow, const struct calls *wide)
{
    uint8_t ones[128], aa[128];
    memset(ones, 0xff, sizeof ones);
    memset(aa, 0xaa, sizeof aa);
    aa[127] = 0xab;

    by = narrow;
    taken(66);
    not_taken(67);
    not_taken(128);
    not_taken(129);

    by = wide;
    taken(66);
    taken(67);
    taken(128);
    not_taken(129);

    /* 128 bytes of 255 have 1,025 places; the heaviest row for window 1 has 513 digits that are not 0, and two of them 1,025 additions */
    written(wide->row(ones, 128, 0, 1, lend(&first), 1025), 1025, 2, __LINE__);
    written(wide->row(aa, 128, 1, 1, lend(&first), 1025), wide->down ? 1024 : 1025, 513, __LINE__);
    written(wide->plan_i(aa, 128, 0, aa, 128, 0, 1, 1, lend(&first), 32768),
            wide->down ? 534 + 12 + 1023 * 2 + 511 * 12 + 14 + 2 : 534 + 12 + 1024 * 2 + 512 * 14 + 2, 1025, __LINE__);

    /* the card's sheet buffer is too small at the gateway, and large enough at the card */
    SHEET_REFUSED(plan_j, byte(7), byte(2), SHEETS_BYTES, 3);
    SHEET_REFUSED(plan_i(1, 1), byte(7), byte(2), SHEETS_BYTES, 3);
    SHEET_REFUSED(cheapest(0), byte(7), byte(2), SHEETS_BYTES, 3);
    SHEET_REFUSED(cheapest(0), byte(7), byte(2), SHEETS_GATEWAY_BYTES - 1, 3);
    by = narrow;
    written(narrow->plan_i(ones, 66, 0, ones, 66, 0, 1, 1, lend(&first), 16384), 282 + 12 + 528 * 2 + 14 + 2, 3, __LINE__);
}

/* A sheet that is to have these answers, the number and the line, at the card and at the gateway. */
static void read_at_both(struct bytes sheet, uint32_t card_number, uint32_t card_line, uint32_t gateway_number, uint32_t gateway_line, int line)
{
    by = &card;
    read_is(bytes_of(sheet.at, sheet.n), card_number, card_line, line);
    by = &gateway;
    read_is(sheet, gateway_number, gateway_line, line);
}

#define READ_AT_BOTH(sheet, card_number, card_line, gateway_number, gateway_line) \
    read_at_both((sheet), (card_number), (card_line), (gateway_number), (gateway_line), __LINE__)

/*
 * A sheet of plan I 5, 1 for 1, 1 whose steps cancel: P is loaded above so many D lines and taken off at each place below; Q is added at the
 * place q, which is below the top, and taken off at each place below that. 56 bytes, 9 for each D line, and 7 for each place below q.
 */
static struct bytes cancelling(unsigned doublings, unsigned q)
{
    static char all[MOST];
    unsigned place = doublings;
    size_t n = (size_t)sprintf(all, "S,I,5,1,3,%u,%u,1,1\nT,2,0\nT,3,0\nT,5,0\nL,1,0\n", doublings + q + 3, doublings + 1);
    while (place-- > 0)
        n += (size_t)sprintf(all + n, "D\nA,-1,0\n%s", place > q ? "" : place == q ? "A,0,1\n" : "A,0,-1\n");
    n += (size_t)sprintf(all + n, "E\n");
    return bytes_of((const uint8_t *)all, n);
}

/* The cancelling sheet, which is to have so many bytes. */
static struct bytes of_length(size_t n, unsigned doublings, unsigned q)
{
    struct bytes sheet = cancelling(doublings, q);
    CHECK(sheet.n == n);
    return sheet;
}

static void reading_limits(void)
{
    /* 528, 529, 1,024 and 1,025 D lines */
    READ_AT_BOTH(cancelling(528, 0), 0, 0, 0, 0);
    READ_AT_BOTH(cancelling(529, 0), 9, 1062, 0, 0);
    READ_AT_BOTH(cancelling(1024, 0), 9, 1062, 0, 0);
    READ_AT_BOTH(cancelling(1025, 0), 9, 1062, 9, 2054);
    READ_AT_BOTH(cancelling(1500, 0), 9, 1062, 9, 2054);

    /*
     * 16,384, 16,385, 32,768 and 32,769 bytes. Within the limits of D lines and figures a sheet has at most 10,026 bytes at the card and 19,203
     * at the gateway, so a sheet of exactly 16,384 bytes misses a later question at the card, and one of 32,768 at the gateway: here 9.
     */
    READ_AT_BOTH(of_length(16384, 1024, 1016), 9, 1583, 0, 0);
    READ_AT_BOTH(of_length(16385, 1021, 1020), 5, 0, 0, 0);
    READ_AT_BOTH(of_length(32768, 2048, 2040), 5, 0, 9, 3071);
    READ_AT_BOTH(of_length(32769, 2045, 2044), 5, 0, 5, 0);
    READ_AT_BOTH(filled('\n', 16384), 6, 1, 6, 1);
    READ_AT_BOTH(filled('\n', 16385), 5, 0, 6, 1);
    READ_AT_BOTH(filled('\n', 32768), 5, 0, 6, 1);
    READ_AT_BOTH(filled('\n', 32769), 5, 0, 5, 0);

    /* 132, 133, 256 and 257 figures, and their steps: 2^(4n) - 1 in 4n D lines; 6 comes before 9 */
    READ_AT_BOTH(long_sheet(132, 528, "", "1", "-1"), 0, 0, 0, 0);
    READ_AT_BOTH(long_sheet(133, 532, "", "1", "-1"), 6, 1, 0, 0);
    READ_AT_BOTH(long_sheet(256, 1024, "", "1", "-1"), 6, 1, 0, 0);
    READ_AT_BOTH(long_sheet(257, 1028, "", "1", "-1"), 6, 1, 6, 1);
    READ_AT_BOTH(long_sheet(132, 528, "-", "-1", "1"), 0, 0, 0, 0);
    READ_AT_BOTH(long_sheet(133, 532, "-", "-1", "1"), 6, 1, 0, 0);
    READ_AT_BOTH(long_sheet(256, 1024, "-", "-1", "1"), 6, 1, 0, 0);
    READ_AT_BOTH(long_sheet(257, 1028, "-", "-1", "1"), 6, 1, 6, 1);

    /* the same figures for Q; 2^528 - 2, 2^529 - 1, 2^528, 2^1023 and 2^1024; and results that are not the header's */
    READ_AT_BOTH(text(spelled("S,I,1,1,0,1,1024,0,%s\nL,0,1\n%sA,0,-1\nE\n", times(256, "f"), times(1024, "D\n"))), 6, 1, 0, 0);
    READ_AT_BOTH(text(spelled("S,I,1,1,0,1,1024,0,%sf\nL,0,1\n%sA,0,-1\nE\n", times(256, "f"), times(1024, "D\n"))), 6, 1, 6, 1);
    READ_AT_BOTH(text(spelled("S,I,1,1,0,1,528,%se,0\nL,1,0\n%sA,-1,0\nD\nE\n", times(131, "f"), times(527, "D\n"))), 0, 0, 0, 0);
    READ_AT_BOTH(text(spelled("S,I,1,1,0,1,529,1%s,0\nL,1,0\n%sA,-1,0\nE\n", times(132, "f"), times(529, "D\n"))), 6, 1, 0, 0);
    READ_AT_BOTH(text(spelled("S,I,1,1,0,0,528,1%s,0\nL,1,0\n%sE\n", times(132, "0"), times(528, "D\n"))), 6, 1, 0, 0);
    READ_AT_BOTH(text(spelled("S,I,1,1,0,0,1023,8%s,0\nL,1,0\n%sE\n", times(255, "0"), times(1023, "D\n"))), 6, 1, 0, 0);
    READ_AT_BOTH(text(spelled("S,I,1,1,0,0,1024,1%s,0\nL,1,0\n%sE\n", times(256, "0"), times(1024, "D\n"))), 6, 1, 6, 1);
    READ_AT_BOTH(long_sheet(132, 528, "-", "1", "-1"), 11, 1, 11, 1);
    READ_AT_BOTH(long_sheet(133, 528, "", "1", "-1"), 6, 1, 11, 1);
    READ_AT_BOTH(long_sheet(256, 1023, "", "1", "-1"), 6, 1, 11, 1);
    READ_AT_BOTH(long_sheet(132, 529, "", "1", "-1"), 9, 531, 11, 1);
    READ_AT_BOTH(long_sheet(132, 1025, "", "1", "-1"), 9, 531, 9, 1027);
}

/* A call for a sheet at both, each in a buffer of its own size: the same answer and the same sheet, which both accept. */
static void same_sheet(const struct calls *narrow, const struct calls *wide, struct order o, struct bytes k, struct bytes l, int line)
{
    uint8_t *sheet = lend(&first), *again = lend(&second);
    uint64_t answer;
    size_t length;
    by = narrow;
    answer = write_sheet(o, k, l, sheet, narrow->sheet_bytes);
    length = length_within(answer, narrow->sheet_bytes);
    by = wide;
    written(write_sheet(o, k, l, again, wide->sheet_bytes), length, sheets_additions(answer), line);
    check(memcmp(first.all, second.all, sizeof first.all) == 0, "the card's sheet", line);
    check(narrow->read(sheet, length) == 0 && wide->read(again, length) == 0, "both accept it", line);
    check(only_read(k) & only_read(l), "the scalars are only read", line);
}

/* The row at both. */
static void same_row(const struct calls *narrow, const struct calls *wide, struct bytes scalar, int line)
{
    size_t places = SHEETS_PLACES(scalar.n);
    uint64_t answer;
    uint32_t m;
    for (m = 1; m <= 31; m += 2) {
        answer = narrow->row(scalar.at, scalar.n, scalar.sign, m, lend(&first), places);
        written(wide->row(scalar.at, scalar.n, scalar.sign, m, lend(&second), places), length_within(answer, places), sheets_weight(answer),
                line);
        check(memcmp(first.all, second.all, sizeof first.all) == 0, "the card's row", line);
    }
    check(only_read(scalar), "the scalar is only read", line);
}

/* The joint form with its codes at both. */
static void same_columns(struct bytes k, struct bytes l, int line)
{
    static struct lent lent[4];
    static struct lent *const again[] = {&first, &second, &third, &fourth};
    size_t places = SHEETS_PLACES(k.n > l.n ? k.n : l.n), i;
    uint64_t answer;
    answer = card.joint_codes(k.at, k.n, k.sign, l.at, l.n, l.sign, lend(&lent[0]), places, lend(&lent[1]), places, lend(&lent[2]), places,
                              lend(&lent[3]), places);
    check(gateway.joint_codes(k.at, k.n, k.sign, l.at, l.n, l.sign, lend(&first), places, lend(&second), places, lend(&third), places,
                              lend(&fourth), places)
              == answer,
          "the card's answer with codes", line);
    for (i = 0; i < 4; i++)
        check(memcmp(lent[i].all, again[i]->all, sizeof lent[i].all) == 0, "the card's digits and codes", line);
    written(gateway.joint(k.at, k.n, k.sign, l.at, l.n, l.sign, lend(&first), places, lend(&second), places), length_within(answer, places),
            sheets_weight(answer), line);
    for (i = 0; i < 2; i++)
        check(memcmp(lent[i].all, again[i]->all, sizeof lent[i].all) == 0, "the card's joint form", line);
    check(only_read(k) & only_read(l), "the scalars are only read", line);
}

static uint32_t any_window(void) { return 1 + 2 * (next_number() % 16); }

/* What the card takes the gateway takes, with the same answer and the same bytes. */
static void same_at_both(void)
{
    size_t n;
    for (n = 1; n <= 66; n++) {
        same_row(&card, &gateway, any_scalar(n), __LINE__);
        same_row(&card_down, &gateway_down, any_scalar(n), __LINE__);
        same_columns(any_scalar(n), any_scalar(67 - n), __LINE__);
        same_sheet(&card, &gateway, plan_j, any_scalar(n), any_scalar(67 - n), __LINE__);
        same_sheet(&card, &gateway, plan_i(any_window(), any_window()), any_scalar(n), any_scalar(67 - n), __LINE__);
        same_sheet(&card_down, &gateway_down, plan_i(any_window(), any_window()), any_scalar(n), any_scalar(67 - n), __LINE__);
        same_sheet(&card, &gateway, cheapest(next_number() % 32), any_scalar(n), any_scalar(67 - n), __LINE__);
    }
}

/* The two kinds of rows: the same weight, and in plan I the same additions. What they read back to was checked with each. */
static void same_weights(const struct calls *up, const struct calls *down)
{
    size_t n, places;
    uint32_t m;
    by = down;
    for (n = 1; n <= down->bytes; n++)
        for (m = 1; m <= 31; m += 2) {
            struct bytes k = any_scalar(n), l = any_within();
            uint32_t m2 = any_window();
            places = SHEETS_PLACES(n);
            CHECK(sheets_weight(down->row(k.at, n, k.sign, m, lend(&first), places))
                  == sheets_weight(up->row(k.at, n, k.sign, m, lend(&second), places)));
            CHECK(sheets_additions(down->plan_i(k.at, n, k.sign, l.at, l.n, l.sign, m, m2, lend(&first), down->sheet_bytes))
                  == sheets_additions(up->plan_i(k.at, n, k.sign, l.at, l.n, l.sign, m, m2, lend(&second), up->sheet_bytes)));
            CHECK(only_read(k) & only_read(l));
        }
}

int main(void)
{
    static const struct calls *const sets[] = {&card, &card_down, &gateway, &gateway_down};
    size_t i;

    parts();
    CHECK(card.sheet_bytes == SHEETS_BYTES && gateway.sheet_bytes == SHEETS_GATEWAY_BYTES);
    for (i = 0; i < sizeof sets / sizeof *sets; i++) {
        by = sets[i];
        rows();
        plan_i_sheets();
        if (by->down)
            continue;
        joints();
        codes();
        packed_joints();
        sheets();
        readings();
    }
    by = &card;
    columns();
    next_limits();
    dearests();
    scalar_limits(&card, &gateway);
    scalar_limits(&card_down, &gateway_down);
    reading_limits();
    same_at_both();
    same_weights(&card, &card_down);
    same_weights(&gateway, &gateway_down);
    printf("host: %lu checks, %lu failed\n", checks, failed);
    return failed != 0;
}
