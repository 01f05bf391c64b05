/*
 * Times the library's rows beside the wNAFs of other libraries on the same random scalars, once both rows are seen to come to the
 * scalar with as many non-zero digits.
 */
#include "wnaf.h"
#include "random.h"
#include "sheets.h"
#include "timing.h"

#include <stdbool.h>
#include <stdio.h>
#include <stdlib.h>
#include <string.h>

enum { MOST_BYTES = 66, PLACES = SHEETS_PLACES(MOST_BYTES) };

/* ---- the library ---- */

static struct {
    size_t bytes;
    uint8_t scalars[INPUTS][MOST_BYTES], digits[PLACES];
} held;

static void set_scalar(size_t i, const uint8_t *scalar, size_t n)
{
    held.bytes = n;
    memcpy(held.scalars[i], scalar, n);
}

/* The window 2^(w-1) - 1 gives the width-w non-adjacent form. */
static uint32_t window(int w)
{
    return (1u << (w - 1)) - 1;
}

static size_t row(size_t i, int w)
{
    return sheets_length(sheets_row(held.scalars[i], held.bytes, 0, window(w), held.digits, SHEETS_PLACES(held.bytes)));
}

static int digit(size_t place)
{
    return (int8_t)held.digits[place];
}

static const struct wnaf library = {"library", MOST_BYTES, set_scalar, row, digit};

/* ---- the peers ---- */

static const struct wnaf *const peers[] = {
#ifdef WITH_OPENSSL
    &openssl_wnaf,
#endif
#ifdef WITH_SECP256K1
    &secp256k1_wnaf,
#endif
    NULL,
};

/* ---- the check ---- */

/* Whether the recoder's last row, of that length, comes to the scalar: bit by bit from place 0, with what is left over carried up. */
static bool comes_to(const struct wnaf *by, size_t length, const uint8_t *scalar, size_t n)
{
    int rest = 0;

    for (size_t place = 0; place < 8 * n || place < length; place++) {
        int bit = place < 8 * n ? scalar[n - 1 - place / 8] >> place % 8 & 1 : 0;

        rest += place < length ? by->digit(place) : 0;
        if ((rest & 1) != bit)
            return false;
        rest = (rest - bit) / 2;
    }
    return rest == 0;
}

static size_t nonzero_digits(const struct wnaf *by, size_t length)
{
    size_t count = 0;

    for (size_t place = 0; place < length; place++)
        count += by->digit(place) != 0;
    return count;
}

/* Ends the program unless both rows come to the scalar at i, with as many non-zero digits. */
static void check(const struct wnaf *peer, int w, const uint8_t *scalar, size_t n, size_t i)
{
    size_t ours = library.row(i, w), theirs = peer->row(i, w);

    if (!comes_to(&library, ours, scalar, n) || !comes_to(peer, theirs, scalar, n)
        || nonzero_digits(&library, ours) != nonzero_digits(peer, theirs)) {
        fprintf(stderr, "row, w = %d, %zu bytes: library and %s differ on scalar %zu\n", w, n, peer->name, i);
        exit(1);
    }
}

/* ---- the table ---- */

struct task {
    const struct wnaf *by;
    int w;
};

static void call(void *task, size_t i)
{
    const struct task *t = task;

    t->by->row(i, t->w);
}

/* Prints a row of the table. The top bit of each scalar is clear, as libsecp256k1 recodes n - k for a k that has it. */
static void compare(const struct wnaf *peer, int w, size_t bytes)
{
    struct task ours = {&library, w}, theirs = {peer, w};
    uint64_t state = bytes;

    for (size_t i = 0; i < INPUTS; i++) {
        uint8_t scalar[MOST_BYTES];

        for (size_t j = 0; j < bytes; j++)
            scalar[j] = (uint8_t)next_random(&state);
        scalar[0] &= 0x7f;
        library.set_scalar(i, scalar, bytes);
        peer->set_scalar(i, scalar, bytes);
        check(peer, w, scalar, bytes, i);
    }
    printf("| row, m = %u, w = %d | %zu | %s |", (unsigned)window(w), w, bytes, peer->name);
    print_times((struct side){call, &ours}, (struct side){call, &theirs});
}

void print_wnaf(void)
{
    static const int widths[] = {2, 4, 6};
    static const size_t lengths[] = {32, 66};

    if (!peers[0])
        return;
    printf("\n| work | bytes | peer | library ns | peer ns | ratio |\n|---|---|---|---|---|---|\n");
    for (const struct wnaf *const *peer = peers; *peer; peer++)
        for (size_t i = 0; i < sizeof widths / sizeof *widths; i++)
            for (size_t j = 0; j < sizeof lengths / sizeof *lengths && lengths[j] <= (*peer)->most_bytes; j++)
                compare(*peer, widths[i], lengths[j]);
}
