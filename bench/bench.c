/* Times the library's calls beside plain C on the same random scalars, once both are seen to give the same answers and bytes. */
#include "peer.h"
#include "random.h"
#include "sheets.h"
#include "timing.h"
#include "wnaf.h"

#include <stdio.h>
#include <stdlib.h>
#include <string.h>

enum { PAIRS = INPUTS, MOST_BYTES = 128, UNTOUCHED = 0x5c };

/* ---- both sides ---- */

/* A set of calls: the library's, the same in plain C, the most bytes of a scalar, and the bytes of a sheet buffer. */
struct set {
    struct calls library;
    const struct calls *plain_c;
    size_t most_bytes, sheet_bytes;
};

/*
 * An archive may be older than the calls for rows from the top down, than those for packed columns, than that for the next limit, than that
 * for the dearest scalar, and than the gateway's.
 */
#ifdef WITH_DOWN
#define DOWN(call) call
#else
#define DOWN(call) NULL
#endif
#ifdef WITH_PACKING
#define PACKING(call) call
#else
#define PACKING(call) NULL
#endif
#ifdef WITH_NEXT_LIMIT
#define NEXT_LIMIT(call) call
#else
#define NEXT_LIMIT(call) NULL
#endif
#ifdef WITH_DEAREST
#define DEAREST(call) call
#else
#define DEAREST(call) NULL
#endif

static const struct set card = {
    {sheets_row, DOWN(sheets_row_down), sheets_joint, sheets_joint_codes, sheets_plan_j, sheets_plan_i, DOWN(sheets_plan_i_down),
     sheets_cheapest, sheets_read, PACKING(sheets_pack), PACKING(sheets_unpack), NEXT_LIMIT(sheets_next_limit),
     DEAREST(sheets_dearest)},
    &peer_card, 66, SHEETS_BYTES,
};

#ifdef WITH_GATEWAY
static const struct set gateway = {
    {sheets_gateway_row, DOWN(sheets_gateway_row_down), sheets_gateway_joint, sheets_gateway_joint_codes, sheets_gateway_plan_j,
     sheets_gateway_plan_i, DOWN(sheets_gateway_plan_i_down), sheets_gateway_cheapest, sheets_gateway_read, PACKING(sheets_pack),
     PACKING(sheets_unpack), NULL, NULL},
    &peer_gateway, 128, SHEETS_GATEWAY_BYTES,
};
#endif

/* The lengths of scalars that are timed, and whose calls they are timed by. */
static const struct length {
    size_t bytes;
    const struct set *set;
} lengths[] = {
    {32, &card},
    {66, &card},
#ifdef WITH_GATEWAY
    {128, &gateway},
#endif
};

/* ---- inputs and outputs ---- */

/* More places than a joint form has. */
enum { PLACES = SHEETS_PLACES(MOST_BYTES) };

/*
 * Pairs of scalars of one length and with the same two signs, as far apart as the set's longest; a sheet of each, one behind the other; the
 * rows of the joint form of each with their columns packed, as far apart as the longest; and a size in bits for each.
 */
struct inputs {
    const struct set *set;
    size_t bytes;
    uint32_t ks, ls;
    uint8_t k[PAIRS * MOST_BYTES], l[PAIRS * MOST_BYTES];
    uint8_t sheets[PAIRS * SHEETS_GATEWAY_BYTES];
    size_t start[PAIRS + 1];
    uint8_t k_row[PAIRS * PLACES], l_row[PAIRS * PLACES], packed[PAIRS * PLACES];
    size_t columns[PAIRS];
    uint32_t sizes[PAIRS];
};

/* What a call may write: two rows of digits and their codes, or a sheet, or packed columns, or a dearest scalar. */
struct output {
    uint8_t k_digits[PLACES], l_digits[PLACES], sheet[SHEETS_GATEWAY_BYTES];
    uint8_t k_codes[PLACES], l_codes[PLACES], packed[PLACES], scalar[SHEETS_DEAREST_BYTES];
};

static const uint8_t *k_at(const struct inputs *in, size_t i)
{
    return in->k + i * in->set->most_bytes;
}

static const uint8_t *l_at(const struct inputs *in, size_t i)
{
    return in->l + i * in->set->most_bytes;
}

static void fill_scalars(struct inputs *in, struct length length)
{
    uint64_t state = length.bytes;

    in->set = length.set;
    in->bytes = length.bytes;
    for (size_t i = 0; i < PAIRS; i++)
        for (size_t j = i * in->set->most_bytes; j < i * in->set->most_bytes + in->bytes; j++) {
            in->k[j] = (uint8_t)next_random(&state);
            in->l[j] = (uint8_t)next_random(&state);
        }
}

/* ---- the works ---- */

/* A call on the pair at i, with the numbers a and b; a reading work has the work that writes its sheets. */
struct work {
    const char *name;
    uint64_t (*call)(const struct calls *, const struct work *, const struct inputs *, size_t i, struct output *);
    uint32_t a, b;
    const struct work *writes;
};

static uint64_t row(const struct calls *c, const struct work *w, const struct inputs *in, size_t i, struct output *out)
{
    return c->row(k_at(in, i), in->bytes, in->ks, w->a, out->k_digits, SHEETS_PLACES(in->bytes));
}

static uint64_t row_down(const struct calls *c, const struct work *w, const struct inputs *in, size_t i, struct output *out)
{
    return c->row_down(k_at(in, i), in->bytes, in->ks, w->a, out->k_digits, SHEETS_PLACES(in->bytes));
}

static uint64_t joint(const struct calls *c, const struct work *w, const struct inputs *in, size_t i, struct output *out)
{
    size_t places = SHEETS_PLACES(in->bytes);

    (void)w;
    return c->joint(k_at(in, i), in->bytes, in->ks, l_at(in, i), in->bytes, in->ls, out->k_digits, places, out->l_digits, places);
}

static uint64_t joint_codes(const struct calls *c, const struct work *w, const struct inputs *in, size_t i, struct output *out)
{
    size_t places = SHEETS_PLACES(in->bytes);

    (void)w;
    return c->joint_codes(k_at(in, i), in->bytes, in->ks, l_at(in, i), in->bytes, in->ls, out->k_digits, places, out->l_digits,
                          places, out->k_codes, places, out->l_codes, places);
}

static uint64_t plan_j(const struct calls *c, const struct work *w, const struct inputs *in, size_t i, struct output *out)
{
    (void)w;
    return c->plan_j(k_at(in, i), in->bytes, in->ks, l_at(in, i), in->bytes, in->ls, out->sheet, in->set->sheet_bytes);
}

static uint64_t plan_i(const struct calls *c, const struct work *w, const struct inputs *in, size_t i, struct output *out)
{
    return c->plan_i(k_at(in, i), in->bytes, in->ks, l_at(in, i), in->bytes, in->ls, w->a, w->b, out->sheet, in->set->sheet_bytes);
}

static uint64_t plan_i_down(const struct calls *c, const struct work *w, const struct inputs *in, size_t i, struct output *out)
{
    return c->plan_i_down(k_at(in, i), in->bytes, in->ks, l_at(in, i), in->bytes, in->ls, w->a, w->b, out->sheet, in->set->sheet_bytes);
}

static uint64_t cheapest(const struct calls *c, const struct work *w, const struct inputs *in, size_t i, struct output *out)
{
    return c->cheapest(k_at(in, i), in->bytes, in->ks, l_at(in, i), in->bytes, in->ls, w->a, out->sheet, in->set->sheet_bytes);
}

static uint64_t read_sheet(const struct calls *c, const struct work *w, const struct inputs *in, size_t i, struct output *out)
{
    (void)w;
    (void)out;
    return c->read(in->sheets + in->start[i], in->start[i + 1] - in->start[i]);
}

static uint64_t pack(const struct calls *c, const struct work *w, const struct inputs *in, size_t i, struct output *out)
{
    (void)w;
    return c->pack(in->columns[i], in->k_row + i * PLACES, PLACES, in->l_row + i * PLACES, PLACES, out->packed, PLACES);
}

static uint64_t unpack(const struct calls *c, const struct work *w, const struct inputs *in, size_t i, struct output *out)
{
    (void)w;
    return c->unpack(in->columns[i], in->packed + i * PLACES, PLACES, out->k_digits, PLACES, out->l_digits, PLACES);
}

static uint64_t next_limit(const struct calls *c, const struct work *w, const struct inputs *in, size_t i, struct output *out)
{
    (void)out;
    return c->next_limit(k_at(in, i), in->bytes, in->ks, l_at(in, i), in->bytes, in->ls, w->a);
}

static uint64_t dearest(const struct calls *c, const struct work *w, const struct inputs *in, size_t i, struct output *out)
{
    (void)w;
    return c->dearest(in->sizes[i], out->scalar, sizeof out->scalar);
}

enum { WIDEST = 9, LARGEST = 13 };

static const struct work works[] = {
    {"row, m = 1", row, 1, 0, NULL},
    {"row, m = 5", row, 5, 0, NULL},
    {"row, m = 31", row, 31, 0, NULL},
    {"row down, m = 1", row_down, 1, 0, NULL},
    {"row down, m = 5", row_down, 5, 0, NULL},
    {"row down, m = 31", row_down, 31, 0, NULL},
    {"joint", joint, 0, 0, NULL},
    {"joint, codes", joint_codes, 0, 0, NULL},
    {"plan J", plan_j, 0, 0, NULL},
    [WIDEST] = {"plan I 31, 31", plan_i, 31, 31, NULL},
    {"plan I 31, 31, down", plan_i_down, 31, 31, NULL},
    {"cheapest, limit 0", cheapest, 0, 0, NULL},
    {"cheapest, limit 8", cheapest, 8, 0, NULL},
    [LARGEST] = {"cheapest, limit 31", cheapest, 31, 0, NULL},
    {"read, cheapest, limit 31", read_sheet, 0, 0, &works[LARGEST]},
    {"read, plan I 31, 31", read_sheet, 0, 0, &works[WIDEST]},
    {"pack", pack, 0, 0, NULL},
    {"unpack", unpack, 0, 0, NULL},
    {"next limit, limit 0", next_limit, 0, 0, NULL},
    {"next limit, limit 8", next_limit, 8, 0, NULL},
    {"next limit, limit 16", next_limit, 16, 0, NULL},
    {"dearest", dearest, 0, 0, NULL},
};

/* Whether the set has the work's call, in this archive. */
static int is_there(const struct work *w, const struct set *set)
{
    if (w->call == pack || w->call == unpack)
        return set->library.pack != NULL;
    if (w->call == next_limit)
        return set->library.next_limit != NULL;
    if (w->call == dearest)
        return set->library.dearest != NULL;
    return set->library.row_down != NULL || (w->call != row_down && w->call != plan_i_down);
}

static void fill_sheets(struct inputs *in, const struct work *w, struct output *out)
{
    in->start[0] = 0;
    for (size_t i = 0; i < PAIRS; i++) {
        size_t length = sheets_length(w->call(in->set->plain_c, w, in, i, out));

        memcpy(in->sheets + in->start[i], out->sheet, length);
        in->start[i + 1] = in->start[i] + length;
    }
}

/* The joint form of each pair, by plain C. */
static void fill_columns(struct inputs *in)
{
    const struct calls *c = in->set->plain_c;

    for (size_t i = 0; i < PAIRS; i++) {
        uint8_t *k_row = in->k_row + i * PLACES, *l_row = in->l_row + i * PLACES;

        in->columns[i] = sheets_length(c->joint(k_at(in, i), in->bytes, in->ks, l_at(in, i), in->bytes, in->ls, k_row, PLACES, l_row, PLACES));
        c->pack(in->columns[i], k_row, PLACES, l_row, PLACES, in->packed + i * PLACES, PLACES);
    }
}

/* In each group of pairs the size of their scalars and the sizes next below it. */
static void fill_sizes(struct inputs *in)
{
    for (size_t i = 0; i < PAIRS; i++)
        in->sizes[i] = (uint32_t)(8 * in->bytes - i % GROUP);
}

/* ---- the check ---- */

/* Ends the program unless both sides give the same answer and leave the same bytes. */
static void check(const struct work *w, const struct inputs *in)
{
    static struct output ours, theirs;

    for (size_t i = 0; i < PAIRS; i++) {
        memset(&ours, UNTOUCHED, sizeof ours);
        memset(&theirs, UNTOUCHED, sizeof theirs);
        if (w->call(&in->set->library, w, in, i, &ours) != w->call(in->set->plain_c, w, in, i, &theirs)
            || memcmp(&ours, &theirs, sizeof ours) != 0) {
            fprintf(stderr, "%s, %zu bytes, signs %u and %u: library and plain C differ on pair %zu\n", w->name, in->bytes,
                    (unsigned)in->ks, (unsigned)in->ls, i);
            exit(1);
        }
    }
}

/* The check with every size that has a dearest scalar, and with 0 and some that are too large. */
static void check_sizes(const struct work *w, struct inputs *in)
{
    for (size_t first = 0; first <= 8 * SHEETS_DEAREST_BYTES + 1; first += PAIRS) {
        for (size_t i = 0; i < PAIRS; i++)
            in->sizes[i] = (uint32_t)(first + i);
        check(w, in);
    }
}

/* The check with a minus in k, in l and in both, and last with plus, which leaves the inputs for the times. */
static void check_signs(const struct work *w, struct inputs *in, struct output *out)
{
    static const uint32_t signs[][2] = {{1, 0}, {0, 2}, {256, UINT32_MAX}, {0, 0}};

    for (size_t i = 0; i < sizeof signs / sizeof *signs; i++) {
        in->ks = signs[i][0];
        in->ls = signs[i][1];
        if (w->writes)
            fill_sheets(in, w->writes, out);
        if (w->call == pack || w->call == unpack)
            fill_columns(in);
        if (w->call == dearest) {
            check_sizes(w, in);
            fill_sizes(in);
        }
        check(w, in);
    }
}

/* ---- the times ---- */

/* A work on one side. */
struct task {
    const struct calls *calls;
    const struct work *work;
    const struct inputs *in;
    struct output *out;
};

static void call(void *task, size_t i)
{
    const struct task *t = task;

    t->work->call(t->calls, t->work, t->in, i, t->out);
}

/* Prints a row of the table. */
static void measure(const struct work *w, const struct inputs *in, struct output *out)
{
    struct task ours = {&in->set->library, w, in, out}, theirs = {in->set->plain_c, w, in, out};

    printf("| %s | %zu |", w->name, in->bytes);
    print_times((struct side){call, &ours}, (struct side){call, &theirs});
}

/* ---- the next limit beside a cheapest sheet ---- */

/* The limits that are asked. */
static const uint32_t asked[] = {0, 1, 8, 16, 30, 31};

enum { ASKED = sizeof asked / sizeof *asked };

/* Prints a row for each limit: the library's call beside its cheapest sheet at limit 31, which looks at every plan. All pass in turn. */
static void measure_next_limits(struct inputs *in, struct output *out)
{
    struct work timed[ASKED + 1];
    struct task tasks[ASKED + 1];
    struct side sides[ASKED + 1];
    double ns[ASKED + 1];

    for (size_t i = 0; i <= ASKED; i++) {
        timed[i] = i < ASKED ? (struct work){"next limit", next_limit, asked[i], 0, NULL} : works[LARGEST];
        check_signs(&timed[i], in, out);
        tasks[i] = (struct task){&in->set->library, &timed[i], in, out};
        sides[i] = (struct side){call, &tasks[i]};
    }
    take_times(sides, ASKED + 1, ns);
    for (size_t i = 0; i < ASKED; i++) {
        printf("| %u | %zu |", (unsigned)asked[i], in->bytes);
        print_cells(ns[i], ns[ASKED]);
    }
}

static void print_next_limits(struct inputs *in, struct output *out)
{
    if (!card.library.next_limit)
        return;
    printf("\n| asked limit | bytes | next limit ns | cheapest, limit 31 ns | ratio |\n|---|---|---|---|---|\n");
    for (size_t i = 0; i < sizeof lengths / sizeof *lengths; i++)
        if (lengths[i].set->library.next_limit) {
            fill_scalars(in, lengths[i]);
            measure_next_limits(in, out);
        }
}

int main(void)
{
    static struct inputs in;
    static struct output out;

    printf("| work | bytes | library ns | plain C ns | ratio |\n|---|---|---|---|---|\n");
    for (size_t i = 0; i < sizeof works / sizeof *works; i++)
        for (size_t j = 0; j < sizeof lengths / sizeof *lengths; j++) {
            if (!is_there(&works[i], lengths[j].set))
                continue;
            fill_scalars(&in, lengths[j]);
            check_signs(&works[i], &in, &out);
            measure(&works[i], &in, &out);
        }
    print_next_limits(&in, &out);
    print_wnaf();
    return 0;
}
