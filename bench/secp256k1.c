/* libsecp256k1's wNAF, a static function of its source: compiled with that source's src and include on the search path. */
#include "wnaf.h"
#include "timing.h"

#include <secp256k1.h>

#include <int128_impl.h>
#include <field_impl.h>
#include <scalar_impl.h>
#include <group_impl.h>
#include <scratch_impl.h>
#include <ecmult_impl.h>

#include <string.h>

enum { BYTES = 32, PLACES = 256 };

static secp256k1_scalar scalars[INPUTS];
static int digits[PLACES];

static void set_scalar(size_t i, const uint8_t *scalar, size_t n)
{
    uint8_t padded[BYTES] = {0};

    memcpy(padded + BYTES - n, scalar, n);
    secp256k1_scalar_set_b32(&scalars[i], padded, NULL);
}

static size_t row(size_t i, int w)
{
    return (size_t)secp256k1_ecmult_wnaf(digits, PLACES, &scalars[i], w);
}

static int digit(size_t place)
{
    return digits[place];
}

const struct wnaf secp256k1_wnaf = {"libsecp256k1", BYTES, set_scalar, row, digit};
