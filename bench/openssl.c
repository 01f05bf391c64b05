/* OpenSSL's wNAF, from the static libcrypto.a: the shared library does not export it, and no header declares it. */
#include "wnaf.h"
#include "timing.h"

#include <openssl/bn.h>
#include <openssl/crypto.h>
#include <stdio.h>
#include <stdlib.h>

/* Digits are odd and below 2^w in size, so w is one less than the width. The row is allocated. */
signed char *bn_compute_wNAF(const BIGNUM *scalar, int w, size_t *ret_len);

static BIGNUM *scalars[INPUTS];
static signed char *digits;

static void *made(void *p)
{
    if (!p) {
        fprintf(stderr, "OpenSSL failed\n");
        exit(1);
    }
    return p;
}

static void set_scalar(size_t i, const uint8_t *scalar, size_t n)
{
    scalars[i] = made(BN_bin2bn(scalar, (int)n, scalars[i]));
}

/* Frees the row before, so that a call has one allocation and one release. */
static size_t row(size_t i, int w)
{
    size_t length;

    OPENSSL_free(digits);
    digits = made(bn_compute_wNAF(scalars[i], w - 1, &length));
    return length;
}

static int digit(size_t place)
{
    return digits[place];
}

const struct wnaf openssl_wnaf = {"OpenSSL", 66, set_scalar, row, digit};
