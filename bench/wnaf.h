/* The library's rows beside the width-w non-adjacent forms (wNAF) of other libraries. */
#ifndef WNAF_H
#define WNAF_H

#include <stddef.h>
#include <stdint.h>

/* A recoder that holds INPUTS scalars in its own number type, and the row it worked out last. */
struct wnaf {
    const char *name;
    size_t most_bytes;

    /* Makes its own number of the scalar at i. */
    void (*set_scalar)(size_t i, const uint8_t *scalar, size_t n);

    /* Works out the row of the scalar at i for the width w, whose digits are odd and below 2^(w-1), and returns its length. */
    size_t (*row)(size_t i, int w);

    /* A digit of that row. */
    int (*digit)(size_t place);
};

/* In openssl.c and secp256k1.c, which are compiled only where the libraries are to be had. */
extern const struct wnaf openssl_wnaf, secp256k1_wnaf;

/* Prints a table of the library beside those of them that the program is built with, or nothing. */
void print_wnaf(void);

#endif
