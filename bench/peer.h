/* The library's calls once more, by hand in plain C: the same questions, the same answers, the same bytes. */
#ifndef PEER_H
#define PEER_H

#include <stddef.h>
#include <stdint.h>

/*
 * The thirteen calls. Each returns the number of the question missed in bits 32 to 63; below them the reader's line, or in bits 16 to 31
 * the weight or the additions and in bits 0 to 15 the length. Behind the length of a scalar stands its sign: 0 for plus, any other number
 * for minus. A buffer stands before its length. The two calls for columns that are packed return the number alone. The call for the next
 * limit returns that limit in the place of a length, and that for the dearest scalar, in bits 0 to 31, how many digits are not zero; the
 * library has these two for the card alone.
 */
struct calls {
    uint64_t (*row)(const uint8_t *, size_t, uint32_t, uint32_t, uint8_t *, size_t);
    uint64_t (*row_down)(const uint8_t *, size_t, uint32_t, uint32_t, uint8_t *, size_t);
    uint64_t (*joint)(const uint8_t *, size_t, uint32_t, const uint8_t *, size_t, uint32_t, uint8_t *, size_t, uint8_t *, size_t);
    uint64_t (*joint_codes)(const uint8_t *, size_t, uint32_t, const uint8_t *, size_t, uint32_t, uint8_t *, size_t, uint8_t *, size_t,
                            uint8_t *, size_t, uint8_t *, size_t);
    uint64_t (*plan_j)(const uint8_t *, size_t, uint32_t, const uint8_t *, size_t, uint32_t, uint8_t *, size_t);
    uint64_t (*plan_i)(const uint8_t *, size_t, uint32_t, const uint8_t *, size_t, uint32_t, uint32_t, uint32_t, uint8_t *, size_t);
    uint64_t (*plan_i_down)(const uint8_t *, size_t, uint32_t, const uint8_t *, size_t, uint32_t, uint32_t, uint32_t, uint8_t *, size_t);
    uint64_t (*cheapest)(const uint8_t *, size_t, uint32_t, const uint8_t *, size_t, uint32_t, uint32_t, uint8_t *, size_t);
    uint64_t (*read)(const uint8_t *, size_t);
    uint64_t (*pack)(size_t, const uint8_t *, size_t, const uint8_t *, size_t, uint8_t *, size_t);
    uint64_t (*unpack)(size_t, const uint8_t *, size_t, uint8_t *, size_t, uint8_t *, size_t);
    uint64_t (*next_limit)(const uint8_t *, size_t, uint32_t, const uint8_t *, size_t, uint32_t, uint32_t);
    uint64_t (*dearest)(uint32_t, uint8_t *, size_t);
};

/* By the card's limits, and by the gateway's. */
extern const struct calls peer_card, peer_gateway;

#endif
