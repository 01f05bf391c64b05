/* The plain C once more, by the gateway's limits. */
#define GATEWAY
#include "peer.c"
