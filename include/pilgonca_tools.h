/*
 * pilgonca_tools.h: what is there for tests and for tools that look at types, beside pilgonca.h. Programs that serve requests do not need it.
 *
 * Lend these functions a table of its own, never the arrays of a state. A request derives types as it crosses, and what is proved of references (L19 to L27)
 * follows the numbers that they get. A type that no request derived takes a number among them: the state still passes the check (H), and the next type that a
 * request derives has another number than the one that the claim speaks of. Nothing would refuse it, so pilgonca.h has no function that can do it.
 */
#ifndef PILGONCA_TOOLS_H
#define PILGONCA_TOOLS_H

#include "pilgonca.h"

#ifdef __cplusplus
extern "C" {
#endif

/* A derivation (E10): kind 0 Sub, 1 Sup, 2 Closed; the types that there are now, and the number of the one asked for. 2, 7, 11. */
size_t pilgonca_derive(
    uint8_t types[PILGONCA_TYPE_BYTES],
    const uint8_t links[PILGONCA_LINK_BYTES],
    size_t counts[PILGONCA_TABLE_COUNTS],
    size_t kind,
    int64_t t,
    int64_t s,
    size_t *number);

#ifdef __cplusplus
}
#endif

#endif
