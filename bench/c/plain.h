/* What bench/c/speed times the library beside: plain C, without proofs. It is no part of the library. */
#ifndef PLAIN_H
#define PLAIN_H

#include "wkb.h"

#ifdef __cplusplus
extern "C" {
#endif

/* Writes the input's geometry in an order, with ISO codes and no SRID, and tells its length. Returns 1, or 0 if the
 * input is rejected or ROOM is too small; OUT then holds what was written before that was known. */
int plain_write(const void *buf, size_t len, uint32_t order, void *out, size_t room, size_t *size);

/* The bounds of the input's geometry. Returns 1, or 0 if the input is rejected. -0 and +0 are equal here. */
int plain_bounds(const void *buf, size_t len, wkb_box *box);

/* Fills OUT with the coordinates of all rows, in the levels of wkb_coordinates. Returns 1 if all rows were read, or 0
 * at the first row that can't be read: it has a fault, lacks room, or holds a geometry of another dimension. Offsets
 * are int64_t. */
int plain_column_coordinates(const wkb_column *column, uint32_t dimension, wkb_coordinates *out);

#ifdef __cplusplus
}
#endif
#endif
