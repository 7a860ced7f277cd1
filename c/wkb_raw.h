/* SPDX-License-Identifier: MIT OR Apache-2.0 */
/* The proved calls of crates/wkb_c, which wkb.c calls and the library hides. A slice is a pointer and a length, also in
 * a struct. No pointer may be null, not even if its length is 0, and each is aligned. A size_t is a usize of Rattle.
 * The contracts in crates/wkb_c/src define the calls. */
#ifndef WKB_RAW_H
#define WKB_RAW_H

#include "wkb.h"

/* The numbers of coordinates, rings and singles of the rows of a column. */
typedef struct wkb_raw_totals {
  uint64_t coordinates;
  uint64_t rings;
  uint64_t singles;
} wkb_raw_totals;

/* The buffers of a column. */
typedef struct wkb_raw_column {
  const uint8_t *bytes;
  size_t bytes_len;
  const uint8_t *offsets;
  size_t offsets_len;
  size_t offset_size;
  const uint8_t *validity;
  size_t validity_len;
  size_t validity_offset;
} wkb_raw_column;

/* The slices that the levels of coordinates are written to. */
typedef struct wkb_raw_level_slices {
  double *words;
  size_t words_room;
  uint64_t *ring_ends;
  size_t ring_room;
  uint64_t *single_ends;
  size_t single_room;
} wkb_raw_level_slices;

/* The levels of a column that is written. The numbers are for levels without ends. */
typedef struct wkb_raw_level_column {
  const double *words;
  size_t word_count;
  const uint64_t *ring_ends;
  size_t ring_end_count;
  uint64_t rings;
  const uint64_t *single_ends;
  size_t single_end_count;
  uint64_t singles;
  const uint64_t *row_ends;
  size_t row_end_count;
  uint64_t rows;
  const uint8_t *validity;
  size_t validity_len;
  size_t validity_offset;
} wkb_raw_level_column;

wkb_status wkb_raw_check(const uint8_t *buf, size_t len, wkb_found *found, wkb_fault *fault);
wkb_status wkb_raw_bounds(const uint8_t *buf, size_t len, wkb_box *bounds, wkb_fault *fault);
wkb_status wkb_raw_write(const uint8_t *buf, size_t len, const wkb_options *options, uint8_t *out, size_t room,
                         uint64_t *size, wkb_fault *fault);
wkb_status wkb_raw_same(const uint8_t *a, size_t a_len, const uint8_t *b, size_t b_len, uint32_t *equal,
                        wkb_fault *fault, uint32_t *which);
wkb_status wkb_raw_parts(const uint8_t *buf, size_t len, wkb_part *parts, size_t room, uint64_t *count,
                         wkb_fault *fault);
uint32_t wkb_raw_next_part(const uint8_t *buf, size_t len, wkb_part *part);

void wkb_raw_column_check(const wkb_raw_column *column, uint8_t *statuses, size_t rows);
void wkb_raw_column_found(const wkb_raw_column *column, wkb_found *found, size_t found_count, uint8_t *statuses,
                          size_t rows);
void wkb_raw_column_bounds(const wkb_raw_column *column, wkb_box *boxes, size_t box_count, uint8_t *statuses,
                           size_t rows);
void wkb_raw_column_parts(const wkb_raw_column *column, wkb_part *parts, size_t room, uint64_t *ends,
                          size_t end_count, uint8_t *statuses, size_t rows);
void wkb_raw_column_write(const wkb_raw_column *column, const wkb_options *options, uint8_t *out, size_t room,
                          uint64_t *ends, size_t end_count, uint8_t *statuses, size_t rows);
wkb_status wkb_raw_collect(const wkb_raw_column *column, size_t rows, uint32_t kind, uint32_t dimension,
                           const wkb_options *options, uint8_t *out, size_t room, uint64_t *size, wkb_fault *fault,
                           uint64_t *row);
void wkb_raw_column_coordinates(const wkb_raw_column *column, uint32_t dimension, wkb_raw_level_slices *out,
                                uint64_t *row_ends, size_t row_count, wkb_raw_totals *totals, uint8_t *statuses,
                                size_t rows);
void wkb_raw_column_from_coordinates(const wkb_raw_level_column *column, uint32_t kind, uint32_t dimension,
                                     const wkb_options *options, uint8_t *out, size_t room, uint64_t *ends,
                                     size_t end_count, uint8_t *statuses, size_t rows);

#endif
