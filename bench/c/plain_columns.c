/* A reader of columns as a C programmer writes it who trusts no length and proves nothing: one pass over each row, a
 * test of the bounds before each number and before the coordinates of each ring, no memory but the caller's. It takes
 * the kinds of members as they come. */
#include "plain.h"

#include <stdbool.h>

/* How many geometries may be inside one another. */
enum { DEPTH_LIMIT = 128 };

/* The flags of EWKB in a code. */
enum { HAS_SRID = 1 << 29, HAS_M = 1 << 30 };
static const uint32_t HAS_Z = 1u << 31;

/* What is left of a row, and where its coordinates go. */
typedef struct {
  const uint8_t *at;
  const uint8_t *end;
  bool is_big;
  uint32_t dimension;
  uint32_t width;
  wkb_coordinates *out;
} reader;

static bool has(const reader *it, uint64_t bytes) { return (uint64_t)(it->end - it->at) >= bytes; }

static bool read_number(reader *it, uint32_t *number) {
  if (!has(it, 4)) return false;
  uint32_t b0 = it->at[0], b1 = it->at[1], b2 = it->at[2], b3 = it->at[3];
  *number = it->is_big ? b3 | b2 << 8 | b1 << 16 | b0 << 24 : b0 | b1 << 8 | b2 << 16 | b3 << 24;
  it->at += 4;
  return true;
}

/* Copies so many coordinates, which are a ring. */
static bool read_ring(reader *it, uint32_t count) {
  wkb_coordinates *out = it->out;
  uint64_t words = (uint64_t)it->width * count;
  if (!has(it, 8 * words) || out->words_room < it->width * (out->coordinates + count)) return false;
  if (out->rings == out->ring_room) return false;
  double *to = out->words + it->width * out->coordinates;
  if (it->is_big) {
    for (uint64_t k = 0; k < words; k++) {
      uint64_t word = wkb_big_word(it->at + 8 * k);
      memcpy(to + k, &word, sizeof word);
    }
  } else if (words == 2) {
    memcpy(to, it->at, 16);
  } else if (words > 0) {
    memcpy(to, it->at, 8 * words);
  }
  it->at += 8 * words;
  out->coordinates += count;
  out->ring_ends[out->rings++] = out->coordinates;
  return true;
}

/* Copies so many rings, each after its own count. */
static bool read_rings(reader *it, uint32_t rings) {
  uint32_t count;
  for (; rings > 0; rings--)
    if (!read_number(it, &count) || !read_ring(it, count)) return false;
  return true;
}

/* Ends the single whose rings were read. */
static bool end_single(reader *it, bool has_rings) {
  wkb_coordinates *out = it->out;
  if (!has_rings || out->singles == out->single_room) return false;
  out->single_ends[out->singles++] = out->rings;
  return true;
}

/* The order byte, the code and the SRID. */
static bool read_header(reader *it, uint32_t *kind) {
  uint32_t code, srid;
  if (!has(it, 1) || *it->at > WKB_ORDER_LITTLE) return false;
  it->is_big = *it->at++ == WKB_ORDER_BIG;
  if (!read_number(it, &code) || ((code & HAS_SRID) && !read_number(it, &srid))) return false;
  uint32_t plain = code & ~(HAS_SRID | HAS_M | HAS_Z), thousands = plain / 1000;
  bool has_z = (code & HAS_Z) || thousands == WKB_DIM_XYZ || thousands == WKB_DIM_XYZM;
  bool has_m = (code & HAS_M) || thousands == WKB_DIM_XYM || thousands == WKB_DIM_XYZM;
  *kind = plain % 1000;
  return thousands <= WKB_DIM_XYZM && it->dimension == (has_z ? WKB_DIM_XYZ : 0u) + (has_m ? WKB_DIM_XYM : 0u);
}

static bool read_geometry(reader *it, int depth) {
  uint32_t kind, count = 1;
  if (depth > DEPTH_LIMIT || !read_header(it, &kind)) return false;
  if (kind != WKB_KIND_POINT && !read_number(it, &count)) return false;
  switch (kind) {
    case WKB_KIND_POINT:
    case WKB_KIND_LINE_STRING: return end_single(it, read_ring(it, count));
    case WKB_KIND_POLYGON: return end_single(it, read_rings(it, count));
    case WKB_KIND_MULTI_POINT:
    case WKB_KIND_MULTI_LINE_STRING:
    case WKB_KIND_MULTI_POLYGON:
    case WKB_KIND_GEOMETRY_COLLECTION:
      for (; count > 0; count--)
        if (!read_geometry(it, depth + 1)) return false;
      return true;
  }
  return false;
}

/* The row of an index. */
static bool read_row(reader *it, const wkb_column *column, size_t row) {
  const uint8_t *data = column->data, *validity = column->validity;
  const int64_t *offsets = column->offsets;
  size_t bit = column->validity_offset + row;
  if (validity != NULL && !(validity[bit / 8] >> bit % 8 & 1)) return true;
  int64_t begin = offsets[row], end = offsets[row + 1];
  if (begin < 0 || end < begin || (uint64_t)end > column->size) return false;
  it->at = data + begin, it->end = data + end;
  return read_geometry(it, 0);
}

int plain_column_coordinates(const wkb_column *column, uint32_t dimension, wkb_coordinates *out) {
  uint32_t width = dimension == WKB_DIM_XY ? 2 : dimension == WKB_DIM_XYZM ? 4 : 3;
  reader it = {NULL, NULL, false, dimension, width, out};
  out->coordinates = out->rings = out->singles = 0;
  for (size_t row = 0; row < column->rows; row++) {
    if (!read_row(&it, column, row)) return 0;
    out->row_ends[row] = out->singles;
  }
  return 1;
}
