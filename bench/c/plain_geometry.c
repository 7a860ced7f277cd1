/* A geometry as a C programmer writes it, or takes its bounds, who trusts no length and proves nothing: one pass, which
 * checks on its way what wkb_check checks. */
#include "plain.h"

#include <math.h>
#include <stdbool.h>

/* How many collections may be inside one another. */
enum { DEPTH_LIMIT = 128 };

/* What is left of the input, and what becomes of it. */
typedef struct {
  const uint8_t *at;
  const uint8_t *end;
  uint8_t *to; /* where it is written; null if its bounds are taken */
  uint8_t *to_end;
  bool to_big;
  wkb_box *box;
} pass;

/* What a header says. A dimension has the bit 1 for z and the bit 2 for m. */
typedef struct {
  uint32_t kind;
  uint32_t dimension;
  bool is_big;
  bool has_srid;
} header;

static inline bool has(const pass *it, uint64_t bytes) { return (uint64_t)(it->end - it->at) >= bytes; }

/* Whether so many bytes have room; bounds need none. */
static inline bool fits(const pass *it, uint64_t bytes) {
  return it->to == NULL || (uint64_t)(it->to_end - it->to) >= bytes;
}

static inline uint32_t number_at(const uint8_t *at, bool is_big) {
  uint32_t b0 = at[0], b1 = at[1], b2 = at[2], b3 = at[3];
  return is_big ? b3 | b2 << 8 | b1 << 16 | b0 << 24 : b0 | b1 << 8 | b2 << 16 | b3 << 24;
}

static inline void put_number(pass *it, uint32_t number) {
  uint32_t little = number_at((const uint8_t *)&number, false);
  uint32_t first = it->to_big ? __builtin_bswap32(little) : little;
  memcpy(it->to, &first, sizeof first);
  it->to += sizeof first;
}

/* Copies words from one order into another. */
static inline void put_words(pass *it, uint64_t words, bool is_big) {
  if (is_big == it->to_big) {
    memcpy(it->to, it->at, 8 * words);
  } else {
    uint8_t *to = it->to;
    for (uint64_t k = 0; k < words; k++) {
      uint64_t word;
      memcpy(&word, it->at + 8 * k, sizeof word);
      word = __builtin_bswap64(word);
      memcpy(to + 8 * k, &word, sizeof word);
    }
  }
  it->to += 8 * words;
}

static inline uint64_t word_at(const uint8_t *at, bool is_big) {
  return is_big ? wkb_big_word(at) : wkb_little_word(at);
}

static inline bool is_nan(uint64_t word) { return (word & INT64_MAX) > 0x7ff0000000000000; }

static inline uint32_t width_of(header of) { return 2 + (of.dimension & 1) + (of.dimension >> 1); }

static inline void widen(wkb_range *range, uint64_t word) {
  double number;
  memcpy(&number, &word, sizeof number);
  if (number < range->least) range->least = number;
  if (number > range->greatest) range->greatest = number;
  range->count += number == number;
}

/* Widens x and y by so many coordinates, and then z and m where there are such. */
static inline void widen_all(wkb_box *box, header of, const uint8_t *at, uint32_t count) {
  uint64_t stride = 8 * width_of(of);
  const uint8_t *end = at + stride * count;
  wkb_range x = box->x, y = box->y;
  if (of.is_big)
    for (const uint8_t *it = at; it < end; it += stride) widen(&x, wkb_big_word(it)), widen(&y, wkb_big_word(it + 8));
  else
    for (const uint8_t *it = at; it < end; it += stride)
      widen(&x, wkb_little_word(it)), widen(&y, wkb_little_word(it + 8));
  box->x = x, box->y = y;
  if (of.dimension & WKB_DIM_XYZ)
    for (const uint8_t *it = at; it < end; it += stride) widen(&box->z, word_at(it + 16, of.is_big));
  if (of.dimension & WKB_DIM_XYM)
    for (const uint8_t *it = at; it < end; it += stride) widen(&box->m, word_at(it + stride - 8, of.is_big));
}

/* So many coordinates. */
static inline bool take_line(pass *it, header of, uint32_t count) {
  uint64_t words = (uint64_t)width_of(of) * count;
  if (!has(it, 8 * words) || !fits(it, 8 * words)) return false;
  if (it->to != NULL)
    put_words(it, words, of.is_big);
  else
    widen_all(it->box, of, it->at, count);
  it->at += 8 * words;
  return true;
}

/* A point's coordinate. An empty point is written in one way, whatever NaNs it holds. */
static inline bool take_point(pass *it, header of) {
  bool is_empty = it->to != NULL;
  if (!has(it, 8 * width_of(of)) || !fits(it, 8 * width_of(of))) return false;
  for (uint32_t k = 0; is_empty && k < width_of(of); k++) is_empty = is_nan(word_at(it->at + 8 * k, of.is_big));
  if (!is_empty) return take_line(it, of, 1);
  for (uint32_t k = 0; k < width_of(of); k++, it->to += 8, it->at += 8) {
    memset(it->to, 0, 8);
    it->to[it->to_big ? 0 : 7] = 0x7f;
    it->to[it->to_big ? 1 : 6] = 0xf8;
  }
  return true;
}

static inline bool take_count(pass *it, header of, uint32_t *count) {
  if (!has(it, 4) || !fits(it, 4)) return false;
  *count = number_at(it->at, of.is_big);
  if (it->to != NULL) put_number(it, *count);
  it->at += 4;
  return true;
}

/* Each ring has a count of its own. */
static inline bool take_rings(pass *it, header of, uint32_t rings) {
  uint32_t count;
  for (; rings > 0; rings--)
    if (!take_count(it, of, &count) || !take_line(it, of, count)) return false;
  return true;
}

/* The order byte, the code and the SRID. */
static inline bool take_header(pass *it, header *found) {
  if (!has(it, 5) || it->at[0] > WKB_ORDER_LITTLE) return false;
  found->is_big = it->at[0] == WKB_ORDER_BIG;
  uint32_t code = number_at(it->at + 1, found->is_big), plain = code & 0x1fffffff, thousands = plain / 1000;
  found->kind = plain % 1000;
  found->dimension = (thousands | code >> 31 | (code >> 30 & 1) << 1) & 3;
  found->has_srid = code >> 29 & 1;
  if (thousands > WKB_DIM_XYZM || !has(it, found->has_srid ? 9 : 5) || !fits(it, 5)) return false;
  it->at += found->has_srid ? 9 : 5;
  if (it->to != NULL) {
    *it->to++ = it->to_big ? WKB_ORDER_BIG : WKB_ORDER_LITTLE;
    put_number(it, found->kind + 1000 * found->dimension);
  }
  return true;
}

/* Whether it may be a member of a geometry. */
static inline bool is_member(header it, header of) {
  return of.kind == WKB_KIND_GEOMETRY_COLLECTION ||
         (it.kind == of.kind - 3 && it.dimension == of.dimension && !(it.kind == WKB_KIND_POINT && it.has_srid));
}

/* The outermost geometry is as a member of a collection. */
static bool take_geometry(pass *it, header around, int collections) {
  header own;
  uint32_t count = 0;
  if (!take_header(it, &own) || !is_member(own, around)) return false;
  if (own.kind == WKB_KIND_POINT) return take_point(it, own);
  if (own.kind == WKB_KIND_GEOMETRY_COLLECTION && collections++ == DEPTH_LIMIT) return false;
  if (!take_count(it, own, &count)) return false;
  switch (own.kind) {
    case WKB_KIND_LINE_STRING: return take_line(it, own, count);
    case WKB_KIND_POLYGON: return take_rings(it, own, count);
    case WKB_KIND_MULTI_POINT:
    case WKB_KIND_MULTI_LINE_STRING:
    case WKB_KIND_MULTI_POLYGON:
    case WKB_KIND_GEOMETRY_COLLECTION:
      for (; count > 0; count--)
        if (!take_geometry(it, own, collections)) return false;
      return true;
  }
  return false;
}

static const header OUTERMOST = {WKB_KIND_GEOMETRY_COLLECTION, 0, false, false};

int plain_write(const void *buf, size_t len, uint32_t order, void *out, size_t room, size_t *size) {
  const uint8_t *at = buf;
  uint8_t *to = out;
  pass it = {at, at + len, to, to + room, order == WKB_ORDER_BIG, NULL};
  bool is_good = take_geometry(&it, OUTERMOST, 0);
  *size = (size_t)(it.to - to);
  return is_good;
}

int plain_bounds(const void *buf, size_t len, wkb_box *box) {
  static const wkb_range NONE = {INFINITY, -INFINITY, 0};
  const uint8_t *at = buf;
  pass it = {at, at + len, NULL, NULL, false, box};
  box->x = box->y = box->z = box->m = NONE;
  return take_geometry(&it, OUTERMOST, 0);
}
