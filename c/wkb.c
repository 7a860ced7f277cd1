/* SPDX-License-Identifier: MIT OR Apache-2.0 */
/* The part of the library that isn't proved: each call of wkb.h replaces null pointers, unpacks the structs of columns
 * and calls its proved wkb_raw_ call. The texts, the version, the class of refusals and wkb_words have no such call. */
#include "wkb_raw.h"

/* The proved calls assume this of the compiler and its options: structs as they were proved, with pointers and sizes of
 * 64 bits, or of 32. */
#define IS_LAID(TYPE, SIZE, ALIGNMENT, PLACES) \
  _Static_assert(sizeof(TYPE) == (SIZE) && _Alignof(TYPE) == (ALIGNMENT) && (PLACES), "another layout of " #TYPE)
#define AT(TYPE, OFFSET, MEMBER) (offsetof(TYPE, MEMBER) == (OFFSET))
enum { P = sizeof(void *), LONG = _Alignof(uint64_t) };
_Static_assert((P == 8 || P == 4) && sizeof(size_t) == P, "another size of pointers");
IS_LAID(wkb_found, 64, LONG, AT(wkb_found, 0, size) && AT(wkb_found, 8, parts) && AT(wkb_found, 16, coordinates) &&
        AT(wkb_found, 24, offset) && AT(wkb_found, 32, count) && AT(wkb_found, 40, srid) &&
        AT(wkb_found, 44, has_srid) && AT(wkb_found, 48, kind) && AT(wkb_found, 52, dimension) &&
        AT(wkb_found, 56, width) && AT(wkb_found, 60, order));
IS_LAID(wkb_fault, 40, LONG, AT(wkb_fault, 0, part) && AT(wkb_fault, 8, offset) && AT(wkb_fault, 16, end) &&
        AT(wkb_fault, 24, len) && AT(wkb_fault, 32, code) && AT(wkb_fault, 36, status));
IS_LAID(wkb_options, 12, 4, AT(wkb_options, 0, order) && AT(wkb_options, 4, form) && AT(wkb_options, 8, srid));
IS_LAID(wkb_part, 64, LONG, AT(wkb_part, 0, begin) && AT(wkb_part, 8, end) && AT(wkb_part, 16, offset) &&
        AT(wkb_part, 24, count) && AT(wkb_part, 32, next) && AT(wkb_part, 40, srid) && AT(wkb_part, 44, has_srid) &&
        AT(wkb_part, 48, kind) && AT(wkb_part, 52, dimension) && AT(wkb_part, 56, width) && AT(wkb_part, 60, order));
IS_LAID(wkb_range, 24, LONG, AT(wkb_range, 0, least) && AT(wkb_range, 8, greatest) && AT(wkb_range, 16, count));
IS_LAID(wkb_box, 96, LONG, AT(wkb_box, 0, x) && AT(wkb_box, 24, y) && AT(wkb_box, 48, z) && AT(wkb_box, 72, m));
IS_LAID(wkb_raw_column, 8 * P, P, AT(wkb_raw_column, 0, bytes) && AT(wkb_raw_column, P, bytes_len) &&
        AT(wkb_raw_column, 2 * P, offsets) && AT(wkb_raw_column, 3 * P, offsets_len) &&
        AT(wkb_raw_column, 4 * P, offset_size) && AT(wkb_raw_column, 5 * P, validity) &&
        AT(wkb_raw_column, 6 * P, validity_len) && AT(wkb_raw_column, 7 * P, validity_offset));
IS_LAID(wkb_raw_level_column, (11 * P + 24 + LONG - 1) / LONG * LONG, LONG, AT(wkb_raw_level_column, 0, words) &&
        AT(wkb_raw_level_column, P, word_count) && AT(wkb_raw_level_column, 2 * P, ring_ends) &&
        AT(wkb_raw_level_column, 3 * P, ring_end_count) && AT(wkb_raw_level_column, 4 * P, rings) &&
        AT(wkb_raw_level_column, 4 * P + 8, single_ends) && AT(wkb_raw_level_column, 5 * P + 8, single_end_count) &&
        AT(wkb_raw_level_column, 6 * P + 8, singles) && AT(wkb_raw_level_column, 6 * P + 16, row_ends) &&
        AT(wkb_raw_level_column, 7 * P + 16, row_end_count) && AT(wkb_raw_level_column, 8 * P + 16, rows) &&
        AT(wkb_raw_level_column, 8 * P + 24, validity) && AT(wkb_raw_level_column, 9 * P + 24, validity_len) &&
        AT(wkb_raw_level_column, 10 * P + 24, validity_offset));
IS_LAID(wkb_raw_level_slices, 6 * P, P, AT(wkb_raw_level_slices, 0, words) &&
        AT(wkb_raw_level_slices, P, words_room) && AT(wkb_raw_level_slices, 2 * P, ring_ends) &&
        AT(wkb_raw_level_slices, 3 * P, ring_room) && AT(wkb_raw_level_slices, 4 * P, single_ends) &&
        AT(wkb_raw_level_slices, 5 * P, single_room));
IS_LAID(wkb_raw_totals, 24, LONG, AT(wkb_raw_totals, 0, coordinates) && AT(wkb_raw_totals, 8, rings) &&
        AT(wkb_raw_totals, 16, singles));

/* The byte order that isn't the machine's. */
#if defined __BYTE_ORDER__ && __BYTE_ORDER__ == __ORDER_BIG_ENDIAN__
static const wkb_order OTHER_ORDER = WKB_ORDER_LITTLE;
#else
static const wkb_order OTHER_ORDER = WKB_ORDER_BIG;
#endif

/* The target of an empty slice's pointer, for any type of its items. */
static const uint64_t NOTHING[1] = {0};

static const uint8_t *bytes_of(const void *bytes, size_t len) {
  return len == 0 ? (const uint8_t *)NOTHING : (const uint8_t *)bytes;
}

/* Returns where a proved call writes a number for a caller: here, where a size_t is narrower than the number. */
static uint64_t *number_of(size_t *number, uint64_t *here) {
  return number != NULL && sizeof *number == sizeof *here ? (uint64_t *)number : here;
}

/* Passes on what it has written here. That fits, since it counts what is in memory, or would be. */
static void pass_on(const uint64_t *here, size_t *number, int is_written) {
  if (number != NULL && sizeof *number != sizeof *here && is_written) *number = (size_t)*here;
}

/* Returns an end, or the largest size if that is narrower than the end. */
static size_t as_size(uint64_t end) { return end < SIZE_MAX ? (size_t)end : SIZE_MAX; }

static int has_size(wkb_status status) { return status == WKB_STATUS_OK || status == WKB_STATUS_NO_ROOM; }

unsigned wkb_version(void) { return WKB_VERSION; }

const char *wkb_status_text(wkb_status status) {
  switch (status) {
    case WKB_STATUS_OK: return "ok";
    case WKB_STATUS_NO_MEMORY: return "out of memory";
    case WKB_STATUS_NO_ROOM: return "the output buffer is too small";
    case WKB_STATUS_UNKNOWN_OPTION: return "unknown byte order, form, kind or dimension";
    case WKB_STATUS_TOO_MANY_ROWS: return "there are more rows than a count of four bytes holds";
    case WKB_STATUS_NULL_ROW: return "the row is null";
    case WKB_STATUS_BAD_OFFSETS:
      return "the row's offsets are negative, decrease or pass the end of the data, or it begins before a row ends";
    case WKB_STATUS_BAD_LEVELS: return "the row's levels don't fit its kind or each other";
    case WKB_STATUS_SHORT_HEADER: return "the input ends inside a header or before a count";
    case WKB_STATUS_INVALID_BYTE_ORDER: return "a byte order is neither 0 nor 1";
    case WKB_STATUS_CODE_OUT_OF_RANGE: return "unknown geometry type code";
    case WKB_STATUS_INCORRECT_TYPE: return "a member has the wrong kind, dimension or SRID for its multi geometry";
    case WKB_STATUS_NESTING_DEPTH_EXCEEDED: return "a collection is inside 128 others";
    case WKB_STATUS_SHORT_POINT: return "the input ends inside a point";
    case WKB_STATUS_SHORT_LINE_STRING: return "the input ends inside a line string";
    case WKB_STATUS_SHORT_MULTI_POINT: return "the input ends inside a multi point";
    case WKB_STATUS_SHORT_LINEAR_RING: return "the input ends inside a ring";
  }
  if (wkb_status_is_early_end(status)) return "the input ends too early";
  if (wkb_status_is_refusal(status)) return "the input is refused";
  if (wkb_status_is_of_row(status)) return "something is wrong with the row";
  return "the call failed";
}

int wkb_status_is_refusal(wkb_status status) { return status >= 32; }

const char *wkb_kind_text(wkb_kind kind) {
  switch (kind) {
    case WKB_KIND_RING: return "ring";
    case WKB_KIND_POINT: return "point";
    case WKB_KIND_LINE_STRING: return "linestring";
    case WKB_KIND_POLYGON: return "polygon";
    case WKB_KIND_MULTI_POINT: return "multipoint";
    case WKB_KIND_MULTI_LINE_STRING: return "multilinestring";
    case WKB_KIND_MULTI_POLYGON: return "multipolygon";
    case WKB_KIND_GEOMETRY_COLLECTION: return "geometrycollection";
  }
  return "unknown kind";
}

/* A text that grows in a buffer. Characters that don't fit are only counted. */
typedef struct growing {
  char *out;
  size_t room;
  size_t length;
} growing;

static void add_letter(growing *text, char letter) {
  if (text->room > text->length + 1) text->out[text->length] = letter;
  text->length++;
}

static void add(growing *text, const char *words) {
  for (; *words != 0; words++) add_letter(text, *words);
}

/* No function of the system writes the digits, since a call may come from a signal handler. */
static void add_number(growing *text, const char *before, uint64_t number) {
  uint64_t power = 1;
  add(text, before);
  while (number / power >= 10) power *= 10;
  for (; power > 0; power /= 10) add_letter(text, (char)('0' + number / power % 10));
}

/* Returns the name of a code that isn't read, by OGC 06-103r4, whatever its dimension and its SRID; null if it has
 * none. */
static const char *unread_kind(uint32_t code) {
  static const char *const NAMES[] = {
      "a circular string", "a compound curve", "a curve polygon", "a multi curve", "a multi surface",
      "a curve", "a surface", "a polyhedral surface", "a TIN", "a triangle"};
  enum { FIRST = 8, COUNT = sizeof NAMES / sizeof NAMES[0] };
  uint32_t number = code & 0x1fffffff, kind = number % 1000;
  return number < 4000 && kind >= FIRST && kind < FIRST + COUNT ? NAMES[kind - FIRST] : NULL;
}

static void add_code(growing *text, uint32_t code) {
  const char *name = unread_kind(code);
  add_number(text, " ", code);
  if (name == NULL) return;
  add(text, ", "), add(text, name), add(text, ", which this library does not read");
}

size_t wkb_fault_text(const wkb_fault *fault, char *out, size_t room) {
  growing text = {out, room, 0};
  add(&text, wkb_status_text(fault->status));
  if (fault->status == WKB_STATUS_CODE_OUT_OF_RANGE) add_code(&text, fault->code);
  if (wkb_status_is_refusal(fault->status)) {
    add_number(&text, ", at byte ", fault->offset);
    add_number(&text, " (part ", fault->part);
    add(&text, ")");
  }
  if (fault->status >= WKB_STATUS_SHORT_POINT) {
    add_number(&text, ": it needs ", fault->end);
    add_number(&text, " bytes and has ", fault->len);
  }
  if (room > 0) out[text.length < room ? text.length : room - 1] = 0;
  return text.length;
}

wkb_status wkb_check(const void *buf, size_t len, wkb_found *found, wkb_fault *fault) {
  wkb_found found_here;
  wkb_fault fault_here;
  return wkb_raw_check(bytes_of(buf, len), len, found ? found : &found_here, fault ? fault : &fault_here);
}

wkb_status wkb_bounds(const void *buf, size_t len, wkb_box *box, wkb_fault *fault) {
  wkb_box box_here;
  wkb_fault fault_here;
  return wkb_raw_bounds(bytes_of(buf, len), len, box ? box : &box_here, fault ? fault : &fault_here);
}

wkb_status wkb_write(const void *buf, size_t len, const wkb_options *options, void *out, size_t room, size_t *size,
                     wkb_fault *fault) {
  uint8_t out_here;
  uint64_t size_here;
  wkb_fault fault_here;
  wkb_status status = wkb_raw_write(bytes_of(buf, len), len, options, room == 0 ? &out_here : (uint8_t *)out, room,
                                    number_of(size, &size_here), fault ? fault : &fault_here);
  pass_on(&size_here, size, has_size(status));
  return status;
}

wkb_status wkb_same(const void *a, size_t a_len, const void *b, size_t b_len, uint32_t *equal, wkb_fault *fault,
                    uint32_t *which) {
  uint32_t equal_here;
  uint32_t which_here;
  wkb_fault fault_here;
  return wkb_raw_same(bytes_of(a, a_len), a_len, bytes_of(b, b_len), b_len, equal ? equal : &equal_here,
                      fault ? fault : &fault_here, which ? which : &which_here);
}

wkb_status wkb_parts(const void *buf, size_t len, wkb_part *parts, size_t room, size_t *count, wkb_fault *fault) {
  wkb_part part_here;
  uint64_t count_here;
  wkb_fault fault_here;
  wkb_status status = wkb_raw_parts(bytes_of(buf, len), len, room == 0 ? &part_here : parts, room,
                                    number_of(count, &count_here), fault ? fault : &fault_here);
  pass_on(&count_here, count, has_size(status));
  return status;
}

uint32_t wkb_next_part(const void *buf, size_t len, wkb_part *part) {
  return wkb_raw_next_part(bytes_of(buf, len), len, part);
}

/* Returns the bytes of all offsets of a column; none if no row has an offset. */
static size_t offsets_len(const wkb_column *column) {
  size_t size = column->offset_size;
  if (column->rows == 0 || (size != sizeof(int32_t) && size != sizeof(int64_t))) return 0;
  return column->rows < SIZE_MAX / size ? size * (column->rows + 1) : 0;
}

/* Returns the bytes of a validity bitmap up to the bit of the last of some rows; none without validity or rows. */
static size_t validity_len(const void *validity, size_t first, size_t rows) {
  size_t more = rows - 1;
  if (validity == NULL || rows == 0) return 0;
  return first / 8 + more / 8 + (first % 8 + more % 8) / 8 + 1;
}

/* Returns the same column with the lengths of its buffers. */
static wkb_raw_column unpacked(const wkb_column *column) {
  size_t offsets = offsets_len(column);
  size_t validity = validity_len(column->validity, column->validity_offset, column->rows);
  wkb_raw_column raw = {
      .bytes = bytes_of(column->data, column->size),
      .bytes_len = column->size,
      .offsets = bytes_of(column->offsets, offsets),
      .offsets_len = offsets,
      .offset_size = column->offset_size,
      .validity = bytes_of(column->validity, validity),
      .validity_len = validity,
      .validity_offset = column->validity_offset,
  };
  return raw;
}

void wkb_column_check(const wkb_column *column, uint8_t *statuses) {
  if (column->rows == 0) return;
  wkb_raw_column raw = unpacked(column);
  wkb_raw_column_check(&raw, statuses, column->rows);
}

void wkb_column_found(const wkb_column *column, wkb_found *found, uint8_t *statuses) {
  if (found == NULL) wkb_column_check(column, statuses);
  if (found == NULL || column->rows == 0) return;
  wkb_raw_column raw = unpacked(column);
  wkb_raw_column_found(&raw, found, column->rows, statuses, column->rows);
}

void wkb_column_bounds(const wkb_column *column, wkb_box *boxes, uint8_t *statuses) {
  if (column->rows == 0) return;
  wkb_raw_column raw = unpacked(column);
  wkb_raw_column_bounds(&raw, boxes, column->rows, statuses, column->rows);
}

size_t wkb_column_parts(const wkb_column *column, wkb_part *parts, size_t room, uint64_t *ends, uint8_t *statuses) {
  wkb_part part_here;
  size_t rows = column->rows;
  if (rows == 0) return 0;
  wkb_raw_column raw = unpacked(column);
  wkb_raw_column_parts(&raw, room == 0 ? &part_here : parts, room, ends, rows, statuses, rows);
  return as_size(ends[rows - 1]);
}

size_t wkb_column_write(const wkb_column *column, const wkb_options *options, void *out, size_t room, uint64_t *ends,
                        uint8_t *statuses) {
  uint8_t out_here;
  size_t rows = column->rows;
  if (rows == 0) return 0;
  wkb_raw_column raw = unpacked(column);
  wkb_raw_column_write(&raw, options, room == 0 ? &out_here : (uint8_t *)out, room, ends, rows, statuses, rows);
  return as_size(ends[rows - 1]);
}

wkb_status wkb_collect(const wkb_column *column, wkb_kind kind, wkb_dim dimension, const wkb_options *options,
                       void *out, size_t room, size_t *size, wkb_fault *fault, size_t *row) {
  uint8_t out_here;
  uint64_t size_here, row_here;
  wkb_fault fault_here;
  wkb_raw_column raw = unpacked(column);
  wkb_status status = wkb_raw_collect(&raw, column->rows, kind, dimension, options,
                                      room == 0 ? &out_here : (uint8_t *)out, room, number_of(size, &size_here),
                                      fault ? fault : &fault_here, number_of(row, &row_here));
  pass_on(&size_here, size, has_size(status));
  pass_on(&row_here, row, status >= WKB_STATUS_NULL_ROW);
  return status;
}

void wkb_column_coordinates(const wkb_column *column, wkb_dim dimension, wkb_coordinates *out, uint8_t *statuses) {
  double word_here;
  uint64_t ring_end_here, single_end_here;
  wkb_raw_totals totals = {0, 0, 0};
  size_t rows = column->rows;
  if (rows > 0) {
    wkb_raw_column raw = unpacked(column);
    wkb_raw_level_slices slices = {
        .words = out->words_room == 0 ? &word_here : out->words,
        .words_room = out->words_room,
        .ring_ends = out->ring_room == 0 ? &ring_end_here : out->ring_ends,
        .ring_room = out->ring_room,
        .single_ends = out->single_room == 0 ? &single_end_here : out->single_ends,
        .single_room = out->single_room,
    };
    wkb_raw_column_coordinates(&raw, dimension, &slices, out->row_ends, rows, &totals, statuses, rows);
  }
  out->coordinates = totals.coordinates;
  out->rings = totals.rings;
  out->singles = totals.singles;
}

/* Returns levels with the lengths of their slices, if there are rows. */
static wkb_raw_level_column unpacked_levels(const wkb_levels *levels) {
  size_t validity = validity_len(levels->validity, levels->validity_offset, levels->rows);
  wkb_raw_level_column raw = {
      .words = levels->word_count == 0 ? (const double *)NOTHING : levels->words,
      .word_count = levels->word_count,
      .ring_ends = levels->ring_ends ? levels->ring_ends : NOTHING,
      .ring_end_count = levels->ring_ends ? levels->rings : 0,
      .rings = levels->rings,
      .single_ends = levels->single_ends ? levels->single_ends : NOTHING,
      .single_end_count = levels->single_ends ? levels->singles : 0,
      .singles = levels->singles,
      .row_ends = levels->row_ends ? levels->row_ends : NOTHING,
      .row_end_count = levels->row_ends ? levels->rows : 0,
      .rows = levels->rows,
      .validity = bytes_of(levels->validity, validity),
      .validity_len = validity,
      .validity_offset = levels->validity_offset,
  };
  return raw;
}

size_t wkb_column_from_coordinates(const wkb_levels *levels, wkb_kind kind, wkb_dim dimension,
                                   const wkb_options *options, void *out, size_t room, uint64_t *ends,
                                   uint8_t *statuses) {
  uint8_t out_here;
  size_t rows = levels->rows;
  if (rows == 0) return 0;
  wkb_raw_level_column raw = unpacked_levels(levels);
  wkb_raw_column_from_coordinates(&raw, kind, dimension, options, room == 0 ? &out_here : (uint8_t *)out, room, ends,
                                  rows, statuses, rows);
  return as_size(ends[rows - 1]);
}

void wkb_words(const void *buf, const wkb_part *part, uint64_t first, uint64_t count, double *out) {
  uint64_t words = part->width * count;
  if (words == 0) return;
  const uint8_t *bytes = (const uint8_t *)buf + part->offset + 8 * part->width * first;
  if (part->order == OTHER_ORDER) {
    for (uint64_t k = 0; k < words; k++) {
      uint64_t word = OTHER_ORDER == WKB_ORDER_BIG ? wkb_big_word(bytes + 8 * k) : wkb_little_word(bytes + 8 * k);
      memcpy(out + k, &word, sizeof word);
    }
    return;
  }
  /* The few words of a point are copied here, since a call takes longer. */
  if (words > 4) {
    memcpy(out, bytes, 8 * words);
    return;
  }
  for (uint64_t k = 0; k < words; k++) memcpy(out + k, bytes + 8 * k, sizeof *out);
}
