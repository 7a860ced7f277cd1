/* The inputs of test/lasting.rows as one column, between null rows, in each call for columns: its answers are those of
 * the rows, and members are collected again. wkb_hpp_test.cpp has the rows come back from their levels. Validity begins
 * at some bit, and offsets have either size and any address. */
#include "lasting.h"
#include <math.h>

/* The rows of the column, with the null ones. Levels have at most a coordinate for 16 bytes. */
enum { ROWS = LASTING_MOST + 2, DATA_MOST = BYTES_MOST + 2 * 21, OUT_MOST = 2 * DATA_MOST, PARTS_MOST = 20000 };
enum { WORDS_MOST = 40000, ENDS_MOST = 20000 };
static const size_t WIDTHS[] = {2, 3, 3, 4};
/* The options under which no row keeps an SRID of its own. */
static const uint32_t NUMBERS[] = {0, 2, 3, 4, 6, 7};

static const lasting *of;
static size_t rows, size;
static uint8_t data[DATA_MOST], narrow[4 * (ROWS + 1)], wide[8 * (ROWS + 1) + 1], validity[ROWS / 8 + 12];
static uint8_t statuses[ROWS + 1], out[OUT_MOST];
static uint64_t ends[ROWS + 1], ring_ends[ENDS_MOST], single_ends[ENDS_MOST];
static wkb_found found[ROWS + 1];
static wkb_box boxes[ROWS + 1];
static wkb_part parts[PARTS_MOST];
static double words[WORDS_MOST];

static bool is_null(size_t row) { return row == 0 || row == rows - 1; }
static bool is_good(size_t row) { return !is_null(row) && of[row - 1].status == WKB_STATUS_OK; }

/* A row's status where what is made of it ends at this place of a room. */
static uint32_t status_in(size_t row, uint64_t end, size_t room) {
  if (is_null(row)) return WKB_STATUS_NULL_ROW;
  return is_good(row) && end > room ? WKB_STATUS_NO_ROOM : of[row - 1].status;
}

static void statuses_are(const char *what) {
  for (size_t i = 0; i < rows; i++) expect(statuses[i] == status_in(i, 0, 0), "the status of a row", what);
  expect(statuses[rows] == UNTOUCHED, "a status more was written", what);
}

static void put_offset(size_t row) {
  const int64_t offset = (int64_t)size;
  const int32_t as_narrow = (int32_t)size;
  memcpy(wide + 1 + 8 * row, &offset, sizeof offset);
  memcpy(narrow + 4 * row, &as_narrow, sizeof as_narrow);
}

/* The null rows have the bytes of a point. */
static void fill_data(void) {
  rows = lasting_rows(&of) + 2, size = 0;
  for (size_t i = 0; i < rows; put_offset(++i)) {
    put_offset(i);
    if (is_null(i)) size += spelled("01 01000000 P", data + size);
    else memcpy(data + size, of[i - 1].bytes, of[i - 1].len), size += of[i - 1].len;
  }
}

/* The bits before the first row and after the last are as those of the null rows are not. */
static wkb_column column_from(size_t first_bit, bool is_narrow) {
  memset(validity, 0xff, sizeof validity);
  validity[first_bit / 8] &= (uint8_t)~(1u << first_bit % 8);
  validity[(first_bit + rows - 1) / 8] &= (uint8_t)~(1u << (first_bit + rows - 1) % 8);
  const void *offsets = is_narrow ? at_the_end(1, narrow, 4 * (rows + 1)) : wide + 1;
  const size_t bytes = (first_bit + rows + 7) / 8;
  const wkb_column column = {at_the_end(0, data, size), size,     offsets, is_narrow ? 4 : 8,
                             at_the_end(2, validity, bytes), first_bit, rows};
  return column;
}

static void clear(void *of_call, size_t len) {
  memset(of_call, UNTOUCHED, len);
  memset(statuses, UNTOUCHED, sizeof statuses), memset(ends, UNTOUCHED, sizeof ends);
}

static void are_checked(const wkb_column *column) {
  static const wkb_found ZEROS;
  static const wkb_range NO_NUMBERS = {INFINITY, -INFINITY, 0};
  const wkb_box no_bounds = {NO_NUMBERS, NO_NUMBERS, NO_NUMBERS, NO_NUMBERS};
  clear(found, sizeof found), wkb_column_found(column, NULL, statuses), statuses_are("what nobody wants");
  clear(found, sizeof found), wkb_column_check(column, statuses), statuses_are("wkb_column_check");
  clear(found, sizeof found), wkb_column_found(column, found, statuses), statuses_are("wkb_column_found");
  clear(boxes, sizeof boxes), wkb_column_bounds(column, boxes, statuses), statuses_are("wkb_column_bounds");
  for (size_t i = 0; i < rows; i++) {
    const bool is_empty = memcmp(&found[i], &ZEROS, sizeof ZEROS) == 0;
    expect(is_good(i) ? is_found(&of[i - 1], &found[i]) : is_empty, "what is found of a row", "");
    const uint32_t wanted = is_good(i) ? of[i - 1].sums[OF_BOUNDS] : summed(NO_SUM, &no_bounds, sizeof no_bounds, 8);
    expect(summed(NO_SUM, &boxes[i], sizeof boxes[i], 8) == wanted, "the bounds of a row", "");
  }
  expect(is_kept(&found[rows], sizeof found[0]) && is_kept(&boxes[rows], sizeof boxes[0]), "a row more", "");
}

/* The parts of all rows, or under options their encodings, in a room. */
static size_t put(const wkb_column *column, const wkb_options *options, size_t room) {
  if (options == NULL) return wkb_column_parts(column, room ? parts : NULL, room, ends, statuses);
  return wkb_column_write(column, options, room ? out : NULL, room, ends, statuses);
}

/* The items of rows, of a size each, that a call has put into a room, of which it tells the ends. */
static void are_in(const uint8_t *items, size_t item, size_t room, size_t total, int sum) {
  uint64_t start = 0, last = 0;
  for (size_t i = 0; i < rows; start = ends[i++]) {
    expect(statuses[i] == status_in(i, ends[i], room), "the status of a row in a room", "");
    expect(is_good(i) ? ends[i] > start : ends[i] == start, "the end of a row", "");
    if (statuses[i] != WKB_STATUS_OK) continue;
    const uint32_t found_sum = summed(NO_SUM, items + item * start, item * (size_t)(ends[i] - start), item);
    expect(found_sum == of[i - 1].sums[sum], "the items of a row", sum == OF_PARTS ? "parts" : "bytes");
    last = ends[i];
  }
  expect(start == total && statuses[rows] == UNTOUCHED && is_kept(&ends[rows], sizeof ends[0]), "the last end", "");
  expect(is_kept(items + item * last, item * (total + 1 - last)), "more was written", "");
}

/* In room for more, for all, for all but the last item, for half of them, for one and in none. */
static void are_put(const wkb_column *column, const wkb_options *options, int sum) {
  uint8_t *items = options ? out : (uint8_t *)parts;
  const size_t item = options ? 1 : sizeof parts[0], total = put(column, options, 0);
  const size_t rooms[] = {total + 1, total, total - 1, total / 2, 1, 0};
  expect(total < (options ? (size_t)OUT_MOST : PARTS_MOST), "too many items", "");
  for (int k = 0; k < 6; k++) {
    clear(items, item * (total + 1));
    expect(put(column, options, rooms[k]) == total, "all items", "");
    are_in(items, item, rooms[k], total, sum);
  }
}

/* Ends as they are counted from the end of the row before. */
static uint32_t summed_from(uint32_t sum, const uint64_t *all, uint64_t begin, uint64_t end, uint64_t first) {
  for (uint64_t i = begin; i < end; i++) {
    const uint64_t own = all[i] - first;
    sum = summed(sum, &own, sizeof own, 8);
  }
  return sum;
}

/* The levels under each dimension, in just enough room. */
static void are_split(const wkb_column *column) {
  static uint32_t sums[ROWS];
  for (size_t i = 0; i < rows; i++) sums[i] = NO_SUM;
  for (uint32_t dimension = WKB_DIM_XY; dimension <= WKB_DIM_XYZM; dimension++) {
    wkb_coordinates it = {NULL, 0, NULL, 0, NULL, 0, ends, 0, 0, 0};
    wkb_column_coordinates(column, dimension, &it, statuses);
    it.words = words, it.words_room = (size_t)(WIDTHS[dimension] * it.coordinates);
    it.ring_ends = ring_ends, it.ring_room = (size_t)it.rings;
    it.single_ends = single_ends, it.single_room = (size_t)it.singles;
    expect(it.words_room < WORDS_MOST && it.ring_room < ENDS_MOST, "too many levels", "");
    clear(words, sizeof words);
    wkb_column_coordinates(column, dimension, &it, statuses);
    statuses_are("wkb_column_coordinates");
    uint64_t single = 0, ring = 0, coordinate = 0;
    for (size_t i = 0; i < rows; i++) {
      const uint64_t first_single = single, first_ring = ring, first = coordinate, width = WIDTHS[dimension];
      single = ends[i];
      ring = single > 0 ? single_ends[single - 1] : 0;
      coordinate = ring > 0 ? ring_ends[ring - 1] : 0;
      sums[i] = summed(sums[i], words + width * first, (size_t)(8 * width * (coordinate - first)), 8);
      if (dimension < WKB_DIM_XYZM) continue;
      sums[i] = summed_from(sums[i], ring_ends, first_ring, ring, first);
      sums[i] = summed_from(sums[i], single_ends, first_single, single, first_ring);
      const bool is_right = is_good(i) ? sums[i] == of[i - 1].sums[OF_LEVELS] : single == first_single;
      expect(is_right, "the levels of a row", "");
    }
    expect(coordinate == it.coordinates && ring == it.rings && single == it.singles, "the totals", "");
    expect(is_kept(words + it.words_room, sizeof words[0]), "words more", "");
  }
}

/* The members of a geometry as rows are collected into what is written of it, and not in less room. */
static void members_are_collected(const lasting *r, uint32_t number) {
  const wkb_options options = {number / 4, number % 4, CALLER_SRID};
  static wkb_part table[ROW_PARTS_MOST];
  static int64_t begins[ROW_PARTS_MOST + 1];
  const uint32_t kind = (uint32_t)r->fields[7], dimension = (uint32_t)r->fields[8];
  wkb_column column = {r->bytes, r->len, begins, sizeof begins[0], NULL, 0, 0};
  size_t size = 0, needed = 0;
  wkb_parts(r->bytes, r->len, table, ROW_PARTS_MOST, NULL, NULL);
  begins[0] = (int64_t)r->fields[3];
  for (uint64_t at = 1; at < table[0].next; at = table[at].next) begins[++column.rows] = (int64_t)table[at].end;
  memset(out, UNTOUCHED, r->len + 5);
  wkb_status status = wkb_collect(&column, kind, dimension, &options, out, r->len + 4, &size, NULL, NULL);
  expect(status == WKB_STATUS_OK && summed(NO_SUM, out, size, 1) == r->sums[number], "what is collected", "");
  expect(is_kept(out + size, r->len + 5 - size), "more is collected", "");
  memset(out, UNTOUCHED, size);
  status = wkb_collect(&column, kind, dimension, &options, out, size - 1, &needed, NULL, NULL);
  expect(status == WKB_STATUS_NO_ROOM && needed == size && is_kept(out, size), "a collection without room", "");
}

static void are_collected(void) {
  for (size_t i = 1; i + 1 < rows; i++)
    for (int k = 0; k < 6 && is_good(i) && of[i - 1].fields[7] >= WKB_KIND_MULTI_POINT; k++)
      members_are_collected(&of[i - 1], NUMBERS[k]);
}

void what_lasts_is_as_it_was_in_columns(void) {
  fill_data();
  const size_t first_bits[] = {0, 8 - (rows - 1) % 8, 79}; /* by the second one the last row's bit begins a byte */
  for (int i = 0; i < 6; i++) {
    const wkb_column column = column_from(first_bits[i / 2], i % 2);
    are_checked(&column);
    are_put(&column, NULL, OF_PARTS);
    for (uint32_t number = 0; number < OPTION_COUNT; number++)
      are_put(&column, &(wkb_options){number / 4, number % 4, CALLER_SRID}, (int)number);
    are_split(&column);
  }
  are_collected();
}
