/* The calls where test/lasting.rows has no answers: with null, with options that mean nothing, and over columns whose
 * offsets are bad, overlap or have another size. */
#include "shared.h"

#define BAD WKB_STATUS_BAD_OFFSETS
#define GOOD WKB_STATUS_OK
#define NONE WKB_STATUS_NULL_ROW
enum { MOST = 13, UNKNOWN = 6, COLUMN_CALLS = 8, FIRST_BIT = 5, ROOM = 512, UNTOUCHED = 0x5a };
static const wkb_options NO_ORDER = {2, WKB_FORM_ISO, 4326}, NO_FORM = {WKB_ORDER_BIG, 4, 4326};
static const wkb_kind KIND = WKB_KIND_MULTI_POINT;
static const wkb_column NO_ROWS = {NULL, 0, NULL, 0, NULL, 0, 0};

/* Four points, so many offsets over them, the rows that aren't null, and the status of each row. */
static const char POINTS[] = "01 01000000 P 01 01000000 P 01 01000000 P 01 01000000 P";
static const struct {
  int64_t offsets[MOST + 1];
  size_t rows;
  uint32_t present;
  wkb_status statuses[MOST];
} COLUMNS[] = {
    /* Offsets that decrease, pass the end, are negative or begin before a row ends, and good ones between them. */
    {{0, 21, 20, 42, 63, -1, 84, INT64_MIN, 0, 21, INT64_MAX, 63, 84, 85}, 13, 0x1fff,
     {GOOD, BAD, BAD, GOOD, BAD, BAD, BAD, BAD, BAD, BAD, BAD, GOOD, BAD}},
    {{0, 21, 0, 21, 0, 21}, 5, 0x1f, {GOOD, BAD, BAD, BAD, BAD}},     /* the same row again and again */
    {{0, 21, 42, 21, 42, 63}, 5, 0x1f, {GOOD, GOOD, BAD, BAD, GOOD}}, /* what is behind all rows is read */
    {{0, 42, 21, 63, 42, 63}, 5, 0x1f, {GOOD, BAD, BAD, BAD, BAD}},   /* a row that overlaps one ends after it */
    {{0, 42, 0, 21, 42, 63}, 5, 0x1e, {NONE, BAD, BAD, BAD, GOOD}},   /* a null row ends too */
    {{0, 85, 0, 21, 21, 42}, 5, 0x1f, {BAD, BAD, GOOD, WKB_STATUS_SHORT_HEADER, GOOD}}, /* not one past the end */
    {{-5, 42, 0, 21, 42, 63}, 5, 0x1f, {BAD, BAD, GOOD, GOOD, GOOD}},                   /* nor before the front */
    {{-5, -3, 0, 21, 42, 63}, 5, 0x1f, {BAD, BAD, GOOD, GOOD, GOOD}},
    {{0, 21, 42, 63}, 3, 5, {GOOD, NONE, GOOD}},
    {{0, 21, 20, 63}, 3, 5, {GOOD, NONE, BAD}},
    {{21, 0, 42, 63}, 3, 5, {BAD, NONE, GOOD}},
    {{0, 21, 42, 63, 84}, 4, 15, {GOOD, GOOD, GOOD, GOOD}},
};

/* One of the calls that give each row of a column a status. Those from UNKNOWN on are asked for what has no meaning. */
static void ask(int call, const wkb_column *of, uint8_t *statuses) {
  static uint8_t out[ROOM];
  static uint64_t ends[MOST], ring_ends[ROOM], single_ends[ROOM];
  static double words[ROOM];
  static wkb_found found[MOST];
  static wkb_box boxes[MOST];
  static wkb_part parts[MOST];
  wkb_coordinates to = {words, ROOM, ring_ends, ROOM, single_ends, ROOM, ends, 77, 77, 77};
  size_t last = 0;
  memset(statuses, UNTOUCHED, MOST), memset(ends, 0, sizeof ends);
  if (call == 0) wkb_column_check(of, statuses);
  if (call == 1) wkb_column_found(of, found, statuses);
  if (call == 2) wkb_column_bounds(of, boxes, statuses);
  if (call == 3) last = wkb_column_parts(of, parts, MOST, ends, statuses);
  if (call == 4) last = wkb_column_write(of, &LITTLE_ISO, out, ROOM, ends, statuses);
  if (call == 5) wkb_column_coordinates(of, WKB_DIM_XY, &to, statuses), last = ends[of->rows - 1];
  if (call == 6) last = wkb_column_write(of, &NO_FORM, out, ROOM, ends, statuses);
  if (call == 7) wkb_column_coordinates(of, 4, &to, statuses), last = to.coordinates + to.rings + to.singles;
  expect(last == ends[of->rows - 1] && (call < UNKNOWN || last == 0), "the last end", "hostile columns");
}

/* A row's status in a call. With offsets of any other size than four and eight bytes each is bad. */
static wkb_status status_in(int call, wkb_status of, size_t offset_size) {
  if (of == NONE) return NONE;
  if (of == BAD || (offset_size != 4 && offset_size != 8)) return BAD;
  return call < UNKNOWN ? of : WKB_STATUS_UNKNOWN_OPTION;
}

/* Each call gives these statuses, and a collection of all rows is that of the first which is no member. */
static void rows_are(const wkb_column *of, const wkb_status *expected) {
  uint8_t statuses[MOST], out[ROOM];
  size_t size = 77, row = 77, first = 0;
  wkb_fault fault = {7, 7, 7, 7, 7, 7};
  for (int call = COLUMN_CALLS; call-- > 0;) {
    ask(call, of, statuses);
    for (size_t i = 0; i < of->rows; i++)
      expect(statuses[i] == status_in(call, expected[i], of->offset_size), "the status of a hostile row", "");
  }
  while (first < of->rows && statuses[first] == GOOD) first++;
  const bool is_good = first == of->rows;
  const wkb_status status = wkb_collect(of, KIND, WKB_DIM_XY, &LITTLE_ISO, out, ROOM, &size, &fault, &row);
  expect(status == (is_good ? GOOD : statuses[first]) && fault.status == 7, "the status of a bad row", "");
  expect(is_good ? size == 9 + 21 * first && row == 77 : size == 77 && row == first, "what a bad row writes", "");
}

static void hostile_columns_are_told(void) {
  static const size_t SIZES[] = {8, 4, 0, 1, 2, 3, 5, 7, 16, SIZE_MAX};
  uint8_t data[84];
  const size_t size = spelled(POINTS, data);
  for (size_t k = 0; k < sizeof COLUMNS / sizeof COLUMNS[0]; k++) {
    const uint32_t present = COLUMNS[k].present << FIRST_BIT;
    const uint8_t bits[] = {(uint8_t)present, (uint8_t)(present >> 8), (uint8_t)(present >> 16)};
    int32_t narrow[MOST + 1];
    for (size_t i = 0; i <= MOST; i++) {
      const int64_t it = COLUMNS[k].offsets[i];
      narrow[i] = it < INT32_MIN ? INT32_MIN : it > INT32_MAX ? INT32_MAX : (int32_t)it;
    }
    const void *const offsets[] = {COLUMNS[k].offsets, narrow, COLUMNS[k].offsets, NULL};
    for (size_t i = 0; i < sizeof SIZES / sizeof SIZES[0]; i++) {
      wkb_column of = {data, size, offsets[i < 2 ? i : 2 + i % 2], SIZES[i], bits, FIRST_BIT, COLUMNS[k].rows};
      rows_are(&of, COLUMNS[k].statuses);
    }
  }
}

/* Null may be given for what is empty and for results that aren't wanted. */
static void null_is_allowed(void) {
  uint8_t point[21];
  size_t len = spelled("01 01000000 P", point);
  uint32_t which = 0;
  wkb_status ended = WKB_STATUS_SHORT_HEADER, no_room = WKB_STATUS_NO_ROOM;
  expect(wkb_check(NULL, 0, NULL, NULL) == ended, "null", "check nothing");
  expect(wkb_check(point, len, NULL, NULL) == GOOD, "null", "check");
  expect(wkb_bounds(NULL, 0, NULL, NULL) == ended, "null", "bounds of nothing");
  expect(wkb_bounds(point, len, NULL, NULL) == GOOD, "null", "bounds");
  expect(wkb_write(NULL, 0, &LITTLE_ISO, NULL, 0, NULL, NULL) == ended, "null", "write");
  expect(wkb_write(point, len, &LITTLE_ISO, NULL, 0, NULL, NULL) == no_room, "null", "write, no room");
  expect(wkb_same(NULL, 0, point, len, NULL, NULL, &which) == ended && which == 1, "null", "the first");
  expect(wkb_same(point, len, NULL, 0, NULL, NULL, &which) == ended && which == 2, "null", "the second");
  expect(wkb_same(point, len, point, len, NULL, NULL, NULL) == GOOD, "null", "same");
  expect(wkb_parts(NULL, 0, NULL, 0, NULL, NULL) == ended, "null", "parts");
  expect(wkb_parts(point, len, NULL, 0, NULL, NULL) == no_room, "null", "parts, no room");
  wkb_words(NULL, &(wkb_part){.width = 2}, 0, 0, NULL);
  wkb_part any, before;
  memset(&any, 0xff, sizeof any), memset(&before, 0xff, sizeof before);
  expect(wkb_next_part(NULL, 0, &any) == 0 && wkb_next_part(point, len, &any) == 0, "any numbers", "no part");
  expect(memcmp(&any, &before, sizeof any) == 0, "any numbers", "the part is written");
  spelled("W", point);
  expect(wkb_little_word(point) == 0x3ff0000000000000 && wkb_big_word(point) == 0xf03f, "the number in a word", "");
}

/* Without rows every pointer may be null, and without bytes that to them. */
static void null_is_allowed_without_rows(void) {
  static const wkb_levels NO_LEVELS = {NULL, 0, NULL, 0, NULL, 0, NULL, 0, NULL, 0};
  static const int64_t ZEROS[2] = {0, 0};
  const wkb_column empty = {NULL, 0, ZEROS, 8, NULL, 0, 1};
  wkb_coordinates to = {NULL, 0, NULL, 0, NULL, 0, NULL, 77, 77, 77};
  uint8_t statuses[MOST];
  wkb_column_check(&NO_ROWS, NULL), wkb_column_found(&NO_ROWS, NULL, NULL), wkb_column_bounds(&NO_ROWS, NULL, NULL);
  expect(wkb_column_parts(&NO_ROWS, NULL, 0, NULL, NULL) == 0, "no rows", "parts");
  expect(wkb_column_write(&NO_ROWS, &LITTLE_ISO, NULL, 0, NULL, NULL) == 0, "no rows", "write");
  expect(wkb_column_from_coordinates(&NO_LEVELS, 1, 0, &LITTLE_ISO, NULL, 0, NULL, NULL) == 0, "no rows", "levels");
  wkb_column_coordinates(&NO_ROWS, WKB_DIM_XY, &to, NULL);
  expect(to.coordinates == 0 && to.rings == 0 && to.singles == 0, "no rows", "coordinates");
  for (int call = 0; call < UNKNOWN; call++) {
    ask(call, &empty, statuses);
    expect(statuses[0] == WKB_STATUS_SHORT_HEADER, "no data", "");
  }
}

static void null_is_allowed_in_collections(void) {
  static const int64_t OFFSETS[3] = {0, 21, 41};
  const wkb_status no_room = WKB_STATUS_NO_ROOM, cut = WKB_STATUS_SHORT_POINT;
  uint8_t data[84], out[51];
  size_t size = 77;
  spelled(POINTS, data);
  expect(wkb_collect(&NO_ROWS, KIND, 0, &LITTLE_ISO, NULL, 0, NULL, NULL, NULL) == no_room, "null", "no room");
  expect(wkb_collect(&NO_ROWS, KIND, 0, &LITTLE_ISO, out, 9, &size, NULL, NULL) == GOOD && size == 9, "null", "none");
  wkb_column column = {data, sizeof data, OFFSETS, 8, NULL, 0, 2};
  expect(wkb_collect(&column, KIND, 0, &LITTLE_ISO, out, 51, NULL, NULL, NULL) == cut, "null", "a refused row");
  wkb_fault fault;
  expect(wkb_collect(&column, KIND, 0, &LITTLE_ISO, out, 51, NULL, &fault, NULL) == cut, "null", "the fault alone");
  expect(fault.status == cut && fault.offset == 0 && fault.end == 21 && fault.len == 20, "the fault of a member", "");
  column.rows = 1;
  expect(wkb_collect(&column, KIND, 0, &LITTLE_ISO, NULL, 0, NULL, NULL, NULL) == no_room, "null", "no size");
  expect(wkb_collect(&column, KIND, 0, &LITTLE_ISO, out, 30, NULL, NULL, NULL) == GOOD, "null", "a row");
  column.data = NULL, column.size = 0;
  expect(wkb_collect(&column, KIND, 0, &LITTLE_ISO, out, 30, NULL, NULL, NULL) == BAD, "null", "no data");
}

/* A point that has an infinity beside NaNs is not empty: from each order its words go into each as they are. */
static void points_with_infinities_are_written(void) {
  static const char *const TEXTS[] = {"01 01000000 IN",   "01 01000000 NI",   "01 e9030000 INN",
                                      "01 e9030000 NJN",  "01 e9030000 NNI",  "01 b90b0000 INNN",
                                      "01 b90b0000 NJNN", "01 b90b0000 NNIN", "01 b90b0000 NNNJ"};
  for (size_t i = 0; i < sizeof TEXTS / sizeof TEXTS[0]; i++) {
    uint8_t encodings[2][37] = {{0}}, out[37];
    uint8_t *big = encodings[WKB_ORDER_BIG], *little = encodings[WKB_ORDER_LITTLE];
    const size_t len = spelled(TEXTS[i], little);
    for (size_t k = 0; k < 4; k++) big[1 + k] = little[4 - k];
    for (size_t k = 5; k < len; k++) big[k] = little[5 + ((k - 5) ^ 7)];
    for (unsigned k = 0; k < 4; k++) {
      const wkb_options options = {k % 2, WKB_FORM_ISO, 0};
      const wkb_status status = wkb_write(encodings[k / 2], len, &options, out, len, NULL, NULL);
      expect(status == GOOD && memcmp(out, encodings[k % 2], len) == 0, "a point with an infinity", TEXTS[i]);
    }
  }
}

/* An unknown order or form is reported before the input is looked at, and nothing is written. */
static void options_are_unknown(void) {
  const wkb_options *const unknown[] = {&NO_ORDER, &NO_FORM};
  uint8_t bytes[84], out[64], before[64];
  const size_t len = spelled(POINTS, bytes);
  static const double WORDS[2] = {1, 2};
  const wkb_levels levels = {WORDS, 2, NULL, 1, NULL, 1, NULL, 1, NULL, 0}, one = wkb_one_point(WORDS, 2);
  expect(memcmp(&one, &levels, sizeof one) == 0, "the levels of one point", "");
  memset(out, UNTOUCHED, sizeof out), memset(before, UNTOUCHED, sizeof before);
  for (int i = 0; i < 2; i++) {
    size_t size = 77;
    uint64_t end;
    uint8_t status;
    const wkb_status wanted = WKB_STATUS_UNKNOWN_OPTION;
    wkb_column_from_coordinates(&levels, WKB_KIND_POINT, WKB_DIM_XY, unknown[i], out, sizeof out, &end, &status);
    expect(status == wanted && end == 0, "an unknown option", "levels");
    expect(wkb_write(NULL, 0, unknown[i], NULL, 0, NULL, NULL) == wanted, "options come first", "");
    expect(wkb_write(bytes, len, unknown[i], out, sizeof out, &size, NULL) == wanted, "an unknown option", "");
    expect(size == 77 && memcmp(out, before, sizeof out) == 0, "what an unknown option writes", "");
  }
}

/* A collection of rows that can't be read is told by this status, and nothing is written. */
static void is_told(size_t rows, wkb_kind kind, wkb_dim dimension, wkb_options options, wkb_status status) {
  static const uint8_t *unreadable;
  uint8_t out[8], before[8];
  size_t size = 77, row = 77;
  wkb_fault fault = {7, 7, 7, 7, 7, 7};
  if (!unreadable) unreadable = end_of_pages(1);
  memset(out, UNTOUCHED, sizeof out), memset(before, UNTOUCHED, sizeof before);
  for (size_t offset_size = 3; offset_size < 9; offset_size++) {
    const wkb_column column = {unreadable, 42, unreadable, offset_size, unreadable, 0, rows};
    expect(wkb_collect(&column, kind, dimension, &options, out, 8, &size, &fault, &row) == status, "a collection", "");
    expect(size == 77 && row == 77 && fault.status == 7 && memcmp(out, before, 8) == 0, "what is collected", "");
  }
}

/* Kinds, dimensions and options without a meaning are told first, and then too many rows. No row is read for either.
 * A size_t of 32 bits holds no count of too many rows. */
static void no_row_is_read_in_vain(void) {
  static const uint64_t MANY = (uint64_t)1 << 32;
  const uint64_t counts[] = {0, 3, MANY - 1, MANY, MANY + 1, UINT64_MAX};
  static const uint32_t NO_KINDS[] = {0, 1, 3, 8, 1004, UINT32_MAX};
  const wkb_status unknown = WKB_STATUS_UNKNOWN_OPTION;
  for (size_t i = 0; i < sizeof counts / sizeof counts[0] && counts[i] == (size_t)counts[i]; i++) {
    for (int k = 0; k < 6; k++) is_told(counts[i], NO_KINDS[k], WKB_DIM_XY, LITTLE_ISO, unknown);
    is_told(counts[i], KIND, 4, LITTLE_ISO, unknown);
    is_told(counts[i], KIND, UINT32_MAX, LITTLE_ISO, unknown);
    is_told(counts[i], KIND, WKB_DIM_XY, NO_ORDER, unknown);
    is_told(counts[i], KIND, WKB_DIM_XY, NO_FORM, unknown);
    if (counts[i] >= MANY) is_told(counts[i], KIND, WKB_DIM_XY, LITTLE_ISO, WKB_STATUS_TOO_MANY_ROWS);
  }
}

void calls_are_right(void) {
  hostile_columns_are_told();
  null_is_allowed();
  null_is_allowed_without_rows();
  null_is_allowed_in_collections();
  points_with_infinities_are_written();
  options_are_unknown();
  no_row_is_read_in_vain();
}
