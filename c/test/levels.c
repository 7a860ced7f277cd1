/* Levels that no input has, and what wkb.h says of them; wkb_hpp_test.cpp has those of all inputs under each option. */
#include "shared.h"

enum { ROWS_MOST = 10, OUT_MOST = 512 };

/* Levels of one kind, and the encoding of each row in hex, or none and the status of the row. */
typedef struct worked {
  const char *words;
  wkb_kind kind;
  wkb_dim dimension;
  size_t rings, singles, rows;
  const uint64_t *ring_ends, *single_ends, *row_ends;
  const char *encodings[ROWS_MOST];
  wkb_status statuses[ROWS_MOST];
} worked;

#define ENDS(...) (const uint64_t[]){__VA_ARGS__}
#define OK WKB_STATUS_OK
#define BAD WKB_STATUS_BAD_LEVELS
#define NONE WKB_STATUS_NULL_ROW
#define ONES ENDS(1, 2, 3, 4, 5, 6, 7, 8, 9, 10)
#define BACK ENDS(1, 0, 1, 9, 2, 1, 2, 3, 2, 4)
#define AFTER_NULL {NONE, BAD, BAD, BAD, NONE, BAD, OK, NONE, BAD, BAD}

static const worked WORKED[] = {
    /* No ends: a point each. Of NaNs it is empty, and they are written as they are. A word more is ignored. */
    {"WX NN 010000000000f87f N YZ X", WKB_KIND_POINT, WKB_DIM_XY, 5, 5, 5, NULL, NULL, NULL,
     {"01 01000000 WX", "01 01000000 NN", "01 01000000 010000000000f87f N", NULL, NULL}, {OK, OK, OK, NONE, BAD}},
    /* Ends of rings alone; no coordinates are an empty line string. The last but one ends before it begins. */
    {"WXYZYX WXY", WKB_KIND_LINE_STRING, WKB_DIM_XYZ, 5, 5, 5, ENDS(2, 2, 3, 1, 3), NULL, NULL,
     {"01 ea030000 02000000 WXY ZYX", "01 ea030000 00000000", "01 ea030000 01000000 WXY", NULL, NULL},
     {OK, OK, OK, BAD, BAD}},
    /* Two rings, and a ring that ends past the words. The items after those of the last row are ignored. */
    {"WX YZ WX ZW", WKB_KIND_POLYGON, WKB_DIM_XY, 4, 3, 2, ENDS(3, 4, 5, 9), ENDS(2, 3, 7), NULL,
     {"01 03000000 02000000 03000000 WX YZ WX 01000000 ZW", NULL}, {OK, BAD}},
    /* Points one each, under rows of several. */
    {"WXY ZYX YYY", WKB_KIND_MULTI_POINT, WKB_DIM_XYM, 3, 3, 4, NULL, NULL, ENDS(2, 2, 3, 4),
     {"01 d4070000 02000000 01 d1070000 WXY 01 d1070000 ZYX", "01 d4070000 00000000",
      "01 d4070000 01000000 01 d1070000 YYY", NULL}, {OK, OK, OK, BAD}},
    /* Row 1 ends before it begins, and row 2 begins before row 0 ends. */
    {"WXYZ ZYXW", WKB_KIND_MULTI_POLYGON, WKB_DIM_XYZM, 2, 2, 4, ENDS(1, 2), ENDS(1, 2), ENDS(2, 0, 1, 2),
     {"01 be0b0000 02000000 01 bb0b0000 01000000 01000000 WXYZ 01 bb0b0000 01000000 01000000 ZYXW", NULL, NULL, NULL},
     {OK, BAD, BAD, BAD}},
    /* The levels of a rejected row, and of collections of a point and of an empty line string. */
    {"WX", WKB_KIND_MULTI_POINT, WKB_DIM_XY, 2, 2, 3, ENDS(1, 1), ENDS(1, 2), ENDS(0, 1, 2),
     {"01 04000000 00000000", "01 04000000 01000000 01 01000000 WX", NULL}, {OK, OK, BAD}},
    {"WX", WKB_KIND_LINE_STRING, WKB_DIM_XY, 2, 2, 3, ENDS(1, 1), ENDS(1, 2), ENDS(0, 1, 2),
     {NULL, "01 02000000 01000000 WX", "01 02000000 00000000"}, {BAD, OK, OK}},
    /* Null rows end too, where they don't end before they begin. In each, one level has these ends. */
    {"WX YZ ZW WX", WKB_KIND_LINE_STRING, WKB_DIM_XY, 10, 10, 10, BACK, NULL, NULL,
     {[6] = "01 02000000 01000000 YZ"}, AFTER_NULL},
    {"WX YZ ZW WX", WKB_KIND_POLYGON, WKB_DIM_XY, 4, 10, 10, ONES, BACK, NULL,
     {[6] = "01 03000000 01000000 01000000 YZ"}, AFTER_NULL},
    {"WX YZ ZW WX", WKB_KIND_MULTI_POINT, WKB_DIM_XY, 4, 4, 10, NULL, NULL, BACK,
     {[6] = "01 04000000 01000000 01 01000000 YZ"}, AFTER_NULL},
    {"WX YZ ZW WX", WKB_KIND_MULTI_POLYGON, WKB_DIM_XY, 10, 10, 10, BACK, ONES, ONES,
     {[6] = "01 06000000 01000000 01 03000000 01000000 01000000 YZ"}, AFTER_NULL},
};

static const uint64_t *ends_at(int place, const uint64_t *ends, size_t count) {
  return ends ? at_the_end(place, ends, 8 * count) : NULL;
}

/* The bit of the first row is bit 5, so that other rows have bits of the byte behind. In a room that is a byte too
 * small the last encoding has none. */
static void rows_are_written(const worked *w) {
  double words[32];
  uint8_t out[OUT_MOST], statuses[ROWS_MOST], wanted[OUT_MOST], present[2] = {0, 0}, bytes[sizeof words];
  uint64_t ends[ROWS_MOST];
  size_t count = spelled(w->words, bytes) / sizeof words[0], start = 0;
  const wkb_part part = {.width = 1, .order = WKB_ORDER_LITTLE};
  wkb_words(bytes, &part, 0, count, words);
  for (size_t i = 0; i < w->rows; i++) present[(5 + i) / 8] |= (uint8_t)((w->statuses[i] != NONE) << (5 + i) % 8);
  const wkb_levels levels = {at_the_end(0, words, 8 * count), count, ends_at(1, w->ring_ends, w->rings), w->rings,
                             ends_at(2, w->single_ends, w->singles), w->singles, ends_at(3, w->row_ends, w->rows),
                             w->rows, at_the_end(4, present, (5 + w->rows + 7) / 8), 5};
  wkb_column_from_coordinates(&levels, w->kind, w->dimension, &LITTLE_ISO, out, OUT_MOST, ends, statuses);
  for (size_t i = 0; i < w->rows; start = (size_t)ends[i++]) {
    const size_t size = w->encodings[i] ? spelled(w->encodings[i], wanted) : 0;
    expect(statuses[i] == w->statuses[i] && ends[i] == start + size, "a row of levels", w->words);
    expect(memcmp(out + start, wanted, size) == 0, "an encoding of levels", w->words);
  }
  memset(out, 0x5a, sizeof out);
  wkb_column_from_coordinates(&levels, w->kind, w->dimension, &LITTLE_ISO, out, start - 1, ends, statuses);
  for (size_t i = 0; i < w->rows; i++) {
    const bool is_last = w->statuses[i] == OK && ends[i] == start;
    expect(statuses[i] == (is_last ? WKB_STATUS_NO_ROOM : w->statuses[i]), "a status without room", w->words);
  }
  expect(out[start - 1] == 0x5a, "a byte without room", w->words);
}

void levels_are_right(void) {
  for (size_t i = 0; i < sizeof WORKED / sizeof WORKED[0]; i++) rows_are_written(&WORKED[i]);
}
