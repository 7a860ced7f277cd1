/* Encodes coordinates of one's own: a point, two line strings, which are collected into one geometry, and a polygon
 * with a hole. */
#include "wkb.h"
#include <stdio.h>

static const wkb_options options = {WKB_ORDER_LITTLE, WKB_FORM_ISO, 0};

/* Prints the encodings of up to two rows, as hex. */
static void print_rows(const wkb_levels *levels, wkb_kind kind) {
  uint8_t out[256], statuses[2];
  uint64_t ends[2], at = 0;
  wkb_column_from_coordinates(levels, kind, WKB_DIM_XY, &options, out, sizeof out, ends, statuses);
  for (size_t row = 0; row < levels->rows; row++) {
    printf("%s: ", statuses[row] == WKB_STATUS_OK ? wkb_kind_text(kind) : wkb_status_text(statuses[row]));
    for (; at < ends[row]; at++) printf("%02x", out[at]);
    printf("\n");
  }
}

/* Prints the multi geometry of up to two rows, as hex. */
static void print_collected(const wkb_levels *levels, wkb_kind kind) {
  uint8_t rows[256], out[sizeof rows + 13], statuses[2];
  int64_t offsets[3] = {0};
  uint64_t *ends = (uint64_t *)offsets + 1;
  size_t size = 0, len;
  len = wkb_column_from_coordinates(levels, kind, WKB_DIM_XY, &options, rows, sizeof rows, ends, statuses);
  const wkb_column column = {rows, len, offsets, sizeof offsets[0], NULL, 0, levels->rows};
  wkb_status status = wkb_collect(&column, kind + 3, WKB_DIM_XY, &options, out, sizeof out, &size, NULL, NULL);
  printf("%s: ", status == WKB_STATUS_OK ? wkb_kind_text(kind + 3) : wkb_status_text(status));
  for (size_t at = 0; at < size; at++) printf("%02x", out[at]);
  printf("\n");
}

int main(void) {
  /* One row of one single, which has one ring of one coordinate. */
  static const double one_two[] = {1, 2};
  wkb_levels point = wkb_one_point(one_two, 2);
  print_rows(&point, WKB_KIND_POINT);

  /* Two rows of one single each, each of one ring: these end after two coordinates and after four. */
  static const double two_lines[] = {0, 0, 1, 1, 5, 5, 6, 6};
  static const uint64_t line_ends[] = {2, 4};
  wkb_levels lines = {
      .words = two_lines, .word_count = 8, .ring_ends = line_ends, .rings = 2, .singles = 2, .rows = 2};
  print_rows(&lines, WKB_KIND_LINE_STRING);
  print_collected(&lines, WKB_KIND_LINE_STRING);

  /* One row of one single, which has two rings: an exterior of five coordinates and an interior of four. */
  static const double both_rings[] = {0, 0, 9, 0, 9, 9, 0, 9, 0, 0, 1, 1, 2, 2, 1, 2, 1, 1};
  static const uint64_t ring_ends[] = {5, 9}, single_ends[] = {2};
  wkb_levels polygon = {.words = both_rings, .word_count = 18, .ring_ends = ring_ends, .rings = 2,
                        .single_ends = single_ends, .singles = 1, .rows = 1};
  print_rows(&polygon, WKB_KIND_POLYGON);
  return 0;
}
