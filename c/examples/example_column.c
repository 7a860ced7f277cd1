/* Reads the coordinates of a column in two calls: one without rooms, which tells what is needed, and one with them. */
#include "wkb.h"
#include <stdio.h>
#include <stdlib.h>

/* Prints each row's geometries with the coordinates of each. A row without room would end after what was written. */
static void print_rows(const wkb_coordinates *it, const uint8_t *statuses, size_t rows) {
  uint64_t single = 0, ring = 0, at = 0;
  for (size_t row = 0; row < rows; row++) {
    printf("row %d: %s\n", (int)row, wkb_status_text(statuses[row]));
    if (statuses[row] == WKB_STATUS_NO_ROOM) return;
    for (; single < it->row_ends[row]; single++) {
      for (; ring < it->single_ends[single]; ring++) {
        printf(" ");
        for (; at < it->ring_ends[ring]; at++) printf(" (%g, %g)", it->words[2 * at], it->words[2 * at + 1]);
        printf("\n");
      }
    }
  }
}

int main(void) {
  /* A line string from (1, 2) to (3, 4), big endian; nothing; the point (5, 6), little endian. */
  static const uint8_t data[] = {0, 0, 0, 0, 2, 0, 0, 0, 2, 0x3f, 0xf0, 0, 0, 0, 0, 0, 0, 0x40, 0, 0, 0, 0, 0, 0, 0,
                                 0x40, 8, 0, 0, 0, 0, 0, 0, 0x40, 0x10, 0, 0, 0, 0, 0, 0,
                                 1, 1, 0, 0, 0, 0, 0, 0, 0, 0, 0, 0x14, 0x40, 0, 0, 0, 0, 0, 0, 0x18, 0x40};
  static const int32_t offsets[] = {0, 41, 41, 62};
  wkb_column column = {data, sizeof data, offsets, sizeof offsets[0], NULL, 0, 3};
  uint8_t statuses[3];
  uint64_t row_ends[3];
  wkb_coordinates out = {.row_ends = row_ends};
  wkb_column_coordinates(&column, WKB_DIM_XY, &out, statuses);
  out.words_room = 2 * out.coordinates, out.ring_room = out.rings, out.single_room = out.singles;
  out.words = malloc(out.words_room * sizeof *out.words);
  out.ring_ends = malloc(out.ring_room * sizeof *out.ring_ends);
  out.single_ends = malloc(out.single_room * sizeof *out.single_ends);
  if (!out.words || !out.ring_ends || !out.single_ends) return 1;
  wkb_column_coordinates(&column, WKB_DIM_XY, &out, statuses);
  print_rows(&out, statuses, column.rows);
  free(out.words), free(out.ring_ends), free(out.single_ends);
  return 0;
}
