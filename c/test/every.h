/* Each call of wkb.h, for the tests that make all of them: over a painted stack, and on Windows through faults. */
#ifndef EVERY_H
#define EVERY_H

#include "wkb.h"

enum { EVERY_COUNT = 16, EVERY_PARTS = 4, EVERY_COLUMN_PARTS = 8, EVERY_LEVELS = 12 };
enum { EVERY_ROOM = 512, EVERY_BYTES = 8192 };

/* All that they write. */
typedef struct every {
  wkb_options options;
  wkb_found found;
  wkb_fault fault;
  wkb_box box;
  wkb_part parts[EVERY_ROOM];
  double words[2 * EVERY_ROOM], own_words[2];
  uint64_t ring_ends[EVERY_ROOM], single_ends[EVERY_ROOM], row_end, level_end;
  size_t coordinates, rings, singles, size;
  uint32_t equal, which;
  char text[WKB_FAULT_TEXT_ROOM];
  uint8_t out[EVERY_BYTES], row;
} every;

/* Makes a call over an input, or over a column of it alone, and returns its status. A number past the last is none. */
wkb_status every_call(int which, const uint8_t *bytes, size_t len, every *to);

#endif
