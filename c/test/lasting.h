/* The rows of test/lasting.rows. */
#ifndef LASTING_H
#define LASTING_H

#include "shared.h"

enum { FOUND_COUNT = 11, FAULT_COUNT = 5, OPTION_COUNT = 8, OF_BOUNDS = OPTION_COUNT, OF_PARTS, OF_LEVELS, SUM_COUNT };
enum { LASTING_MOST = 4000, BYTES_MOST = 1 << 19, INPUT_MOST = 4096, LINE_MOST = 12000, ROW_PARTS_MOST = 200 };
enum { CALLER_SRID = 4326, UNTOUCHED = 0x5a };
static const uint32_t NO_SUM = 0x811c9dc5;

/* A row: an input, its status, what is found or the fault, the sums of what is written under each option, of the bounds,
 * of the parts and of the levels. */
typedef struct lasting {
  const uint8_t *bytes;
  size_t len;
  uint32_t status;
  uint64_t fields[FOUND_COUNT];
  uint32_t sums[SUM_COUNT];
} lasting;

/* All rows, and how many there are. Their inputs follow one another. */
size_t lasting_rows(const lasting **to);
bool is_found(const lasting *r, const wkb_found *f);

/* Whether all bytes from one on are as they were. */
bool is_kept(const void *from, size_t len);

/* FNV-1a in 32 bits, from a sum on, over items of one byte, of eight, or of a part. Numbers count as in little endian. */
uint32_t summed(uint32_t sum, const void *of, size_t len, size_t item);

#endif
