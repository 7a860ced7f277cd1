/* What the targets for libFuzzer share. Each compares calls with plain C, and with calls that another target compares
 * with plain C. checks/hosts/fuzz builds and runs them. */
#define _GNU_SOURCE
#include "plain.h"

#include <math.h>
#include <sys/mman.h>

#define EXPECT(holds) ((holds) ? (void)0 : __builtin_trap())

enum { MORE = 4, UNTOUCHED = 0x5a, BLOCKS_MOST = 32, ROOM_MOST = 1 << 20, PAGE = 1 << 16 };

/* How many blocks are used: a run begins with none, and a function that is called often sets it back. */
static size_t used_blocks;

/* A block that ends where memory can't be touched: the assembly isn't instrumented, and is stopped there too. */
static inline void *block(size_t size) {
  static uint8_t *ends[BLOCKS_MOST];
  EXPECT(used_blocks < BLOCKS_MOST && size <= ROOM_MOST);
  uint8_t **end = &ends[used_blocks++];
  if (*end == NULL) {
    uint8_t *taken = mmap(NULL, ROOM_MOST + PAGE, PROT_READ | PROT_WRITE, MAP_PRIVATE | MAP_ANONYMOUS, -1, 0);
    EXPECT(taken != MAP_FAILED && mprotect(taken + ROOM_MOST, PAGE, PROT_NONE) == 0);
    *end = taken + ROOM_MOST;
  }
  return *end - size;
}

static inline void *untouched(size_t size) { return memset(block(size), UNTOUCHED, size); }

static inline int is_untouched(const void *from, size_t size) {
  for (size_t i = 0; i < size; i++)
    if (((const uint8_t *)from)[i] != UNTOUCHED) return 0;
  return 1;
}

/* Room for all, for all but one, for half, or none. */
static inline size_t room_for(size_t total, unsigned which) {
  const size_t rooms[] = {total, total > 0 ? total - 1 : 0, total / 2, 0};
  return rooms[which % 4];
}

static inline size_t put_number(uint8_t *to, size_t number, wkb_order order) {
  for (int i = 0; i < 4; i++) to[i] = (uint8_t)(number >> 8 * (order == WKB_ORDER_LITTLE ? i : 3 - i));
  return 4;
}

/* The order byte, the code and the SRID. */
static inline size_t put_header(uint8_t *to, wkb_kind kind, wkb_dim dimension, const wkb_options *options) {
  const uint32_t has_srid = options->form == WKB_FORM_EWKB_WITH_SRID;
  const uint32_t flags = dimension % 2 << 31 | dimension / 2 << 30 | has_srid << 29;
  *to = (uint8_t)options->order;
  put_number(to + 1, options->form == WKB_FORM_ISO ? kind + 1000 * dimension : kind | flags, options->order);
  return has_srid ? 5 + put_number(to + 5, options->srid, options->order) : 5;
}

/* The options of what is inside a geometry. */
static inline wkb_options inner_of(const wkb_options *options) {
  return (wkb_options){options->order, options->form ? WKB_FORM_EWKB_WITHOUT_SRID : WKB_FORM_ISO, 0};
}

/* A number's place among all, of which -0 is below +0. */
static inline int64_t rank_of(double number) {
  int64_t bits;
  memcpy(&bits, &number, sizeof bits);
  return bits < 0 ? bits ^ INT64_MAX : bits;
}

static inline void widen(wkb_range *range, double number) {
  if (isnan(number)) return;
  if (rank_of(number) < rank_of(range->least)) range->least = number;
  if (rank_of(number) > rank_of(range->greatest)) range->greatest = number;
  range->count++;
}

/* The bounds of the words that a table of parts leads to. */
static inline wkb_box box_of(const uint8_t *data, const wkb_part *parts, size_t count) {
  const wkb_range none = {INFINITY, -INFINITY, 0};
  wkb_box box = {none, none, none, none};
  for (size_t k = 0; k < count; k++)
    for (uint64_t i = 0; i < parts[k].count && parts[k].kind <= WKB_KIND_LINE_STRING; i++) {
      widen(&box.x, wkb_word(data, &parts[k], i, 0)), widen(&box.y, wkb_word(data, &parts[k], i, 1));
      if (parts[k].dimension & WKB_DIM_XYZ) widen(&box.z, wkb_word(data, &parts[k], i, 2));
      if (parts[k].dimension & WKB_DIM_XYM) widen(&box.m, wkb_word(data, &parts[k], i, parts[k].width - 1));
    }
  return box;
}

/* What a target tries. */
static void try_input(const uint8_t *data, size_t len);

int LLVMFuzzerTestOneInput(const uint8_t *data, size_t len);
int LLVMFuzzerTestOneInput(const uint8_t *data, size_t len) {
  used_blocks = 0;
  try_input(memcpy(block(len), data, len), len);
  return 0;
}
