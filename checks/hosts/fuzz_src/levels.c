/* A target for libFuzzer: wkb_column_from_coordinates beside plain C. An input is choices, the rows' validity, a step
 * from each end of a level to the next, and the words. */
#include "fuzz.h"

enum { ROWS_MOST = 16, CHOICES = 10, LEVELS = 3, OUT_MOST = 1 << 15 };
static const uint64_t PAST = (uint64_t)1 << 40;

/* The levels from the outermost on: their ends, or none, how many there are, and how many items the next level has. */
static struct level {
  uint64_t *ends;
  size_t count;
  uint64_t limit, floor;
} level[LEVELS];
static wkb_levels levels;
static size_t width;

/* Where an item begins in the next level. */
static uint64_t begin_of(const struct level *it, uint64_t i) {
  return i == 0 || it->ends == NULL ? i : it->ends[i - 1];
}

/* Whether the items of a level from one up to another don't fall, and none passes the next level. */
static int are_in_order(const struct level *it, uint64_t from, uint64_t to) {
  int holds = begin_of(it, from) <= it->limit;
  for (uint64_t i = from; i < to; i++)
    holds &= begin_of(it, i) <= begin_of(it, i + 1) && begin_of(it, i + 1) <= it->limit;
  return holds;
}

/* Whether a row's ends are in order, and it begins nowhere before the end of an earlier row that spans items there. */
static int is_clear(uint64_t row) {
  int holds = 1;
  for (uint64_t k = 0, from = row, to = row + 1; k < LEVELS; k++) {
    struct level *it = &level[k];
    holds &= are_in_order(it, from, to);
    from = begin_of(it, from), to = begin_of(it, to);
    if (from > to || to > it->limit) return 0;
    holds &= from >= it->floor;
    if (to > it->floor) it->floor = to;
  }
  return holds;
}

static size_t put_words(uint8_t *to, uint64_t from, uint64_t count, wkb_order order) {
  for (size_t i = 0; i < 8 * count; i++) {
    const uint8_t *word = (const uint8_t *)(levels.words + from) + i / 8 * 8;
    to[i] = word[order == WKB_ORDER_LITTLE ? i % 8 : 7 - i % 8];
  }
  return 8 * (size_t)count;
}

/* A single as a geometry of a kind; 0 if it doesn't fit. */
static size_t put_single(uint8_t *to, wkb_kind kind, wkb_dim dimension, const wkb_options *options, uint64_t single) {
  uint64_t ring = begin_of(&level[1], single), end = begin_of(&level[1], single + 1);
  size_t size = put_header(to, kind, dimension, options);
  if (kind == WKB_KIND_POLYGON) size += put_number(to + size, end - ring, options->order);
  if (kind != WKB_KIND_POLYGON && end - ring != 1) return 0;
  for (; ring < end; ring++) {
    const uint64_t first = begin_of(&level[2], ring), count = begin_of(&level[2], ring + 1) - first;
    if (kind == WKB_KIND_POINT && count != 1) return 0;
    if (kind != WKB_KIND_POINT) size += put_number(to + size, count, options->order);
    size += put_words(to + size, width * first, width * count, options->order);
  }
  return size;
}

/* A row whose levels are clear as a geometry of a kind; 0 if it doesn't fit. */
static size_t put_row(uint8_t *to, wkb_kind kind, wkb_dim dimension, const wkb_options *options, uint64_t row) {
  const wkb_options inner = inner_of(options);
  uint64_t single = begin_of(&level[0], row), end = begin_of(&level[0], row + 1);
  if (kind <= WKB_KIND_POLYGON) return end - single == 1 ? put_single(to, kind, dimension, options, single) : 0;
  size_t size = put_header(to, kind, dimension, options);
  size += put_number(to + size, end - single, options->order);
  for (; single < end; single++) {
    const size_t added = put_single(to + size, kind - 3, dimension, &inner, single);
    if (added == 0) return 0;
    size += added;
  }
  return size;
}

/* Ends from the steps between them, of which the longest and the shortest lead past everything. */
static uint64_t *ends_of(const int8_t *steps, size_t count) {
  uint64_t *ends = block(8 * count), end = 0;
  for (size_t i = 0; i < count; i++)
    ends[i] = steps[i] == INT8_MAX ? PAST : steps[i] == INT8_MIN ? UINT64_MAX : (end += (uint64_t)steps[i]);
  return ends;
}

/* Choices: how many rows, singles and rings; the kind and the dimension; the order, the form and the room; which ends
 * there are, and whether there is validity; its first bit; and the validity. */
static int cut(const uint8_t *data, size_t len) {
  const size_t counts[LEVELS] = {data[0] % (ROWS_MOST + 1), data[1] % 64, data[2] % 64};
  const size_t front = CHOICES + counts[0] + counts[1] + counts[2];
  if (len < front) return 0;
  const int8_t *steps = (const int8_t *)data + CHOICES;
  for (int k = 0; k < LEVELS; steps += counts[k++]) {
    level[k] = (struct level){data[5] >> k & 1 ? ends_of(steps, counts[k]) : NULL, counts[k], 0, 0};
    if (k > 0) level[k - 1].limit = counts[k];
  }
  levels.row_ends = level[0].ends, levels.rows = counts[0];
  levels.single_ends = level[1].ends, levels.singles = counts[1];
  levels.ring_ends = level[2].ends, levels.rings = counts[2];
  levels.word_count = (len - front) / 8;
  levels.words = memcpy(block(8 * levels.word_count), steps, 8 * levels.word_count);
  level[2].limit = levels.word_count / width;
  levels.validity_offset = data[5] >> 4 & 7;
  const size_t bytes = levels.rows > 0 ? (levels.validity_offset + levels.rows + 7) / 8 : 0;
  levels.validity = data[5] & 8 ? memcpy(block(bytes), data + 6, bytes) : NULL;
  return 1;
}

static int is_null(size_t row) {
  const size_t bit = levels.validity_offset + row;
  return levels.validity != NULL && !(((const uint8_t *)levels.validity)[bit / 8] >> bit % 8 & 1);
}

static void try_input(const uint8_t *data, size_t len) {
  static uint8_t own[OUT_MOST];
  if (len < CHOICES) return;
  const wkb_kind kind = data[3] & 7, dimension = data[3] >> 3 & 3;
  const wkb_options options = {data[4] & 1, data[4] >> 1 & 3, 0x80000000 + (uint32_t)len};
  const int is_known = kind >= WKB_KIND_POINT && kind <= WKB_KIND_MULTI_POLYGON;
  width = (size_t)2 + dimension % 2 + dimension / 2;
  if (!cut(data, len) || levels.rows == 0) return;
  uint64_t *ends = block(8 * levels.rows), end = 0, put = 0;
  uint8_t *statuses = untouched(levels.rows);
  const size_t total = wkb_column_from_coordinates(&levels, kind, dimension, &options, NULL, 0, ends, statuses);
  const size_t room = room_for(total, data[4] >> 3);
  uint8_t *out = untouched(room);
  EXPECT(wkb_column_from_coordinates(&levels, kind, dimension, &options, out, room, ends, statuses) == total);
  for (size_t i = 0; i < levels.rows; i++) {
    const size_t size = is_clear(i) && is_known && !is_null(i) ? put_row(own + end, kind, dimension, &options, i) : 0;
    const wkb_status missing = is_known ? WKB_STATUS_BAD_LEVELS : WKB_STATUS_UNKNOWN_OPTION;
    end += size;
    EXPECT(ends[i] == end && end + 4096 < OUT_MOST);
    const wkb_status wanted = size == 0 ? missing : end > room ? WKB_STATUS_NO_ROOM : WKB_STATUS_OK;
    EXPECT(statuses[i] == (is_null(i) ? WKB_STATUS_NULL_ROW : wanted));
    if (statuses[i] == WKB_STATUS_OK) put = end;
  }
  EXPECT(total == end && memcmp(out, own, put) == 0 && is_untouched(out + put, room - put));
}
