/* A target for libFuzzer: each call of one input, and the dump, beside plain C. */
#include "fuzz.h"
#include "wkb_dump.h"

enum { MOST_TRIED = 16 };

/* Bounds are those of the words; plain C's, which takes -0 for 0, are the same numbers. */
static void try_bounds(const uint8_t *data, size_t len, const wkb_part *parts, size_t count) {
  const wkb_box own = box_of(data, parts, count);
  wkb_box box, plain;
  EXPECT(wkb_bounds(data, len, &box, NULL) == WKB_STATUS_OK && memcmp(&box, &own, sizeof box) == 0);
  EXPECT(plain_bounds(data, len, &plain));
  for (const wkb_range *a = &box.x, *b = &plain.x; a <= &box.m; a++, b++)
    EXPECT(a->count == b->count && a->least == b->least && a->greatest == b->greatest);
}

/* The encoding under each option, into a room that is large, that is just enough and that is not. Under ISO it is that
 * of plain C, and any other has the same under ISO. */
static void try_write(const uint8_t *data, size_t len, const wkb_options *options, const uint8_t *plain, size_t size) {
  const wkb_options iso = {options->order, WKB_FORM_ISO, 0};
  size_t length = 0, again = 0;
  wkb_found found;
  const size_t before = used_blocks;
  uint8_t *large = block(len + MORE), *back = block(len + MORE);
  EXPECT(wkb_write(data, len, options, large, len + MORE, &length, NULL) == WKB_STATUS_OK && length <= len + MORE);
  if (options->form == WKB_FORM_ISO) EXPECT(length == size && memcmp(large, plain, size) == 0);
  EXPECT(wkb_check(large, length, &found, NULL) == WKB_STATUS_OK && found.size == length);
  EXPECT(options->form != WKB_FORM_EWKB_WITH_SRID || (found.has_srid == 1 && found.srid == options->srid));
  EXPECT(wkb_write(large, length, &iso, back, len + MORE, &again, NULL) == WKB_STATUS_OK);
  EXPECT(again == size && memcmp(back, plain, size) == 0);
  uint8_t *enough = block(length), *few = untouched(length - 1);
  EXPECT(wkb_write(data, len, options, enough, length, &again, NULL) == WKB_STATUS_OK && again == length);
  EXPECT(memcmp(enough, large, length) == 0);
  EXPECT(wkb_write(data, len, options, few, length - 1, &again, NULL) == WKB_STATUS_NO_ROOM && again == length);
  EXPECT(is_untouched(few, length - 1));
  used_blocks = before;
}

/* Beside its own encoding, and beside itself with a changed byte, whose plain encoding says whether it is another
 * value. */
static void try_same(const uint8_t *data, size_t len, const uint8_t *plain, size_t size) {
  uint8_t *changed = block(len), *other = block(len + MORE);
  uint32_t equal = 0, which = 0;
  size_t other_size = 0, at = 0;
  EXPECT(wkb_same(data, len, plain, size, &equal, NULL, NULL) == WKB_STATUS_OK && equal == 1);
  for (size_t i = 0; i < len; i++) at = at * 31 + data[i];
  memcpy(changed, data, len), changed[at % len] ^= (uint8_t)(1 + at % 255);
  wkb_status status = wkb_same(data, len, changed, len, &equal, NULL, &which);
  if (plain_write(changed, len, WKB_ORDER_LITTLE, other, len + MORE, &other_size)) {
    EXPECT(status == WKB_STATUS_OK && equal == (other_size == size && memcmp(plain, other, size) == 0));
  } else {
    EXPECT(wkb_status_is_refusal(status) && which == 2);
  }
}

static uint64_t word_at(const uint8_t *bytes, uint32_t order) {
  uint64_t word = 0;
  for (int i = 0; i < 8; i++) word = word << 8 | bytes[order == WKB_ORDER_BIG ? i : 7 - i];
  return word;
}

/* The words of a part that has coordinates, by both calls. */
static void try_words(const uint8_t *data, const wkb_part *part) {
  size_t count = (size_t)part->count * part->width;
  uint64_t *words = block(8 * count);
  wkb_words(data, part, 0, part->count, (double *)words);
  for (size_t i = 0; i < count; i++) {
    double one = wkb_word(data, part, i / part->width, (unsigned)(i % part->width));
    EXPECT(words[i] == word_at(data + part->offset + 8 * i, part->order) && memcmp(&one, words + i, 8) == 0);
  }
  used_blocks--;
}

/* The table, whose entries follow and hold one another, and of which the first geometries are checked by themselves. */
static void try_parts(const uint8_t *data, size_t len, const wkb_found *found) {
  wkb_part *parts = block(found->parts * sizeof *parts);
  size_t count = 0;
  EXPECT(wkb_parts(data, len, parts, found->parts - 1, &count, NULL) == WKB_STATUS_NO_ROOM && count == found->parts);
  EXPECT(wkb_parts(data, len, parts, found->parts, &count, NULL) == WKB_STATUS_OK && count == found->parts);
  uint64_t coordinates = 0;
  for (size_t i = 0; i < count; i++) {
    const wkb_part *part = &parts[i];
    EXPECT(part->next > i && part->next <= count && part->begin < part->end && part->end <= found->size);
    EXPECT(i == 0 || part->begin >= parts[i - 1].begin);
    if (part->kind <= WKB_KIND_LINE_STRING) coordinates += part->count, try_words(data, part);
    wkb_found its;
    if (part->kind == WKB_KIND_RING || i >= MOST_TRIED) continue;
    EXPECT(wkb_check(data + part->begin, part->end - part->begin, &its, NULL) == WKB_STATUS_OK);
    EXPECT(its.size == part->end - part->begin && its.parts == part->next - i && its.kind == part->kind);
  }
  EXPECT(coordinates == found->coordinates);
  try_bounds(data, len, parts, count);
}

static int count_line(void *lines, const char *line, size_t length) {
  EXPECT(length > 0 && line[length - 1] == '\n');
  return ++*(uint64_t *)lines == 0;
}

/* The dump ends where the library says, and puts no more lines than it was allowed. */
static void try_dump(const uint8_t *data, size_t len, wkb_status status, const wkb_found *found,
                     const wkb_fault *fault) {
  const wkb_dump_options short_one = {2, 40}, long_one = {2, 0};
  uint64_t lines = 0;
  wkb_dump_walk walk;
  wkb_dump(data, len, &short_one, count_line, &lines, NULL);
  EXPECT(lines <= short_one.lines + WKB_DUMP_LINES_MORE);
  int end = wkb_dump(data, len, &long_one, count_line, &lines, &walk);
  if (len >= 2 && data[0] == 'G' && data[1] == 'P') return;
  if (status == WKB_STATUS_OK) {
    EXPECT(walk.parts == found->parts && walk.end == found->size);
    EXPECT(end == (found->size == len ? WKB_DUMP_ALONE : WKB_DUMP_OTHER));
  } else {
    EXPECT(walk.parts == fault->part + 1 && walk.begin == fault->offset && end == WKB_DUMP_OTHER);
  }
}

static void try_input(const uint8_t *data, size_t len) {
  wkb_found found;
  wkb_fault fault;
  char text[WKB_FAULT_TEXT_ROOM];
  wkb_status status = wkb_check(data, len, &found, &fault);
  try_dump(data, len, status, &found, &fault);
  if (status != WKB_STATUS_OK) {
    wkb_box box;
    EXPECT(wkb_status_is_refusal(status) && fault.status == status && fault.offset <= len);
    EXPECT(wkb_bounds(data, len, &box, NULL) == status && !plain_bounds(data, len, &box));
    EXPECT(wkb_fault_text(&fault, text, sizeof text) < sizeof text);
  }
  for (uint32_t order = WKB_ORDER_BIG; order <= WKB_ORDER_LITTLE; order++) {
    const size_t before = used_blocks;
    uint8_t *plain = block(len + MORE);
    size_t size = 0;
    EXPECT(plain_write(data, len, order, plain, len + MORE, &size) == (status == WKB_STATUS_OK));
    for (uint32_t form = WKB_FORM_ISO; form <= WKB_FORM_EWKB_WITHOUT_SRID; form++) {
      const wkb_options options = {order, form, 0x80000000 + (uint32_t)len};
      if (status == WKB_STATUS_OK) {
        try_write(data, len, &options, plain, size);
      } else {
        EXPECT(wkb_write(data, len, &options, NULL, 0, NULL, NULL) == status);
      }
    }
    if (status == WKB_STATUS_OK && order == WKB_ORDER_LITTLE) try_same(data, len, plain, size);
    if (status == WKB_STATUS_OK) EXPECT(!plain_write(data, len, order, block(size - 1), size - 1, &size));
    used_blocks = before;
  }
  if (status == WKB_STATUS_OK) try_parts(data, len, &found);
}
