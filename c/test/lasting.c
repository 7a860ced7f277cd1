/* The library beside test/lasting.rows, whose form `checks/library/lasting --help` tells: which inputs it accepts,
 * and each byte that it writes, one by one and as a column. Neither changes within version 1. A status inside its
 * class changes only with the file. */
#include "lasting.h"

static lasting table[LASTING_MOST];
static uint8_t bytes[BYTES_MOST];
static size_t rows, used;

/* The row that is tried, and what a call tells of it if it rejects it. */
static char here[24];
static wkb_fault told;

static void is(bool holds, const char *what) { expect(holds, what, here); }

/* The next number of a line, which is moved behind it. */
static uint64_t number(char **line, int base, const char *input) {
  char *end;
  uint64_t found = strtoull(*line, &end, base);
  expect(end > *line, "a row with too few numbers", input);
  *line = end;
  return found;
}

static void read_row(char *line, lasting *to) {
  char *fields = strchr(line, ' ');
  expect(fields && used + (size_t)(fields - line) / 2 <= BYTES_MOST, "a row", line);
  *fields++ = '\0';
  to->bytes = bytes + used, to->len = spelled(line, bytes + used), used += to->len;
  to->status = (uint32_t)number(&fields, 10, line);
  bool is_refused = to->status != WKB_STATUS_OK;
  for (int i = 0; i < (is_refused ? FAULT_COUNT : FOUND_COUNT); i++) to->fields[i] = number(&fields, 10, line);
  for (int i = 0; i < (is_refused ? 0 : SUM_COUNT); i++) to->sums[i] = (uint32_t)number(&fields, 16, line);
  expect(strspn(fields, " \r\n") == strlen(fields), "a row with more numbers", line);
}

size_t lasting_rows(const lasting **to) {
  static char line[LINE_MOST];
  *to = table;
  if (rows > 0) return rows;
  FILE *file = fopen("test/lasting.rows", "rb");
  expect(file != NULL, "test/lasting.rows is not here", "the folder of the library's sources is where the tests run");
  while (fgets(line, sizeof line, file)) {
    if (line[0] == '#') continue;
    expect(rows < LASTING_MOST, "too many rows", "test/lasting.rows");
    read_row(line, &table[rows++]);
  }
  fclose(file);
  return rows;
}

uint32_t summed(uint32_t sum, const void *of, size_t len, size_t item) {
  const uint8_t *from = of;
  const uint16_t one = 1;
  const bool is_big = *(const uint8_t *)&one == 0;
  for (size_t i = 0; i < len; i++) {
    const size_t size = item == 1 ? 1 : i % item < offsetof(wkb_part, srid) ? 8 : 4;
    sum = (sum ^ from[is_big ? i ^ (size - 1) : i]) * 0x01000193;
  }
  return sum;
}

bool is_found(const lasting *r, const wkb_found *f) {
  const uint64_t found[FOUND_COUNT] = {f->size, f->parts,    f->coordinates, f->offset,    f->count, f->srid,
                                       f->has_srid, f->kind, f->dimension,   f->width, f->order};
  return memcmp(found, r->fields, sizeof found) == 0;
}

bool is_kept(const void *from, size_t len) {
  for (size_t i = 0; i < len; i++)
    if (((const uint8_t *)from)[i] != UNTOUCHED) return false;
  return true;
}

/* Whether a call accepts the row. A call that rejects it tells its fault, and another leaves what it would tell. */
static bool accepts(const lasting *r, wkb_status status, const char *call) {
  const uint64_t fault[FAULT_COUNT] = {told.part, told.offset, told.end, told.len, told.code};
  const bool is_good = status == WKB_STATUS_OK, is_fault = memcmp(fault, r->fields, sizeof fault) == 0;
  is(status == r->status, call);
  is(is_good ? is_kept(&told, sizeof told) : is_fault && told.status == status, call);
  memset(&told, UNTOUCHED, sizeof told);
  return is_good;
}

static void is_checked(const lasting *r) {
  wkb_found found;
  memset(&found, UNTOUCHED, sizeof found);
  const wkb_status status = wkb_check(r->bytes, r->len, &found, &told);
  is((status == WKB_STATUS_OK) == (r->status == WKB_STATUS_OK), "what is accepted changes");
  is(status / 16 == r->status / 16, "a status changes its class");
  const bool is_good = accepts(r, status, "a status changes inside its class, or a fault");
  is(is_good ? is_found(r, &found) : is_kept(&found, sizeof found), "what is found changes");
}

/* Its bounds, and what is said of its bytes without the last. */
static void is_bounded(const lasting *r) {
  wkb_box box;
  memset(&box, UNTOUCHED, sizeof box);
  const bool is_good = accepts(r, wkb_bounds(r->bytes, r->len, &box, &told), "wkb_bounds is not as wkb_check");
  is(is_good || is_kept(&box, sizeof box), "bounds of a refused input");
  if (!is_good) return;
  is(summed(NO_SUM, &box, sizeof box, 8) == r->sums[OF_BOUNDS], "a bound changes");
  const wkb_status status = wkb_bounds(r->bytes, (size_t)r->fields[0] - 1, &box, NULL);
  is(wkb_status_is_early_end(status), "a byte less is no early end");
}

/* What is written of it under these options. */
static void is_written(const lasting *r, uint32_t number) {
  const wkb_options options = {number / 4, number % 4, CALLER_SRID};
  uint8_t out[INPUT_MOST + 5];
  uint32_t equal = 0;
  size_t size = 0, needed = 0;
  memset(out, UNTOUCHED, r->len + 5);
  wkb_status status = wkb_write(r->bytes, r->len, &options, out, r->len + 4, &size, &told);
  const bool is_good = accepts(r, status, "wkb_write is not as wkb_check");
  is(is_kept(out + size, r->len + 5 - size), "bytes after the encoding are written");
  is(is_good || size == 0, "a refused input has a size");
  if (!is_good) return;
  is(summed(NO_SUM, out, size, 1) == r->sums[number], "a byte that is written changes");
  wkb_same(r->bytes, r->len, out, size, &equal, NULL, NULL);
  is(equal, "what is written has another value");
  memset(out, UNTOUCHED, size);
  status = wkb_write(r->bytes, r->len, &options, out, size - 1, &needed, NULL);
  is(status == WKB_STATUS_NO_ROOM && needed == size && is_kept(out, size), "room for all bytes but one is enough");
}

/* The words of a ring, a point or a line string are those of its bytes: all of them, and each coordinate's. */
static void has_words(const uint8_t *input, const wkb_part *p) {
  double words[INPUT_MOST / 8 + 1], own[5];
  memset(words, UNTOUCHED, sizeof words), memset(own, UNTOUCHED, sizeof own);
  wkb_words(input, p, 0, p->count, words);
  is(is_kept(words + p->width * p->count, sizeof words[0]), "a word after the last is written");
  for (uint64_t i = 0; i < p->count * p->width; i++) {
    const uint8_t *bytes = input + p->offset + 8 * i;
    const double word = wkb_word(input, p, i / p->width, i % p->width);
    uint64_t wanted = 0;
    for (int k = 0; k < 8; k++) wanted = wanted << 8 | bytes[p->order == WKB_ORDER_BIG ? k : 7 - k];
    wkb_words(input, p, i / p->width, 1, own);
    is(memcmp(&wanted, &own[i % p->width], 8) == 0 && memcmp(&wanted, &words[i], 8) == 0, "a word of wkb_words");
    is(memcmp(&wanted, &word, 8) == 0, "a word of wkb_word");
    is(is_kept(own + p->width, sizeof own[0]), "a word after a coordinate is written");
  }
}

/* Its parts one after another: those of its table but for what is inside them, or those before the rejected one. */
static void has_next_parts(const lasting *r, const wkb_part *parts) {
  const bool is_refused = r->status != WKB_STATUS_OK;
  wkb_part part = {0};
  uint64_t rings = 0;
  for (uint64_t i = 0; i < r->fields[is_refused ? 0 : 1]; i++) {
    is(wkb_next_part(r->bytes, r->len, &part) == 1, "a part is not the next one");
    wkb_part wanted = is_refused ? part : parts[i];
    rings = wanted.kind == WKB_KIND_POLYGON ? wanted.count : rings > 0 ? rings - 1 : 0;
    wanted.next = rings;
    if (wanted.kind > WKB_KIND_LINE_STRING) wanted.end = wanted.offset;
    is(memcmp(&part, &wanted, sizeof part) == 0, "the next part is another one");
  }
  is(part.end == r->fields[is_refused ? 1 : 0], "the last of the next parts ends elsewhere");
}

static void is_listed(const lasting *r) {
  wkb_part parts[ROW_PARTS_MOST + 1];
  wkb_found found;
  size_t count = 0, needed = 0, wanted = r->status == WKB_STATUS_OK ? (size_t)r->fields[1] : ROW_PARTS_MOST;
  memset(parts, UNTOUCHED, sizeof parts);
  wkb_status status = wkb_parts(r->bytes, r->len, parts, wanted, &count, &told);
  const bool is_good = accepts(r, status, "wkb_parts is not as wkb_check");
  is(count == (is_good ? wanted : 0), "how many parts there are");
  is(is_kept(parts + count, sizeof parts - count * sizeof parts[0]), "more parts are written");
  has_next_parts(r, parts);
  if (!is_good) return;
  is(summed(NO_SUM, parts, count * sizeof parts[0], sizeof parts[0]) == r->sums[OF_PARTS], "a part changes");
  wkb_check(r->bytes, r->len, &found, NULL);
  const wkb_part whole = wkb_whole(&found);
  is(memcmp(&whole, parts, sizeof whole) == 0, "wkb_whole is not the first part");
  for (size_t i = 0; i < count; i++)
    if (parts[i].kind <= WKB_KIND_LINE_STRING) has_words(r->bytes, &parts[i]);
  memset(parts, UNTOUCHED, sizeof parts);
  status = wkb_parts(r->bytes, r->len, parts, wanted - 1, &needed, NULL);
  is(status == WKB_STATUS_NO_ROOM && needed == wanted, "room for all parts but one is enough");
  is(is_kept(parts, sizeof parts), "parts are written without room");
}

/* Beside an accepted row. They are one value where one is written as the other. */
static void is_compared(const lasting *r, const lasting *other) {
  uint32_t equal = 2, which = 0;
  wkb_status status = wkb_same(other->bytes, other->len, r->bytes, r->len, &equal, &told, &which);
  const bool is_good = accepts(r, status, "wkb_same is not as wkb_check");
  is(equal == (is_good ? other->sums[0] == r->sums[0] : 2), "a comparison changes");
  if (is_good) return;
  is(which == 2, "wkb_same refuses the first of two");
  status = wkb_same(r->bytes, r->len, r->bytes, r->len, &equal, &told, &which);
  is(!accepts(r, status, "wkb_same is not as wkb_check") && which == 1, "wkb_same refuses the second of two first");
}

/* Each input ends where a page does that may not be read, and can't be written to. */
void what_lasts_is_as_it_was(void) {
  const lasting *r;
  uint8_t *end = end_of_pages(INPUT_MOST);
  memset(&told, UNTOUCHED, sizeof told);
  for (size_t i = 0, other = 0; i < lasting_rows(&r); i++) {
    lasting it = r[i];
    it.bytes = memcpy(end - it.len, r[i].bytes, it.len);
    can_be_written(end, false);
    snprintf(here, sizeof here, "row %u", (unsigned)i);
    is_checked(&it);
    is_bounded(&it);
    for (uint32_t number = 0; number < OPTION_COUNT; number++) is_written(&it, number);
    is_compared(&it, &r[other]);
    is_listed(&it);
    can_be_written(end, true);
    if (r[i].status == WKB_STATUS_OK) other = i;
  }
  printf("%u rows of what lasts have their answers, and no byte behind them is read\n", (unsigned)rows);
}
