/* A target for libFuzzer: the calls for columns, row by row beside the calls for one input and plain C. An input is
 * choices, the rows' validity, a step from each offset to the next, and the data. */
#include "fuzz.h"

enum { ROWS_MOST = 16, VALIDITY = 4, CHOICES = 8, FRONT = 9, LEVELS_MOST = 1 << 14 };

/* The column, and of each row its bytes, its status, and what is found and listed of it alone, if it is OK. */
static wkb_column column;
static struct row {
  const uint8_t *bytes;
  size_t len;
  wkb_status status;
  wkb_found found;
  const wkb_part *parts;
} rows[ROWS_MOST];

/* What calls write of each row, and which rooms they have. */
static uint8_t *statuses;
static uint64_t *ends;
static unsigned rooms;

/* What a row has among the items that a call puts one after another. */
typedef struct piece {
  const void *items;
  size_t count;
} piece;

static int64_t offset_at(size_t i) {
  const uint8_t *at = (const uint8_t *)column.offsets + column.offset_size * i;
  int32_t narrow;
  int64_t wide;
  if (column.offset_size == 4) return memcpy(&narrow, at, sizeof narrow), narrow;
  return memcpy(&wide, at, sizeof wide), wide;
}

/* What the header says of offsets and validity; FLOOR is where the rows before end. */
static wkb_status status_at(size_t i, int64_t *floor) {
  const int64_t begin = offset_at(i), end = offset_at(i + 1), start = *floor;
  const size_t bit = column.validity_offset + i;
  const int is_range = begin >= 0 && begin <= end && (uint64_t)end <= column.size;
  if (is_range && end > start) *floor = end;
  if (column.validity && !(((const uint8_t *)column.validity)[bit / 8] >> bit % 8 & 1)) return WKB_STATUS_NULL_ROW;
  return is_range && begin >= start ? WKB_STATUS_OK : WKB_STATUS_BAD_OFFSETS;
}

static void read_row(struct row *it, size_t i) {
  size_t size = 0;
  it->bytes = (const uint8_t *)column.data + offset_at(i), it->len = (size_t)(offset_at(i + 1) - offset_at(i));
  it->status = wkb_check(it->bytes, it->len, &it->found, NULL);
  uint8_t *plain = block(it->len);
  EXPECT(plain_write(it->bytes, it->len, WKB_ORDER_BIG, plain, it->len, &size) == (it->status == WKB_STATUS_OK));
  used_blocks--;
  if (it->status != WKB_STATUS_OK) return;
  wkb_part *parts = block(it->found.parts * sizeof *parts);
  EXPECT(wkb_parts(it->bytes, it->len, parts, it->found.parts, NULL, NULL) == WKB_STATUS_OK);
  it->parts = parts;
}

static void try_checks(void) {
  wkb_found *found = block(column.rows * sizeof *found);
  wkb_box *boxes = block(column.rows * sizeof *boxes);
  uint8_t *of_found = untouched(column.rows), *of_boxes = untouched(column.rows);
  wkb_column_check(&column, statuses);
  wkb_column_found(&column, found, of_found);
  wkb_column_bounds(&column, boxes, of_boxes);
  for (size_t i = 0; i < column.rows; i++) {
    const struct row *it = &rows[i];
    const wkb_box box = box_of(it->bytes, it->parts, it->found.parts);
    EXPECT(statuses[i] == it->status && of_found[i] == it->status && of_boxes[i] == it->status);
    EXPECT(memcmp(&found[i], &it->found, sizeof it->found) == 0 && memcmp(&boxes[i], &box, sizeof box) == 0);
  }
  used_blocks -= 4;
}

/* A row's status where what is made of it fits or doesn't. */
static wkb_status status_in(size_t row, int fits) {
  return rows[row].status == WKB_STATUS_OK && !fits ? WKB_STATUS_NO_ROOM : rows[row].status;
}

/* In a room the rows' pieces, of so many bytes an item, stand one after another. */
static void are_put(const piece *pieces, size_t item, const uint8_t *out, size_t room, size_t total) {
  size_t end = 0, put = 0;
  for (size_t i = 0; i < column.rows; i++) {
    end += pieces[i].count;
    EXPECT(ends[i] == end && statuses[i] == status_in(i, end <= room));
    if (statuses[i] != WKB_STATUS_OK) continue;
    EXPECT(memcmp(out + item * put, pieces[i].items, item * pieces[i].count) == 0);
    put = end;
  }
  EXPECT(total == end && is_untouched(out + item * put, item * (room - put)));
}

static void try_parts(void) {
  piece pieces[ROWS_MOST];
  for (size_t i = 0; i < column.rows; i++) pieces[i] = (piece){rows[i].parts, rows[i].found.parts};
  const size_t total = wkb_column_parts(&column, NULL, 0, ends, statuses), room = room_for(total, rooms);
  wkb_part *parts = untouched(room * sizeof *parts);
  are_put(pieces, sizeof *parts, (uint8_t *)parts, room, wkb_column_parts(&column, parts, room, ends, statuses));
  used_blocks--;
}

/* The encodings of the rows alone, under ISO codes those of plain C, one behind another in a block. */
static void write_rows(const wkb_options *options, piece *pieces) {
  uint8_t *to = block(column.size + MORE * ROWS_MOST);
  for (size_t i = 0; i < column.rows; i++) {
    const struct row *it = &rows[i];
    size_t size = 0;
    if (it->status == WKB_STATUS_OK && options->form == WKB_FORM_ISO)
      EXPECT(plain_write(it->bytes, it->len, options->order, to, it->len, &size));
    else if (it->status == WKB_STATUS_OK)
      EXPECT(wkb_write(it->bytes, it->len, options, to, it->len + MORE, &size, NULL) == WKB_STATUS_OK);
    pieces[i] = (piece){to, size}, to += size;
  }
}

static void try_write(const wkb_options *options) {
  piece pieces[ROWS_MOST];
  write_rows(options, pieces);
  const size_t total = wkb_column_write(&column, options, NULL, 0, ends, statuses), room = room_for(total, rooms);
  uint8_t *out = untouched(room);
  are_put(pieces, 1, out, room, wkb_column_write(&column, options, out, room, ends, statuses));
  used_blocks -= 2;
}

/* The levels of all rows under a dimension: those of the words that the tables lead to, and those of plain C. */
static struct levels {
  double words[LEVELS_MOST];
  uint64_t ring_ends[LEVELS_MOST], single_ends[LEVELS_MOST], row_ends[ROWS_MOST];
  size_t word_count, coordinates, rings, singles;
} own, plain;

static void add_coordinate(wkb_dim dimension, const uint8_t *data, const wkb_part *part, uint64_t i) {
  const double z = part->dimension & WKB_DIM_XYZ ? wkb_word(data, part, i, 2) : NAN;
  const double m = part->dimension & WKB_DIM_XYM ? wkb_word(data, part, i, part->width - 1) : NAN;
  own.words[own.word_count++] = wkb_word(data, part, i, 0), own.words[own.word_count++] = wkb_word(data, part, i, 1);
  if (dimension & WKB_DIM_XYZ) own.words[own.word_count++] = z;
  if (dimension & WKB_DIM_XYM) own.words[own.word_count++] = m;
  own.coordinates++;
}

static void add_levels(wkb_dim dimension, const struct row *row) {
  for (size_t k = 0; k < row->found.parts; k++) {
    const wkb_part *it = &row->parts[k];
    if (it->kind >= WKB_KIND_POINT && it->kind <= WKB_KIND_POLYGON)
      own.single_ends[own.singles++] = own.rings + (it->kind == WKB_KIND_POLYGON ? it->count : 1);
    if (it->kind > WKB_KIND_LINE_STRING) continue;
    for (uint64_t i = 0; i < it->count; i++) add_coordinate(dimension, row->bytes, it, i);
    own.ring_ends[own.rings++] = own.coordinates;
  }
}

/* Plain C reads good rows of one dimension, with members of any kind, and doesn't look whether rows overlap. */
static void try_plain(wkb_dim dimension) {
  wkb_coordinates out = {plain.words, LEVELS_MOST, plain.ring_ends, LEVELS_MOST, plain.single_ends, LEVELS_MOST,
                         plain.row_ends, 0, 0, 0};
  for (size_t i = 0; i < column.rows; i++)
    if (rows[i].status != WKB_STATUS_OK && rows[i].status != WKB_STATUS_NULL_ROW) return;
  if (column.offset_size == 4 || !plain_column_coordinates(&column, dimension, &out)) return;
  EXPECT(out.coordinates == own.coordinates && memcmp(plain.words, own.words, 8 * own.word_count) == 0);
  EXPECT(out.rings == own.rings && memcmp(plain.ring_ends, own.ring_ends, 8 * own.rings) == 0);
  EXPECT(out.singles == own.singles && memcmp(plain.single_ends, own.single_ends, 8 * own.singles) == 0);
}

/* What is put of a level is that of the rows that have room, and no more. */
static void is_level(const void *out, size_t room, const void *all, size_t put) {
  EXPECT(memcmp(out, all, 8 * put) == 0 && is_untouched((const uint8_t *)out + 8 * put, 8 * (room - put)));
}

static void try_coordinates(wkb_dim dimension) {
  wkb_coordinates out = {NULL, 0, NULL, 0, NULL, 0, ends, 0, 0, 0};
  size_t words = 0, rings = 0, singles = 0;
  wkb_column_coordinates(&column, dimension, &out, statuses);
  out.words_room = room_for((2 + dimension % 2 + dimension / 2) * out.coordinates, rooms);
  out.ring_room = room_for(out.rings, rooms / 4), out.single_room = room_for(out.singles, rooms / 16);
  out.words = untouched(8 * out.words_room);
  out.ring_ends = untouched(8 * out.ring_room), out.single_ends = untouched(8 * out.single_room);
  wkb_column_coordinates(&column, dimension, &out, statuses);
  own.word_count = own.coordinates = own.rings = own.singles = 0;
  for (size_t i = 0; i < column.rows; i++) {
    add_levels(dimension, &rows[i]);
    const int fits = own.word_count <= out.words_room && own.rings <= out.ring_room && own.singles <= out.single_room;
    EXPECT(statuses[i] == status_in(i, fits) && ends[i] == own.singles);
    if (statuses[i] == WKB_STATUS_OK) words = own.word_count, rings = own.rings, singles = own.singles;
  }
  EXPECT(out.coordinates == own.coordinates && out.rings == own.rings && out.singles == own.singles);
  is_level(out.words, out.words_room, own.words, words);
  is_level(out.ring_ends, out.ring_room, own.ring_ends, rings);
  is_level(out.single_ends, out.single_room, own.single_ends, singles);
  used_blocks -= 3;
  try_plain(dimension);
}

/* A row's status and fault as a member: those of a collection of it, whose fault is a part and a header farther. */
static wkb_status status_as_member(const struct row *it, wkb_kind kind, wkb_dim dimension, wkb_fault *fault) {
  static const uint8_t HEADER[FRONT] = {WKB_ORDER_LITTLE, WKB_KIND_GEOMETRY_COLLECTION, 0, 0, 0, 1};
  if (wkb_status_is_of_row(it->status)) return it->status;
  uint8_t *whole = block(FRONT + it->len);
  memcpy(whole, HEADER, FRONT), memcpy(whole + FRONT, it->bytes, it->len);
  const wkb_status status = wkb_check(whole, FRONT + it->len, NULL, fault);
  used_blocks--;
  if (status != WKB_STATUS_OK) return fault->part -= 1, fault->offset -= FRONT, status;
  if (kind == WKB_KIND_GEOMETRY_COLLECTION) return status;
  if (it->found.kind == kind - 3 && it->found.dimension == dimension) return status;
  *fault = (wkb_fault){0, 0, 0, 0, 0, WKB_STATUS_INCORRECT_TYPE};
  return fault->status;
}

/* The encoding of the rows as members of one geometry. Returns its size. */
static size_t collect_rows(uint8_t *to, wkb_kind kind, wkb_dim dimension, const wkb_options *options) {
  const wkb_options inner = inner_of(options);
  piece pieces[ROWS_MOST];
  size_t size = put_header(to, kind, dimension, options);
  size += put_number(to + size, column.rows, options->order);
  write_rows(&inner, pieces);
  for (size_t i = 0; i < column.rows; size += pieces[i++].count) memcpy(to + size, pieces[i].items, pieces[i].count);
  used_blocks--;
  return size;
}

static void try_collect(wkb_kind kind, wkb_dim dimension, const wkb_options *options) {
  wkb_status wanted = WKB_STATUS_OK;
  wkb_fault fault, own_fault;
  size_t size = 0, row = ROWS_MOST, own_row = ROWS_MOST, own_size = 0, room = column.size;
  memset(&fault, UNTOUCHED, sizeof fault), memset(&own_fault, UNTOUCHED, sizeof own_fault);
  for (size_t i = 0; i < column.rows && wanted == WKB_STATUS_OK; i++) {
    wanted = status_as_member(&rows[i], kind, dimension, &own_fault);
    if (wanted != WKB_STATUS_OK) own_row = i;
  }
  uint8_t *encoding = block(column.size + MORE * ROWS_MOST);
  if (wanted == WKB_STATUS_OK) {
    own_size = collect_rows(encoding, kind, dimension, options), room = room_for(own_size, rooms);
    if (room < own_size) wanted = WKB_STATUS_NO_ROOM;
  }
  uint8_t *out = untouched(room);
  EXPECT(wkb_collect(&column, kind, dimension, options, out, room, &size, &fault, &row) == wanted);
  EXPECT(size == own_size && row == own_row && memcmp(&fault, &own_fault, sizeof fault) == 0);
  EXPECT(wanted == WKB_STATUS_OK ? memcmp(out, encoding, size) == 0 : is_untouched(out, room));
}

/* Choices: how many rows; the first bit, the size of an offset, whether there is validity; the kind and the dimension;
 * the order, the form and the rooms; and the validity. The longest and the shortest step lead to no row's place. */
static int cut(const uint8_t *data, size_t len) {
  const size_t count = data[0] % (ROWS_MOST + 1), front = CHOICES + 2 * (count + 1);
  if (len < front) return 0;
  column = (wkb_column){data + front, len - front, NULL, data[1] & 8 ? 4 : 8, NULL, data[1] & 7, count};
  uint8_t *offsets = block(column.offset_size * (count + 1));
  int64_t offset = 0, far = column.offset_size == 4 ? INT32_MAX : INT64_MAX;
  for (size_t i = 0; i <= count; i++) {
    int16_t step;
    memcpy(&step, data + CHOICES + 2 * i, sizeof step);
    const int64_t place = step == INT16_MAX ? far : step == INT16_MIN ? -far - 1 : (offset += step);
    memcpy(offsets + column.offset_size * i, &place, column.offset_size);
  }
  column.offsets = offsets;
  const size_t bytes = count > 0 ? (column.validity_offset + count + 7) / 8 : 0;
  if (data[1] & 16) column.validity = memcpy(block(bytes), data + CHOICES - VALIDITY, bytes);
  return 1;
}

static void try_input(const uint8_t *data, size_t len) {
  if (len < CHOICES || !cut(data, len)) return;
  const wkb_options options = {data[3] & 1, data[3] >> 1 & 3, 0x80000000 + (uint32_t)len};
  const wkb_kind kind = WKB_KIND_MULTI_POINT + (data[2] & 3), dimension = data[2] >> 2 & 3;
  int64_t floor = 0;
  rooms = data[3] >> 3 | data[2] >> 4 << 5;
  statuses = untouched(column.rows), ends = block(8 * column.rows);
  for (size_t i = 0; i < column.rows; i++) {
    rows[i] = (struct row){.status = status_at(i, &floor)};
    if (rows[i].status == WKB_STATUS_OK) read_row(&rows[i], i);
  }
  try_checks(), try_parts(), try_write(&options), try_coordinates(dimension), try_collect(kind, dimension, &options);
}
