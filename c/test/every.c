/* Each call of wkb.h, for the tests that make all of them. */
#include "every.h"

static void put_coordinates(every *to, const wkb_column *column) {
  wkb_coordinates levels = {to->words, 2 * EVERY_ROOM, to->ring_ends, EVERY_ROOM, to->single_ends, EVERY_ROOM,
                            &to->row_end, 0, 0, 0};
  wkb_column_coordinates(column, WKB_DIM_XY, &levels, &to->row);
  to->coordinates = levels.coordinates, to->rings = levels.rings, to->singles = levels.singles;
}

/* Of the levels that the call before has put. */
static void put_levels(every *to) {
  const wkb_levels levels = {to->words, 2 * to->coordinates, to->ring_ends, to->rings, to->single_ends, to->singles,
                             &to->row_end, 1, NULL, 0};
  wkb_column_from_coordinates(&levels, WKB_KIND_MULTI_POLYGON, WKB_DIM_XY, &to->options, to->out, EVERY_BYTES,
                              &to->level_end, &to->row);
}

wkb_status every_call(int which, const uint8_t *bytes, size_t len, every *to) {
  const int64_t offsets[2] = {0, (int64_t)len};
  const wkb_column column = {bytes, len, offsets, sizeof offsets[0], NULL, 0, 1};
  const wkb_part point = {0, 21, 5, 1, 1, 0, 0, WKB_KIND_POINT, WKB_DIM_XY, 2, WKB_ORDER_BIG};
  wkb_fault *fault = &to->fault;
  to->row = WKB_STATUS_OK;
  switch (which) {
    case 0: return wkb_check(bytes, len, &to->found, fault);
    case 1: return wkb_bounds(bytes, len, &to->box, fault);
    case 2: return wkb_write(bytes, len, &to->options, to->out, EVERY_BYTES, &to->size, fault);
    case 3: return wkb_same(bytes, len, bytes, len, &to->equal, fault, &to->which);
    case EVERY_PARTS: return wkb_parts(bytes, len, to->parts, EVERY_ROOM, &to->size, fault);
    case 5: wkb_column_check(&column, &to->row); break;
    case 6: wkb_column_found(&column, &to->found, &to->row); break;
    case 7: wkb_column_bounds(&column, &to->box, &to->row); break;
    case EVERY_COLUMN_PARTS: wkb_column_parts(&column, to->parts, EVERY_ROOM, &to->row_end, &to->row); break;
    case 9: wkb_column_write(&column, &to->options, to->out, EVERY_BYTES, &to->row_end, &to->row); break;
    case 10: return wkb_collect(&column, WKB_KIND_GEOMETRY_COLLECTION, 0, &to->options, to->out, EVERY_BYTES, &to->size,
                                fault, &to->size);
    case 11: put_coordinates(to, &column); break;
    case EVERY_LEVELS: put_levels(to); break;
    case 13: if (len >= 21) wkb_words(bytes, &point, 0, 1, to->own_words); break;
    case 14: wkb_fault_text(fault, to->text, sizeof to->text); break;
    case 15: memset(to->parts, 0, sizeof to->parts[0]), wkb_next_part(bytes, len, to->parts); break;
  }
  return to->row;
}
