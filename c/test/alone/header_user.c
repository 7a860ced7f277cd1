/* Of a user's program what the first example hasn't: numbers of four bytes, a version of one's own, a switch without a
 * default, and sizes and counts of C's own type. */
#include "wkb.h"

/* Lengths that are negative where a number has no four bytes, and where the version is another one. */
extern const char four[sizeof(wkb_status) + sizeof(wkb_kind) + sizeof(wkb_dim) + sizeof(wkb_order) == 16 ? 1 : -1];
#undef WKB_VERSION_MINOR
#undef WKB_VERSION_PATCH
#define WKB_VERSION_MINOR 2
#define WKB_VERSION_PATCH 3
extern const char version[WKB_VERSION == 1002003 && sizeof(wkb_form) == 4 ? 1 : -1];

/* A switch over a number is never full for a compiler, so it has an end of its own. */
int class_of(wkb_status status) {
  switch (status) {
    case WKB_STATUS_OK: return 0;
    case WKB_STATUS_NO_ROOM: return 1;
  }
  if (wkb_status_is_early_end(status)) return 4;
  if (wkb_status_is_refusal(status)) return 3;
  return wkb_status_is_of_row(status) ? 2 : wkb_status_is_failure(status);
}

/* The rooms that an input, a column and levels need, and which row can't be a member. */
size_t rooms_of(const void *buf, size_t len, const wkb_column *column, const wkb_levels *levels, uint64_t *ends,
                uint8_t *statuses, size_t *row) {
  const wkb_options options = {WKB_ORDER_LITTLE, WKB_FORM_ISO, 0};
  size_t count = 0, size = 0;
  wkb_status status = wkb_parts(buf, len, NULL, 0, &count, NULL);
  if (status == WKB_STATUS_NO_ROOM)
    status = wkb_collect(column, WKB_KIND_MULTI_POINT, WKB_DIM_XY, &options, NULL, 0, &size, NULL, row);
  if (status != WKB_STATUS_NO_ROOM) return 0;
  return count + size + wkb_column_parts(column, NULL, 0, ends, statuses) +
         wkb_column_write(column, &options, NULL, 0, ends, statuses) +
         wkb_column_from_coordinates(levels, WKB_KIND_POINT, WKB_DIM_XY, &options, NULL, 0, ends, statuses);
}
