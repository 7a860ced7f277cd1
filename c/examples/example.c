/* Checks a geometry, finds its bounds, reads its coordinates in place, and writes it in another form. */
#include "wkb.h"
#include <stdio.h>

int main(void) {
  /* A line string from (1, 2) to (3, 4), big endian, with an SRID. */
  static const uint8_t line[] = {0, 0x20, 0, 0, 2, 0, 0, 0x10, 0xe6, 0, 0, 0, 2, 0x3f, 0xf0, 0, 0, 0, 0, 0, 0, 0x40, 0,
                                 0, 0, 0, 0, 0, 0, 0x40, 8, 0, 0, 0, 0, 0, 0, 0x40, 0x10, 0, 0, 0, 0, 0, 0};
  wkb_found found;
  wkb_fault fault;
  wkb_status status = wkb_check(line, sizeof line, &found, &fault);
  if (status != WKB_STATUS_OK) return 1;
  printf("kind %u, %d coordinates in %d bytes, SRID %u\n", found.kind, (int)found.coordinates, (int)found.size,
         found.srid);

  wkb_box box;
  status = wkb_bounds(line, sizeof line, &box, &fault);
  if (status != WKB_STATUS_OK) return 1;
  printf("x from %g to %g, y from %g to %g\n", box.x.least, box.x.greatest, box.y.least, box.y.greatest);

  wkb_part parts[1];
  status = wkb_parts(line, sizeof line, parts, 1, NULL, &fault);
  if (status != WKB_STATUS_OK) return 1;
  for (uint64_t i = 0; i < parts[0].count; i++)
    printf("(%g, %g)\n", wkb_word(line, &parts[0], i, 0), wkb_word(line, &parts[0], i, 1));

  uint8_t out[sizeof line + 4];
  wkb_options options = {WKB_ORDER_LITTLE, WKB_FORM_ISO, 0};
  size_t size;
  status = wkb_write(line, sizeof line, &options, out, sizeof out, &size, &fault);
  if (status != WKB_STATUS_OK) return 1;
  for (size_t i = 0; i < size; i++) printf("%02x", out[i]);
  printf("\n");

  status = wkb_check(line, sizeof line - 8, NULL, &fault);
  char text[WKB_FAULT_TEXT_ROOM];
  if (!wkb_status_is_refusal(status)) return 1;
  wkb_fault_text(&fault, text, sizeof text);
  printf("%s\n", text);
  return 0;
}
