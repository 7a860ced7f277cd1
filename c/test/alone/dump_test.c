/* The dump over worked cases, whose lines are in test/dump.cases; and over the inputs of test/lasting.rows, in its last
 * line, which says what wkb_check does. checks/hosts/fuzz has its walk and the lines of other options. */
#include "../../wkb_dump.h"
#include "../lasting.h"

enum { LINE_ROOM = 2048, LONGEST_LINE = 511 };

/* What was put, and a line that has to be. */
typedef struct output {
  uint64_t lines, most;
  char wanted[WKB_FAULT_TEXT_ROOM + 64];
  bool is_put;
} output;

/* Counts a line, which has one end and no other control characters. */
static int count_line(void *to, const char *line, size_t length) {
  output *out = to;
  if (length < 2 || length > LONGEST_LINE || line[length - 1] != '\n') exit(2);
  for (size_t i = 0; i + 1 < length; i++)
    if (line[i] < ' ' || line[i] > '~') exit(2);
  out->is_put |= strlen(out->wanted) == length && memcmp(out->wanted, line, length) == 0;
  out->lines++;
  return out->most > 0 && out->lines == out->most;
}

/* A dump of so many lines ends at the line that is no longer taken, whichever it is. */
static bool stops(const uint8_t *bytes, size_t len, uint64_t lines) {
  for (uint64_t left = lines; left > 0; left -= 1 + left / 8) {
    output out = {.most = left};
    if (wkb_dump(bytes, len, NULL, count_line, &out, NULL) != WKB_DUMP_STOPPED || out.lines != left) return false;
  }
  return true;
}

/* Behind the header of a GeoPackage the walk is that of the geometry alone. */
static bool walks_behind_a_header(const uint8_t *bytes, size_t len) {
  static uint8_t behind[8 + INPUT_MOST] = {'G', 'P', 0, 1};
  wkb_dump_walk alone, walk;
  output out = {0};
  memcpy(behind + 8, bytes, len);
  int status = wkb_dump(bytes, len, NULL, count_line, &out, &alone);
  return wkb_dump(behind, len + 8, NULL, count_line, &out, &walk) == status && walk.parts == alone.parts &&
         walk.begin == alone.begin && walk.end == alone.end;
}

/* The next line of the worked cases, without comments. */
static FILE *cases;
static char wanted[LINE_ROOM];

static bool next_line(void) {
  do {
    if (fgets(wanted, sizeof wanted, cases) == NULL) return false;
  } while (wanted[0] == '#');
  wanted[strcspn(wanted, "\r\n")] = 0;
  return true;
}

/* A line is the next one of the worked case. */
static int is_wanted(void *to, const char *line, size_t length) {
  if (!next_line() || strlen(wanted) != length - 1 || memcmp(wanted, line, length - 1) != 0) {
    printf("%s:\nwanted %s\nput    %.*s", (char *)to, wanted, (int)length, line);
    exit(1);
  }
  return 0;
}

static int try_cases(void) {
  static char head[LINE_ROOM], hex[LINE_ROOM];
  int tried = 0, status, used = 0;
  size_t wrong;
  cases = fopen("test/dump.cases", "rb");
  expect(cases != NULL, "test/dump.cases is not here", "");
  for (bool is_there = next_line(); is_there; is_there = next_line(), tried++) {
    unsigned items, lines;
    memcpy(head, wanted, sizeof head);
    expect(sscanf(head, "> %d %u %u %n", &status, &items, &lines, &used) == 3, "no head of a case", head);
    const wkb_dump_options options = {items, lines}, *own = items == 3 && lines == 1000 ? NULL : &options;
    snprintf(hex, sizeof hex, "%s", head + used);
    size_t len = wkb_dump_from_hex(hex, strlen(hex), &wrong);
    expect(len != WKB_DUMP_NOT_HEX, "no hex", head);
    expect(wkb_dump(len > 0 ? hex : NULL, len, own, is_wanted, head, NULL) == status, "another status", head);
  }
  fclose(cases);
  return tried;
}

/* Texts and the bytes that they are, in hex; NULL if they are no hex, and the character that isn't. */
static void try_hex(void) {
  static const struct { const char *text, *bytes; size_t wrong; } TEXTS[] = {
      {"", "", 0}, {" \n", "", 0}, {"0x", "", 0}, {"\\x0aF0", "0af0", 0}, {"0XfF\v00\r\n01\t\f", "ff0001", 0},
      {" \n0x01", "01", 0}, {"0", NULL, 1}, {"0g", NULL, 1}, {"0 1", NULL, 1}, {"x01", NULL, 0}, {"0x0x01", NULL, 3},
      {"\\", NULL, 0}, {"01 0", NULL, 4}, {"01@1", NULL, 2}, {"01`1", NULL, 2}, {"01G1", NULL, 2}, {"/1", NULL, 0},
      {"0:", NULL, 1}, {"\x10\x11", NULL, 0}};
  for (size_t i = 0; i < sizeof TEXTS / sizeof TEXTS[0]; i++) {
    char bytes[64] = "";
    size_t length = strlen(TEXTS[i].text), wrong = 0;
    char *text = at_the_end(0, TEXTS[i].text, length);
    size_t count = wkb_dump_from_hex(text, length, &wrong);
    bool is_hex = count != WKB_DUMP_NOT_HEX, is_left = memcmp(text, TEXTS[i].text, length) == 0;
    for (size_t k = 0; is_hex && k < count; k++) snprintf(bytes + 2 * k, 3, "%02x", (unsigned char)text[k]);
    expect(is_hex == (TEXTS[i].bytes != NULL), "hex, or none", TEXTS[i].text);
    expect(is_hex ? strcmp(bytes, TEXTS[i].bytes) == 0 : is_left && wrong == TEXTS[i].wrong, "hex", TEXTS[i].text);
  }
}

/* Its dump has the line that says where an accepted row ends, or why another is refused. */
static void seek_end(const lasting *r, output *it) {
  const uint64_t *f = r->fields;
  const wkb_fault fault = {f[0], f[1], f[2], f[3], (uint32_t)f[4], r->status};
  const unsigned long long size = f[0], more = r->len - f[0];
  char text[WKB_FAULT_TEXT_ROOM];
  wkb_fault_text(&fault, text, sizeof text);
  if (r->status != WKB_STATUS_OK) snprintf(it->wanted, sizeof it->wanted, "%10srefused: %s\n", "", text);
  else if (more == 0) snprintf(it->wanted, sizeof it->wanted, "%8llu  the end\n", size);
  else snprintf(it->wanted, sizeof it->wanted, "%8llu  the end of the geometry, and %llu more byte%s\n", size, more,
                more == 1 ? "" : "s");
}

static size_t try_lasting(void) {
  const lasting *r;
  const size_t rows = lasting_rows(&r);
  for (size_t i = 0; i < rows; i++, r++) {
    output it = {0};
    char row[24];
    const uint8_t *bytes = at_the_end(0, r->bytes, r->len);
    snprintf(row, sizeof row, "row %u", (unsigned)i);
    seek_end(r, &it);
    wkb_dump(bytes, r->len, NULL, count_line, &it, NULL);
    expect(it.is_put, "a dump has another end", row);
    expect(stops(bytes, r->len, it.lines), "a dump goes on", row);
    expect(walks_behind_a_header(bytes, r->len), "a dump walks another way behind a header", row);
  }
  return rows;
}

int main(void) {
  try_hex();
  const size_t rows = try_lasting();
  const int tried = try_cases();
  printf("%d worked cases, and %u inputs, whose dumps end where wkb_check says\n", tried, (unsigned)rows);
  return 0;
}
