/* SPDX-License-Identifier: MIT OR Apache-2.0 */
/* Puts lines for the parts that wkb_next_part finds, up to that which wkb_check rejects. See wkb_dump.h. */
#include "wkb_dump.h"

#include <inttypes.h>
#include <stdarg.h>
#include <stdbool.h>
#include <stdio.h>
#include <stdlib.h>

/* A collection is inside at most 128 others; below it are a multi polygon's polygons and their rings. */
enum { DEEPEST = 132, IN_A_LINE = 8, LINE_ROOM = 512, SAYS_ROOM = 320, NUMBER_ROOM = 40, PATH_NAMES = 8 };
enum { INDENT = 2, MOST_INDENT = 32, INDENT_BESIDE_BYTES = 14 };
enum { CODE_END = 5, LONGEST_POINT = 41 };
static const uint32_t FLAGS = 0xe0000000;
static const uint64_t NO_PART = UINT64_MAX;
static const char *const DIMENSIONS[] = {"xy", "xyz", "xym", "xyzm"}, *const ORDERS[] = {"big endian", "little endian"};

/* Rings or members of which one is shown. */
typedef struct list {
  uint32_t count;     /* how many there are */
  uint32_t begun;     /* how many have begun */
  uint32_t left_out;  /* how many of these were left out */
  bool is_of_rings;
} list;

typedef struct dump {
  const uint8_t *bytes;
  size_t len, front, at;       /* the input, where the geometry begins in it, and the next byte that is shown */
  wkb_part part;               /* the one that is shown; of the rejected one what its byte order and code say */
  wkb_dump_options options;
  wkb_dump_put *put;
  void *to;
  uint64_t lines;              /* how many were put */
  uint64_t refused;            /* the part that is rejected, or NO_PART */
  wkb_dump_walk walk;
  list lists[DEEPEST];         /* from the outermost one that is open on */
  uint32_t depth;              /* how many are open */
  uint32_t hidden;             /* the depth at which an item is left out, or 0 */
  bool is_at_refused, is_full, has_stopped;
} dump;

/* Returns whether the current place is shown. */
static bool is_shown(const dump *it) {
  return !it->has_stopped && it->hidden == 0 && (it->is_at_refused || !it->is_full);
}

static int indent_of(const dump *it) {
  int indent = INDENT * (int)it->depth;
  return indent < MOST_INDENT ? indent : MOST_INDENT;
}

/* Puts a line. The one after the last requested line says that more are left out. */
static void put_line(dump *it, const char *format, ...) {
  char line[LINE_ROOM + 1] = "";
  va_list words;
  va_start(words, format);
  vsnprintf(line, LINE_ROOM, format, words);
  va_end(words);
  if (it->has_stopped) return;
  size_t end = strlen(line);
  line[end++] = '\n';
  it->has_stopped = it->put(it->to, line, end) != 0;
  it->lines++;
  if (it->is_full || it->options.lines == 0 || it->lines < it->options.lines) return;
  it->is_full = true;
  put_line(it, "%10s..  and so on, after %" PRIu64 " lines", "", it->lines);
}

/* Goes past the next COUNT bytes, or as many as there are, and shows them with their meaning. Returns whether all of
 * them are there. */
static bool put_bytes(dump *it, size_t count, const char *format, ...) {
  static const char DIGITS[] = "0123456789abcdef";
  char hex[3 * IN_A_LINE + 1] = "", says[SAYS_ROOM];
  size_t there = it->len - it->at < count ? it->len - it->at : count;
  if (there > 0 && is_shown(it)) {
    for (size_t i = 0; i < there && i < IN_A_LINE; i++) {
      uint8_t byte = it->bytes[it->at + i];
      hex[3 * i] = DIGITS[byte >> 4], hex[3 * i + 1] = DIGITS[byte & 15], hex[3 * i + 2] = ' ';
    }
    va_list words;
    va_start(words, format);
    vsnprintf(says, sizeof says, format, words);
    va_end(words);
    if (there < count) snprintf(says, sizeof says, "cut off: %d of %d bytes", (int)there, (int)count);
    int indent = indent_of(it), beside = indent < INDENT_BESIDE_BYTES ? INDENT_BESIDE_BYTES - indent : 1;
    put_line(it, "%8" PRIu64 "  %*s%-*s%*s%s", (uint64_t)it->at, indent, "", 3 * IN_A_LINE, hex, beside, "", says);
  }
  it->at += there;
  return there == count;
}

/* Returns the next four bytes as a number in the part's order, or 0 if there are fewer. */
static uint32_t next_number(const dump *it) {
  const bool is_big = it->part.order == WKB_ORDER_BIG;
  uint32_t number = 0;
  if (it->len - it->at < 4) return 0;
  for (int i = 0; i < 4; i++) number = number << 8 | it->bytes[it->at + (size_t)(is_big ? i : 3 - i)];
  return number;
}

static double next_double(const dump *it) {
  const wkb_part at = {.offset = it->at, .width = 1, .order = it->part.order};
  return it->len - it->at < 8 ? 0 : wkb_word(it->bytes, &at, 0, 0);
}

/* The fewest digits that are read as the same number, with a point in any locale. */
static void spell(double value, char text[NUMBER_ROOM]) {
  static const char LETTERS[] = "+-0123456789e";
  char *to = text;
  if (value != value || value - value != 0) {
    snprintf(text, NUMBER_ROOM, value != value ? "NaN" : value < 0 ? "-infinity" : "infinity");
    return;
  }
  for (int digits = 15; digits <= 17; digits++) {
    snprintf(text, NUMBER_ROOM, "%.*g", digits, value);
    if (strtod(text, NULL) == value) break;
  }
  for (const char *from = text; *from != 0; from++) {
    bool is_letter = strchr(LETTERS, *from) != NULL;
    if (is_letter || to == text || to[-1] != '.') *to++ = is_letter ? *from : '.';
  }
  *to = 0;
}

static void put_left_out(dump *it, uint64_t count, const char *what) {
  put_line(it, "%10s%*s..  %" PRIu64 " more %s%s", "", indent_of(it), "", count, what, count == 1 ? "" : "s");
}

/* Returns how many items of a list are shown if some are left out; 0 for all. */
static uint64_t most_items(const dump *it) {
  uint32_t items = it->options.items;
  return it->is_full && (items == 0 || items > WKB_DUMP_ITEMS) ? WKB_DUMP_ITEMS : items;
}

static bool is_left_out(const dump *it, uint64_t item, uint64_t count) {
  uint64_t most = most_items(it);
  return most > 0 && count > most && item + 1 >= most && item + 1 < count;
}

static void put_coordinate(dump *it) {
  char text[NUMBER_ROOM];
  for (const char *name = DIMENSIONS[it->part.dimension]; *name != 0; name++) {
    if (is_shown(it)) spell(next_double(it), text);
    if (!put_bytes(it, 8, "%c %s", *name, text)) return;
  }
}

/* Shows the coordinates of a point, a line string or a ring, as many as there are. */
static void put_coordinates(dump *it, uint64_t count) {
  size_t size = 8 * it->part.width;
  uint64_t held = (it->len - it->at) / size, whole = count < held ? count : held;
  for (uint64_t i = 0; i < whole; i++) {
    if (is_shown(it) && !is_left_out(it, i, count)) {
      put_coordinate(it);
      continue;
    }
    uint64_t more = (is_shown(it) && whole == count ? count - 1 : whole) - i;
    if (is_shown(it)) put_left_out(it, more, "coordinate");
    it->at += size * more, i += more - 1;
  }
  if (whole < count) put_coordinate(it);
}

static const char *name_of(const list *items) { return items->is_of_rings ? "ring" : "member"; }

/* Shows the line before the item of the innermost lists, from a depth on: how many are left out, and its index. */
static void put_headings(dump *it, uint32_t from) {
  uint32_t depth = it->depth;
  for (it->depth = from - 1; it->depth < depth; it->depth++) {
    const list *items = &it->lists[it->depth];
    uint32_t item = items->begun - 1;
    if (items->left_out > 0) put_left_out(it, items->left_out, name_of(items));
    put_line(it, "%10s%*s- %s %" PRIu32 "%s", "", indent_of(it), "", name_of(items), item,
             !items->is_of_rings ? "" : item == 0 ? ", exterior" : ", interior");
  }
}

/* Begins the next item of the innermost list. */
static void begin_item(dump *it) {
  list *items = &it->lists[it->depth - 1];
  uint32_t item = items->begun++;
  if (it->hidden == 0 || it->hidden == it->depth)
    it->hidden = it->is_full || is_left_out(it, item, items->count) ? it->depth : 0;
  if (it->hidden > 0)
    items->left_out++;
  else
    put_headings(it, it->depth);
}

/* Takes of the rejected part, which may be cut off, byte order and code alone. The kind is that of a ring if it is one,
 * or if no geometry has this code. */
static void take_refused(dump *it) {
  const wkb_part start = {0};
  uint8_t alone[LONGEST_POINT] = {0};
  it->part.kind = WKB_KIND_RING;
  if (it->part.next > 0) return;
  for (size_t i = 0; i < CODE_END && i < it->len - it->at; i++) alone[i] = it->bytes[it->at + i];
  it->part = start;
  if (!wkb_next_part(alone, sizeof alone, &it->part)) it->part.order = alone[0];
}

/* Begins a part. The rejected one is shown wherever it is. */
static void begin_part(dump *it) {
  it->at = (size_t)it->part.end;
  it->walk.begin = it->at - it->front;
  it->is_at_refused = it->walk.parts++ == it->refused || !wkb_next_part(it->bytes, it->len, &it->part);
  if (it->is_at_refused) take_refused(it);
  if (!it->is_at_refused || it->hidden == 0) return;
  for (uint32_t i = it->hidden; i <= it->depth; i++) it->lists[i - 1].left_out--;
  uint32_t from = it->hidden;
  it->hidden = 0;
  put_headings(it, from);
}

/* Shows the header of a geometry: its code in the digits of its standard. Returns whether the bytes after it are its
 * body. */
static bool put_front(dump *it) {
  const wkb_part *part = &it->part;
  put_bytes(it, 1, "%s", part->order > WKB_ORDER_LITTLE ? "no byte order" : ORDERS[part->order]);
  if (part->order > WKB_ORDER_LITTLE) return false;
  uint32_t code = next_number(it);
  const char *format = code & FLAGS ? "code 0x%08" PRIx32 "%s%s%s%s" : "code %" PRIu32 "%s%s%s%s";
  if (part->kind == WKB_KIND_RING) {
    put_bytes(it, 4, format, code, ", which no geometry here has", "", "", "");
    return false;
  }
  return put_bytes(it, 4, format, code, ": ", wkb_kind_text(part->kind), ", ", DIMENSIONS[part->dimension]) &&
         (!part->has_srid || put_bytes(it, 4, "SRID %" PRIu32, next_number(it)));
}

/* Shows a part up to its own coordinates, or up to its rings or members, which are then the innermost list; of the
 * rejected one what is there. */
static void put_part(dump *it) {
  const bool is_ring = it->part.next > 0;
  begin_part(it);
  if (!is_ring && !put_front(it)) return;
  const uint32_t kind = it->part.kind;
  const bool is_point = kind == WKB_KIND_POINT;
  const uint32_t count = is_point ? 1 : it->is_at_refused ? next_number(it) : (uint32_t)it->part.count;
  const char *what = kind == WKB_KIND_POLYGON ? "ring" : kind > WKB_KIND_POLYGON ? "member" : "coordinate";
  if (!is_point && !put_bytes(it, 4, "%" PRIu32 " %s%s", count, what, count == 1 ? "" : "s")) return;
  if (kind < WKB_KIND_POLYGON) put_coordinates(it, count);
  if (kind < WKB_KIND_POLYGON || it->is_at_refused || it->depth == DEEPEST) return;
  const list items = {count, 0, 0, kind == WKB_KIND_POLYGON};
  it->lists[it->depth++] = items;
}

/* Goes over the parts, up to the end or to that of the rejected part. */
static void put_parts(dump *it) {
  put_part(it);
  while (!it->is_at_refused && it->depth > 0 && !it->has_stopped) {
    const list *items = &it->lists[it->depth - 1];
    if (it->is_full && it->refused == NO_PART) return;
    if (items->begun == items->count) {
      it->depth--;
    } else {
      begin_item(it);
      put_part(it);
    }
    if (it->depth < it->hidden) it->hidden = 0;
  }
}

/* Shows the items around the rejected part, from the innermost one on. */
static void put_path(dump *it) {
  char text[SAYS_ROOM] = "";
  size_t length = 0;
  for (uint32_t i = 0; i < it->depth && i < PATH_NAMES; i++) {
    const list *items = &it->lists[it->depth - 1 - i];
    length += (size_t)snprintf(text + length, sizeof text - length, "%s%s %" PRIu32, i == 0 ? "in " : " of ",
                               name_of(items), items->begun - 1);
  }
  uint32_t more = it->depth > PATH_NAMES ? it->depth - PATH_NAMES : 0;
  if (more > 0) snprintf(text + length, sizeof text - length, " and so on, %" PRIu32 " more", more);
  if (it->depth > 0) put_line(it, "%10s%s", "", text);
}

/* Shows the geometry after the header, and its end. Returns whether it is alone. */
static bool put_whole(dump *it) {
  wkb_found found;
  wkb_fault fault;
  it->part.end = it->front = it->at;
  bool is_good = wkb_check(it->bytes + it->at, it->len - it->at, &found, &fault) == WKB_STATUS_OK;
  it->refused = is_good ? NO_PART : fault.part;
  put_parts(it);
  it->walk.end = it->at - it->front;
  if (!is_good) {
    char text[WKB_FAULT_TEXT_ROOM];
    const char *other = wkb_dump_other(&fault, it->bytes + it->front, it->len - it->front);
    fault.offset += it->front;
    wkb_fault_text(&fault, text, sizeof text);
    put_line(it, "%10srefused: %s%s", "", text, other);
    put_path(it);
    return false;
  }
  uint64_t end = it->front + found.size, more = it->len - end;
  if (more == 0)
    put_line(it, "%8" PRIu64 "  the end", end);
  else
    put_line(it, "%8" PRIu64 "  the end of the geometry, and %" PRIu64 " more byte%s", end, more, more == 1 ? "" : "s");
  return more == 0;
}

/* The flags of a GeoPackage's header, and the envelopes that it may have, by their numbers. */
enum { LITTLE = 1, EMPTY = 16, EXTENDED = 32, LATER = 64 + 128, FRONT = 8, ENVELOPE_COUNT = 5 };
static const char *const ENVELOPES[ENVELOPE_COUNT] = {"", "xy", "xyz", "xym", "xyzm"};
static unsigned envelope_of(uint8_t flags) { return flags >> 1 & 7; }

const char *wkb_dump_read_header(const void *buf, size_t len, wkb_dump_header *header) {
  static const char CUT[] = "the input ends inside its GeoPackage header";
  const wkb_dump_header none = {.axes = ""};
  dump it = {.bytes = buf, .len = len, .at = 4};
  *header = none;
  if (len < 2 || memcmp(buf, "GP", 2) != 0) return NULL;
  if (len < FRONT) return CUT;
  uint8_t version = it.bytes[2], flags = it.bytes[3];
  it.part.order = flags & LITTLE;
  header->srs_id = (int32_t)next_number(&it);
  if (version != 0) return "unknown version of a GeoPackage header";
  if (flags & EXTENDED) return "an extended GeoPackage geometry, which is not WKB";
  if (flags & LATER) return "unknown flags in a GeoPackage header";
  if (envelope_of(flags) >= ENVELOPE_COUNT) return "unknown envelope in a GeoPackage header";
  header->axes = ENVELOPES[envelope_of(flags)];
  it.at = FRONT;
  for (size_t i = 0; i < 2 * strlen(header->axes); i++, it.at += 8) {
    if (len - it.at < 8) return CUT;
    header->envelope[i] = next_double(&it);
  }
  header->size = it.at;
  return NULL;
}

/* Shows the header of a GeoPackage as far as it goes. */
static void put_header(dump *it, const wkb_dump_header *header) {
  put_bytes(it, 2, "the header of a GeoPackage");
  if (it->len < 4) {
    put_bytes(it, 2, "version and flags");
    return;
  }
  uint8_t flags = it->bytes[3];
  unsigned envelope = envelope_of(flags);
  const bool is_known = envelope < ENVELOPE_COUNT;
  put_bytes(it, 1, "version %d", it->bytes[2] + 1);
  put_bytes(it, 1, "flags: %s, %s%s envelope%s%s", flags & LITTLE ? "little endian" : "big endian",
            !is_known ? "an unknown" : envelope == 0 ? "no" : "an ", is_known ? ENVELOPES[envelope] : "",
            flags & EMPTY ? ", empty" : "", flags & EXTENDED ? ", extended" : "");
  bool is_there = put_bytes(it, 4, "SRID %" PRId32, header->srs_id);
  for (size_t i = 0; is_there && i < 2 * strlen(header->axes); i++) {
    char text[NUMBER_ROOM];
    spell(header->envelope[i], text);
    is_there = put_bytes(it, 8, "%s %c %s", i % 2 == 0 ? "least" : "greatest", header->axes[i / 2], text);
  }
}

int wkb_dump(const void *buf, size_t len, const wkb_dump_options *options, wkb_dump_put *put, void *to,
             wkb_dump_walk *walk) {
  static const wkb_dump_options USUAL = {WKB_DUMP_ITEMS, WKB_DUMP_LINES};
  dump it = {.bytes = len > 0 ? buf : "", .len = len, .options = options ? *options : USUAL, .put = put, .to = to};
  wkb_dump_header header;
  const char *wrong = wkb_dump_read_header(buf, len, &header);
  if (wrong != NULL || header.size > 0) put_header(&it, &header);
  bool is_alone = wrong == NULL && put_whole(&it);
  if (wrong != NULL) put_line(&it, "%10srefused: %s", "", wrong);
  if (walk != NULL) *walk = it.walk;
  return it.has_stopped ? WKB_DUMP_STOPPED : is_alone ? WKB_DUMP_ALONE : WKB_DUMP_OTHER;
}

/* The value of a digit of hex, or -1. */
static int digit_of(char letter) {
  if (letter >= '0' && letter <= '9') return letter - '0';
  char lower = (char)(letter | ' ');
  return lower >= 'a' && lower <= 'f' ? lower - 'a' + 10 : -1;
}

static bool is_space(char letter) { return letter == ' ' || (letter >= '\t' && letter <= '\r'); }

/* How many characters stand before hex: 0x, as in C, or \x, as in PostgreSQL, or none. */
static size_t mark_of_hex(const char *text, size_t length) {
  return length >= 2 && (text[0] == '0' || text[0] == '\\') && (text[1] == 'x' || text[1] == 'X') ? 2 : 0;
}

/* Goes through hex, and writes its bytes unless OUT is null. Returns how many there are, or WKB_DUMP_NOT_HEX. */
static size_t read_hex(const char *text, size_t length, char *out, size_t *wrong) {
  size_t bytes = 0, i = 0;
  while (i < length && is_space(text[i])) i++;
  if (i < length) i += mark_of_hex(text + i, length - i);
  for (; i < length; i++) {
    if (is_space(text[i])) continue;
    int high = digit_of(text[i]), low = i + 1 < length ? digit_of(text[i + 1]) : -1;
    *wrong = high < 0 ? i : i + 1;
    if (high < 0 || low < 0) return WKB_DUMP_NOT_HEX;
    if (out != NULL) out[bytes] = (char)(high << 4 | low);
    bytes++, i++;
  }
  return bytes;
}

size_t wkb_dump_from_hex(char *text, size_t length, size_t *wrong) {
  size_t bytes = read_hex(text, length, NULL, wrong);
  return bytes == WKB_DUMP_NOT_HEX ? bytes : read_hex(text, length, text, wrong);
}

/* Whether the first bytes, so many as a byte order and a code in hex have, can be printed. */
static bool begins_as_text(const char *text, size_t length) {
  for (size_t i = 0; i < length && i < 10; i++)
    if (text[i] < ' ' || text[i] > '~') return false;
  return length > 0;
}

/* Whether they are hex. */
static bool begins_as_hex(const char *text, size_t length) {
  size_t i = mark_of_hex(text, length);
  while (i < length && i < 10 && digit_of(text[i]) >= 0) i++;
  return i == 10;
}

/* Whether these are the marks of SpatiaLite: 0, an order, 0x7c after the bounds and 0xfe, or, around a point of one of
 * three sizes, 0, an order with the flag 0x80 and 0xfe. */
static bool is_spatialite(const uint8_t *bytes, size_t len) {
  enum { LEAST = 24, BOUNDS_END = 38, LEAST_WITH_BOUNDS = 44, POINT = 0x80 };
  if (len < LEAST || bytes[0] != 0 || bytes[len - 1] != 0xfe) return false;
  if (bytes[1] > 1) return (bytes[1] | 1) == (POINT | 1) && (len == 24 || len == 32 || len == 40);
  return len >= LEAST_WITH_BOUNDS && bytes[BOUNDS_END] == 0x7c;
}

const char *wkb_dump_other(const wkb_fault *fault, const void *buf, size_t len) {
  if (fault->part != 0) return "";
  if (fault->status == WKB_STATUS_CODE_OUT_OF_RANGE && is_spatialite(buf, len))
    return "; this is a blob of SpatiaLite, whose AsBinary(blob) is WKB";
  if (fault->status != WKB_STATUS_INVALID_BYTE_ORDER) return "";
  if (len >= 8 && memcmp(buf, "GP\0", 3) == 0) return "; this is the blob of a GeoPackage";
  if (!begins_as_text(buf, len)) return "";
  return begins_as_hex(buf, len) ? "; this is hexadecimal text" : "; this is text";
}
