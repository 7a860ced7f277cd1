/* The texts of statuses, kinds and faults, the classes of statuses, and the version. */
#include "shared.h"

/* What is to be said of a number: whether the call failed, the row or the input is at fault, or bytes are missing. */
typedef enum class { FINE, FAILURE, OF_ROW, REFUSAL, EARLY_END } class;

/* The numbers stay within version 1. */
static const struct {
  uint32_t number;
  wkb_status status;
  class is;
  const char *text;
} NAMED[] = {
    {0, WKB_STATUS_OK, FINE, "ok"},
    {1, WKB_STATUS_NO_MEMORY, FAILURE, "out of memory"},
    {2, WKB_STATUS_NO_ROOM, FAILURE, "the output buffer is too small"},
    {3, WKB_STATUS_UNKNOWN_OPTION, FAILURE, "unknown byte order, form, kind or dimension"},
    {4, WKB_STATUS_TOO_MANY_ROWS, FAILURE, "there are more rows than a count of four bytes holds"},
    {16, WKB_STATUS_NULL_ROW, OF_ROW, "the row is null"},
    {17, WKB_STATUS_BAD_OFFSETS, OF_ROW,
     "the row's offsets are negative, decrease or pass the end of the data, or it begins before a row ends"},
    {18, WKB_STATUS_BAD_LEVELS, OF_ROW, "the row's levels don't fit its kind or each other"},
    {32, WKB_STATUS_SHORT_HEADER, EARLY_END, "the input ends inside a header or before a count"},
    {33, WKB_STATUS_INVALID_BYTE_ORDER, REFUSAL, "a byte order is neither 0 nor 1"},
    {34, WKB_STATUS_CODE_OUT_OF_RANGE, REFUSAL, "unknown geometry type code"},
    {35, WKB_STATUS_INCORRECT_TYPE, REFUSAL, "a member has the wrong kind, dimension or SRID for its multi geometry"},
    {36, WKB_STATUS_NESTING_DEPTH_EXCEEDED, REFUSAL, "a collection is inside 128 others"},
    {48, WKB_STATUS_SHORT_POINT, EARLY_END, "the input ends inside a point"},
    {49, WKB_STATUS_SHORT_LINE_STRING, EARLY_END, "the input ends inside a line string"},
    {50, WKB_STATUS_SHORT_MULTI_POINT, EARLY_END, "the input ends inside a multi point"},
    {51, WKB_STATUS_SHORT_LINEAR_RING, EARLY_END, "the input ends inside a ring"},
};
enum { NAMED_COUNT = sizeof NAMED / sizeof NAMED[0], STATUSES_MOST = 300 };

/* Numbers that later versions may name, from the first to the last one of each class. */
static const struct {
  wkb_status first, last;
  class is;
  const char *text;
} UNNAMED[] = {
    {5, 15, FAILURE, "the call failed"},
    {19, 31, OF_ROW, "something is wrong with the row"},
    {37, 47, REFUSAL, "the input is refused"},
    {52, STATUSES_MOST, EARLY_END, "the input ends too early"},
    {UINT32_MAX, UINT32_MAX, EARLY_END, "the input ends too early"},
};
enum { UNNAMED_COUNT = sizeof UNNAMED / sizeof UNNAMED[0] };

static void status_is(wkb_status status, class is, const char *text) {
  expect(strcmp(wkb_status_text(status), text) == 0, "the text of a status", text);
  expect(!wkb_status_is_failure(status) == (is != FAILURE), "what a call couldn't do", text);
  expect(!wkb_status_is_of_row(status) == (is != OF_ROW), "what is wrong with a row", text);
  expect(!wkb_status_is_refusal(status) == (is != REFUSAL && is != EARLY_END), "a refusal", text);
  expect(!wkb_status_is_early_end(status) == (is != EARLY_END), "an early end", text);
}

/* Each status has a text and a class, and any other number those of its class. */
static void statuses_are_told(void) {
  for (int i = 0; i < NAMED_COUNT; i++) {
    expect(NAMED[i].number == NAMED[i].status, "the number of a status", NAMED[i].text);
    status_is(NAMED[i].status, NAMED[i].is, NAMED[i].text);
  }
  for (int i = 0; i < UNNAMED_COUNT; i++) {
    status_is(UNNAMED[i].last, UNNAMED[i].is, UNNAMED[i].text);
    for (wkb_status k = UNNAMED[i].first; k < UNNAMED[i].last; k++) status_is(k, UNNAMED[i].is, UNNAMED[i].text);
  }
}

/* Each kind has its name, and other numbers have one text. */
static void kinds_have_names(void) {
  static const char *const NAMES[] = {"ring",       "point",           "linestring",   "polygon",
                                      "multipoint", "multilinestring", "multipolygon", "geometrycollection"};
  for (uint32_t i = 0; i < 8; i++) expect(strcmp(wkb_kind_text(i), NAMES[i]) == 0, "the name of a kind", NAMES[i]);
  expect(strcmp(wkb_kind_text(8), "unknown kind") == 0, "no kind", "8");
  expect(strcmp(wkb_kind_text(UINT32_MAX), "unknown kind") == 0, "no kind", "the last number");
}

/* Faults, and their texts. */
static const struct {
  wkb_fault fault;
  const char *text;
} TOLD[] = {
    {{10, 99, 100, 9, 0, WKB_STATUS_SHORT_LINEAR_RING},
     "the input ends inside a ring, at byte 99 (part 10): it needs 100 bytes and has 9"},
    {{1, 2, 3, 4, 5, 31}, "something is wrong with the row"},
    {{1, 2, 0, 0, 0, 47}, "the input is refused, at byte 2 (part 1)"},
    {{1, 2, 3, 4, 0, 255}, "the input ends too early, at byte 2 (part 1): it needs 3 bytes and has 4"},
    {{1, 2, 3, 4, 5, WKB_STATUS_UNKNOWN_OPTION}, "unknown byte order, form, kind or dimension"},
    {{1, 2, 3, 4, 5, WKB_STATUS_OK}, "ok"},
};

/* Codes, and what is said of them: those of OGC 06-103r4 from 8 on, by ISO, with the flags of EWKB and with both. */
static const char *const UNREAD[] = {"a circular string", "a compound curve", "a curve polygon", "a multi curve",
                                     "a multi surface", "a curve", "a surface", "a polyhedral surface", "a TIN",
                                     "a triangle"};
static const uint32_t FRONTS[] = {0, 1000, 2000, 3000, 0x20000000, 0xe0000000, 0x80000000 + 3000};
static const uint32_t NAMELESS[] = {0, 18, 1000, 1018, 4008, 4010, 0x10000000 + 8, UINT32_MAX};

/* In each room: what fits of the text is written, and a 0 after it. */
static void is_told(const wkb_fault *fault, const char *text) {
  const size_t length = strlen(text);
  expect(wkb_fault_text(fault, NULL, 0) == length, "the length of a text", text);
  for (size_t room = 1; room <= length + 2; room++) {
    char out[WKB_FAULT_TEXT_ROOM], before[WKB_FAULT_TEXT_ROOM];
    size_t written = room <= length ? room - 1 : length;
    memset(out, 0x5a, sizeof out), memset(before, 0x5a, sizeof before);
    expect(wkb_fault_text(fault, out, room) == length, "the length of a cut text", text);
    expect(memcmp(out, text, written) == 0 && out[written] == 0, "a fault's text", text);
    expect(memcmp(out + written + 1, before, sizeof out - written - 1) == 0, "more text", text);
  }
}

static void code_is_told(uint32_t code, const char *name) {
  const wkb_fault fault = {3, 40, 0, 0, code, WKB_STATUS_CODE_OUT_OF_RANGE};
  char text[WKB_FAULT_TEXT_ROOM];
  snprintf(text, sizeof text, "unknown geometry type code %u%s%s%s, at byte 40 (part 3)", (unsigned)code,
           name ? ", " : "", name ? name : "", name ? ", which this library does not read" : "");
  is_told(&fault, text);
}

static void faults_have_texts(void) {
  for (size_t i = 0; i < sizeof TOLD / sizeof TOLD[0]; i++) is_told(&TOLD[i].fault, TOLD[i].text);
  for (size_t i = 0; i < sizeof NAMELESS / sizeof NAMELESS[0]; i++) code_is_told(NAMELESS[i], NULL);
  for (uint32_t i = 0; i < sizeof UNREAD / sizeof UNREAD[0]; i++)
    for (size_t k = 0; k < sizeof FRONTS / sizeof FRONTS[0]; k++) code_is_told(FRONTS[k] + 8 + i, UNREAD[i]);
}

/* The longest text of each status fits its room. */
static void longest_texts_fit(void) {
  for (uint32_t i = 0; i < STATUSES_MOST; i++) {
    /* The longest number is one without a name, and the longest name is that of a polyhedral surface. */
    const uint32_t CODES[] = {UINT32_MAX, 0xe0000000 | 3015};
    for (int k = 0; k < 2; k++) {
      const wkb_fault fault = {UINT64_MAX, UINT64_MAX, UINT64_MAX, UINT64_MAX, CODES[k], i};
      expect(wkb_fault_text(&fault, NULL, 0) < WKB_FAULT_TEXT_ROOM, "the longest text", wkb_status_text(i));
    }
  }
}

void texts_are_right(void) {
  statuses_are_told();
  kinds_have_names();
  faults_have_texts();
  longest_texts_fit();
  expect(wkb_version() == WKB_VERSION, "the version", "");
}
