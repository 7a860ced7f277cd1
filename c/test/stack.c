/* How much of the stack a call takes: what is below the function that makes it is painted before. */
#include "every.h"
#include "lasting.h"

/* What wkb.h says of calls that return parts, and of the others, times what other compilers of the core take, or
 * sanitizers. */
#ifndef STACK_TIMES
#define STACK_TIMES 1
#endif
#ifndef _WIN32
enum { PARTS_MOST = STACK_TIMES * (20 << 10) };
#else
enum { PARTS_MOST = STACK_TIMES * (28 << 10) };
#endif
enum { OTHERS_MOST = STACK_TIMES * (2 << 10) };
enum { DEPTH = 127, STACK_SIZE = 1 << 17, PAINT = 0xa5, STEP = 30, SHORT_MOST = 64 };

static uint8_t bytes[EVERY_BYTES];
static size_t len;
static every written;
static wkb_status status;

/* Collections inside one another, as many as are accepted inside one more. The innermost has a multi polygon, and a
 * point follows each but the outermost. */
static void nest(void) {
  static const char *const POLYGONS = "01 06000000 01000000 00 00000003 00000002 00000000 00000000";
  for (int i = 0; i < DEPTH - 1; i++) len += spelled("01 07000000 02000000", bytes + len);
  len += spelled("01 07000000 01000000", bytes + len);
  len += spelled(POLYGONS, bytes + len);
  for (int i = 0; i < DEPTH - 1; i++) len += spelled("01 01000000 P", bytes + len);
}

/* Paints what the next function that is called has as its stack, and returns the lowest byte of that. */
static __attribute__((noinline)) volatile uint8_t *painted(void) {
  static volatile uint8_t *volatile lowest;
  volatile uint8_t room[STACK_SIZE];
  for (size_t i = STACK_SIZE; i-- > 0;) room[i] = PAINT;
  lowest = room;
  return lowest;
}

static __attribute__((noinline)) void make(int call) { status = every_call(call, bytes, len, &written); }

/* The bytes of the stack from the lowest that a call has written to. */
static size_t stack_of(int call) {
  const volatile uint8_t *lowest = painted();
  size_t untouched = 0;
  make(call);
  while (untouched < STACK_SIZE && lowest[untouched] == PAINT) untouched++;
  return STACK_SIZE - untouched;
}

/* All calls over the input, whose status is known. Those behind that of levels don't return it. */
static void all_take_little(wkb_status expected) {
  const size_t without = stack_of(EVERY_COUNT);
  for (int call = 0; call < EVERY_COUNT; call++) {
    const size_t most = call == EVERY_PARTS || call == EVERY_COLUMN_PARTS ? PARTS_MOST : OTHERS_MOST;
    char name[32];
    snprintf(name, sizeof name, "case %d of every_call", call);
    make(call); /* so that the linker has found what it calls */
    if (call < EVERY_LEVELS) expect(status == expected, "the status on a painted stack", name);
    expect(stack_of(call) <= without + most, "how much stack", name);
  }
}

void little_stack_is_taken(void) {
  nest();
  all_take_little(WKB_STATUS_OK);
  len--;
  all_take_little(WKB_STATUS_SHORT_POINT);
  const lasting *r;
  for (size_t i = 0; i < lasting_rows(&r); i += STEP) {
    if (r[i].len > SHORT_MOST) continue;
    memcpy(bytes, r[i].bytes, len = r[i].len);
    all_take_little(r[i].status);
  }
}
