/* On Windows: calls that fault, since their input ends before it says, at a page that may not be read. Each fault is
 * unwound by the tables of the library's code to the function that has called, which goes on with the registers that it
 * had, as the tables say. Each call faults. */
#include "../every.h"
#include "test/shared.h"
#include <windows.h>

static int faults[EVERY_LEVELS + 1], deepest, calling;

/* One of the calls up to that of levels. For that the words of a multi point are the input. */
static __attribute__((noinline)) void call(int which, const uint8_t *bytes, size_t len) {
  static every written;
  const uint64_t points = len / 16;
  const wkb_levels levels = {(const double *)(const void *)bytes, 2 * points, NULL, points, NULL, points,
                             &points, 1, NULL, 0};
  if (which < EVERY_LEVELS) every_call(which, bytes, len, &written);
  else
    wkb_column_from_coordinates(&levels, WKB_KIND_MULTI_POINT, WKB_DIM_XY, &written.options, written.out, EVERY_BYTES,
                                &written.level_end, &written.row);
  calling = which; /* so that it is called from here, and not jumped to */
}

static LONG CALLBACK unwind(EXCEPTION_POINTERS *fault) {
  CONTEXT context = *fault->ContextRecord;
  int frames = 0;
  if (fault->ExceptionRecord->ExceptionCode != EXCEPTION_ACCESS_VIOLATION) return EXCEPTION_CONTINUE_SEARCH;
  for (;; frames++) {
    DWORD64 base, frame;
    PVOID data;
    RUNTIME_FUNCTION *function = RtlLookupFunctionEntry(context.Rip, &base, NULL);
    if (function && base + function->BeginAddress == (DWORD64)(uintptr_t)call) break;
    if (frames == 300 || (!function && frames > 0)) {
      printf("wrong: the fault at %#llx is not unwound\n", (unsigned long long)fault->ContextRecord->Rip);
      exit(1);
    }
    if (function) {
      RtlVirtualUnwind(UNW_FLAG_NHANDLER, base, context.Rip, function, &context, &data, &frame, NULL);
    } else { /* a function that keeps nothing on the stack */
      context.Rip = *(DWORD64 *)context.Rsp;
      context.Rsp += 8;
    }
  }
  faults[calling]++;
  if (frames > deepest) deepest = frames;
  *fault->ContextRecord = context;
  return EXCEPTION_CONTINUE_EXECUTION;
}

int main(void) {
  static const uint8_t OPEN[] = {1, WKB_KIND_GEOMETRY_COLLECTION, 0, 0, 0, 1, 0, 0, 0};
  static const uint8_t POLYGONS[64] = {1, WKB_KIND_MULTI_POLYGON, 0, 0, 0, 1, 0, 0, 0,
                                       1, WKB_KIND_POLYGON,       0, 0, 0, 1, 0, 0, 0, 2};
  uint8_t *end = end_of_pages(4096);
  if (!AddVectoredExceptionHandler(1, unwind)) return 1;
  for (calling = 0; calling <= EVERY_LEVELS; calling++) {
    for (size_t depth = 0; depth <= 120; depth += 8) {
      for (size_t cut = 1; cut < 64; cut++) {
        size_t len = depth * sizeof OPEN + sizeof POLYGONS;
        uint8_t *bytes = end - (len - cut);
        for (size_t i = 0; i < depth; i++) memcpy(bytes + i * sizeof OPEN, OPEN, sizeof OPEN);
        memcpy(bytes + depth * sizeof OPEN, POLYGONS, sizeof POLYGONS - cut);
        call(calling, bytes, len);
      }
    }
  }
  int all = 0, least = faults[0];
  for (int i = 0; i <= EVERY_LEVELS; i++) {
    all += faults[i];
    if (faults[i] < least) least = faults[i];
  }
  printf("%d faults are unwound, from up to %d frames\n", all, deepest);
  return least < 200;
}
