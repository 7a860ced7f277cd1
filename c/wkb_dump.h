/* SPDX-License-Identifier: MIT OR Apache-2.0 */
/* Shows the bytes of a geometry line by line, with their meaning, and the place and reason of an error; and reads the
 * header of a GeoPackage's blob. This is plain C over wkb.h, and no part of the library: to use it, compile wkb_dump.c
 * too. It is tested, and not proved.
 *
 * The dump decides nothing itself. It calls wkb_check, and ends at the geometry's end that this finds, or with the part
 * that it rejects. wkb_next_part finds where each part begins, and what it is. The dump doesn't allocate, has no global
 * state, and takes at most 8 KB of stack besides that of printf. As for each call of wkb.h, the input must not change
 * during a call. */
#ifndef WKB_DUMP_H
#define WKB_DUMP_H

#include "wkb.h"

#ifdef __cplusplus
extern "C" {
#endif

/* Takes a line of the dump, of LENGTH characters with its line feed, without a terminating NUL. A result that isn't 0
 * ends the dump. It may also leave it by longjmp, since the dump holds nothing. */
typedef int wkb_dump_put(void *to, const char *line, size_t length);

/* The limits of the output. */
typedef struct wkb_dump_options {
  uint32_t items;  /* of more coordinates, rings or members in one list so many are shown, the last of them with the
                      first ones; 0: all */
  uint64_t lines;  /* after so many lines only what leads to the rejected part, that part and the end, which take at
                      most WKB_DUMP_LINES_MORE lines; 0: all */
} wkb_dump_options;

enum { WKB_DUMP_ITEMS = 3, WKB_DUMP_LINES = 1000, WKB_DUMP_LINES_MORE = 300 };

/* The result of the dump, and the exit status of a program. */
enum {
  WKB_DUMP_ALONE = 0,   /* the input is one geometry, without trailing bytes */
  WKB_DUMP_OTHER = 1,   /* it is rejected, or more bytes come after the geometry */
  WKB_DUMP_STOPPED = 2  /* PUT has ended the dump */
};

/* The extent of the walk, in bytes from the start of the geometry. */
typedef struct wkb_dump_walk {
  uint64_t parts;  /* how many parts have begun; the last of a rejected input is the rejected one */
  uint64_t begin;  /* where the last of them starts */
  uint64_t end;    /* one past the last byte that is shown or left out */
} wkb_dump_walk;

/* Shows the geometry at the start of the input, which may have the header of a GeoPackage's blob before it. Null
 * OPTIONS are WKB_DUMP_ITEMS and WKB_DUMP_LINES. WALK may be null, and BUF if LEN is 0. The time that it takes is
 * proportional to that of wkb_check and to the lines. */
int wkb_dump(const void *buf, size_t len, const wkb_dump_options *options, wkb_dump_put *put, void *to,
             wkb_dump_walk *walk);

/* Returns what an input that wkb_check has rejected with this fault is by its first bytes, if that is text, the blob of
 * a GeoPackage or one of SpatiaLite: words that follow those of the fault. Else "". */
const char *wkb_dump_other(const wkb_fault *fault, const void *buf, size_t len);

/* The header that a GeoPackage has before the geometry of a blob: OGC 12-128r18, clause 2.1.3. */
typedef struct wkb_dump_header {
  size_t size;         /* its length in bytes: where the geometry begins; 0 if there is no such header */
  int32_t srs_id;      /* the SRID; 0 and -1 stand for undefined ones */
  const char *axes;    /* the ordinates of its envelope: "", "xy", "xyz", "xym" or "xyzm" */
  double envelope[8];  /* of each of them the least and the greatest number, as the header says: of the geometry they
                          may be others */
} wkb_dump_header;

/* Reads the header at the start of a blob, which begins with "GP". Returns NULL, also if there is none; or why no
 * geometry of WKB is behind it, and then SIZE is 0, and what couldn't be read is 0 or "". */
const char *wkb_dump_read_header(const void *buf, size_t len, wkb_dump_header *header);

/* Decodes hex to bytes at the start of TEXT, and returns how many there are. Hex is an even number of digits of either
 * case, with white space anywhere between bytes, and optionally 0x or \x before it. If the text is something else it is
 * unchanged, the result is WKB_DUMP_NOT_HEX, and WRONG is the index of the first character that isn't the digit that
 * belongs there, or LENGTH. */
size_t wkb_dump_from_hex(char *text, size_t length, size_t *wrong);
#define WKB_DUMP_NOT_HEX SIZE_MAX

#ifdef __cplusplus
}
#endif
#endif
