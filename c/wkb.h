/* SPDX-License-Identifier: MIT OR Apache-2.0 */
/** Well-Known Binary for C and C++: a reader and a writer, compiled from sources that are proved to do what this header
 * says.
 *
 * A sentence that ends in (tested) is backed by tests alone. So is all of wkb_version, wkb_words, wkb_word, wkb_whole,
 * wkb_one_point, wkb_little_word, wkb_big_word, the texts and the classes of statuses, and what a call does around the
 * proved one: it replaces null pointers, passes structs on, and returns what it has found.
 *
 * An input may contain arbitrary bytes, in either byte order. They may be at any alignment (tested). Structs have the
 * machine's byte order and alignment. Every call but wkb_next_part() rejects an input as wkb_check() does, with the
 * same status and fault. Bytes after the geometry are ignored.
 *
 * What wkb_collect() and the calls for one geometry write, by the status that they return:
 *
 * | status                                              | what is written                                           |
 * |-----------------------------------------------------|-----------------------------------------------------------|
 * | WKB_STATUS_OK                                       | all outputs but fault, which and row                      |
 * | WKB_STATUS_NO_ROOM                                  | size or count alone: what is needed, more than the room   |
 * | WKB_STATUS_UNKNOWN_OPTION, WKB_STATUS_TOO_MANY_ROWS | nothing                                                   |
 * | WKB_STATUS_NULL_ROW, WKB_STATUS_BAD_OFFSETS         | row alone                                                 |
 * | 32 to 255: the input is rejected                    | fault, and with it which or row if the call has one       |
 *
 * What a call doesn't write is unchanged. A call returns, and keeps no pointers (tested). It reads the bytes that it is
 * given and no others, and writes only through its output pointers (tested).
 *
 * Output buffers must not overlap each other or any input. The input, offsets, validity and levels must not change
 * during a call, by another thread or by another process. Otherwise nothing is promised, not even where a call writes.
 * So copy a mapped file that others may write before the call. A pointer may be null if its length, capacity or number
 * of rows is 0 (tested). An output pointer may also be null if its call says so (tested). No other pointer may be
 * null.
 *
 * Calls don't allocate and are async-signal-safe, also in a forked child and on a thread with a small stack: wkb_parts
 * and wkb_column_parts take at most 20 KB of it (28 KB on Windows), any other call 2 KB, and by make CORE=rust up to
 * twice that (tested). Calls are thread-safe: there is no global state (tested). Four times the parts of a geometry are
 * at most the length of its input plus 8. The work over an input is at most proportional to its length, over a column
 * to its rows and bytes, or to its rows, singles, rings and coordinates, whatever its offsets and ends say (tested).
 *
 * Within version 1 these stay as they are: names, numbers and structs; which inputs are accepted, those of the grammar
 * with its seven kinds and at most 128 collections inside one another; and every byte that is written for an input and
 * options. So a key that is stored stays what it is. What is rejected stays rejected, but a later version may give it
 * another status of the same class. Texts may change. Later versions add calls, and statuses inside the classes that
 * wkb_status names, each with "since 1.N". What has no such words is there since 1.0.
 *
 * @file */
#ifndef WKB_H
#define WKB_H

#include <stddef.h>
#include <stdint.h>
#include <string.h>

#ifdef __cplusplus
extern "C" {
#endif

/** The version that a program is compiled against; wkb_version() returns the one that it runs with. */
#define WKB_VERSION_MAJOR 1
#define WKB_VERSION_MINOR 0
#define WKB_VERSION_PATCH 0
#define WKB_VERSION (WKB_VERSION_MAJOR * 1000000 + WKB_VERSION_MINOR * 1000 + WKB_VERSION_PATCH)

/** The capacity that every text of wkb_fault_text() fits in version 1, with its terminating NUL (tested). */
#define WKB_FAULT_TEXT_ROOM 256

/* A wkb_status, wkb_kind, wkb_dim, wkb_order or wkb_form is a number that need not have one of the names below: it may
 * be a status of a later version, or an invalid option. So none of these types is an enum. */

/** The result of a call, or of one row of a column, which fits in a byte.
 *
 * Each number belongs to a class. Ask for the class if the number isn't known:
 *
 * | statuses         | the call that asks        | meaning                                                          |
 * |------------------|---------------------------|------------------------------------------------------------------|
 * | 1 to 15          | wkb_status_is_failure()   | the call failed                                                  |
 * | 16 to 31         | wkb_status_is_of_row()    | a row of a column is null or invalid, whatever its bytes are     |
 * | 32 to 255        | wkb_status_is_refusal()   | the input is rejected: the first error from its start on         |
 * | 32, 48 to 255    | wkb_status_is_early_end() | the input ends before its geometry does                          |
 */
typedef uint32_t wkb_status;
enum {
  WKB_STATUS_OK = 0,
  WKB_STATUS_NO_MEMORY = 1,                /**< no call of this version returns it */
  WKB_STATUS_NO_ROOM = 2,                  /**< a capacity is too small; the size, the count or the ends say what is
                                                needed */
  WKB_STATUS_UNKNOWN_OPTION = 3,           /**< the options name no order, form, kind or dimension */
  WKB_STATUS_TOO_MANY_ROWS = 4,            /**< there are 2^32 rows or more, and a count has four bytes */
  WKB_STATUS_NULL_ROW = 16,                /**< the row's validity bit is 0 */
  WKB_STATUS_BAD_OFFSETS = 17,             /**< the row isn't null, and its offsets are negative, decrease or exceed the
                                                data, or it starts before the end of an earlier row, null or not, whose
                                                offsets do none of this, or offset_size is neither 4 nor 8 */
  WKB_STATUS_BAD_LEVELS = 18,              /**< the row's levels don't fit its kind or each other */
  WKB_STATUS_SHORT_HEADER = 32,            /**< the input ends inside a header or before a count */
  WKB_STATUS_INVALID_BYTE_ORDER = 33,      /**< an order byte is neither 0 nor 1 */
  WKB_STATUS_CODE_OUT_OF_RANGE = 34,       /**< unknown geometry type code, which is the fault's code */
  WKB_STATUS_INCORRECT_TYPE = 35,          /**< a member has another kind or dimension than its multi geometry takes, or
                                                a point of a multi point has an SRID */
  WKB_STATUS_NESTING_DEPTH_EXCEEDED = 36,  /**< a collection is inside 128 others */
  WKB_STATUS_SHORT_POINT = 48,             /**< the input ends before a point's coordinate does */
  WKB_STATUS_SHORT_LINE_STRING = 49,       /**< the input ends before a line string's coordinates do */
  WKB_STATUS_SHORT_MULTI_POINT = 50,       /**< the input ends before a multi point's members do */
  WKB_STATUS_SHORT_LINEAR_RING = 51        /**< the input ends before a ring's coordinates do */
};

/** The kinds, by their numbers in the type codes. A ring is a part of a polygon. */
typedef uint32_t wkb_kind;
enum {
  WKB_KIND_RING = 0, WKB_KIND_POINT = 1, WKB_KIND_LINE_STRING = 2, WKB_KIND_POLYGON = 3, WKB_KIND_MULTI_POINT = 4,
  WKB_KIND_MULTI_LINE_STRING = 5, WKB_KIND_MULTI_POLYGON = 6, WKB_KIND_GEOMETRY_COLLECTION = 7
};

/** The dimensions, by the thousands of ISO codes. */
typedef uint32_t wkb_dim;
enum { WKB_DIM_XY = 0, WKB_DIM_XYZ = 1, WKB_DIM_XYM = 2, WKB_DIM_XYZM = 3 };

/** The byte orders, by their order bytes. */
typedef uint32_t wkb_order;
enum { WKB_ORDER_BIG = 0, WKB_ORDER_LITTLE = 1 };

/** The encoding of type codes, and whether an SRID is written. Only the outermost geometry's SRID is ever written. */
typedef uint32_t wkb_form;
enum {
  WKB_FORM_ISO = 0,                /**< ISO codes, no SRID */
  WKB_FORM_EWKB_OWN_SRID = 1,      /**< EWKB, with the SRID of the input's geometry if it has one */
  WKB_FORM_EWKB_WITH_SRID = 2,     /**< EWKB, with the SRID of the options */
  WKB_FORM_EWKB_WITHOUT_SRID = 3   /**< EWKB, without an SRID */
};

/** The geometry at the start of the input. */
typedef struct wkb_found {
  uint64_t size;         /**< its length in bytes; others may follow them */
  uint64_t parts;        /**< how many parts it has: itself, and its rings and members at every level */
  uint64_t coordinates;  /**< how many coordinates these have: 1 for each point, also for an empty one */
  uint64_t offset;       /**< where its own coordinates, rings or members start, in bytes from the start of the input */
  uint64_t count;        /**< how many of these it has itself; 1 for a point */
  uint32_t srid;         /**< its own SRID, or 0 */
  uint32_t has_srid;     /**< 1 if it has an SRID, else 0 */
  uint32_t kind;         /**< a wkb_kind */
  uint32_t dimension;    /**< a wkb_dim */
  uint32_t width;        /**< the words (doubles) of a coordinate: 2, 3 or 4 */
  uint32_t order;        /**< a wkb_order */
} wkb_found;

/** The first error of a rejected input, and the part that has it. */
typedef struct wkb_fault {
  uint64_t part;    /**< how many parts come before this one, in preorder: 0 is the whole geometry */
  uint64_t offset;  /**< where the part starts, in bytes from the start of the input, whatever the status */
  uint64_t end;     /**< of a status of 48 or more: how many bytes the part needs, from its own start; else 0 */
  uint64_t len;     /**< of a status of 48 or more: how many bytes there are from the part's start on; else 0 */
  uint32_t code;    /**< of WKB_STATUS_CODE_OUT_OF_RANGE: all bits of the type code; else 0 */
  uint32_t status;  /**< the wkb_status that the call returns */
} wkb_fault;

/** The byte order and the form that are written. An invalid order or form is WKB_STATUS_UNKNOWN_OPTION. */
typedef struct wkb_options {
  uint32_t order;  /**< a wkb_order */
  uint32_t form;   /**< a wkb_form */
  uint32_t srid;   /**< of WKB_FORM_EWKB_WITH_SRID */
} wkb_options;

/** An entry of a table of parts: a geometry, or a ring of a polygon.
 *
 * Its rings or members follow it in the table, each followed by its own. Offsets are in bytes from the start of the
 * input. The bytes from begin up to end are the part's own. Those of a geometry are a well-formed input by themselves
 * (tested). */
typedef struct wkb_part {
  uint64_t begin;      /**< the offset of its first byte */
  uint64_t end;        /**< the offset one past its last byte */
  uint64_t offset;     /**< as in wkb_found */
  uint64_t count;      /**< as in wkb_found */
  uint64_t next;       /**< the index of the entry after those of its own rings and members */
  uint32_t srid;       /**< as in wkb_found */
  uint32_t has_srid;   /**< as in wkb_found */
  uint32_t kind;       /**< as in wkb_found */
  uint32_t dimension;  /**< as in wkb_found */
  uint32_t width;      /**< as in wkb_found */
  uint32_t order;      /**< as in wkb_found */
} wkb_part;

/** The range of an ordinate over all coordinates that have one. NaNs are left out. -0 is below +0. */
typedef struct wkb_range {
  double   least;     /**< +infinity if count is 0 */
  double   greatest;  /**< -infinity if count is 0 */
  uint64_t count;     /**< how many numbers there are */
} wkb_range;

/** The bounds of a geometry, over all its rings: z of coordinates that have a z, m of those that have an m. */
typedef struct wkb_box {
  wkb_range x;  /**< of all coordinates */
  wkb_range y;  /**< of all coordinates */
  wkb_range z;  /**< of coordinates with a z */
  wkb_range m;  /**< of coordinates with an m */
} wkb_box;

/** A column as Arrow has it (binary, large binary, or a slice of one).
 *
 * Row i has the bytes of data from offset i up to offset i + 1. Rows that are read don't overlap, so all of them
 * together are no longer than size. */
typedef struct wkb_column {
  const void *data;        /**< the bytes of the rows; may be null if size is 0 */
  size_t size;             /**< the length of data in bytes */
  const void *offsets;     /**< rows + 1 offsets, int32_t or int64_t; may be null if rows is 0 */
  size_t offset_size;      /**< 4 or 8: the bytes of an offset */
  const void *validity;    /**< validity bitmap, LSB first, 0 for a null row; null if no row is null */
  size_t validity_offset;  /**< the bit of the first row */
  size_t rows;             /**< the number of rows */
} wkb_column;

/** Returns the version of the library.
 *
 * @return its WKB_VERSION */
unsigned wkb_version(void);
/** Returns the text of a status, or of its class if the number has no name, in one line.
 *
 * @param status  any number
 * @return a string with static storage, never null */
const char *wkb_status_text(wkb_status status);
/** Returns the name of a kind in lower case, such as "linestring".
 *
 * @param kind  any number
 * @return a string with static storage, never null */
const char *wkb_kind_text(wkb_kind kind);

/** Writes what a fault says as one line: the text of its status, the type code, the byte of the input at which the part
 * starts, which part it is, and how many bytes it needs and has.
 *
 * A code of a curve, a surface or a TIN is named. If the status is no refusal, only its text is written.
 *
 * @param fault     the fault; not null
 * @param[out] out  the text: at most room - 1 of its characters, and a terminating NUL; may be null if room is 0
 * @param room      the capacity of out in bytes; nothing is cut off if it is WKB_FAULT_TEXT_ROOM
 * @return the length of the whole text in bytes, without the NUL */
size_t wkb_fault_text(const wkb_fault *fault, char *out, size_t room);

/** Tells whether a status says that the input is rejected.
 *
 * @param status  any number
 * @return 1 if the status is 32 or more, else 0 */
int wkb_status_is_refusal(wkb_status status);
/** Tells whether a status says that the input ends before its geometry does, so that bytes are missing.
 *
 * @param status  any number
 * @return 1 if the status is WKB_STATUS_SHORT_HEADER, or 48 or more, else 0 */
static inline int wkb_status_is_early_end(wkb_status status) {
  return status == WKB_STATUS_SHORT_HEADER || status >= WKB_STATUS_SHORT_POINT;
}
/** Tells whether a status says that a row of a column is null or invalid, whatever its bytes are.
 *
 * @param status  any number
 * @return 1 if the status is from 16 to 31, else 0 */
static inline int wkb_status_is_of_row(wkb_status status) { return status >= 16 && status < 32; }
/** Tells whether a status says that the call failed.
 *
 * @param status  any number
 * @return 1 if the status is from 1 to 15, else 0 */
static inline int wkb_status_is_failure(wkb_status status) { return status >= 1 && status < 16; }

/** Validates the geometry at the start of the input: it has to follow the grammar, with at most 128 collections inside
 * one another.
 *
 * @param buf         the input; may be null if len is 0
 * @param len         its length in bytes
 * @param[out] found  what the geometry is, written if the result is WKB_STATUS_OK; may be null
 * @param[out] fault  the first error, written if the input is rejected; may be null
 * @return WKB_STATUS_OK, or a status of 32 or more if the input is rejected */
wkb_status wkb_check(const void *buf, size_t len, wkb_found *found, wkb_fault *fault);

/** Computes the bounds of the input's geometry.
 *
 * @param buf         the input; may be null if len is 0
 * @param len         its length in bytes
 * @param[out] box    the bounds, written if the result is WKB_STATUS_OK; may be null
 * @param[out] fault  the first error, written if the input is rejected; may be null
 * @return WKB_STATUS_OK, or the status of wkb_check() if the input is rejected */
wkb_status wkb_bounds(const void *buf, size_t len, wkb_box *box, wkb_fault *fault);

/** Writes the one encoding of the input's geometry under the options.
 *
 * @param buf         the input; may be null if len is 0
 * @param len         its length in bytes
 * @param options     the byte order and the form that are written; not null
 * @param[out] out    the encoding, at its start, written if the result is WKB_STATUS_OK; may be null if room is 0
 * @param room        the capacity of out in bytes; len + 4 is always enough
 * @param[out] size   the length of the encoding in bytes, written if the result is WKB_STATUS_OK or
 *                    WKB_STATUS_NO_ROOM; may be null
 * @param[out] fault  the first error, written if the input is rejected; may be null
 * @return WKB_STATUS_OK; WKB_STATUS_NO_ROOM if the encoding is longer than room; WKB_STATUS_UNKNOWN_OPTION if the
 *         options are invalid, whatever the input is; or the status of wkb_check() if the input is rejected */
wkb_status wkb_write(const void *buf, size_t len, const wkb_options *options, void *out, size_t room, size_t *size,
                     wkb_fault *fault);

/** Compares the geometries of two inputs: they are equal if their kinds, dimensions and coordinates are the same, bit
 * for bit, whatever their SRIDs and byte orders are. Empty points are equal whatever NaNs they hold.
 *
 * @param a           the first input; may be null if a_len is 0
 * @param a_len       its length in bytes
 * @param b           the second input; may be null if b_len is 0
 * @param b_len       its length in bytes
 * @param[out] equal  1 if the geometries are equal, else 0, written if the result is WKB_STATUS_OK; may be null
 * @param[out] fault  the first error of the input that is rejected, written if one is; may be null
 * @param[out] which  1 if a is rejected, 2 if only b is, written if one is; may be null
 * @return WKB_STATUS_OK, or the status of wkb_check() for a, or else for b, if it is rejected */
wkb_status wkb_same(const void *a, size_t a_len, const void *b, size_t b_len, uint32_t *equal, wkb_fault *fault,
                    uint32_t *which);

/** Lists the parts of the input's geometry in preorder.
 *
 * @param buf         the input; may be null if len is 0
 * @param len         its length in bytes
 * @param[out] parts  the table, written if the result is WKB_STATUS_OK; may be null if room is 0
 * @param room        the capacity of parts in entries; the parts of wkb_found are enough
 * @param[out] count  the length of the table in entries, written if the result is WKB_STATUS_OK or
 *                    WKB_STATUS_NO_ROOM; may be null
 * @param[out] fault  the first error, written if the input is rejected; may be null
 * @return WKB_STATUS_OK; WKB_STATUS_NO_ROOM if the table is longer than room; or the status of wkb_check() if the input
 *         is rejected */
wkb_status wkb_parts(const void *buf, size_t len, wkb_part *parts, size_t room, size_t *count, wkb_fault *fault);

/** Moves on to the next part of any bytes, in preorder, also of an input that is rejected.
 *
 * The call doesn't tell which part is the last. An accepted input has as many as wkb_found says. Before a rejected part
 * come as many as wkb_fault says, and the last of these ends at that part's offset (tested).
 *
 * @param buf           the input; may be null if len is 0
 * @param len           its length in bytes
 * @param[in,out] part  all zeros at first, but that end may be where the geometry starts; then what the last call has
 *                      written: the part as in wkb_parts(), but end is where its own coordinates end, or its rings or
 *                      members start, and next is how many rings of a polygon come directly after it; any numbers are
 *                      safe; not null
 * @return 1 if the next part is there up to its rings or members; else 0, and part is unchanged */
uint32_t wkb_next_part(const void *buf, size_t len, wkb_part *part);

/** Validates each row as wkb_check() does. No row stops the others.
 *
 * @param column         the rows; not null
 * @param[out] statuses  one byte per row: what wkb_check() returns, WKB_STATUS_NULL_ROW or WKB_STATUS_BAD_OFFSETS; may
 *                       be null if there are no rows
 * @note No byte of a row that is WKB_STATUS_NULL_ROW or WKB_STATUS_BAD_OFFSETS is read (tested). */
void wkb_column_check(const wkb_column *column, uint8_t *statuses);

/** Validates each row as wkb_check() does, and finds what its geometry is. No row stops the others.
 *
 * @param column         the rows; not null
 * @param[out] found     one entry per row: what wkb_check() finds, or all zeros if the row's status isn't
 *                       WKB_STATUS_OK; may be null
 * @param[out] statuses  one byte per row, as for wkb_column_check(); may be null if there are no rows */
void wkb_column_found(const wkb_column *column, wkb_found *found, uint8_t *statuses);

/** Computes the bounds of each row as wkb_bounds() does. No row stops the others.
 *
 * @param column         the rows; not null
 * @param[out] boxes     one entry per row: its bounds, or those of a geometry without coordinates if the row's status
 *                       isn't WKB_STATUS_OK; may be null if there are no rows
 * @param[out] statuses  one byte per row, as for wkb_column_check(); may be null if there are no rows */
void wkb_column_bounds(const wkb_column *column, wkb_box *boxes, uint8_t *statuses);

/** Lists the parts of each row as wkb_parts() does, the tables one after another. No row stops the others.
 *
 * The table of row i starts at ends[i - 1], or at 0 if i is 0, and ends at ends[i]. In it the offsets offset, begin and
 * end are from the row's own start, and next from the first entry of its own table. A row without a table ends where it
 * starts.
 *
 * @param column         the rows; not null
 * @param[out] parts     the tables; unchanged after the last table in it; may be null if room is 0
 * @param room           the capacity of parts in entries; if it is the returned value, no row is WKB_STATUS_NO_ROOM
 * @param[out] ends      one number per row, in entries; may be null if there are no rows
 * @param[out] statuses  one byte per row, as for wkb_column_check(), or WKB_STATUS_NO_ROOM if the table would end at
 *                       ends[i], which is more than room; may be null if there are no rows
 * @return the last end, or 0 without rows (tested). */
size_t wkb_column_parts(const wkb_column *column, wkb_part *parts, size_t room, uint64_t *ends, uint8_t *statuses);

/** Writes the one encoding of each row as wkb_write() does, one after another. No row stops the others.
 *
 * The encoding of row i starts at ends[i - 1], or at 0 if i is 0, and ends at ends[i]. A row without an encoding ends
 * where it starts.
 *
 * @param column         the rows; not null
 * @param options        the byte order and the form that are written; not null
 * @param[out] out       the encodings; unchanged after the last encoding in it; may be null if room is 0
 * @param room           the capacity of out in bytes; if it is the returned value, no row is WKB_STATUS_NO_ROOM
 * @param[out] ends      one number per row, in bytes; may be null if there are no rows
 * @param[out] statuses  one byte per row, as for wkb_column_check(), or WKB_STATUS_NO_ROOM if the encoding would end at
 *                       ends[i], which is more than room, or WKB_STATUS_UNKNOWN_OPTION if the row isn't null, its
 *                       offsets are good, and the options are invalid; may be null if there are no rows
 * @return the last end, or 0 without rows (tested). */
size_t wkb_column_write(const wkb_column *column, const wkb_options *options, void *out, size_t room, uint64_t *ends,
                        uint8_t *statuses);

/** Writes the one encoding under the options of one geometry whose members are the geometries of all rows, in order.
 *
 * Without rows it is empty. The byte orders and SRIDs of the rows are ignored: a member is written under the options,
 * without its SRID. WKB_FORM_EWKB_OWN_SRID writes no SRID.
 *
 * A row is rejected as wkb_check() rejects it, but with no more than 127 collections inside one another, since the new
 * one is around them. A row of another kind or dimension than a multi geometry takes is WKB_STATUS_INCORRECT_TYPE, with
 * part 0 and offset 0. A collection takes rows of any kind and dimension.
 *
 * @param column      the rows; not null
 * @param kind        the new geometry's, from WKB_KIND_MULTI_POINT to WKB_KIND_GEOMETRY_COLLECTION
 * @param dimension   the new geometry's, a wkb_dim
 * @param options     the byte order and the form that are written; not null
 * @param[out] out    the encoding, at its start, written if the result is WKB_STATUS_OK; may be null if room is 0
 * @param room        the capacity of out in bytes; the column's size + 13 is always enough
 * @param[out] size   the length of the encoding in bytes, written if the result is WKB_STATUS_OK or
 *                    WKB_STATUS_NO_ROOM; may be null
 * @param[out] fault  the first error of the row, written if it is rejected, with part and offset from the row's own
 *                    start; may be null
 * @param[out] row    the index of the first row that can't be a member, written if there is one; may be null
 * @return WKB_STATUS_OK; WKB_STATUS_NO_ROOM if the encoding is longer than room; WKB_STATUS_UNKNOWN_OPTION if the kind
 *         is none of these four, or the dimension or the options are invalid, whatever the rows are;
 *         WKB_STATUS_TOO_MANY_ROWS if these are valid, and there are 2^32 rows or more; or else the status of the first
 *         row that can't be a member: WKB_STATUS_NULL_ROW, WKB_STATUS_BAD_OFFSETS, or 32 or more if it is rejected
 * @note With WKB_STATUS_UNKNOWN_OPTION and WKB_STATUS_TOO_MANY_ROWS no row is read (tested). */
wkb_status wkb_collect(const wkb_column *column, wkb_kind kind, wkb_dim dimension, const wkb_options *options,
                       void *out, size_t room, size_t *size, wkb_fault *fault, size_t *row);

/** The coordinates of a column, in levels as GeoArrow has them: a row has singles, a single has rings, a ring has
 * coordinates, a coordinate has as many words as the dimension that is asked for.
 *
 * A single is a point, a line string or a polygon, by itself or inside a multi geometry or a collection. A point or a
 * line string has one ring. Each end counts from the start of the column, and item i of a level starts where item i - 1
 * ends.
 *
 * Let rows, singles and rings be the ends of a level at offsets + 1, with 0 at offsets[0]. Of rows of one kind these
 * are GeoArrow's 64-bit offsets (large lists), from the outermost list on: of line strings and multi points
 * rings[singles[rows[i]]]; of polygons singles[rows[i]], and rings; of multi line strings rows, and rings; of multi
 * polygons rows, singles and rings (tested). A row that isn't WKB_STATUS_OK is null and has an empty list (tested). The
 * words are the interleaved coordinates, but points have no lists: there a null row takes a coordinate too, of NaNs
 * (tested). Offsets of 32 bits or separated coordinates need one more pass. */
typedef struct wkb_coordinates {
  double   *words;        /**< one coordinate after another, in the machine's byte order; may be null if words_room
                               is 0 */
  size_t    words_room;   /**< the capacity of words, in words */
  uint64_t *ring_ends;    /**< for each ring, its end in coordinates; may be null if ring_room is 0 */
  size_t    ring_room;    /**< the capacity of ring_ends, in items */
  uint64_t *single_ends;  /**< for each single, its end in rings; may be null if single_room is 0 */
  size_t    single_room;  /**< the capacity of single_ends, in items */
  uint64_t *row_ends;     /**< for each row, its end in singles; may be null if there are no rows */
  uint64_t  coordinates;  /**< a result: how many coordinates all rows have */
  uint64_t  rings;        /**< a result: how many rings all rows have */
  uint64_t  singles;      /**< a result: how many singles all rows have */
} wkb_coordinates;

/** Writes the coordinates of all rows, with the ends of their rings, singles and rows. No row stops the others.
 *
 * The words of an empty point are written as they are. A row that wkb_check() rejects has no singles, and its status
 * says why. What all rows need is written to coordinates, rings and singles of out: with that much capacity (in words:
 * coordinates times the width of the dimension) no row is WKB_STATUS_NO_ROOM.
 *
 * @param column         the rows; not null
 * @param dimension      a wkb_dim: words that it doesn't name are left out, and a missing ordinate is NaN
 *                       (0x7ff8000000000000)
 * @param[in,out] out    the buffers with their capacities, and the results; not null
 * @param[out] statuses  one byte per row, as for wkb_column_check(), or WKB_STATUS_NO_ROOM if one of the three
 *                       capacities is too small for the row, whose end would be row_ends[i], and none of the row is
 *                       written, or WKB_STATUS_UNKNOWN_OPTION if the row isn't null, its offsets are good, and the
 *                       dimension is invalid; may be null if there are no rows */
void wkb_column_coordinates(const wkb_column *column, wkb_dim dimension, wkb_coordinates *out, uint8_t *statuses);

/** Levels to read, as wkb_coordinates has them.
 *
 * If the ends of a level are null, item i has item i of the next level, as the points of GeoArrow have no ends. If
 * offsets[0] is 0, GeoArrow's offsets from offsets[1] on are these ends: of line strings those of rings; of polygons
 * those of singles, and of rings; of multi points those of rows; of multi line strings those of rows, and of rings; of
 * multi polygons those of rows, singles and rings (tested).
 *
 * Items after those of the last row are ignored, and words after the last whole coordinate (tested). */
typedef struct wkb_levels {
  const double   *words;            /**< one coordinate after another, in the machine's byte order; may be null if
                                         word_count is 0 */
  size_t          word_count;       /**< the number of words */
  const uint64_t *ring_ends;        /**< for each ring, its end in coordinates; may be null */
  size_t          rings;            /**< the number of rings */
  const uint64_t *single_ends;      /**< for each single, its end in rings; may be null */
  size_t          singles;          /**< the number of singles */
  const uint64_t *row_ends;         /**< for each row, its end in singles; may be null */
  size_t          rows;             /**< the number of rows */
  const void     *validity;         /**< as in wkb_column */
  size_t          validity_offset;  /**< as in wkb_column */
} wkb_levels;

/** Writes the encoding of each row of levels under the options, one after another. No row stops the others.
 *
 * It is the inverse of wkb_column_coordinates(), apart from SRIDs and the words of empty points: given the levels, the
 * row ends and the validity bitmap of a column, it writes of each row of this kind and dimension whose levels were
 * written what wkb_column_write() writes of it under the same options, and leaves a null row null. A point, a line
 * string and a polygon is one single. A single that is no polygon has one ring, a point's ring one coordinate; an empty
 * point is a coordinate of NaNs. All words are written as they are, so an empty point is as wkb_column_write() has it
 * only if each is 0x7ff8000000000000. WKB_FORM_EWKB_OWN_SRID writes no SRID.
 *
 * Clear the validity bits of rejected rows and of collections. Otherwise a rejected row, which has no singles, comes
 * back as an empty multi geometry, or is WKB_STATUS_BAD_LEVELS if the kind is no multi geometry (tested). A collection
 * comes back as the geometry of this kind that its singles make, if they make one (tested).
 *
 * The encoding of row i starts at ends[i - 1], or at 0 if i is 0, and ends at ends[i]. A row without an encoding ends
 * where it starts.
 *
 * WKB_STATUS_BAD_LEVELS: the row doesn't fit its kind, it needs a count of 2^32, its ends decrease, it starts or ends
 * past the end of a level, or at some level it starts before the end of an earlier row, null or not, whose own ends at
 * that level and above it are in order and in range.
 *
 * @param levels         the rows, all of one kind and one dimension; not null
 * @param kind           the rows', from WKB_KIND_POINT to WKB_KIND_MULTI_POLYGON
 * @param dimension      the rows', a wkb_dim
 * @param options        the byte order and the form that are written; not null
 * @param[out] out       the encodings; unchanged after the last encoding in it; may be null if room is 0
 * @param room           the capacity of out in bytes; if it is the returned value, no row is WKB_STATUS_NO_ROOM
 * @param[out] ends      one number per row, in bytes; may be null if there are no rows
 * @param[out] statuses  one byte per row: WKB_STATUS_OK, WKB_STATUS_NULL_ROW, WKB_STATUS_BAD_LEVELS, WKB_STATUS_NO_ROOM
 *                       if the encoding would end at ends[i], which is more than room, or WKB_STATUS_UNKNOWN_OPTION if
 *                       the row isn't null, and the kind, the dimension or the options are invalid; may be null if
 *                       there are no rows
 * @return the last end, or 0 without rows (tested). */
size_t wkb_column_from_coordinates(const wkb_levels *levels, wkb_kind kind, wkb_dim dimension,
                                   const wkb_options *options, void *out, size_t room, uint64_t *ends,
                                   uint8_t *statuses);

/** Makes the levels of one point: one row, one single, one ring, one coordinate.
 *
 * @param words       the point's words, to which the levels point
 * @param word_count  the number of words: the width of the point's dimension
 * @return the levels */
static inline wkb_levels wkb_one_point(const double *words, size_t word_count) {
  wkb_levels levels;
  memset(&levels, 0, sizeof levels);
  levels.words = words;
  levels.word_count = word_count;
  levels.rings = levels.singles = levels.rows = 1;
  return levels;
}

/** Makes the first entry of the table of wkb_parts() from what wkb_check() finds: all that a point or a line string
 * needs.
 *
 * @param found  what wkb_check() has written; not null
 * @return the entry */
static inline wkb_part wkb_whole(const wkb_found *found) {
  wkb_part whole = {0,           found->size,     found->offset, found->count,     found->parts, found->srid,
                    found->has_srid, found->kind, found->dimension, found->width, found->order};
  return whole;
}

/** Copies the words of coordinates of a ring, a point or a line string, in the machine's byte order.
 *
 * @param buf       the input; not null
 * @param part      an entry for a ring, point or line string in it, from wkb_parts() or wkb_whole(); not null
 * @param first     the index of the first coordinate
 * @param count     the number of coordinates; first + count is at most the part's count
 * @param[out] out  the words: capacity for count times the part's width of them; may be null if count is 0 */
void wkb_words(const void *buf, const wkb_part *part, uint64_t first, uint64_t count, double *out);

/** Returns the little-endian number in eight bytes.
 *
 * @param b  the bytes; not null
 * @return the number */
static inline uint64_t wkb_little_word(const uint8_t *b) {
  uint64_t b0 = b[0], b1 = b[1], b2 = b[2], b3 = b[3], b4 = b[4], b5 = b[5], b6 = b[6], b7 = b[7];
  return b0 | b1 << 8 | b2 << 16 | b3 << 24 | b4 << 32 | b5 << 40 | b6 << 48 | b7 << 56;
}

/** Returns the big-endian number in eight bytes.
 *
 * @param b  the bytes; not null
 * @return the number */
static inline uint64_t wkb_big_word(const uint8_t *b) {
  uint64_t b0 = b[0], b1 = b[1], b2 = b[2], b3 = b[3], b4 = b[4], b5 = b[5], b6 = b[6], b7 = b[7];
  return b7 | b6 << 8 | b5 << 16 | b4 << 24 | b3 << 32 | b2 << 40 | b1 << 48 | b0 << 56;
}

/** Returns one word of a coordinate of a ring, a point or a line string.
 *
 * It is at buf + offset + 8 * (width * i + n) in the input.
 *
 * @param buf   the input; not null
 * @param part  an entry for a ring, point or line string in it, from wkb_parts() or wkb_whole(); not null
 * @param i     the index of the coordinate, below the part's count
 * @param n     the index of the word in it, below the part's width
 * @return the word as a number */
static inline double wkb_word(const void *buf, const wkb_part *part, uint64_t i, unsigned n) {
#ifdef __cplusplus
  const uint8_t *front = static_cast<const uint8_t *>(buf);
#else
  const uint8_t *front = (const uint8_t *)buf;
#endif
  const uint8_t *bytes = front + part->offset + 8 * (part->width * i + n);
  uint64_t word = part->order == WKB_ORDER_BIG ? wkb_big_word(bytes) : wkb_little_word(bytes);
  double value;
  memcpy(&value, &word, sizeof value);
  return value;
}

#ifdef __cplusplus
}
#endif
#endif
