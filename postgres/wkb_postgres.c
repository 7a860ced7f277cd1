/* SPDX-License-Identifier: MIT OR Apache-2.0 */
/* Well-Known Binary in PostgreSQL, over bytea, and so over a geometry of PostGIS, which is cast to bytea. The file of
 * SQL beside it says what each function returns. The library keeps nothing between calls and doesn't allocate, so an
 * error can be raised after any call. */
#include "postgres.h"

#include "fmgr.h"
#include "lib/stringinfo.h"
#include "miscadmin.h"
#include "utils/builtins.h"
#include "utils/geo_decls.h"
#include "utils/memutils.h"
#include "wkb.h"
#include "wkb_dump.h"

PG_MODULE_MAGIC;

#define BYTES(v) VARDATA_ANY(v), VARSIZE_ANY_EXHDR(v)

/* Returns why a value is rejected, as text. */
static const char *text_of(const wkb_fault *fault, bytea *v) {
  char text[WKB_FAULT_TEXT_ROOM];
  wkb_fault_text(fault, text, sizeof text);
  return psprintf("%s%s", text, wkb_dump_other(fault, BYTES(v)));
}

/* Raises an error unless a call over this value succeeded: PLACE is an argument among several, or empty. */
static void accept(wkb_status status, const char *place, const wkb_fault *fault, bytea *v) {
  const char *text;
  if (status == WKB_STATUS_OK) return;
  if (status == WKB_STATUS_NO_ROOM)
    ereport(ERROR, (errcode(ERRCODE_PROGRAM_LIMIT_EXCEEDED), errmsg("the encoding is longer than a bytea can be"),
                    errhint("A bytea has at most 1 GB, and an SRID takes four bytes more.")));
  text = text_of(fault, v);
  ereport(ERROR, (errcode(ERRCODE_INVALID_BINARY_REPRESENTATION), errmsg("invalid WKB%s: %s", place, text),
                  strstr(text, "text") != NULL
                      ? errhint("A literal without a type is bytes. Write '..'::geometry for a text of PostGIS, "
                                "'\\x..' for hexadecimal digits.")
                      : errhint("wkb_fault returns why a value is not well formed, or null if it is.")));
}

/* An argument, in a copy where it is stored apart or compressed. No call of the library can be stopped, so a statement
 * that was cancelled ends here, before the copy and before the call. */
static bytea *argument(FunctionCallInfo fcinfo, int n) {
  bytea *v;
  CHECK_FOR_INTERRUPTS();
  v = PG_GETARG_BYTEA_PP(n);
  CHECK_FOR_INTERRUPTS();
  return v;
}

/* Returns what the geometry at the start of the argument is, or raises an error if there is none. The copy that a large
 * value is read into is freed at once, here and below. */
static wkb_found found_in(FunctionCallInfo fcinfo) {
  bytea *v = argument(fcinfo, 0);
  wkb_found found;
  wkb_fault fault;
  accept(wkb_check(BYTES(v), &found, &fault), "", &fault, v);
  PG_FREE_IF_COPY(v, 0);
  return found;
}

PG_FUNCTION_INFO_V1(wkb_well_formed_sql);
Datum wkb_well_formed_sql(PG_FUNCTION_ARGS) {
  bytea *v = argument(fcinfo, 0);
  wkb_found found;
  bool is_whole = wkb_check(BYTES(v), &found, NULL) == WKB_STATUS_OK && found.size == VARSIZE_ANY_EXHDR(v);
  PG_FREE_IF_COPY(v, 0);
  PG_RETURN_BOOL(is_whole);
}

PG_FUNCTION_INFO_V1(wkb_fault_sql);
Datum wkb_fault_sql(PG_FUNCTION_ARGS) {
  bytea *v = argument(fcinfo, 0);
  wkb_found found;
  wkb_fault fault;
  wkb_status status = wkb_check(BYTES(v), &found, &fault);
  size_t size = VARSIZE_ANY_EXHDR(v);
  const char *text = NULL;
  if (status != WKB_STATUS_OK)
    text = text_of(&fault, v);
  else if (found.size < size)
    text = psprintf("bytes after the geometry, from %llu on", (unsigned long long)found.size);
  PG_FREE_IF_COPY(v, 0);
  if (text == NULL) PG_RETURN_NULL();
  PG_RETURN_TEXT_P(cstring_to_text(text));
}

static int append(void *text, const char *line, size_t length) {
  appendBinaryStringInfo(text, line, (int)length);
  return 0;
}

PG_FUNCTION_INFO_V1(wkb_dump_sql);
Datum wkb_dump_sql(PG_FUNCTION_ARGS) {
  bytea *v = argument(fcinfo, 0);
  StringInfoData text;
  initStringInfo(&text);
  wkb_dump(BYTES(v), NULL, append, &text, NULL);
  PG_FREE_IF_COPY(v, 0);
  PG_RETURN_TEXT_P(cstring_to_text_with_len(text.data, text.len - 1));
}

PG_FUNCTION_INFO_V1(wkb_kind_sql);
Datum wkb_kind_sql(PG_FUNCTION_ARGS) { PG_RETURN_TEXT_P(cstring_to_text(wkb_kind_text(found_in(fcinfo).kind))); }

PG_FUNCTION_INFO_V1(wkb_srid_sql);
Datum wkb_srid_sql(PG_FUNCTION_ARGS) {
  wkb_found found = found_in(fcinfo);
  if (!found.has_srid) PG_RETURN_NULL();
  PG_RETURN_INT64(found.srid);
}

/* The function of a number that is found, which is less than the bytes of the argument. PostGIS's flags for z and m are
 * those of ISO's dimensions, exchanged. */
#define NUMBER(name, number)                             \
  PG_FUNCTION_INFO_V1(name);                             \
  Datum name(PG_FUNCTION_ARGS) {                         \
    wkb_found found = found_in(fcinfo);                  \
    PG_RETURN_INT32((int32)(number));                    \
  }

NUMBER(wkb_ndims_sql, found.width)
NUMBER(wkb_zmflag_sql, found.dimension % 2 * 2 + found.dimension / 2)
NUMBER(wkb_num_coordinates_sql, found.coordinates)
NUMBER(wkb_num_members_sql, found.kind >= WKB_KIND_MULTI_POINT ? found.count : 0)
NUMBER(wkb_num_parts_sql, found.parts)

/* The encoding of the first argument, in so much room as it can need, or as a bytea can have. */
static Datum rewritten(FunctionCallInfo fcinfo, wkb_form form, uint32_t srid) {
  const wkb_options options = {WKB_ORDER_LITTLE, form, srid};
  bytea *v = argument(fcinfo, 0);
  size_t room = Min(VARSIZE_ANY_EXHDR(v) + 4, MaxAllocSize - VARHDRSZ);
  bytea *out = palloc(VARHDRSZ + room);
  size_t size = 0;
  wkb_fault fault;
  accept(wkb_write(BYTES(v), &options, VARDATA(out), room, &size, &fault), "", &fault, v);
  PG_FREE_IF_COPY(v, 0);
  SET_VARSIZE(out, VARHDRSZ + size);
  PG_RETURN_BYTEA_P(out);
}

PG_FUNCTION_INFO_V1(wkb_canonical_sql);
Datum wkb_canonical_sql(PG_FUNCTION_ARGS) { return rewritten(fcinfo, WKB_FORM_ISO, 0); }

PG_FUNCTION_INFO_V1(wkb_ewkb_sql);
Datum wkb_ewkb_sql(PG_FUNCTION_ARGS) { return rewritten(fcinfo, WKB_FORM_EWKB_OWN_SRID, 0); }

PG_FUNCTION_INFO_V1(wkb_ewkb_with_srid_sql);
Datum wkb_ewkb_with_srid_sql(PG_FUNCTION_ARGS) {
  int64 srid = PG_GETARG_INT64(1);
  if (srid < 0 || srid > UINT32_MAX)
    ereport(ERROR, (errcode(ERRCODE_NUMERIC_VALUE_OUT_OF_RANGE),
                    errmsg("an SRID is an integer from 0 to 4294967295"),
                    errhint("wkb_canonical writes no SRID, and wkb_ewkb without this argument that of the value.")));
  return rewritten(fcinfo, WKB_FORM_EWKB_WITH_SRID, (uint32_t)srid);
}

PG_FUNCTION_INFO_V1(wkb_same_sql);
Datum wkb_same_sql(PG_FUNCTION_ARGS) {
  bytea *a = argument(fcinfo, 0), *b = argument(fcinfo, 1);
  uint32_t equal = 0, which = 1;
  wkb_fault fault;
  wkb_status status = wkb_same(BYTES(a), BYTES(b), &equal, &fault, &which);
  accept(status, which == 2 ? " in the second argument" : " in the first argument", &fault, which == 2 ? b : a);
  PG_FREE_IF_COPY(a, 0);
  PG_FREE_IF_COPY(b, 1);
  PG_RETURN_BOOL(equal != 0);
}

/* The bounds of the argument; an error where there is no geometry. */
static wkb_box box_of(FunctionCallInfo fcinfo) {
  bytea *v = argument(fcinfo, 0);
  wkb_box box;
  wkb_fault fault;
  accept(wkb_bounds(BYTES(v), &box, &fault), "", &fault, v);
  PG_FREE_IF_COPY(v, 0);
  return box;
}

/* The function of a side of the box: null if no coordinate has such a number. */
#define SIDE(name, ordinate, end)                        \
  PG_FUNCTION_INFO_V1(name);                             \
  Datum name(PG_FUNCTION_ARGS) {                         \
    wkb_box box = box_of(fcinfo);                        \
    if (box.ordinate.count == 0) PG_RETURN_NULL();       \
    PG_RETURN_FLOAT8(box.ordinate.end);                  \
  }

SIDE(wkb_xmin_sql, x, least)
SIDE(wkb_ymin_sql, y, least)
SIDE(wkb_zmin_sql, z, least)
SIDE(wkb_mmin_sql, m, least)
SIDE(wkb_xmax_sql, x, greatest)
SIDE(wkb_ymax_sql, y, greatest)
SIDE(wkb_zmax_sql, z, greatest)
SIDE(wkb_mmax_sql, m, greatest)

/* The box of x and y, in PostgreSQL's own type; null if no coordinate has an x, or none a y. */
PG_FUNCTION_INFO_V1(wkb_box_sql);
Datum wkb_box_sql(PG_FUNCTION_ARGS) {
  wkb_box box = box_of(fcinfo);
  BOX *result;
  if (box.x.count == 0 || box.y.count == 0) PG_RETURN_NULL();
  result = palloc(sizeof *result);
  result->low.x = box.x.least, result->low.y = box.y.least;
  result->high.x = box.x.greatest, result->high.y = box.y.greatest;
  PG_RETURN_BOX_P(result);
}
