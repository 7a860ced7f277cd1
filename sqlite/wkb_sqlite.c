/* SPDX-License-Identifier: MIT OR Apache-2.0 */
/* Well-Known Binary in SQLite. `make sqlite` in the folder of wkb.h builds it as out/sqlite/wkb.so, which
 * `.load out/sqlite/wkb` loads there. These functions have the names and the meanings of those of the PostgreSQL extension:
 *
 *   wkb_well_formed(b)     1 if the blob is exactly one well-formed geometry, without trailing bytes, else 0
 *   wkb_fault(b)           why it is not, as text; NULL if it is
 *   wkb_dump(b)            the bytes line by line with what they mean, and where and why they are rejected, as text
 *   wkb_kind(b)            point, linestring, polygon, multipoint, multilinestring, multipolygon, geometrycollection
 *   wkb_srid(b)            its SRID; NULL if it has none
 *   wkb_ndims(b)           how many ordinates a coordinate has: 2, 3 or 4
 *   wkb_zmflag(b)          which these are: 0 for x and y, 1 with m, 2 with z, 3 with z and m
 *   wkb_num_coordinates(b)
 *                          how many coordinates it has, with those of members; an empty point has one
 *   wkb_num_members(b)     how many members a multi geometry or a collection has itself; 0 for another kind
 *   wkb_num_parts(b)       how many parts it has: itself, and its rings and members at every level
 *   wkb_canonical(b)       its key: the same blob for equal geometries, whatever their byte orders and SRIDs are
 *   wkb_ewkb(b)            the key as EWKB, with the SRID that it has
 *   wkb_ewkb(b, srid)      the key as EWKB, with this SRID
 *   wkb_same(a, b)         1 if the geometries are equal, ignoring SRIDs, else 0
 *   wkb_xmin(b), wkb_xmax(b), and likewise for y, z and m
 *                          the bounds, ignoring NaN; NULL if no coordinate has such a number
 *
 * A key has no SRID, neither the geometry's own nor one of a member, and wkb_ewkb adds only the geometry's own. 0 and
 * -0 are two values, so that POINT(0 0) and POINT(-0 0) have two keys.
 *
 * These are for GeoPackages, and for SQLite alone:
 *
 *   wkb_gpkg(b)            a GeoPackage blob: a header with its SRID (or 0), then the key
 *   wkb_gpkg(b, srs_id)    a GeoPackage blob: a header with this SRID, then the key
 *
 * These are what the triggers of a GeoPackage's R-tree call. Other extensions, such as SpatiaLite, have functions of
 * the same names, so that these have an entry point of their own: `.load ./wkb sqlite3_wkbst_init`, or, in SQL,
 * `select load_extension('./wkb', 'sqlite3_wkbst_init')`.
 *
 *   ST_IsEmpty(b)          1 if it has no bounds in x or in y, else 0
 *   ST_MinX(b), ST_MaxX(b), ST_MinY(b), ST_MaxY(b)
 *                          the bounds, as the triggers of an R-tree ask for them
 *
 * A function of the same name that is defined for one argument, before or later, is called instead of ours, except by
 * statements that were prepared before.
 *
 * All are deterministic and innocuous, so that indexes, CHECK constraints and generated columns take them. Each
 * returns NULL for NULL. All but the first three read the geometry at the start of the blob, and ignore the bytes after
 * it. They return NULL if there is none: wkb_fault says why, also of each argument of wkb_same. An SRID that is not an
 * integer from 0 to 4294967295 is an error, and so is a srs_id that is not a 32-bit integer.
 *
 * A blob that begins with "GP" is one of a GeoPackage. Its SRID is the srs_id of its header: wkb_srid returns it also
 * if it is 0 or -1, for "undefined", and wkb_ewkb writes it if it is above 0. A GeoPackage holds ISO WKB, so that
 * EWKB behind such a header, of a member too, is not well formed. The bounds are those of the coordinates: what the
 * header says of them, and whether it says "empty", is not looked at. wkb_gpkg writes bounds into the header unless the
 * geometry is a point or ST_IsEmpty, and the flag "empty" if it is ST_IsEmpty. */
#include "wkb.h"
#include "wkb_dump.h"
#include <stdbool.h>
#include <sqlite3ext.h>
SQLITE_EXTENSION_INIT1

/* The geometry of a blob. */
typedef struct input {
  const uint8_t *data;
  size_t size;
  wkb_dump_header header;  /* the header of a GeoPackage in front of it */
  const char *fault;       /* what is wrong with the blob before any WKB, or NULL */
} input;

/* A call of a function, with no argument that is null. */
typedef struct call {
  sqlite3_context *context;
  sqlite3_value *first, *second;  /* the arguments; NULL without a second one */
  input in;                       /* the geometry of the first */
} call;

/* A text that says what is wrong, with the words of wkb_dump_other. */
enum { FAULT_ROOM = WKB_FAULT_TEXT_ROOM + 100 };

/* The bytes of a blob without a GeoPackage's header. Where SQLite lacks the memory for them it has none and says so
 * itself. */
static input input_of(sqlite3_value *value) {
  input in = {0};
  if (sqlite3_value_type(value) != SQLITE_BLOB) {
    in.fault = sqlite3_value_type(value) == SQLITE_TEXT ? "not a blob, but text" : "not a blob";
    return in;
  }
  in.data = sqlite3_value_blob(value);
  if (in.data != NULL) in.size = (size_t)sqlite3_value_bytes(value);
  in.fault = wkb_dump_read_header(in.data, in.size, &in.header);
  if (in.header.size > 0) in.data += in.header.size, in.size -= in.header.size;
  return in;
}

/* Returns whether a geometry is at the start of the input. */
static bool has_geometry(const input *in, wkb_found *found) {
  return in->fault == NULL && wkb_check(in->data, in->size, found, NULL) == WKB_STATUS_OK;
}

/* Returns whether it has bounds. */
static bool has_bounds(const input *in, wkb_box *box) {
  return in->fault == NULL && wkb_bounds(in->data, in->size, box, NULL) == WKB_STATUS_OK;
}

/* Whether a code in the geometry of a GeoPackage has one of EWKB's flags. The text says which part is the first. */
static bool has_ewkb(const input *in, const wkb_found *found, char text[FAULT_ROOM]) {
  wkb_part part = {0};
  if (in->header.size == 0) return false;
  for (sqlite3_uint64 number = 0; number < found->parts; number++) {
    wkb_next_part(in->data, in->size, &part);
    if (part.kind == WKB_KIND_RING) continue;
    uint8_t highest = in->data[part.begin + (part.order == WKB_ORDER_LITTLE ? 4 : 1)];
    sqlite3_uint64 offset = in->header.size + part.begin;
    if ((highest & 0xe0) == 0) continue;
    sqlite3_snprintf(FAULT_ROOM, text, "EWKB in a GeoPackage, at byte %llu (part %llu)", offset, number);
    return true;
  }
  return false;
}

static void well_formed(const call *it) {
  wkb_found found;
  char text[FAULT_ROOM];
  bool is_whole = has_geometry(&it->in, &found) && found.size == it->in.size;
  sqlite3_result_int(it->context, is_whole && !has_ewkb(&it->in, &found, text));
}

/* Offsets are counted from the start of the blob. */
static void fault(const call *it) {
  const input *in = &it->in;
  wkb_found found;
  wkb_fault where;
  char text[FAULT_ROOM];
  if (in->fault != NULL) {
    sqlite3_snprintf(FAULT_ROOM, text, "%s", in->fault);
  } else if (wkb_check(in->data, in->size, &found, &where) != WKB_STATUS_OK) {
    const char *other = wkb_dump_other(&where, in->data, in->size);
    where.offset += in->header.size;
    int length = (int)wkb_fault_text(&where, text, sizeof text);
    sqlite3_snprintf(FAULT_ROOM - length, text + length, "%s", other);
  } else if (!has_ewkb(in, &found, text)) {
    sqlite3_uint64 end = in->header.size + found.size;
    if (found.size == in->size) return;
    sqlite3_snprintf(FAULT_ROOM, text, "bytes after the geometry, from %llu on", end);
  }
  sqlite3_result_text(it->context, text, -1, SQLITE_TRANSIENT);
}

static int append(void *text, const char *line, size_t length) {
  sqlite3_str_append(text, line, (int)length);
  return sqlite3_str_errcode(text);
}

/* The dump of the whole blob doesn't say that EWKB is rejected in a GeoPackage. */
static void dump(const call *it) {
  const input *in = &it->in;
  wkb_found found;
  char refusal[FAULT_ROOM];
  if (sqlite3_value_type(it->first) != SQLITE_BLOB) {
    sqlite3_result_text(it->context, in->fault, -1, SQLITE_STATIC);
    return;
  }
  sqlite3_str *text = sqlite3_str_new(sqlite3_context_db_handle(it->context));
  wkb_dump(sqlite3_value_blob(it->first), (size_t)sqlite3_value_bytes(it->first), NULL, append, text, NULL);
  if (has_geometry(in, &found) && has_ewkb(in, &found, refusal))
    sqlite3_str_appendf(text, "%10srefused: %s\n", "", refusal);
  int status = sqlite3_str_errcode(text), length = sqlite3_str_length(text);
  char *whole = sqlite3_str_finish(text);
  if (status == SQLITE_OK)
    sqlite3_result_text(it->context, whole, length - 1, sqlite3_free);
  else
    sqlite3_result_error_code(it->context, status);
}

static void kind(const call *it) {
  wkb_found found;
  if (has_geometry(&it->in, &found)) sqlite3_result_text(it->context, wkb_kind_text(found.kind), -1, SQLITE_STATIC);
}

static void srid(const call *it) {
  wkb_found found;
  if (!has_geometry(&it->in, &found)) return;
  if (it->in.header.size > 0)
    sqlite3_result_int(it->context, it->in.header.srs_id);
  else if (found.has_srid)
    sqlite3_result_int64(it->context, found.srid);
}

/* The function of a number that is found. PostGIS's flags for z and m are those of ISO's dimensions, exchanged. */
#define NUMBER(name, number)                                                         \
  static void name(const call *it) {                                                 \
    wkb_found found;                                                                 \
    if (has_geometry(&it->in, &found)) sqlite3_result_int64(it->context, number);    \
  }

NUMBER(ndims, found.width)
NUMBER(zmflag, found.dimension % 2 * 2 + found.dimension / 2)
NUMBER(num_coordinates, (sqlite3_int64)found.coordinates)
NUMBER(num_members, found.kind >= WKB_KIND_MULTI_POINT ? (sqlite3_int64)found.count : 0)
NUMBER(num_parts, (sqlite3_int64)found.parts)

/* Returns the input's encoding in this form, behind a header. */
static void written_behind(const call *it, wkb_form form, uint32_t srid, const uint8_t *header, size_t length) {
  const wkb_options options = {WKB_ORDER_LITTLE, form, srid};
  size_t size = 0, room = it->in.size + 4;
  uint8_t *out = sqlite3_malloc64(length + room);
  if (out == NULL) {
    sqlite3_result_error_nomem(it->context);
    return;
  }
  if (length > 0) memcpy(out, header, length);
  if (wkb_write(it->in.data, it->in.size, &options, out + length, room, &size, NULL) == WKB_STATUS_OK)
    sqlite3_result_blob64(it->context, out, length + size, sqlite3_free);
  else
    sqlite3_free(out);
}

static void canonical(const call *it) { written_behind(it, WKB_FORM_ISO, 0, NULL, 0); }

static void ewkb(const call *it) {
  const int32_t srs_id = it->in.header.srs_id;
  wkb_form of_header = srs_id > 0 ? WKB_FORM_EWKB_WITH_SRID : WKB_FORM_EWKB_WITHOUT_SRID;
  written_behind(it, it->in.header.size > 0 ? of_header : WKB_FORM_EWKB_OWN_SRID, (uint32_t)srs_id, NULL, 0);
}

static void ewkb_with_srid(const call *it) {
  sqlite3_int64 number = sqlite3_value_int64(it->second);
  if (sqlite3_value_type(it->second) != SQLITE_INTEGER || number < 0 || number > UINT32_MAX)
    sqlite3_result_error(it->context, "an SRID is an integer from 0 to 4294967295", -1);
  else
    written_behind(it, WKB_FORM_EWKB_WITH_SRID, (uint32_t)number, NULL, 0);
}

/* An empty geometry has no entry in an R-tree. Neither has one that has an x alone, or a y. */
static bool is_empty(const wkb_box *box) { return box->x.count == 0 || box->y.count == 0; }

static void put_little(uint8_t *to, uint64_t bits, int bytes) {
  for (int i = 0; i < bytes; i++) to[i] = (uint8_t)(bits >> 8 * i);
}

/* The flags of a header that is written, one of them for an envelope of x and y, and its length with that. */
enum { LITTLE_ENDIAN_HEADER = 1, ENVELOPE_XY = 2, EMPTY = 16, HEADER_ROOM = 40 };

/* Writes the header of a geometry with these bounds, and returns its length, which is 8 without an envelope. */
static size_t write_header(uint8_t *header, int32_t srs_id, bool has_envelope, const wkb_box *box) {
  const double sides[] = {box->x.least, box->x.greatest, box->y.least, box->y.greatest};
  memcpy(header, "GP", 3);
  header[3] = (uint8_t)(LITTLE_ENDIAN_HEADER | (is_empty(box) ? EMPTY : 0));
  put_little(header + 4, (uint32_t)srs_id, 4);
  if (!has_envelope) return 8;
  header[3] |= ENVELOPE_XY;
  for (int i = 0; i < 4; i++) {
    uint64_t bits;
    memcpy(&bits, &sides[i], sizeof bits);
    put_little(header + 8 + 8 * i, bits, 8);
  }
  return HEADER_ROOM;
}

/* The SRID that a geometry has by itself or in its header, or 0. */
static sqlite3_int64 own_srs_id(const input *in, const wkb_found *found) {
  if (in->header.size > 0) return in->header.srs_id;
  return found->has_srid ? (sqlite3_int64)found->srid : 0;
}

static void gpkg(const call *it) {
  wkb_found found;
  wkb_box box;
  uint8_t header[HEADER_ROOM];
  bool is_geometry = has_geometry(&it->in, &found);
  bool is_integer = it->second == NULL || sqlite3_value_type(it->second) == SQLITE_INTEGER;
  sqlite3_int64 srs_id = it->second ? sqlite3_value_int64(it->second) : is_geometry ? own_srs_id(&it->in, &found) : 0;
  if (!is_integer || srs_id != (int32_t)srs_id) {
    sqlite3_result_error(it->context, "a srs_id is an integer from -2147483648 to 2147483647", -1);
    return;
  }
  if (!is_geometry || !has_bounds(&it->in, &box)) return;
  bool has_envelope = found.kind != WKB_KIND_POINT && !is_empty(&box);
  size_t length = write_header(header, (int32_t)srs_id, has_envelope, &box);
  written_behind(it, WKB_FORM_ISO, 0, header, length);
}

static void same(const call *it) {
  uint32_t equal = 0;
  input b = input_of(it->second);
  if (wkb_same(it->in.data, it->in.size, b.data, b.size, &equal, NULL, NULL) == WKB_STATUS_OK)
    sqlite3_result_int(it->context, (int)equal);
}

/* The function of a side of the box. */
#define SIDE(name, ordinate, end)                                        \
  static void name(const call *it) {                                     \
    wkb_box box;                                                         \
    if (has_bounds(&it->in, &box) && box.ordinate.count > 0)             \
      sqlite3_result_double(it->context, box.ordinate.end);              \
  }

SIDE(xmin, x, least)
SIDE(ymin, y, least)
SIDE(zmin, z, least)
SIDE(mmin, m, least)
SIDE(xmax, x, greatest)
SIDE(ymax, y, greatest)
SIDE(zmax, z, greatest)
SIDE(mmax, m, greatest)

static void st_is_empty(const call *it) {
  wkb_box box;
  if (has_bounds(&it->in, &box)) sqlite3_result_int(it->context, is_empty(&box));
}

typedef struct function {
  const char *name;
  int n;
  void (*answer)(const call *);
} function;

static const function FUNCTIONS[] = {
    {"wkb_well_formed", 1, well_formed},
    {"wkb_fault", 1, fault},
    {"wkb_dump", 1, dump},
    {"wkb_kind", 1, kind},
    {"wkb_srid", 1, srid},
    {"wkb_ndims", 1, ndims},
    {"wkb_zmflag", 1, zmflag},
    {"wkb_num_coordinates", 1, num_coordinates},
    {"wkb_num_members", 1, num_members},
    {"wkb_num_parts", 1, num_parts},
    {"wkb_canonical", 1, canonical},
    {"wkb_ewkb", 1, ewkb},
    {"wkb_ewkb", 2, ewkb_with_srid},
    {"wkb_gpkg", 1, gpkg},
    {"wkb_gpkg", 2, gpkg},
    {"wkb_same", 2, same},
    {"wkb_xmin", 1, xmin},
    {"wkb_ymin", 1, ymin},
    {"wkb_zmin", 1, zmin},
    {"wkb_mmin", 1, mmin},
    {"wkb_xmax", 1, xmax},
    {"wkb_ymax", 1, ymax},
    {"wkb_zmax", 1, zmax},
    {"wkb_mmax", 1, mmax},
};

/* To SQLite these take any number of arguments: a function that is defined for one argument comes before them, and
 * replaces none, which SQLite doesn't do while a statement runs, as a load in a query does. */
static const function TRIGGER_FUNCTIONS[] = {
    {"ST_IsEmpty", -1, st_is_empty},
    {"ST_MinX", -1, xmin},
    {"ST_MaxX", -1, xmax},
    {"ST_MinY", -1, ymin},
    {"ST_MaxY", -1, ymax},
};

/* What SQLite calls: null in any argument is the answer of each function. */
static void answer(sqlite3_context *context, int n, sqlite3_value **values) {
  const function *asked = sqlite3_user_data(context);
  if (asked->n < 0 && n != 1) {
    sqlite3_result_error(context, "wrong number of arguments: it takes one", -1);
    return;
  }
  for (int i = 0; i < n; i++)
    if (sqlite3_value_type(values[i]) == SQLITE_NULL) return;
  const call it = {context, values[0], n > 1 ? values[1] : NULL, input_of(values[0])};
  asked->answer(&it);
}

static int define_all(sqlite3 *db, char **error, const function *all, size_t count) {
  int flags = SQLITE_UTF8 | SQLITE_DETERMINISTIC | SQLITE_INNOCUOUS, status = SQLITE_OK;
  for (size_t i = 0; i < count && status == SQLITE_OK; i++) {
    status = sqlite3_create_function(db, all[i].name, all[i].n, flags, (void *)&all[i], answer, NULL, NULL);
    /* While a statement runs, a name that an earlier load has made for any number of arguments stays. */
    if (status == SQLITE_BUSY && all[i].n < 0) status = SQLITE_OK;
    if (status != SQLITE_OK && error != NULL) *error = sqlite3_mprintf("%s: %s", all[i].name, sqlite3_errmsg(db));
  }
  return status;
}

#define COUNT(all) (sizeof all / sizeof all[0])
#ifdef _WIN32
#define ENTRY_POINT __declspec(dllexport)
#else
#define ENTRY_POINT __attribute__((visibility("default")))
#endif

/* SQLite unloads an extension that returns an error here, while the functions that were made before it stay with
 * their connection. So the linker marks the library as one that stays (-z nodelete), and the extension can be loaded
 * again. */
ENTRY_POINT int sqlite3_wkb_init(sqlite3 *db, char **error, const sqlite3_api_routines *api) {
  SQLITE_EXTENSION_INIT2(api);
  return define_all(db, error, FUNCTIONS, COUNT(FUNCTIONS));
}

ENTRY_POINT int sqlite3_wkbst_init(sqlite3 *db, char **error, const sqlite3_api_routines *api) {
  SQLITE_EXTENSION_INIT2(api);
  return define_all(db, error, TRIGGER_FUNCTIONS, COUNT(TRIGGER_FUNCTIONS));
}
