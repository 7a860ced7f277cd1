-- SPDX-License-Identifier: MIT OR Apache-2.0
-- Well-Known Binary over bytea. Except for wkb_box, the SQLite extension has the same functions. All return null for
-- null. All but the first three read the geometry at the start of the value, and ignore the bytes after it. If there
-- is none they raise invalid_binary_representation, with the text of wkb_fault, so they aren't leakproof. The three
-- raise no error over their argument, and are leakproof.
\echo Use "CREATE EXTENSION wkb" to load this file. \quit

create function wkb_well_formed(bytea) returns boolean
  as 'MODULE_PATHNAME', 'wkb_well_formed_sql' language c immutable strict parallel safe leakproof cost 50;
comment on function wkb_well_formed(bytea) is
  'True if the value is exactly one well-formed geometry, without trailing bytes.';

create function wkb_fault(bytea) returns text
  as 'MODULE_PATHNAME', 'wkb_fault_sql' language c immutable strict parallel safe leakproof cost 50;
comment on function wkb_fault(bytea) is
  'Why the value is not well formed, as text; null if it is.';

create function wkb_dump(bytea) returns text
  as 'MODULE_PATHNAME', 'wkb_dump_sql' language c immutable strict parallel safe leakproof cost 1000;
comment on function wkb_dump(bytea) is
  'The bytes line by line with what they mean, and where and why they are rejected; long lists are shortened.';

create function wkb_kind(bytea) returns text
  as 'MODULE_PATHNAME', 'wkb_kind_sql' language c immutable strict parallel safe cost 50;
comment on function wkb_kind(bytea) is
  'point, linestring, polygon, multipoint, multilinestring, multipolygon or geometrycollection.';

create function wkb_srid(bytea) returns bigint
  as 'MODULE_PATHNAME', 'wkb_srid_sql' language c immutable strict parallel safe cost 50;
comment on function wkb_srid(bytea) is
  'The geometry''s own SRID; null if it has none.';

create function wkb_ndims(bytea) returns integer
  as 'MODULE_PATHNAME', 'wkb_ndims_sql' language c immutable strict parallel safe cost 50;
comment on function wkb_ndims(bytea) is
  'How many ordinates a coordinate has: 2, 3 or 4, as PostGIS''s ST_NDims.';

create function wkb_zmflag(bytea) returns integer
  as 'MODULE_PATHNAME', 'wkb_zmflag_sql' language c immutable strict parallel safe cost 50;
comment on function wkb_zmflag(bytea) is
  'Which ordinates a coordinate has: 0 for x and y, 1 with m, 2 with z, 3 with z and m, as PostGIS''s ST_Zmflag.';

create function wkb_num_coordinates(bytea) returns integer
  as 'MODULE_PATHNAME', 'wkb_num_coordinates_sql' language c immutable strict parallel safe cost 50;
comment on function wkb_num_coordinates(bytea) is
  'How many coordinates the geometry has, with those of members. PostGIS''s ST_NPoints counts none for an empty point.';

create function wkb_num_members(bytea) returns integer
  as 'MODULE_PATHNAME', 'wkb_num_members_sql' language c immutable strict parallel safe cost 50;
comment on function wkb_num_members(bytea) is
  'How many members a multi geometry or a collection has itself, empty ones too; 0 for another kind.';

create function wkb_num_parts(bytea) returns integer
  as 'MODULE_PATHNAME', 'wkb_num_parts_sql' language c immutable strict parallel safe cost 50;
comment on function wkb_num_parts(bytea) is
  'How many parts the geometry has: itself, and its rings and members at every level.';

create function wkb_canonical(bytea) returns bytea
  as 'MODULE_PATHNAME', 'wkb_canonical_sql' language c immutable strict parallel safe cost 100;
comment on function wkb_canonical(bytea) is
  'The key: the same bytes for equal geometries, whatever their byte orders and SRIDs are. 0 and -0 differ.';

create function wkb_ewkb(bytea) returns bytea
  as 'MODULE_PATHNAME', 'wkb_ewkb_sql' language c immutable strict parallel safe cost 100;
comment on function wkb_ewkb(bytea) is
  'The key as EWKB, with the geometry''s own SRID. Members have none.';

create function wkb_ewkb(bytea, srid bigint) returns bytea
  as 'MODULE_PATHNAME', 'wkb_ewkb_with_srid_sql' language c immutable strict parallel safe cost 100;
comment on function wkb_ewkb(bytea, bigint) is
  'The key as EWKB, with this SRID, from 0 to 4294967295.';

create function wkb_same(bytea, bytea) returns boolean
  as 'MODULE_PATHNAME', 'wkb_same_sql' language c immutable strict parallel safe cost 100;
comment on function wkb_same(bytea, bytea) is
  'True if the geometries are equal, ignoring SRIDs.';

create function wkb_box(bytea) returns box
  as 'MODULE_PATHNAME', 'wkb_box_sql' language c immutable strict parallel safe cost 50;
comment on function wkb_box(bytea) is
  'The bounds of x and y; null if no coordinate has an x, or none a y.';

create function wkb_xmin(bytea) returns float8
  as 'MODULE_PATHNAME', 'wkb_xmin_sql' language c immutable strict parallel safe cost 50;
comment on function wkb_xmin(bytea) is
  'The least x of all coordinates, ignoring NaN; null if none has such a number.';

create function wkb_xmax(bytea) returns float8
  as 'MODULE_PATHNAME', 'wkb_xmax_sql' language c immutable strict parallel safe cost 50;
comment on function wkb_xmax(bytea) is
  'The greatest x of all coordinates, ignoring NaN; null if none has such a number.';

create function wkb_ymin(bytea) returns float8
  as 'MODULE_PATHNAME', 'wkb_ymin_sql' language c immutable strict parallel safe cost 50;
comment on function wkb_ymin(bytea) is
  'The least y of all coordinates, ignoring NaN; null if none has such a number.';

create function wkb_ymax(bytea) returns float8
  as 'MODULE_PATHNAME', 'wkb_ymax_sql' language c immutable strict parallel safe cost 50;
comment on function wkb_ymax(bytea) is
  'The greatest y of all coordinates, ignoring NaN; null if none has such a number.';

create function wkb_zmin(bytea) returns float8
  as 'MODULE_PATHNAME', 'wkb_zmin_sql' language c immutable strict parallel safe cost 50;
comment on function wkb_zmin(bytea) is
  'The least z of all coordinates, ignoring NaN; null if none has such a number.';

create function wkb_zmax(bytea) returns float8
  as 'MODULE_PATHNAME', 'wkb_zmax_sql' language c immutable strict parallel safe cost 50;
comment on function wkb_zmax(bytea) is
  'The greatest z of all coordinates, ignoring NaN; null if none has such a number.';

create function wkb_mmin(bytea) returns float8
  as 'MODULE_PATHNAME', 'wkb_mmin_sql' language c immutable strict parallel safe cost 50;
comment on function wkb_mmin(bytea) is
  'The least m of all coordinates, ignoring NaN; null if none has such a number.';

create function wkb_mmax(bytea) returns float8
  as 'MODULE_PATHNAME', 'wkb_mmax_sql' language c immutable strict parallel safe cost 50;
comment on function wkb_mmax(bytea) is
  'The greatest m of all coordinates, ignoring NaN; null if none has such a number.';
