-- The functions over the rows of checks/hosts/hostile.py, whose other columns are what they have to return. postgres/run fills
-- the table and asks for what differs.
create table hostile (
  wkb bytea, well_formed int, fault text, kind text, srid bigint, ndims int, zmflag int,
  coordinates int, members int, parts int, canonical bytea, own bytea, other bytea,
  same int, same_turned int, same_self int,
  x_min float8, x_max float8, y_min float8, y_max float8, z_min float8, z_max float8, m_min float8, m_max float8,
  dump text
);
create view different_check as select wkb from hostile
  where (wkb_well_formed(wkb)::int, wkb_fault(wkb), wkb_dump(wkb)) is distinct from (well_formed, fault, dump);
-- The rows that have a geometry are those that have a kind.
create view different_geometry as select wkb from (select * from hostile where kind is not null offset 0) as geometries
  where (wkb_kind(wkb), wkb_srid(wkb), wkb_canonical(wkb), wkb_ewkb(wkb), wkb_ewkb(wkb, 3857)) is distinct from
      (kind, srid, canonical, own, other) or
    (wkb_ndims(wkb), wkb_zmflag(wkb), wkb_num_coordinates(wkb), wkb_num_members(wkb), wkb_num_parts(wkb))
      is distinct from (ndims, zmflag, coordinates, members, parts) or
    (wkb_same(wkb, '\x0101000000000000000000f03f0000000000000040')::int,
      wkb_same('\x0101000000000000000000f03f0000000000000040', wkb)::int, wkb_same(wkb, wkb)::int) is distinct from
      (same, same_turned, same_self) or
    (wkb_xmin(wkb), wkb_xmax(wkb), wkb_ymin(wkb), wkb_ymax(wkb)) is distinct from (x_min, x_max, y_min, y_max) or
    (wkb_zmin(wkb), wkb_zmax(wkb), wkb_mmin(wkb), wkb_mmax(wkb)) is distinct from (z_min, z_max, m_min, m_max) or
    wkb_box(wkb)::text is distinct from box(point(x_min, y_min), point(x_max, y_max))::text;
-- The text of the error that a call raises; null if it raises none.
create function raised(call text, wkb bytea) returns text language plpgsql as $$
begin
  execute call using wkb;
  return null;
exception when invalid_binary_representation then
  return sqlerrm;
end $$;
create view different_error as select wkb from hostile, (values
    ('select wkb_kind($1)', ''), ('select wkb_srid($1)', ''), ('select wkb_canonical($1)', ''),
    ('select wkb_ndims($1)', ''), ('select wkb_zmflag($1)', ''), ('select wkb_num_coordinates($1)', ''),
    ('select wkb_num_members($1)', ''), ('select wkb_num_parts($1)', ''),
    ('select wkb_ewkb($1)', ''), ('select wkb_ewkb($1, 3857)', ''), ('select wkb_xmin($1)', ''),
    ('select wkb_mmax($1)', ''), ('select wkb_box($1)', ''), ('select wkb_same($1, $1)', ' in the first argument'),
    ($$select wkb_same('\x0101000000000000000000f03f0000000000000040', $1)$$, ' in the second argument')
  ) as calls (call, place)
  where kind is null and raised(call, wkb) is distinct from format('invalid WKB%s: %s', place, fault);
