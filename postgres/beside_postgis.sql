-- The functions beside PostGIS, over its geometries of each kind and dimension, in each encoding that it writes, also
-- without a cast. Returns those for which the two differ, which is none. For an empty point PostGIS counts no
-- coordinate, and of what has no members one geometry, or none.
create table forms as select unnest(array[geom, st_force3dz(geom), st_force3dm(geom), st_force4d(geom)]) as geom
  from (select st_geomfromewkt(shape) from unnest(array[
    'POINT (1 2)', 'SRID=999999;LINESTRING (0 0, 5 -6, 1 1)', 'POLYGON ((0 0, 4 0, 4 4, 0 0), (1 1, 2 1, 2 2, 1 1))',
    'SRID=4326;MULTIPOINT (1 2, -3 4)', 'MULTILINESTRING ((0 0, 1 1), EMPTY, (2 2, 3 3, 4 4))',
    'MULTIPOLYGON (((0 0, 9 0, 9 9, 0 0)), ((20 20, 30 20, 30 30, 20 20)))',
    'SRID=3857;GEOMETRYCOLLECTION (POINT (1 2), GEOMETRYCOLLECTION (MULTIPOINT (1 1, 2 2), LINESTRING (0 0, 1 1)))'])
    as shape) as plain (geom);
select st_asewkt(geom) from (select geom, unnest(array[st_asbinary(geom, 'NDR'), st_asbinary(geom, 'XDR'),
    st_asewkb(geom, 'NDR'), st_asewkb(geom, 'XDR')]) as wkb from forms) as encodings
  where not wkb_well_formed(wkb) or wkb_canonical(wkb) <> st_asbinary(geom, 'NDR') or
    (wkb_ndims(wkb), wkb_zmflag(wkb), wkb_num_coordinates(wkb), wkb_num_members(wkb)) is distinct from
      (st_ndims(geom), st_zmflag(geom), st_npoints(geom),
        case when st_geometrytype(geom) ~ 'Multi|Collection' then st_numgeometries(geom) else 0 end) or
    (wkb_xmin(wkb), wkb_xmax(wkb), wkb_ymin(wkb), wkb_ymax(wkb)) is distinct from
      (st_xmin(geom), st_xmax(geom), st_ymin(geom), st_ymax(geom)) or wkb_box(wkb)::text <> box(geom)::text or
    (wkb_box(wkb) && box '((-9, 0), (0, 9))') <> (geom && st_makeenvelope(-9, 0, 0, 9, st_srid(geom))) or
    (wkb_kind(geom), wkb_ndims(geom), coalesce(wkb_srid(geom), 0), wkb_ewkb(geom)) is distinct from
      (lower(substr(st_geometrytype(geom), 4)), st_coorddim(geom)::int, st_srid(geom), st_asewkb(geom, 'NDR'));
select count(*) from forms having count(*) <> 28;
select shape from (values ('POINT EMPTY', 0, 0, 1, 0), ('POINT (1 2)', 1, 1, 1, 0), ('POLYGON EMPTY', 0, 0, 0, 0),
    ('MULTIPOINT (EMPTY, 1 2)', 1, 2, 2, 2), ('GEOMETRYCOLLECTION (POINT EMPTY)', 0, 0, 1, 1))
    as differing (shape, points, geometries, coordinates, members), st_geomfromewkt(shape) as geom
  where (st_npoints(geom), st_numgeometries(geom), wkb_num_coordinates(geom), wkb_num_members(geom)) <>
    (points, geometries, coordinates, members);
