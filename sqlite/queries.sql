-- What checks/hosts/hostile.py doesn't ask: it compares the answers and the errors for blobs, alone and behind headers
-- of GeoPackages.
create temp table point as select x'0101000000000000000000f03f0000000000000040' as wkb;
-- Null in any argument is null. A text is no blob, and neither is a number.
select coalesce(wkb_well_formed(null), wkb_fault(null), wkb_dump(null), wkb_kind(null), wkb_srid(null), wkb_ndims(null),
  wkb_zmflag(null), wkb_num_coordinates(null), wkb_num_members(null), wkb_num_parts(null), wkb_canonical(null),
  wkb_ewkb(null), wkb_ewkb(null, 1), wkb_ewkb(wkb, null), wkb_gpkg(null), wkb_gpkg(null, 1), wkb_gpkg(wkb, null),
  wkb_same(null, wkb), wkb_same(wkb, null), wkb_xmin(null), ST_IsEmpty(null), ST_MinX(null)) is null from point;
select wkb_well_formed(column1), wkb_fault(column1), wkb_dump(column1), wkb_kind(column1)
  from (values ('0101000000000000000000f03f0000000000000040'), (1));
-- The first SRID and the last ones.
select wkb_srid(wkb_ewkb(wkb, 0)), hex(wkb_ewkb(wkb_gpkg(wkb, 1))), hex(wkb_ewkb(wkb, 4294967295)),
  hex(wkb_gpkg(wkb, -1)), hex(wkb_gpkg(wkb, 2147483647)) from point;
-- Each start of a collection of two lines with z behind a header, which is an allocation of its own: under a sanitizer
-- nothing is read after it.
with recursive whole(wkb) as (select cast(x'4750000300000000' || zeroblob(32) || x'010700000002000000' ||
    x'00000003ea00000001' || zeroblob(24) || x'00000003ea00000001' || zeroblob(24) as blob)),
  cut(n) as (select 1 union all select n + 1 from cut where n < 115)
select sum(wkb_well_formed(it)), count(wkb_fault(it)), count(wkb_dump(it)), count(wkb_gpkg(it)), count(ST_MinX(it))
  from (select substr(wkb, 1, n) as it from whole, cut);
-- Each of the 29 functions is deterministic (800 in hex) and innocuous (200000), so that a schema that isn't trusted
-- may call it.
select count(*), sum(flags & 0x200800 = 0x200800) from pragma_function_list
  where name like 'wkb\_%' escape '\' or name like 'st\_%' escape '\';
pragma trusted_schema = off;
create table checked (wkb blob check (wkb_well_formed(wkb)), least real as (ST_MinX(wkb)));
insert into checked select wkb from point;
select least from checked;
pragma trusted_schema = on;
-- The recipes of docs/RECIPES.md: of rows those with a geometry, and each blob written anew, which is the same. Two rows
-- have none. sqlite/run asks a layer that OGR makes, with its R-tree.
create table towns (fid integer primary key, geom);
insert into towns (geom) values (x'47500001e6100000'), (x'');
create table rows as select wkb from point union all select x'01';
insert into towns (geom) select wkb_gpkg(wkb, 4326) from rows where wkb_well_formed(wkb);
update towns set geom = wkb_gpkg(geom) where wkb_well_formed(geom);
select fid, wkb_kind(geom), wkb_srid(geom) from towns;
select fid, wkb_fault(geom) from towns where not wkb_well_formed(geom);
