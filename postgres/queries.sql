-- What checks/hosts/hostile.py doesn't ask: it compares the answers and the errors of the functions over rows.
\set VERBOSITY terse
create extension wkb;
create table point as select '\x0101000000000000000000f03f0000000000000040'::bytea as wkb;
-- The first SRID and the last, and those beside the range.
select wkb_srid(wkb_ewkb(it, 0)), wkb_srid(it), it from (select wkb_ewkb(wkb, 4294967295) as it from point) as written;
select wkb_ewkb(wkb, 4294967296) from point;
-- With their hints.
\set VERBOSITY default
select wkb_ewkb(wkb, -1) from point;
\echo :SQLSTATE
select wkb_canonical('\x0108000000');
-- A literal without a type is bytes: those of a text are none of WKB, and the hint says how it is written.
select wkb_kind('SRID=4326;POINT (1 2)');
select wkb_canonical('0101000000000000000000F03F0000000000000040');
\set VERBOSITY terse
-- The blob of a GeoPackage is named.
select wkb_fault('\x47500001e61000000101000000000000000000f03f0000000000000040');
-- Each function is immutable, safe in parallel and strict, and has a comment; those that raise no error over their
-- argument are leakproof.
select count(*), sum(procost), bool_and(provolatile = 'i' and proparallel = 's' and proisstrict and
    obj_description(oid, 'pg_proc') <> ''), string_agg(proname, ' ' order by proname) filter (where proleakproof)
  from pg_proc where proname like 'wkb\_%';
-- No call keeps the copy that a large value is read into: beside what it returns, which is as long as the value for
-- three of them, it leaves little memory in use until the row ends. A server before version 14 doesn't tell.
create table large as
  select '\x0107000000a0860100'::bytea || decode(repeat('010200000000000000', 100000), 'hex') as wkb;
create function in_use(call text) returns bigint language plpgsql as $$
declare
  before bigint;
  is_null boolean;
  after bigint;
begin
  execute format('select (select sum(used_bytes) from pg_backend_memory_contexts), %s is null,
    (select sum(used_bytes) from pg_backend_memory_contexts) from large', call) into before, is_null, after;
  return after - before;
end $$;
select to_regclass('pg_backend_memory_contexts') is not null as counts_memory \gset
\if :counts_memory
select call from (select prorettype, format('%I(%s)', proname, (
      select string_agg(case type when 'bytea'::regtype then 'wkb' else '1' end, ', ' order by nth)
      from unnest(proargtypes) with ordinality as arguments (type, nth))) as call
    from pg_proc where proname like 'wkb\_%') as calls
  where in_use(call) > case prorettype when 'bytea'::regtype then 1350000 else 450000 end;
\endif
drop function in_use;
-- The recipe of docs/RECIPES.md, over a point in both byte orders and with an SRID, an empty one, and one that is cut.
create table rows (id int primary key, wkb bytea);
insert into rows values
  (1, '\x0101000000000000000000f03f0000000000000040'), (2, '\x00000000013ff00000000000004000000000000000'),
  (3, '\x0101000020e6100000000000000000f03f0000000000000040'), (4, '\x0101000000000000000000f87f000000000000f87f'),
  (5, '\x0101000000000000000000f03f');
create table places (wkb bytea not null check (octet_length(wkb) < 20000000 and wkb_well_formed(wkb)));
create unique index places_once on places (sha256(wkb_ewkb(wkb)));
insert into places select wkb from rows where wkb_well_formed(wkb) on conflict do nothing;
select id, wkb_fault(wkb) from rows where not wkb_well_formed(wkb) order by id;
create index places_box on places using spgist (wkb_box(wkb));
select count(*) from places where wkb_box(wkb) && box '((0, 0), (1, 2))';
-- They are the extension's, can move to another schema with all that uses them, and go with it.
create schema elsewhere;
alter extension wkb set schema elsewhere;
insert into places values ('\x02');
select elsewhere.wkb_kind(wkb) from point;
alter extension wkb set schema public;
drop schema elsewhere;
drop extension wkb;
drop table places;
drop extension wkb;
select count(*) from pg_proc where proname like 'wkb%';
