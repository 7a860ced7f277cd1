\set VERBOSITY terse
-- The time that this process has had a processor, in nanoseconds.
create function used() returns bigint language sql volatile as $$
  select split_part(pg_read_file('/proc/self/schedstat'), ' ', 1)::bigint $$;
-- A cancelled statement ends before its next call: this one, of 1,000 calls for one row, in less than half of its time.
-- PostgreSQL may compile such a statement first, and compiling can't be cancelled.
set jit to off;
create table large as
  select '\x0107000000a0860100'::bytea || decode(repeat('010200000000000000', 100000), 'hex') as wkb;
select format('select %s from large', string_agg('wkb_well_formed(wkb)', ' and ')) as long_row
  from generate_series(1, 1000) \gset
select used() as began \gset
:long_row;
select used() - :began as whole, used() as began \gset
set statement_timeout to '50ms';
:long_row;
reset statement_timeout;
select 2 * (used() - :began) < :whole;
-- One call for a long value, a polygon of empty rings. Of 128 MB the statement ends when the value is read, before the
-- call; of 48 MB, which are stored in so few pieces that reading these can't be cancelled, before the value is read.
create table polygons (size int, wkb bytea);
do $$
declare
  rings bytea := '\x00000000';
begin
  for i in 1..25 loop rings := rings || rings; end loop;
  insert into polygons values (128, '\x010300000000000002'::bytea || rings),
    (48, '\x01030000000000c000'::bytea || substr(rings, 1, 4 * 12582912));
end $$;
select used() as began \gset
select wkb_xmin(wkb) is null from polygons where size = 128;
select used() - :began as whole, used() as began \gset
set statement_timeout to '20ms';
select wkb_xmin(wkb) from polygons where size = 128;
reset statement_timeout;
select 2 * (used() - :began) < :whole;
select used() as began \gset
select get_byte(wkb, 0) from polygons where size = 48;
select used() - :began as reading, used() as began \gset
select pg_cancel_backend(pg_backend_pid()) and wkb_xmin(wkb) is null from polygons where size = 48;
select 2 * (used() - :began) < :reading;
