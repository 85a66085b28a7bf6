-- The tables that a store's log entries are followed into. Given again it changes nothing that is there.
begin;
-- Two followers that come at once make it one after the other.
select pg_advisory_xact_lock(1752654188, 0);
create schema if not exists hwal;

-- One line for each store: its record, and what its follower last saw.
create table if not exists hwal.stores (
    store integer generated always as identity primary key,
    name text not null unique,
    -- All entries in front of the position (file, entries) are in hwal.cells, and none after it.
    file bigint not null,
    entries bigint not null,
    -- The last entry that was taken, with the SHA-256 of its lines; null before the first one.
    last_file bigint,
    last_place bigint,
    last_digest bytea,
    -- What the follower saw when it last looked; null where the logs could not be counted.
    looked_at timestamptz,
    complete_at timestamptz,
    entries_behind bigint,
    waits_for text
);

-- One line for each cell of each log entry, deletes too. `type` is HBase's code: 4 put, 8 delete, 10 delete family version, 12 delete
-- column, 14 delete family. `file` and `place` say where the entry stands in the logs, `item` which of its cells it is, from 1.
create table if not exists hwal.cells (
    file bigint not null,
    place bigint not null,
    number bigint not null,
    written bigint not null,
    ts bigint not null,
    store integer not null,
    region smallint not null,
    item smallint not null,
    type smallint not null,
    table_name bytea not null,
    "row" bytea not null,
    family bytea not null,
    qualifier bytea not null,
    value bytea not null,
    tags bytea not null,
    -- An edit is there once, whatever a follower does.
    primary key (store, region, number, item)
);

-- For reads of a row. A row may be longer than an index takes, so its first bytes are the key.
create index if not exists cells_by_row on hwal.cells (store, region, substring("row" from 1 for 256));

-- Moves the record of a store from one position to the next. Nobody else may have moved it.
create or replace function hwal.record(of_store integer, from_file bigint, from_entries bigint, to_file bigint, to_entries bigint,
    taken_file bigint, taken_place bigint, taken_digest bytea) returns void language plpgsql as $$
begin
    update hwal.stores
    set file = to_file, entries = to_entries, last_file = taken_file, last_place = taken_place, last_digest = taken_digest
    where store = of_store and file = from_file and entries = from_entries;
    if not found then
        raise exception 'the record of store % is not at % %', of_store, from_file, from_entries;
    end if;
end $$;

-- Takes a store out of the database, with all its cells.
create or replace function hwal.forget(store_name text) returns bigint language plpgsql as $$
declare
    forgotten integer;
    cells bigint;
begin
    delete from hwal.stores where name = store_name returning store into forgotten;
    delete from hwal.cells where store = forgotten;
    get diagnostics cells = row_count;
    return cells;
end $$;

-- The delete d masks the put p.
create or replace function hwal.masks(d hwal.cells, p hwal.cells) returns boolean language sql immutable as $$
    select d.type = 14 and p.ts <= d.ts
        or d.type = 10 and p.ts = d.ts
        or d.type = 12 and d.qualifier = p.qualifier and p.ts <= d.ts
        or d.type = 8 and d.qualifier = p.qualifier and p.ts = d.ts
$$;

-- The puts that a client of HBase sees. A delete masks by its timestamp alone, also what was put after it. Of two puts with one column and
-- timestamp the later one hides the other.
create or replace view hwal.shown as
select s.name, p.*
from hwal.stores s
join hwal.cells p using (store)
where p.type = 4
    and not exists (
        select from hwal.cells d
        where d.store = p.store and d.region = p.region and substring(d."row" from 1 for 256) = substring(p."row" from 1 for 256)
            and d."row" = p."row" and d.family = p.family and d.type <> 4 and hwal.masks(d, p))
    and not exists (
        select from hwal.cells q
        where q.store = p.store and q.region = p.region and substring(q."row" from 1 for 256) = substring(p."row" from 1 for 256)
            and q."row" = p."row" and q.family = p.family and q.type = 4 and q.qualifier = p.qualifier and q.ts = p.ts
            and (q.number, q.item) > (p.number, p.item));

-- The same, counted in each column from its newest version on.
create or replace view hwal.versions as
select name, region, "row", family, qualifier, ts, number, value, tags, table_name,
    row_number() over (partition by name, region, "row", family, qualifier order by ts desc) as version
from hwal.shown;

-- The newest version of each column.
create or replace view hwal.newest as
select name, region, "row", family, qualifier, ts, number, value, tags, table_name from hwal.versions where version = 1;

-- A get of a row: of each column the newest so many versions, in order.
create or replace function hwal.get(store_name text, of_region integer, of_row bytea, versions integer)
    returns table (number bigint, "row" bytea, family bytea, qualifier bytea, ts bigint, value bytea, tags bytea) language sql stable as $$
    select c.number, c."row", c.family, c.qualifier, c.ts, c.value, c.tags
    from (
        select *, row_number() over (partition by family, qualifier order by ts desc) as version
        from hwal.shown
        where name = store_name and region = of_region and substring("row" from 1 for 256) = substring(of_row from 1 for 256) and "row" = of_row) c
    where version <= versions
    order by family, qualifier, ts desc
$$;

-- How far each store's follower is behind. Logs below `keep_from` may be deleted.
create or replace view hwal.lag as
select name, file, entries, entries_behind, waits_for, now() - complete_at as since_complete, now() - looked_at as since_look,
    last_file as keep_from
from hwal.stores;
commit;
