-- The procedures that are compared, for PostgreSQL. A node is a row, with its parent and its place among that one's children.
-- Half of a page stays free, so that a row's next version finds room beside it.
create schema peers;
create unlogged table peers.nodes (
    id integer primary key,
    parent integer,
    place integer,
    f0 bigint not null,
    f1 bigint not null,
    f2 bigint not null,
    f3 bigint not null
) with (fillfactor = 50);
create unique index on peers.nodes (parent, place);

-- Adds to a node of the tree. Answers what it has then.
create function peers.add(number integer, amount bigint) returns bigint language plpgsql as $$
declare
    total bigint;
begin
    update peers.nodes set f0 = f0 + amount where id = number returning f0 into total;
    return total;
end
$$;

-- Goes from the root down to a leaf and adds to it. Answers what it has then. Each row on the way stays locked up to the end.
create function peers.path(c0 integer, c1 integer, c2 integer, c3 integer, amount bigint) returns bigint language plpgsql as $$
declare
    at integer;
    total bigint;
begin
    select id into at from peers.nodes where id = 0 for update;
    select id into at from peers.nodes where parent = at and place = c0 for update;
    select id into at from peers.nodes where parent = at and place = c1 for update;
    select id into at from peers.nodes where parent = at and place = c2 for update;
    update peers.nodes set f0 = f0 + amount where parent = at and place = c3 returning f0 into total;
    return total;
end
$$;

-- Answers the sum of a node's eight children.
create function peers.sum(number integer) returns bigint language plpgsql as $$
declare
    total bigint;
begin
    perform from peers.nodes where id = number for update;
    select pg_catalog.sum(f0)::bigint into total from peers.nodes where parent = number;
    return total;
end
$$;

-- What both halves of `long` do.
create function peers.turns(number bigint) returns bigint language plpgsql as $$
declare
    x bigint := number;
    a bigint;
    b bigint;
    c bigint;
begin
    for turn in 1 .. 2500 loop
        a := x + 3;
        b := a * 2;
        c := b + 3;
        x := c - a;
    end loop;
    return x;
end
$$;

-- Works long on a node, and then as long on a child of it. Answers what came of it.
create function peers.long(number integer, nth integer) returns bigint language plpgsql as $$
declare
    at integer;
    x bigint;
begin
    perform from peers.nodes where id = number for update;
    x := peers.turns(number);
    update peers.nodes set f1 = x where id = number;
    select id into at from peers.nodes where parent = number and place = nth for update;
    x := peers.turns(x);
    update peers.nodes set f2 = x where id = at;
    return x;
end
$$;
