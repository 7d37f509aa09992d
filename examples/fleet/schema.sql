-- Many markets in one database: for each an ordered list of commands, which is the truth, and the replies to them.
-- A market is restored from its file and its commands alone. What each table is for stands in README.md.

create table market (
  id    text primary key,
  file  text not null,               -- the text of the market file
  build text not null);              -- the program that serves it, by the digest of its file

-- Three rows for each market, in tables of their own: senders, answerers and those who take markets over do not wait for each other.
create table inbox (market text primary key references market, last bigint not null default 0);    -- the place of the last command
create table outbox (market text primary key references market, last bigint not null default 0);   -- the place of the last reply
create table holding (market text primary key references market, worker text, term bigint not null default 0);  -- term: how often it was taken

create table command (
  market  text not null references market,
  place   bigint not null,
  account text not null,
  number  bigint not null,           -- the sender's own: what is sent again under its number stands once
  line    text not null,
  primary key (market, place),
  unique (market, account, number));

create table reply (
  market text not null,
  place  bigint not null,
  term   bigint not null,
  line   text not null,
  primary key (market, place));

create table worker (id text primary key, lease timestamptz not null);

-- How many commands that may change a market each account has sent to it: the limits of trades and transfers are the whole market's.
create table spending (market text, account text, spent bigint not null default 0, primary key (market, account));

create function open_market(id text, file text, build text) returns void language sql as $$
  insert into market values (id, file, build) on conflict do nothing;
  insert into inbox values (id) on conflict do nothing;
  insert into outbox values (id) on conflict do nothing;
  insert into holding values (id) on conflict do nothing;
$$;

-- Takes commands in, and says of each: `in`, with its place; `other`, where its number stands for another line; `unknown` for no such market;
-- `over`, where the market has as many lines as a stream may have, and could not be run again with more; `spent`, where the account has used up its
-- allowance; `busy`, where the market is `depth` commands behind.
create function submit(markets text[], accounts text[], numbers bigint[], lines text[], costs int[], depth bigint, allowance bigint)
returns table (nth int, verdict text, place bigint) language plpgsql as $$
declare
  stands record;
  tail bigint;
  behind bigint;
  sum_spent bigint;
begin
  perform 1 from inbox where inbox.market = any(markets) order by inbox.market for update;
  for i in 1 .. cardinality(markets) loop
    nth := i;
    place := null;
    select c.place, c.line into stands from command c where c.market = markets[i] and c.account = accounts[i] and c.number = numbers[i];
    if found then
      verdict := case when stands.line = lines[i] then 'in' else 'other' end;
      if verdict = 'in' then place := stands.place; end if;
      return next;
      continue;
    end if;
    select b.last, b.last - o.last into tail, behind from inbox b join outbox o using (market) where b.market = markets[i];
    if not found then
      verdict := 'unknown';
    elsif tail >= 1000000 then
      verdict := 'over';
    elsif behind >= depth then
      verdict := 'busy';
    else
      select s.spent into sum_spent from spending s where s.market = markets[i] and s.account = accounts[i];
      if costs[i] > 0 and coalesce(sum_spent, 0) + costs[i] > allowance then
        verdict := 'spent';
      else
        verdict := 'in';
        place := tail + 1;
        insert into command values (markets[i], place, accounts[i], numbers[i], lines[i]);
        update inbox set last = place where inbox.market = markets[i];
        if costs[i] > 0 then
          insert into spending as s values (markets[i], accounts[i], costs[i]) on conflict (market, account) do update set spent = s.spent + costs[i];
        end if;
      end if;
    end if;
    return next;
  end loop;
end $$;

-- A worker says that it lives. It takes markets of its builds that nobody holds, or whose holder's lease is over, and gives some back, until it
-- has its share; never more than `room` at once, and none that it shuns. It is told all it holds, with the files of those not in `has`.
create function beat(me text, span interval, builds text[], room int, has text[], shunned text[])
returns table (market text, term bigint, answered bigint, build text, file text) language plpgsql as $$
declare
  share bigint;
  mine bigint;
begin
  insert into worker values (me, clock_timestamp() + span) on conflict (id) do update set lease = excluded.lease;
  select ceil(count(*)::numeric / (select greatest(count(*), 1) from worker w where w.lease > clock_timestamp())) into share
    from market m where m.build = any(builds);
  select count(*) into mine from holding h where h.worker = me;
  if mine > share then
    update holding h set worker = null where h.market in (
      select g.market from holding g where g.worker = me order by g.market desc limit least(mine - share, room) for update skip locked);
  elsif mine < share then
    update holding h set worker = me, term = h.term + 1 where h.market in (
      select g.market from holding g join market m on m.id = g.market left join worker w on w.id = g.worker
      where m.build = any(builds) and not g.market = any(shunned) and (w.id is null or w.lease < clock_timestamp())
      order by g.market limit least(share - mine, room) for update of g skip locked);
  end if;
  return query select h.market, h.term, o.last, m.build, case when h.market = any(has) then null else m.file end
    from holding h join market m on m.id = h.market join outbox o on o.market = h.market where h.worker = me;
end $$;

-- Lays replies down for markets that are still held under these terms and whose replies follow what stands, and says which they were. The lock
-- on a holding keeps others from taking the market in between; a reply stands once.
create function answer(markets text[], terms bigint[], places bigint[], lines text[]) returns setof text language plpgsql as $$
declare
  kept text[];
begin
  perform 1 from holding h where h.market = any(markets) order by h.market for update;
  select coalesce(array_agg(t.m), '{}') into kept
    from (select u.m, u.e, min(u.p) as first from unnest(markets, terms, places) u(m, e, p) group by u.m, u.e) t
    join holding h on h.market = t.m and h.term = t.e join outbox o on o.market = t.m and o.last + 1 = t.first;
  insert into reply select t.m, t.p, t.e, t.l from unnest(markets, terms, places, lines) t(m, e, p, l) where t.m = any(kept);
  update outbox o set last = t.last from (select u.m, max(u.p) as last from unnest(markets, places) u(m, p) group by u.m) t
    where o.market = t.m and t.m = any(kept);
  perform pg_notify('replies', '');
  return query select unnest(kept);
end $$;
