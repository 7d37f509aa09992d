"""The database of a fleet, as gateways, workers and the judge see it. Each call may be repeated: what was done is not done again.

A call that loses its link tries again for `PATIENCE` seconds, each time with the server that takes writes at that moment.
"""
import select
import time

import psycopg

PATIENCE = 30
PAUSE = 0.05


class NoDatabase(Exception):
    """No server could be reached that takes writes."""


class Log:
    def __init__(self, target, channel=None, waits_for_standby=True):
        """`channel` is what this link is woken by. Replies need not wait for the standby: whoever lost some gives them again."""
        self.target, self.channel, self.waits_for_standby = target, channel, waits_for_standby
        self.link = None
        self.links = 0

    def _linked(self):
        if self.link is None or self.link.closed:
            self.link = psycopg.connect(self.target, autocommit=True)
            self.links += 1
            if not self.waits_for_standby:
                self.link.execute("set synchronous_commit = off")
            if self.channel:
                self.link.execute(f'listen "{self.channel}"')
        return self.link

    def _unlink(self):
        if self.link is not None:
            self.link.close()

    def call(self, text, *words):
        until = time.monotonic() + PATIENCE
        while True:
            try:
                cursor = self._linked().execute(text, words)
                return cursor.fetchall() if cursor.description else []
            except psycopg.errors.ReadOnlySqlTransaction as fault:
                why = fault
            except psycopg.OperationalError as fault:
                why = fault
            self._unlink()
            if time.monotonic() > until:
                raise NoDatabase(f"the database cannot be reached: {str(why).strip().splitlines()[0]}")
            time.sleep(PAUSE)

    def wait(self, seconds):
        """Until this link is woken, or the time is over."""
        try:
            link = self._linked()
            if select.select([link.fileno()], [], [], seconds)[0]:
                link.pgconn.consume_input()
                while link.pgconn.notifies():
                    pass
        except psycopg.OperationalError:
            self._unlink()
            time.sleep(PAUSE)

    def check(self):
        """Makes sure that the link works, by another one where it does not."""
        self.call("select")

    def close(self):
        self._unlink()

    # What an operator does.

    def open_market(self, name, text, build):
        self.call("select open_market(%s, %s, %s)", name, text, build)

    # What a gateway does.

    def submit(self, commands, depth, allowance):
        """`commands`: market, account, number, line, cost. The verdict and the place of each, in order."""
        columns = [list(column) for column in zip(*commands)]
        rows = self.call("select nth, verdict, place from submit(%s, %s, %s::bigint[], %s, %s::int[], %s, %s)", *columns, depth, allowance)
        # Workers are woken by a transaction of its own: one that waits for the standby would hold up all others that wake somebody.
        self.call("select pg_notify('worker_' || w, '') from (select distinct worker w from holding where market = any(%s) and worker is not null) x", columns[0])
        return [(verdict, place) for _, verdict, place in sorted(rows)]

    def replies(self, places):
        """What stands of the replies at these places, each a market and a number."""
        return self.call("select r.market, r.place, r.line from unnest(%s::text[], %s::bigint[]) t(m, p) join reply r on r.market = t.m and r.place = t.p",
                         [market for market, _ in places], [place for _, place in places])

    # What a worker does.

    def beat(self, worker, span, builds, room, has, shunned):
        return self.call("select * from beat(%s, make_interval(secs => %s), %s, %s, %s::text[], %s::text[])", worker, span, builds, room, has, shunned)

    def leave(self, worker):
        self.call("update holding set worker = null where worker = %s", worker)
        self.call("delete from worker where id = %s", worker)

    def give_back(self, worker, market):
        self.call("update holding set worker = null where worker = %s and market = %s", worker, market)

    def commands(self, places, most):
        """The next commands of these markets behind these places, at most so many of each."""
        return self.call("select t.m, c.place, c.line from unnest(%s::text[], %s::bigint[]) t(m, p) cross join lateral (select * from command "
                         "where market = t.m and place > t.p order by place limit %s) c order by 1, 2", list(places), list(places.values()), most)

    def answered(self, market, place, most):
        return [line for line, in self.call("select line from reply where market = %s and place > %s order by place limit %s", market, place, most)]

    def answer(self, rows):
        """Lays down rows of market, term, place, line; the markets that are still held."""
        columns = [list(column) for column in zip(*rows)]
        return {market for market, in self.call("select * from answer(%s, %s::bigint[], %s::bigint[], %s)", *columns)}

    # What the judge does.

    def all_of(self, market):
        return self.call("select c.place, c.account, c.number, c.line, r.line from command c left join reply r using (market, place) where c.market = %s "
                         "order by c.place", market)
