"""The parts of a fleet without a database: what a gateway lets through, what a worker lays down, what a judge sees."""
import sys
from pathlib import Path

import pytest

pytest.importorskip("psycopg", reason="the Python package psycopg is not here")
sys.path.insert(0, str(Path(__file__).resolve().parents[1]))

from gateway import Gateway, objection
from judge import FAULTS, blind_eyes, judge_market
from worker import MOST_DEATHS, Held, Worker

from daggre import Market

PROGRAM = """#!{python}
import sys
if len(sys.argv) == 3:
    print("ready 1 100", flush=True)
    for at, line in enumerate(sys.stdin, 1):
        words = line.split()
        if words[1] == "dies":
            sys.exit(5)
        print("refused memory" if words[1] == "large" else f"user {{words[1]}} at {{at}}", flush=True)
"""


class FakeLog:
    """A log of one market, `m`, with these lines and these replies to the first of them."""

    def __init__(self, lines, stood=()):
        self.lines, self.stood, self.given_back = lines, list(stood), []
        self.links, self.is_held = 1, True

    def commands(self, places, most):
        return [("m", at, line) for at, line in enumerate(self.lines, 1) if at > places["m"]][:most]

    def answered(self, market, place, most):
        return self.stood[place:place + most]

    def answer(self, rows):
        if not self.is_held:
            return set()
        assert [place for _, _, place, _ in rows] == list(range(len(self.stood) + 1, len(self.stood) + len(rows) + 1))
        self.stood += [line for *_, line in rows]
        return {"m"}

    def give_back(self, worker, market):
        self.given_back.append(market)


@pytest.fixture
def served(tmp_path):
    program = tmp_path / "program"
    program.write_text(PROGRAM.format(python=sys.executable))
    program.chmod(0o755)
    workers = []

    def make(lines, stood=()):
        worker = Worker("", "w0", [program], 1.0)
        worker.log = FakeLog(lines, stood)
        worker.held["m"] = Held(Market.of_text("", program=program, timeout=20), 7, 1)
        workers.append(worker)
        return worker

    yield make
    for worker in workers:
        for held in worker.held.values():
            held.market.close()


def test_replies_are_laid_down_in_order(served):
    worker = served(["user a", "user b"])
    assert worker.turn() and worker.log.stood == ["user a at 1", "user b at 2"] and worker.held["m"].place == 2
    assert not worker.turn()


@pytest.mark.parametrize("line", ["user large", "user dies"])
def test_wanting_memory_counts_as_a_crash_and_is_never_laid_down(served, line):
    worker = served(["user a", line, "user b"])
    market = worker.held["m"].market
    assert worker.turn()
    assert worker.log.stood == ["user a at 1"]
    assert worker.log.given_back == ["m"] and not worker.held and worker.deaths == {"m": 1}
    assert market.status is not None


def test_what_another_holds_is_dropped(served):
    worker = served(["user a"])
    worker.log.is_held = False
    assert worker.turn()
    assert worker.log.stood == [] and not worker.held and not worker.deaths


def test_a_market_is_run_again_and_goes_on(served):
    worker = served(["user a", "user b", "user c"], ["user a at 1", "user b at 2"])
    assert worker.replay({"m": 2}) == 2
    assert worker.turn() and worker.log.stood[2] == "user c at 3"


def test_a_market_that_answers_otherwise_is_not_served(served):
    worker = served(["user a", "user b"], ["user a at 1", "user b at 9"])
    worker.replay({"m": 2})
    assert not worker.held and worker.log.given_back == ["m"] and worker.deaths["m"] >= MOST_DEATHS


def test_replies_that_are_gone_are_no_fault_of_the_market(served):
    worker = served(["user a", "user b"], ["user a at 1"])
    worker.replay({"m": 2})
    assert not worker.held and not worker.deaths


@pytest.mark.parametrize("account, line", [("alice", "user alice"), ("alice", "edit alice coin=heads to 600000"), ("alice", "price coin=heads"), ("alice", "bound"),
                                           ("operator", "resolve coin=heads"), ("operator", "settle"), ("operator", "add bet=yes,no : 500000 500000 in bet to 1"), ("alice", "worst alice"), ("alice", "paid alice"), ("alice", "prices coin"), ("alice", "position alice coin"), ("alice", "status")])
def test_what_a_gateway_lets_through(account, line):
    assert objection(account, line) is None


@pytest.mark.parametrize("account, line", [
    ("alice", ""), ("alice", "   "), ("alice", "price coin=heads\0"), ("alice", "price coin=heads\r"), ("alice", "price c\u00e9=heads"), ("alice", "price " + "x" * 1024),
    ("alice", "edit bob coin=heads to 600000"), ("alice", "worst bob"), ("alice", "paid bob"), ("alice", "position bob coin"), ("alice", "withdraw bob 1"), ("alice", "resolve coin=heads"), ("alice", "settle"), ("alice", "add alice=yes,no : 500000 500000 in alice to 1"),
    ("alice", "edit"), ("alice", "user"), ("alice", "shutdown"), ("operator", "deposit alice 1"), ("alice", " user alice"),
])
def test_what_a_gateway_holds_back(account, line):
    assert objection(account, line)


@pytest.mark.parametrize("text", ["", "coin", "coin alice", "coin alice 1", "coin Alice 1 user alice", "coin alice -1 user alice", "coin alice x user alice",
                                  "coin alice ² user alice", "c\0n alice 1 user alice", f"{'c' * 65} alice 1 user alice", " alice 1 user alice"])
def test_lines_of_another_form(text):
    command, said = Gateway("", 10, 10, 60).read(text)
    assert command is None and said.startswith("- - - - ")


def test_changes_are_counted_and_questions_are_not():
    gateway = Gateway("", 10, 10, 60)
    assert gateway.read("coin alice 1 deposit alice 2")[0] == ("coin", "alice", 1, "deposit alice 2", 1)
    assert gateway.read("coin alice 2 worst alice")[0][4] == 0
    assert gateway.read("coin alice 3 paid alice")[0][4] == 0


class FakeGatewayLog:
    def __init__(self, verdicts):
        self.verdicts, self.stands = verdicts, {}

    def submit(self, commands, depth, allowance):
        return self.verdicts[:len(commands)]

    def replies(self, places):
        return [(*place, self.stands[place]) for place in places if place in self.stands]


def test_a_gateway_tells_each_sender_once():
    gateway = Gateway("", 10, 10, 60)
    gateway.log = FakeGatewayLog([("in", 5), ("in", 5), ("busy", None), ("spent", None)])
    out = gateway.turn(["coin a 1 user a", "coin a 1 user a", "coin b 1 user b", "coin b 2 deposit b 1"])
    assert out == ["coin b 1 - the market is far behind: send it again later", "coin b 2 - the account has used up its changes of this market"]
    gateway.log.stands["coin", 5] = "user a at 1"
    assert gateway.turn([]) == ["coin a 1 5 user a at 1"] * 2
    assert gateway.turn([]) == [] and not gateway.waiting


def test_a_gateway_does_not_wait_for_ever():
    gateway = Gateway("", 10, 10, -1)
    gateway.log = FakeGatewayLog([("in", 5)])
    out = gateway.turn(["coin a 1 user a"])
    assert len(out) == 1 and out[0].startswith("coin a 1 - no reply") and not gateway.waiting


ROWS = [(1, "a", 1, "user a", "user a at 1"), (2, "a", 2, "worst a", "worst 0..0"), (3, "b", 1, "user b", "user b at 2")]
GOT = {("a", 1): (1, "user a", "user a at 1"), ("a", 2): (2, "worst a", "worst 0..0")}


def test_the_judge_sees_every_fault_and_none_where_there_is_none():
    assert not any(judge_market(ROWS, [row[4] for row in ROWS], GOT).values())
    assert blind_eyes(ROWS, GOT) == []


def test_the_judge_sees_a_place_and_a_line_that_were_told_otherwise():
    bare = [row[4] for row in ROWS]
    assert judge_market(ROWS, bare, {("a", 1): (2, "user a", "user a at 1")})["different"] == 1
    assert judge_market(ROWS, bare, {("a", 1): (1, "user b", "user a at 1")})["different"] == 1
    assert set(judge_market(ROWS, bare, {})) == set(FAULTS)
