"""The client over the program: each command, refusals, batches, ends."""
import os
import signal
import threading
from decimal import Decimal

import pytest

import daggre
from daggre import Distribution, Interval, Market, Points, Question, commands, exchange, refusals, replies

pytestmark = pytest.mark.usefixtures("built")


@pytest.fixture
def ferry(example, built):
    with Market(example("ferry"), timeout=20) as market:
        yield market


@pytest.fixture
def coin(example, built):
    with Market(example("coin"), timeout=20) as market:
        yield market


def test_every_command_has_a_method(ferry):
    assert ferry.ready == daggre.Ready(3, 100)
    assert ferry.user("alice") == replies.Joined("alice", 1)
    assert ferry.deposit("alice", 2) == replies.Deposited("alice", 2, 2)
    assert ferry.price("storm=yes").low == Decimal("0.25")
    assert ferry.price(Question.read("ferry=sails | storm=yes")) == replies.Price(Decimal("0.2"), Decimal("0.2"))
    assert ferry.limits("alice", "storm=yes") == replies.Limits(Interval(62500, 812500), 2)
    assert ferry.edit("alice", "storm=yes", 500000, at=2) == replies.Traded(2199023255552, 733007751850, 3)
    assert ferry.worst("alice") == replies.Worst(141, 141)
    assert ferry.position("alice", "storm") == replies.Position((Points(300, 300), Points(141, 141)))
    assert [(price.low <= share <= price.high) for price, share in zip(ferry.prices("storm").intervals, (Decimal("0.5"), Decimal("0.5")))] == [True, True]
    assert ferry.prices(Distribution.read("concert | ferry=sails")).intervals[0].low <= Decimal("0.8")
    assert ferry.read_status() == replies.Status(3, 1, 1, 1000, 1, 65536, 3, 3)
    bounds = ferry.bounds("alice", "concert")
    assert bounds.at == 3 and len(bounds.intervals) == 2
    assert ferry.spread("alice", "concert", [600000, 400000], at=3).at == 4
    assert ferry.withdraw("alice", 1).at == 5
    assert [ferry.resolve(pair).at for pair in ("storm=yes", "ferry=stays", "concert=moved")] == [6, 7, 8]
    settled = ferry.settle()
    assert settled.at == 9 and settled.payments[0].user == "alice" and settled.payments[0].paid == settled.payments[0].low
    assert ferry.paid("alice") == replies.Paid(settled.payments[0])
    assert ferry.close() == 0 and ferry.close() == 0


def test_what_was_paid_is_told_behind_a_settlement_alone(coin):
    assert coin.many([commands.user("alice"), commands.user("bob"), commands.deposit("alice", 1), commands.edit("alice", "coin=heads", 600000), commands.deposit("bob", 2),
                      commands.resolve("coin=heads")])[-1].at == 6
    assert coin.many([commands.paid("alice"), commands.paid("carol")]) == [refusals.Unsettled()] * 2
    alice, bob = replies.Payment("alice", 126, 126), replies.Payment("bob", 200, 200)
    assert coin.settle() == replies.Settlement(7, (alice, bob))
    assert coin.many([commands.paid("alice"), commands.paid("bob"), commands.paid("carol"), commands.worst("alice"), commands.settle()]) == [
        replies.Paid(alice), replies.Paid(bob), refusals.UnknownUser("carol"), refusals.Settled(), refusals.Settled()]


def test_many_users_are_settled_by_their_sum(example, built):
    text = example("coin").read_text().replace("max_trades = 1000\n", "max_trades = 1000\nmax_users = 300\n")
    with Market.of_text(text) as market:
        names = [f"u{number}" for number in range(1, 301)]
        market.many([*map(commands.user, names), *(commands.deposit(name, 1) for name in names), commands.resolve("coin=heads")])
        assert market.many([commands.user("u301"), commands.settle()]) == [refusals.TooManyUsers(300), replies.SettledAll(602, 300, 30000)]
        assert market.paid("u300") == replies.Paid(replies.Payment("u300", 100, 100))


def test_the_bound_where_the_program_knows_it(coin):
    if coin.line("bound") == "refused syntax":
        pytest.skip("this program has no command bound")
    assert coin.bound() == replies.Bound(100, 100)


def add_umbrella(market):
    return market.add("umbrella", ["yes", "no"], ["rain"], [[900000, 100000], [200000, 800000]], ["rain", "umbrella"], 1)


@pytest.fixture
def umbrella(example, built):
    """The market of the weather with a question that was added; the reply is that of the addition."""
    with Market(example("weather"), timeout=20) as market:
        try:
            market.added = add_umbrella(market)
        except daggre.Refused as refused:
            if refused.cause == refusals.Syntax():
                pytest.skip("this program has no command add")
            raise
        yield market


def test_a_question_that_is_added(umbrella):
    assert umbrella.added == replies.Added("umbrella", 1)
    assert umbrella.price("umbrella=yes") == replies.Price(Decimal("0.438"), Decimal("0.438"))
    assert umbrella.price("rain=yes") == replies.Price(Decimal("0.34"), Decimal("0.34"))
    assert umbrella.read_status() == replies.Status(1, 0, 0, 1000, 0, 65536, 3, 3)
    assert umbrella.many([commands.price("umbrella=yes | season=wet"), commands.resolve("umbrella=yes")]) == [refusals.Wide(), replies.Resolved(daggre.Pair("umbrella", "yes"), 2)]


HALF = [[500000, 500000]]


@pytest.mark.parametrize("name, values, parents, rows, clique, link, cause", [
    ("umbrella", "ab", [], HALF, ["umbrella"], 1, refusals.Taken("umbrella")),
    ("wind", "aa", [], HALF, ["wind"], 1, refusals.ValueTwice("a")),
    ("wind", "ab", ["snow"], HALF, ["wind"], 1, refusals.UnknownVariable("snow")),
    ("wind", "ab", ["rain", "rain"], HALF, ["wind"], 1, refusals.Twice("rain")),
    ("wind", "ab", [], HALF, ["wind"], 4, refusals.UnknownClique(4)),
    ("wind", "ab", ["rain"], HALF, ["wind"], 1, refusals.Uncovered("rain")),
    ("mood", "ab", ["season", "umbrella"], HALF, ["season", "umbrella", "mood"], 1, refusals.NotRunning("umbrella")),
    ("wind", "ab", ["rain"], HALF, ["rain", "wind"], 1, refusals.RowCount(1)),
    ("wind", "ab", [], [[1, 2, 3]], ["wind"], 1, refusals.RowWidth(1, 3)),
    ("wind", "ab", [], [[0, 1000000]], ["wind"], 1, refusals.OutOfRange(0)),
    ("wind", "ab", [], [[500000, 400000]], ["wind"], 1, refusals.Sum(900000)),
    ("wind", "a", [], [[1000000]], ["wind"], 1, refusals.Syntax()),
])
def test_an_addition_is_refused_with_its_cause(umbrella, name, values, parents, rows, clique, link, cause):
    with pytest.raises(daggre.Refused) as raised:
        umbrella.add(name, list(values), parents, rows, clique, link)
    assert raised.value.cause == cause
    assert umbrella.read_status().questions == 3


def test_an_addition_of_two_lines_is_not_sent(umbrella):
    with pytest.raises(daggre.NotALine):
        umbrella.add("wind\nsettle", ["a", "b"], [], HALF, ["wind"], 1)
    assert umbrella.read_status().questions == 3


@pytest.mark.parametrize("ask, cause", [
    (lambda m: m.price("coin=edge"), refusals.UnknownName(daggre.Pair("coin", "edge"))),
    (lambda m: m.price("Coin"), refusals.Syntax()),
    (lambda m: m.deposit("bob", 1), refusals.UnknownUser("bob")),
    (lambda m: m.user("alice"), refusals.Exists("alice")),
    (lambda m: m.deposit("alice", 1001), refusals.OutOfRange(1001)),
    (lambda m: m.edit("alice", "coin=heads", 600000), refusals.Beyond(Interval(500000, 500000))),
    (lambda m: m.edit("alice", "coin=heads", 500000, at=7), refusals.Stale(7, 1)),
    (lambda m: m.spread("alice", "coin", [1, 2]), refusals.Sum(3)),
    (lambda m: m.prices("dice"), refusals.UnknownVariable("dice")),
    (lambda m: m.position("bob", "dice"), refusals.UnknownUser("bob")),
    (lambda m: m.settle(), refusals.StillOpen("coin")),
    (lambda m: m.withdraw("alice", 1), refusals.Short(0)),
])
def test_a_refusal_is_raised_with_its_cause(coin, ask, cause):
    coin.user("alice")
    with pytest.raises(daggre.Refused) as raised:
        ask(coin)
    assert raised.value.cause == cause
    assert str(cause) in str(raised.value)
    assert coin.price("coin=heads").low == Decimal("0.5")


def test_many_more_commands_than_pipes_hold(coin):
    batch = [commands.user("alice")] + [commands.price("coin=heads"), commands.price("coin=edge")] * 6000
    answered = coin.many(batch)
    assert answered[0] == replies.Joined("alice", 1)
    assert answered[1::2] == [replies.Price(Decimal("0.5"), Decimal("0.5"))] * 6000
    assert answered[2::2] == [refusals.UnknownName(daggre.Pair("coin", "edge"))] * 6000
    assert coin.many([]) == []


def test_threads_share_a_market(coin):
    found = {}

    def ask(name):
        found[name] = [coin.line(f"user {name}"), *(coin.line(f"worst {name}") for _ in range(50))]

    threads = [threading.Thread(target=ask, args=(f"u{k}",)) for k in range(8)]
    for thread in threads:
        thread.start()
    for thread in threads:
        thread.join(30)
    for name, lines in found.items():
        assert lines[0].startswith(f"user {name} at ") and lines[1:] == ["worst 0..0"] * 50
    assert len(found) == 8


@pytest.mark.parametrize("text", ["", "   ", "\r", "price coin=heads\nsettle", "settle\n"])
def test_what_has_not_one_reply_is_not_sent(coin, text):
    with pytest.raises(daggre.NotALine):
        coin.line(text)
    assert coin.line("price coin=heads") == "price 0.5000000000..0.5000000000"


def test_lines_of_any_bytes_are_sent_as_they_are(coin):
    assert coin.lines(["price coin=heads\r", "x" * 1025, "caf\u00e9", "\udcff", "\0"]) == ["price 0.5000000000..0.5000000000", "refused long", *["refused syntax"] * 3]


def test_markets_side_by_side(example, ferry, coin):
    text = example("weather").read_text()
    with Market.of_text(text) as weather:
        done = exchange({ferry: ["price storm=yes"] * 3000, coin: ["price coin=heads"] * 5000, weather: ["price rain=yes"]}, 20)
        assert done[ferry].lines() == ["price 0.2500000000..0.2500000000"] * 3000
        assert done[coin].lines() == ["price 0.5000000000..0.5000000000"] * 5000
        assert done[weather].lines() == ["price 0.3400000000..0.3400000000"]


def test_a_market_that_ended_leaves_the_others(ferry, coin):
    coin.close()
    done = exchange({ferry: ["price storm=yes"], coin: ["price coin=heads"]}, 20)
    assert done[ferry].lines() == ["price 0.2500000000..0.2500000000"]
    with pytest.raises(daggre.Ended) as raised:
        done[coin].lines()
    assert raised.value.status == 0


def test_a_process_that_was_killed_raises_and_is_not_started_again(coin, built):
    os.kill(coin.pid, signal.SIGTERM)
    coin._channel.process.wait(20)
    with pytest.raises(daggre.Ended) as raised:
        coin.many([commands.price("coin=heads")] * 10)
    assert raised.value.status == -signal.SIGTERM
    with pytest.raises(daggre.Ended):
        coin.price("coin=heads")


def test_a_refused_file_says_what_is_wrong(tmp_path, built):
    path = tmp_path / "bad.toml"
    path.write_text("points_per_bit = 0\n")
    with pytest.raises(daggre.FileRefused) as raised:
        Market(path)
    assert raised.value.fault == daggre.FileFault("missing", "max_trades", (0,))


def test_a_file_that_is_not_there(tmp_path, built):
    with pytest.raises(daggre.Ended) as raised:
        Market(tmp_path / "nowhere.toml")
    assert raised.value.status == 3
