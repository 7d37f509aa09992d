"""Texts of replies, refusals and faults of files, by the grammar of docs/REFERENCE.md. No program is needed."""
from decimal import Decimal
from pathlib import Path

import pytest

from daggre import FileFault, Interval, Pair, Points, Question, commands, read_reply, refusals, replies
from daggre.errors import UnknownLine
from daggre.questions import Distribution

GREATEST = 2**63 - 1
REPLIES = {
    "user alice at 1": replies.Joined("alice", 1),
    "deposit alice 2 at 2": replies.Deposited("alice", 2, 2),
    "withdraw alice 1 at 5": replies.Withdrawn("alice", 1, 5),
    "price 0.7272727272..0.7272727273": replies.Price(Decimal("0.7272727272"), Decimal("0.7272727273")),
    "price 0.0000000000..1.0000000000": replies.Price(Decimal(0), Decimal(1)),
    "limits 62500..812500 at 2": replies.Limits(Interval(62500, 812500), 2),
    "limits none at 4": replies.Limits(None, 4),
    "trade 1759218604441 879609302220 at 3": replies.Traded(1759218604441, 879609302220, 3),
    f"trade 1 {GREATEST} at {GREATEST}": replies.Traded(1, GREATEST, GREATEST),
    "bounds 166667..999999 0..0 166668..999999 at 3": replies.Bounds((Interval(166667, 999999), Interval(0, 0), Interval(166668, 999999)), 3),
    "bounds none at 3": replies.Bounds(None, 3),
    "spread 1099511627775 824634957783 at 4": replies.Spread((1099511627775, 824634957783), 4),
    "worst 167..168": replies.Worst(167, 168),
    "prices 0.2500000000..0.2500000000 0.7499999999..0.7500000001": replies.Prices((
        replies.Price(Decimal("0.25"), Decimal("0.25")), replies.Price(Decimal("0.7499999999"), Decimal("0.7500000001")))),
    f"prices{' 0.0000000000..1.0000000000' * 16}": replies.Prices((replies.Price(Decimal(0), Decimal(1)),) * 16),
    "position 126..126 none 80..81": replies.Position((Points(126, 126), None, Points(80, 81))),
    f"position 0..0 {GREATEST}..{GREATEST}": replies.Position((Points(0, 0), Points(GREATEST, GREATEST))),
    "position none none": replies.Position((None, None)),
    "status at 4 users 2 trades 1 of 1000 transfers 3 of 65536 open 1 of 2": replies.Status(4, 2, 1, 1000, 3, 65536, 1, 2),
    f"status at {GREATEST} users {2**32 - 1} trades 0 of 1 transfers 0 of 1 open 0 of 1": replies.Status(GREATEST, 2**32 - 1, 0, 1, 0, 1, 0, 1),
    "resolve storm=no at 6": replies.Resolved(Pair("storm", "no"), 6),
    "add umbrella at 1": replies.Added("umbrella", 1),
    f"add add at {GREATEST}": replies.Added("add", GREATEST),
    "settle at 9": replies.Settlement(9, ()),
    "settle at 9, alice 67..67 paid 67, bob 0..1 paid 0": replies.Settlement(9, (replies.Payment("alice", 67, 67), replies.Payment("bob", 0, 1))),
    "settle at 902 users 300 paid 29860": replies.SettledAll(902, 300, 29860),
    f"settle at {GREATEST} users 65536 paid {GREATEST}": replies.SettledAll(GREATEST, 65536, GREATEST),
    "settle at 259 users 257 paid 0": replies.SettledAll(259, 257, 0),
    "paid alice 126..127 paid 126": replies.Paid(replies.Payment("alice", 126, 127)),
    f"paid paid 0..{GREATEST} paid 0": replies.Paid(replies.Payment("paid", 0, GREATEST)),
    "bound 300..301": replies.Bound(300, 301),
    "refused syntax": refusals.Syntax(),
    "refused long": refusals.Long(),
    "refused settled": refusals.Settled(),
    "refused unsettled": refusals.Unsettled(),
    "refused user alice": refusals.UnknownUser("alice"),
    "refused exists alice": refusals.Exists("alice"),
    "refused users 256": refusals.TooManyUsers(256),
    "refused users 65536": refusals.TooManyUsers(65536),
    "refused variables 256": refusals.VariablesFull(256),
    "refused taken umbrella": refusals.Taken("umbrella"),
    "refused value a": refusals.ValueTwice("a"),
    "refused variable snow": refusals.UnknownVariable("snow"),
    "refused name storm=maybe": refusals.UnknownName(Pair("storm", "maybe")),
    "refused twice storm": refusals.Twice("storm"),
    "refused link 4": refusals.UnknownClique(4),
    "refused link 0": refusals.UnknownClique(0),
    "refused cover rain": refusals.Uncovered("rain"),
    "refused running umbrella": refusals.NotRunning("umbrella"),
    "refused rows 1": refusals.RowCount(1),
    "refused width 2 3": refusals.RowWidth(2, 3),
    "refused stale 5 1": refusals.Stale(5, 1),
    "refused resolved storm": refusals.AlreadyResolved("storm"),
    "refused impossible storm=no": refusals.Impossible(Pair("storm", "no")),
    "refused wide": refusals.Wide(),
    "refused numbers 3": refusals.Numbers(3),
    "refused range 1001": refusals.OutOfRange(1001),
    "refused sum 1100000": refusals.Sum(1100000),
    "refused cells 32772": refusals.TooManyCells(32772),
    "refused full 1": refusals.Full(1),
    "refused full 1000000": refusals.Full(1000000),
    "refused sure storm=yes": refusals.Sure(Pair("storm", "yes")),
    "refused beyond 250000..250000": refusals.Beyond(Interval(250000, 250000)),
    "refused beyond none": refusals.Beyond(None),
    "refused outside 250000..999999 0..0": refusals.Outside((Interval(250000, 999999), Interval(0, 0))),
    "refused outside none": refusals.Outside(None),
    "refused short 1": refusals.Short(1),
    "refused open ferry": refusals.StillOpen("ferry"),
    "refused memory": refusals.Memory(),
}
NO_REPLIES = [
    "", "ready 3 100", "user Alice at 1", "user alice at 01", "user alice", "user  alice at 1", "user alice at 1 ", f"user alice at {GREATEST + 1}",
    f"user {'a' * 33} at 1", "price 0.5..0.5", "price 0.50000000000..0.5000000000", "price 2.0000000000..2.0000000000", "price 1.0000000001..1.0000000001",
    "limits 0..5 at 1", "limits 5..4 at 1", "limits 1..1000000 at 1", "limits 0..0 at 1", "trade 0 1 at 1", f"trade {GREATEST + 1} 1 at 1",
    "bounds 1..2 at 1", "bounds 0..1 1..5 at 2", "bounds 0..0 0..5 at 2", f"bounds {' '.join(['1..2'] * 17)} at 1", "spread 1 at 1", "spread 0 1 at 1",
    "worst 1", "worst -1..0", "resolve storm at 6", "settle", "settle at 9, alice 67..67 paid 66", "settle at 9,alice 67..67 paid 67",
    "prices 0.5000000000..0.5000000000", f"prices{' 0.5000000000..0.5000000000' * 17}", "prices 5..5 5..5", "prices 0.5000000000..0.5000000000 none",
    "prices 0.5000000000..0.5000000000  0.5000000000..0.5000000000", "prices 0.5000000000..0.5000000000 1.0000000001..1.0000000001", "position none",
    "position 5..5", "position 5..5 05..6", f"position{' 5..5' * 17}", f"position 5..5 0..{GREATEST + 1}", "status", "status at 1 users 1 trades 1 of 5 open 1 of 2",
    f"status at 1 users 1 trades 0 of 1 transfers 0 of {2**32} open 1 of 1", f"status at {GREATEST + 1} users 1 trades 0 of 1 transfers 0 of 1 open 1 of 1",
    "add", "add umbrella", "add Umbrella at 1", "add umbrella=yes,no at 1", "add umbrella at 01", f"add umbrella at {GREATEST + 1}", "refused variables 257",
    "refused variables", "refused taken", "refused value 1", "refused link", "refused link -1", f"refused link {2**32}", "refused cover rain=yes", "refused rows a",
    "refused width 2", "refused width 2 3 4", f"refused width {2**32} 1", "refused cells", f"refused cells {2**32}",
    "settle at 9 users 256 paid 5", "settle at 9 users 65537 paid 5", "settle at 9 users 300", "settle at 9 users 300 paid", "settle at 9 users 0300 paid 5",
    f"settle at 9 users 300 paid {GREATEST + 1}", "settle at 9 users 300 paid 5, alice 5..5 paid 5", "settle users 300 paid 5", "settle at 9 users 300 paid 5..5",
    "paid", "paid ", "paid alice", "paid alice 5", "paid alice 5..5", "paid alice 5..5 paid 4", "paid Alice 5..5 paid 5", "paid alice 5..5 paid 5 at 9", "paid alice 5..5  paid 5",
    "paid alice 5..5 paid 5, bob 5..5 paid 5", f"paid alice 5..{GREATEST + 1} paid 5", "paid none", "refused unsettled 1", "refused Unsettled",
    "bound 5", "bound 5..6 at 1", "bound none", "refused", "refused sure w", "refused users 65537", "refused beyond", "refused Syntax", "refused syntax ",
    "refused market toml", "price 0.5000000000..0.5000000000\n", "price ٠.5000000000..0.5000000000", "settle at 9" + "".join(f", u{k} 0..0 paid 0" for k in range(257)),
]


@pytest.mark.parametrize("line", REPLIES)
def test_each_reply_is_read_and_is_its_line_again(line):
    assert read_reply(line) == REPLIES[line]
    assert str(REPLIES[line]) == line


def test_every_cause_and_kind_of_reply_has_a_text_here():
    shown = {type(reply).__name__ for reply in REPLIES.values()}
    # no command is refused for a contradiction, only what is asked behind all of them
    assert shown | {"Contradiction"} == {kind.__name__ for base in (refusals.Refusal, replies.Reply) for kind in base.__subclasses__()}


@pytest.mark.parametrize("line", NO_REPLIES)
def test_no_reply_is_made_of_other_texts(line):
    with pytest.raises(ValueError):
        read_reply(line)


def test_every_line_that_the_examples_expect_is_read():
    count = 0
    for path in sorted((Path(__file__).resolve().parents[3] / "examples").glob("*.expected")):
        for line in path.read_text().splitlines()[1:]:
            assert str(read_reply(line)) == line
            count += 1
    assert count > 100


def test_a_settlement_tells_its_sum_with_a_list_and_without_one():
    assert read_reply("settle at 9, alice 67..67 paid 67, bob 3..4 paid 3").total == 70
    assert read_reply("settle at 902 users 300 paid 29860").total == 29860
    assert read_reply("paid bob 3..4 paid 3").payment.paid == 3


@pytest.mark.parametrize("text", ["settle at 9", "settle at 9, alice 67..67 paid 67", "settle at 902 users 300 paid 29860"])
def test_a_settlement_has_either_reply(text):
    assert commands.settle().read(text) == read_reply(text)
    with pytest.raises(UnknownLine):
        commands.paid("alice").read(text)


def test_what_a_user_is_paid_is_asked_by_name():
    assert commands.paid("alice").line == "paid alice"
    assert commands.paid("alice").read("paid alice 5..6 paid 5") == replies.Paid(replies.Payment("alice", 5, 6))
    assert commands.paid("alice").read("refused unsettled") == refusals.Unsettled()
    with pytest.raises(UnknownLine):
        commands.settle().read("paid alice 5..6 paid 5")


def test_prices_are_exact_decimals():
    price = read_reply("price 0.7272727272..0.7272727273")
    assert price.high - price.low == Decimal("0.0000000001")
    assert price.units == (7272727272, 7272727273)


def test_intervals_hold_their_ends():
    interval = Interval(62500, 812500)
    assert 62500 in interval and 812500 in interval and 62499 not in interval and 812501 not in interval
    assert interval.can_come and not Interval(0, 0).can_come


@pytest.mark.parametrize("text", ["storm=yes", "ferry=sails | storm=yes", "a=b | " + ", ".join(f"c{k}=d" for k in range(8))])
def test_questions_are_read_and_are_their_texts_again(text):
    assert str(Question.read(text)) == text


@pytest.mark.parametrize("text", ["", "storm", "storm=", "Storm=yes", "storm=yes |", "storm=yes|ferry=stays", "storm=yes | ", "a=b | c=d,e=f",
                                  "a=b | " + ", ".join(f"c{k}=d" for k in range(9))])
def test_other_texts_are_no_questions(text):
    with pytest.raises(ValueError):
        Question.read(text)


def test_questions_about_every_value():
    assert Distribution.read("ferry | storm=yes") == Distribution("ferry", (Pair("storm", "yes"),))
    assert str(Distribution.read("ferry")) == "ferry"
    with pytest.raises(ValueError):
        Distribution.read("ferry=sails")


@pytest.mark.parametrize("command, line", [
    (commands.add("umbrella", ["yes", "no"], ["rain"], [[900000, 100000], [200000, 800000]], ["rain", "umbrella"], 1),
     "add umbrella=yes,no | rain : 900000 100000, 200000 800000 in rain,umbrella to 1"),
    (commands.add("wind", ("a", "b", "c"), (), [(300000, 300000, 400000)], ("wind",), 2), "add wind=a,b,c : 300000 300000 400000 in wind to 2"),
    (commands.add("mood", ["a", "b"], ["season", "rain"], [[1, 999999]] * 4, ["mood", "rain", "season"], 1),
     "add mood=a,b | season,rain : 1 999999, 1 999999, 1 999999, 1 999999 in mood,rain,season to 1"),
])
def test_additions_are_their_lines(command, line):
    assert command.line == line
    assert command.read("add it at 1") == replies.Added("it", 1)
    assert command.read("refused link 9") == refusals.UnknownClique(9)
    with pytest.raises(UnknownLine):
        command.read("settle at 1")


@pytest.mark.parametrize("line, fault", [
    ("refused market long", FileFault("long", None, ())),
    ("refused market missing links 0", FileFault("missing", "links", (0,))),
    ("refused market count points_per_bit 0 -1", FileFault("count", "points_per_bit", (0, -1))),
    ("refused market sum 1 1 999999", FileFault("sum", None, (1, 1, 999999))),
])
def test_faults_of_files(line, fault):
    assert FileFault.read(line) == fault
    assert str(fault) == line
