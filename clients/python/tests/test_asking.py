"""What a market comes to behind kept lines: each form, its refusals, and ends."""
from decimal import Decimal

import pytest

import daggre
from daggre import Best, Chance, Contradiction, Expectation, Pair, refusals

TRADE = ["user alice", "deposit alice 1", "edit alice coin=heads to 600000"]


@pytest.fixture
def known(built, example):
    """Skips where the program does not know the forms yet."""
    try:
        daggre.chance(example("coin"), ["coin=heads"], timeout=20)
    except daggre.Ended as ended:
        assert ended.status == 1
        pytest.skip("this program has no word chance")
    return example


def test_each_form_has_its_answer(known):
    assert daggre.chance(known("ferry"), ["concert=held"], ["storm=yes"]) == Chance(Decimal("0.48"), Decimal("0.48"))
    assert daggre.chance(known("ferry"), [Pair("storm", "yes"), "concert=held"]) == Chance(Decimal("0.12"), Decimal("0.12"))
    outcome = tuple(map(Pair.read, ("storm=no", "ferry=sails", "concert=moved")))
    assert daggre.best(known("ferry"), ["concert=moved"]) == Best(Decimal("0.4354838709"), Decimal("0.4354838710"), Decimal("0.4354838710"), outcome)
    assert daggre.expect(known("coin"), "alice", TRADE) == Expectation(102, 103)
    assert daggre.best(known("coin"), lines=["", *TRADE, "resolve coin=tails"]).outcome == (Pair("coin", "tails"),)


@pytest.mark.parametrize("ask, cause", [
    (lambda file: daggre.chance(file, ["coin=edge"]), refusals.UnknownName(Pair("coin", "edge"))),
    (lambda file: daggre.best(file, ["dice=six"]), refusals.UnknownName(Pair("dice", "six"))),
    (lambda file: daggre.chance(file, ["coin=heads"], ["coin=heads", "coin=tails"]), Contradiction()),
    (lambda file: daggre.best(file, ["coin=heads"], ["resolve coin=tails"]), Contradiction()),
    (lambda file: daggre.expect(file, "bob", TRADE), refusals.UnknownUser("bob")),
])
def test_a_refusal_has_its_cause(known, ask, cause):
    with pytest.raises(daggre.Refused) as refused:
        ask(known("coin"))
    assert refused.value.cause == cause


def test_a_refused_file_has_its_fault(known, tmp_path):
    file = tmp_path / "market.toml"
    file.write_text(known("coin").read_text().replace("500000]]", "499999]]"))
    with pytest.raises(daggre.FileRefused) as refused:
        daggre.best(file)
    assert str(refused.value.fault) == "refused market sum 1 1 999999"
    with pytest.raises(daggre.Ended) as ended:
        daggre.best(tmp_path / "nowhere.toml")
    assert ended.value.status == 3


@pytest.mark.parametrize("ask", [
    lambda: daggre.chance("coin.toml", []),
    lambda: daggre.chance("coin.toml", ["coin"]),
    lambda: daggre.chance("coin.toml", ["coin=heads"] * 65),
    lambda: daggre.chance("coin.toml", ["coin=heads"], ["coin=heads"] * 65),
    lambda: daggre.best("coin.toml", ["coin=heads "]),
    lambda: daggre.expect("coin.toml", "Alice"),
])
def test_other_words_are_not_sent(ask):
    with pytest.raises(ValueError):
        ask()


@pytest.mark.parametrize("line", ["chance 0.5..0.6", "price 0.5000000000..0.5000000000", "expect 01..2", "expect -0..1", "best 0.5000000000..0.5000000000 at most 0.5000000000"])
def test_a_line_of_another_kind_is_none(line):
    assert Chance.read(line) is Best.read(line) is Expectation.read(line) is None


@pytest.mark.parametrize("line, kind", [
    ("chance 0.1249999999..0.1250000001", Chance),
    ("best 0.9999999999..1.0000000000 at most 1.0000000003 coin=heads rain=no", Best),
    ("expect -1..2", Expectation),
    ("expect 0..0", Expectation),
])
def test_the_text_of_an_answer_is_its_line(line, kind):
    assert str(kind.read(line)) == line


def test_another_program_is_told(scripted):
    with pytest.raises(daggre.UnknownLine):
        daggre.chance("coin.toml", ["coin=heads"], program=scripted("print('ready 1 100\\nchance of rain')"))
    with pytest.raises(daggre.Silent):
        daggre.best("coin.toml", program=scripted("time.sleep(60)"), timeout=0.3)
