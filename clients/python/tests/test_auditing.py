"""Audits of transcripts: each verdict, its line, and ends."""
import subprocess

import pytest

import daggre
from daggre import Finding, Verdict

TRADE = ["user alice", "deposit alice 1", "", "edit alice coin=heads to 600000"]
RIGHT = ["ready 1 100", "user alice at 1", "deposit alice 1 at 2", "trade 1319413953331 879609302220 at 3"]


@pytest.fixture
def known(built, example):
    """Skips where the program does not know the form yet."""
    try:
        daggre.audit(example("coin"), ["ready 1 100"], timeout=20)
    except daggre.Ended as ended:
        assert ended.status == 1
        pytest.skip("this program has no word audit")
    return example


@pytest.mark.parametrize("transcript, verdict", [
    (RIGHT, Verdict(Finding.YES, 4)),
    ("".join(f"{line}\n" for line in RIGHT).encode(), Verdict(Finding.YES, 4)),
    ("\n".join(RIGHT).encode(), Verdict(Finding.NO, 4)),
    (RIGHT[:3], Verdict(Finding.NO, 4)),
    ([*RIGHT, "none"], Verdict(Finding.NO, 5)),
    ([*RIGHT[:3], RIGHT[3].replace("53331", "53330")], Verdict(Finding.NO, 4)),
    (["ready 1 10", *RIGHT[1:]], Verdict(Finding.NO, 1)),
    (b"", Verdict(Finding.NO, 1)),
])
def test_each_transcript_has_its_verdict(known, transcript, verdict):
    found = daggre.audit(known("coin"), transcript, TRADE)
    assert found == verdict
    assert bool(found) == (verdict.finding is Finding.YES)


def test_a_transcript_may_be_too_long(known):
    assert daggre.audit(known("coin"), b"\xff" * 67_108_865, TRADE) == Verdict(Finding.LONG, None)


@pytest.mark.parametrize("name", ["ferry", "chain", "clinic", "burglary", "cup", "election", "weather", "die", "coin"])
def test_what_a_run_writes_is_allowed(known, built, name):
    file = known(name)
    commands = file.with_suffix(".commands").read_bytes()
    written = subprocess.run([built, "run", file], input=commands, stdout=subprocess.PIPE, check=True).stdout
    lines = commands.decode().splitlines()
    assert daggre.audit(file, written, lines) == Verdict(Finding.YES, written.count(b"\n"))


def test_a_refused_file_has_its_fault(known, tmp_path):
    file = tmp_path / "market.toml"
    file.write_text(known("coin").read_text().replace("500000]]", "499999]]"))
    with pytest.raises(daggre.FileRefused):
        daggre.audit(file, RIGHT)
    with pytest.raises(daggre.Ended) as ended:
        daggre.audit(tmp_path / "nowhere.toml", RIGHT)
    assert ended.value.status == 3


@pytest.mark.parametrize("text", ["audit yes 5", "audit no 1", "audit unsure 1000001", "audit long"])
def test_a_verdict_is_its_line(text):
    assert str(Verdict.read(text)) == text


@pytest.mark.parametrize("text", ["audit", "audit yes", "audit yes 0", "audit no 01", "audit maybe 1", "audit long 1", " audit yes 1", "audit yes 1\n"])
def test_other_lines_are_none(text):
    assert Verdict.read(text) is None
