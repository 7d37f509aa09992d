"""Programs that do what a market never does: the client says so in one sentence and does not hang."""
import asyncio
import time

import pytest

import daggre
from daggre import AsyncMarket, Market, commands

READY = "print('ready 1 100', flush=True)\n"


def test_no_such_program(tmp_path, example):
    with pytest.raises(daggre.ProgramMissing) as raised:
        Market(example("coin"), program=tmp_path / "nothing")
    assert "no such program" in str(raised.value)


def test_a_file_that_cannot_be_started(tmp_path, example):
    path = tmp_path / "text"
    path.write_text("no program")
    path.chmod(0o755)
    with pytest.raises(daggre.ProgramMissing):
        Market(example("coin"), program=path)


def test_the_replies_before_the_end_are_kept(scripted, example):
    body = READY + "for k in range(3):\n    sys.stdin.readline(); print('worst', f'{k}..{k}', flush=True)\nsys.exit(5)"
    with Market(example("coin"), program=scripted(body)) as market:
        with pytest.raises(daggre.Ended) as raised:
            market.many([commands.worst("alice")] * 100000)
        assert raised.value.status == 5 and raised.value.replies == ("worst 0..0", "worst 1..1", "worst 2..2")
        assert "memory" in str(raised.value)
    assert market.status == 5


def test_silence_ends_the_market(scripted, example):
    begun = time.monotonic()
    with Market(example("coin"), program=scripted(READY + "time.sleep(60)"), timeout=0.3) as market:
        with pytest.raises(daggre.Silent):
            market.worst("alice")
    assert time.monotonic() - begun < 10 and market.status == -9


@pytest.mark.parametrize("line", ["hello", "worst 1", "user alice at 1", "refused tea"])
def test_a_line_that_is_no_reply(scripted, example, line):
    body = READY + f"while sys.stdin.readline():\n    print({line!r}, flush=True)"
    with Market(example("coin"), program=scripted(body)) as market:
        with pytest.raises(daggre.UnknownLine) as raised:
            market.worst("alice")
        assert raised.value.reply == line


@pytest.mark.parametrize("pause", [0, 0.2])
def test_two_replies_for_one_line(scripted, example, pause):
    body = READY + f"while sys.stdin.readline():\n    for _ in range(2):\n        print('worst 1..1', flush=True); time.sleep({pause})"
    with Market(example("coin"), program=scripted(body)) as market:
        with pytest.raises(daggre.UnknownLine):
            market.worst("alice")
            time.sleep(3 * pause + 0.2)
            market.worst("alice")
        with pytest.raises(daggre.Ended):
            market.worst("alice")


def test_another_greeting(scripted, example):
    with pytest.raises(daggre.UnknownLine):
        Market(example("coin"), program=scripted("print('hello', flush=True)"))


def test_asyncio_sees_the_end(scripted, example):
    async def ask():
        async with AsyncMarket(example("coin"), program=scripted(READY + "sys.stdin.readline(); sys.exit(4)")) as market:
            found = await asyncio.gather(*(market.worst("alice") for _ in range(20)), return_exceptions=True)
            with pytest.raises(daggre.Ended):
                await market.worst("alice")
        return found, market.status

    found, status = asyncio.run(asyncio.wait_for(ask(), 20))
    assert status == 4 and all(isinstance(one, daggre.Ended) and one.status == 4 for one in found)
