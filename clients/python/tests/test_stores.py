"""Markets that are kept: they go on from their store, also behind a kill, and say why a store is refused or cannot be opened."""
import asyncio
from decimal import Decimal

import pytest

import daggre
from daggre import AsyncMarket, Market, commands, refusals, replies


@pytest.fixture
def kept(built, example):
    """A program that knows stores."""
    with Market(example("coin"), timeout=20) as market:
        market.user("alice")
    return example("coin")


@pytest.fixture
def store(tmp_path):
    return tmp_path / "coin.store"


def test_a_market_goes_on(kept, store):
    with Market(kept, store=store, timeout=20) as market:
        assert market.ready == daggre.Ready(1, 100) and market.resumed == 0
        assert market.user("alice").at == 1
        assert market.deposit("alice", 1).at == 2
    assert market.status == 0
    with Market(kept, store=store, timeout=20) as market:
        assert market.resumed == 2
        assert market.limits("alice", "coin=heads") == replies.Limits(daggre.Interval(250000, 750000), 2)


def test_what_was_told_stands_behind_a_kill(kept, store):
    with Market(kept, store=store, timeout=20) as market:
        market.many([commands.user("alice"), *[commands.deposit("alice", 1)] * 50])
        assert market.kill() == -9
    with Market(kept, store=store, timeout=20) as market:
        assert market.resumed == 51
        assert market.worst("alice") == replies.Worst(5000, 5000)


def test_a_question_that_was_added_is_there_again(kept, store):
    with Market(kept, store=store, timeout=20) as market:
        added = market.many([commands.add("bet", ["yes", "no"], ["coin"], [[900000, 100000], [200000, 800000]], ["bet", "coin"], 1)])
    if added == [refusals.Syntax()]:
        pytest.skip("this program has no command add")
    assert added == [replies.Added("bet", 1)]
    with Market(kept, store=store, timeout=20) as market:
        assert (market.ready.variables, market.resumed, market.read_status().questions) == (1, 1, 2)
        assert market.price("bet=yes") == replies.Price(Decimal("0.55"), Decimal("0.55"))


def test_a_market_without_a_store_has_none(kept):
    with Market(kept, timeout=20) as market:
        assert market.resumed is None


def test_a_store_of_another_market(kept, store, example):
    with Market(kept, store=store, timeout=20):
        pass
    with pytest.raises(daggre.StoreRefused) as raised:
        Market(example("die"), store=store, timeout=20)
    assert (raised.value.kind, raised.value.number) == ("foreign", 16) and str(raised.value) == "refused store foreign 16"


def test_a_record_that_was_changed(kept, store):
    with Market(kept, store=store, timeout=20) as market:
        market.user("alice")
    store.write_bytes(store.read_bytes().replace(b"alice at 1", b"alice at 2"))
    with pytest.raises(daggre.StoreRefused) as raised:
        Market(kept, store=store, timeout=20)
    assert (raised.value.kind, raised.value.number) == ("record", 1)


def test_a_refused_file_opens_no_store(kept, store, tmp_path):
    wrong = tmp_path / "wrong.toml"
    wrong.write_text(kept.read_text().replace("500000]]", "499999]]"))
    with pytest.raises(daggre.FileRefused):
        Market(wrong, store=store, timeout=20)
    assert not store.exists()


def test_a_store_has_one_process(kept, store):
    with Market(kept, store=store, timeout=20) as market:
        with pytest.raises(daggre.Ended) as raised:
            Market(kept, store=store, timeout=20)
        assert raised.value.status == 7 and raised.value.replies == ()
        assert market.user("alice").at == 1
    with pytest.raises(daggre.Ended) as raised:
        Market(kept, store=store.parent, timeout=20)
    assert raised.value.status == 7


def test_asyncio_keeps_too(kept, store, example):
    async def go():
        async with AsyncMarket(kept, store=store) as market:
            assert market.resumed == 0
            await asyncio.gather(market.user("alice"), market.deposit("alice", 1))
            with pytest.raises(daggre.Ended) as raised:
                async with AsyncMarket(kept, store=store):
                    pass
            assert raised.value.status == 7
        async with AsyncMarket(kept, store=store) as market:
            assert market.resumed == 2
        async with AsyncMarket(kept) as market:
            assert market.resumed is None
        with pytest.raises(daggre.StoreRefused):
            async with AsyncMarket(example("die"), store=store):
                pass

    asyncio.run(asyncio.wait_for(go(), 60))


def test_another_program_says_something_else(scripted, kept, store):
    with pytest.raises(daggre.UnknownLine):
        Market(kept, store=store, program=scripted("print('ready 1 100\\nresumed', flush=True)\nsys.stdin.read()"), timeout=20)
    with pytest.raises(daggre.Ended):
        Market(kept, store=store, program=scripted("print('ready 1 100', flush=True)\nsys.exit(7)"), timeout=20)
