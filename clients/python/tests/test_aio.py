"""The market for asyncio."""
import asyncio
from decimal import Decimal

import pytest

import daggre
from daggre import AsyncMarket, commands, refusals, replies

pytestmark = pytest.mark.usefixtures("built")


def run(work):
    return asyncio.run(asyncio.wait_for(work, 30))


def test_every_command_has_a_method(example):
    async def work():
        async with AsyncMarket(example("ferry")) as market:
            assert market.ready == daggre.Ready(3, 100)
            assert await market.user("alice") == replies.Joined("alice", 1)
            assert await market.deposit("alice", 2) == replies.Deposited("alice", 2, 2)
            assert (await market.price("storm=yes")).low == Decimal("0.25")
            assert (await market.limits("alice", "storm=yes")).interval == daggre.Interval(62500, 812500)
            assert (await market.edit("alice", "storm=yes", 500000, at=2)).hit == 2 * daggre.RATIO_UNIT
            assert await market.worst("alice") == replies.Worst(141, 141)
            assert len((await market.prices("storm | ferry=sails")).intervals) == 2
            assert (await market.position("alice", "storm")).intervals == (daggre.Points(300, 300), daggre.Points(141, 141))
            assert (await market.read_status()).most_transfers == 65536
            assert (await market.bounds("alice", "concert")).at == 3
            assert (await market.spread("alice", "concert", [600000, 400000])).at == 4
            assert (await market.withdraw("alice", 1)).at == 5
            for pair in ("storm=yes", "ferry=stays", "concert=moved"):
                await market.resolve(pair)
            settled = await market.settle()
            assert settled.at == 9
            assert (await market.paid("alice")).payment == settled.payments[0]
            with pytest.raises(daggre.Refused) as raised:
                await market.price("storm=yes")
            assert raised.value.cause == refusals.Settled()
        return market.status

    assert run(work()) == 0


def test_a_question_that_is_added(example):
    async def work():
        async with AsyncMarket(example("weather")) as market:
            try:
                added = await market.add("umbrella", ["yes", "no"], ["rain"], [[900000, 100000], [200000, 800000]], ["rain", "umbrella"], 1)
            except daggre.Refused as refused:
                return refused.cause, None
            return added, await market.price("umbrella=yes")

    added, price = run(work())
    if added == refusals.Syntax():
        pytest.skip("this program has no command add")
    assert added == replies.Added("umbrella", 1)
    assert price == replies.Price(Decimal("0.438"), Decimal("0.438"))


def test_many_tasks_get_their_own_replies(example):
    async def one(market, name):
        joined = await market.user(name)
        worst = [await market.worst(name) for _ in range(20)]
        return joined.user, worst

    async def work():
        async with AsyncMarket(example("coin")) as market:
            return await asyncio.gather(*(one(market, f"u{k}") for k in range(50)))

    for k, (name, worst) in enumerate(run(work())):
        assert name == f"u{k}" and worst == [replies.Worst(0, 0)] * 20


def test_batches_beyond_what_pipes_hold(example):
    async def work():
        async with AsyncMarket(example("coin")) as market:
            return await asyncio.gather(market.many([commands.price("coin=heads")] * 6000), market.many([commands.price("coin=edge")] * 6000))

    prices, refused = run(work())
    assert prices == [replies.Price(Decimal("0.5"), Decimal("0.5"))] * 6000
    assert refused == [refusals.UnknownName(daggre.Pair("coin", "edge"))] * 6000


def test_who_gives_up_takes_nobody_elses_reply(example):
    async def work():
        async with AsyncMarket(example("coin")) as market:
            await market.user("alice")
            late = asyncio.create_task(market.many([commands.worst("alice")] * 5000))
            await asyncio.sleep(0)
            late.cancel()
            return await market.price("coin=heads")

    assert run(work()) == replies.Price(Decimal("0.5"), Decimal("0.5"))


def test_a_refused_file(tmp_path):
    path = tmp_path / "bad.toml"
    path.write_text("points_per_bit = 0\n")

    async def work():
        async with AsyncMarket(path):
            pass

    with pytest.raises(daggre.FileRefused):
        run(work())
