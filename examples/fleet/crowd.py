"""Users who are made up: they send commands through two gateways, some twice and at once through both, and again where no reply came."""
import queue
import random
import threading
import time
import tomllib

ACCOUNTS = 3
TWICE = 0.05
SECONDS_UNTIL_AGAIN = 2.0


class Users:
    """The users of one market and what they may ask there."""

    def __init__(self, text, dice):
        market = tomllib.loads(text)
        self.values = {variable["name"]: variable["values"] for variable in market["variable"]}
        self.cliques = market["cliques"]
        self.dice = dice
        self.accounts = [f"u{k}" for k in range(ACCOUNTS)]
        self.first = [(account, line) for account in self.accounts for line in (f"user {account}", f"deposit {account} 5")]

    def question(self):
        clique = self.dice.choice(self.cliques)
        names = self.dice.sample(clique, min(len(clique), self.dice.choice((1, 1, 2))))
        pairs = [f"{name}={self.dice.choice(self.values[name])}" for name in names]
        return pairs[0] + (" | " + ", ".join(pairs[1:]) if pairs[1:] else "")

    def command(self):
        """The account of the next command, and its line."""
        if self.first:
            return self.first.pop(0)
        account, kind = self.dice.choice(self.accounts), self.dice.random()
        if kind < 0.45:
            return account, f"edit {account} {self.question()} to {self.dice.randrange(250000, 750001)}"
        if kind < 0.75:
            return account, f"price {self.question()}"
        if kind < 0.9:
            return account, f"limits {account} {self.question()}"
        return account, f"worst {account}"


class Crowd(threading.Thread):
    """Sends `rate` commands a second over all markets for so many seconds, at most `window` of each market on their way; then waits for all replies,
    at most `patience` seconds more. `got`: the place, line and reply for each market, account and number."""

    def __init__(self, gateways, files, rate, seconds, window=4, patience=40, seed=1):
        super().__init__(daemon=True)
        self.gateways = gateways
        self.dice = random.Random(seed)
        self.users = {name: Users(text, self.dice) for name, text in files.items()}
        self.rate, self.seconds, self.window, self.patience = rate, seconds, window, patience
        self.numbers = {}
        self.waiting = {name: {} for name in files}      # account and number: line, when it was first sent, when last
        self.got = {}
        self.times = []                                  # when a reply came, and how long it was waited for
        self.sent = self.sent_twice = self.sent_again = self.contradicted = 0
        self.held_back = []
        self.came = queue.SimpleQueue()

    def _send(self, gateway, market, account, number, line):
        try:
            gateway.stdin.write(f"{market} {account} {number} {line}\n")
        except (BrokenPipeError, ValueError):
            pass  # its trial ends with lines unanswered, and says so

    def _send_new(self, market, now):
        account, line = self.users[market].command()
        number = self.numbers[market, account] = self.numbers.get((market, account), 0) + 1
        self.waiting[market][account, number] = [line, now, now]
        first, second = self.dice.sample(self.gateways, 2)
        self._send(first, market, account, number, line)
        self.sent += 1
        if self.dice.random() < TWICE:
            self._send(second, market, account, number, line)
            self.sent_twice += 1

    def _take(self, text, now):
        market, account, number, place, reply = text.rstrip("\n").split(" ", 4)
        if place == "-":
            self.held_back.append(text)
            return
        key = (market, account, int(number))
        waited = self.waiting[market].pop(key[1:], None)
        if waited is None:
            self.contradicted += key not in self.got or self.got[key][0] != int(place) or self.got[key][2] != reply
            return
        self.got[key] = (int(place), waited[0], reply)
        self.times.append((time.time(), now - waited[1]))

    def _send_again(self, now):
        for market, items in self.waiting.items():
            for (account, number), item in items.items():
                if now - item[2] > SECONDS_UNTIL_AGAIN:
                    item[2] = now
                    self._send(self.dice.choice(self.gateways), market, account, number, item[0])
                    self.sent_again += 1

    def run(self):
        for gateway in self.gateways:
            threading.Thread(target=lambda source: [self.came.put(line) for line in source], args=(gateway.stdout,), daemon=True).start()
        begun = checked = time.monotonic()
        markets, turn = list(self.users), 0
        while (now := time.monotonic()) < begun + self.seconds + self.patience:
            is_sending = now < begun + self.seconds
            for _ in range(len(markets) if is_sending else 0):
                if self.sent >= self.rate * (now - begun):
                    break
                market = markets[turn % len(markets)]
                turn += 1
                if len(self.waiting[market]) < self.window:
                    self._send_new(market, now)
            if now > checked + 0.5:
                checked = now
                self._send_again(now)
            try:
                self._take(self.came.get(timeout=0.005), now)
                while True:
                    self._take(self.came.get_nowait(), now)
            except queue.Empty:
                pass
            if not is_sending and not any(self.waiting.values()):
                break

    @property
    def unanswered(self):
        return sum(map(len, self.waiting.values()))
