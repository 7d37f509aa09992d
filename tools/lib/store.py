"""The file of a store: the header of its market, and the records behind it."""
import re

WORD = b"DAGGRE01"
# The places of the market file's length and of its first byte, and the longest record.
LENGTH_AT, MARKET_AT, LONGEST = 9, 17, 34_000


def header_of(market):
    """What stands behind the first byte of a store of this market file, up to the gate of the first record."""
    return WORD + len(market).to_bytes(8, "big") + market


def is_new(market, front, size):
    """Whether a file has no header yet, by its first bytes, as many as a header with the two gates beside it has, and its size."""
    header = header_of(market)
    return size <= 1 or front[0] == 0 and size <= len(header) + 2 or front[0] != 1 and size == len(header) + 2 and front[1:-1] == header


def foreign_at(market, front, size):
    """The place from which on a file is not this market's, or None."""
    header = header_of(market)
    if is_new(market, front, size):
        return None
    if front[0] != 1:
        return 0
    for at, byte in enumerate(header, 1):
        if at >= size or front[at] != byte:
            return at
    return None if size > len(header) + 1 else len(header) + 1


def records_of(market, data):
    """The records of a market's store, and the number of a first one whose length is wrong, or None."""
    header = header_of(market)
    found, at = [], len(header) + 1
    if is_new(market, data[:len(header) + 2], len(data)):
        return found, None
    while data[at] == 1:
        length = int.from_bytes(data[at + 1:at + 5], "big")
        if not 1 <= length <= LONGEST or at + 5 + length >= len(data):
            return found, len(found) + 1
        found.append(data[at + 5:at + 5 + length])
        at += 5 + length
    return found, None


def shown(text):
    """Some of a text as a terminal can show it."""
    text = "".join(letter if letter.isprintable() and letter not in "`" else "?" for letter in text.decode("utf-8", "replace"))
    return text if len(text) <= 60 else text[:57] + "..."


def say_foreign(market, front, size, at):
    """Why a file is not this market's store from a place on."""
    if at == 0:
        if front[1:9] == WORD:
            return f"its opening was cut off, as byte 0 says, which is {front[0]}, and it is not this market's"
        return f"it is no store, or another program's: byte 0 is {front[0]}, where a store has 1"
    if at >= size:
        return f"it ends at byte {at:,}, before the first record"
    if at < LENGTH_AT:
        return f"it is no store: byte {at} is not that of {WORD.decode()}"
    if at < MARKET_AT:
        length = int.from_bytes(front[LENGTH_AT:MARKET_AT], "big")
        return f"it is that of a market file of {length:,} bytes, and this one has {len(market):,}; byte {at} tells"
    lines = market[:at - MARKET_AT].split(b"\n")
    return f"it is that of another market file, which differs from line {len(lines)}, column {len(lines[-1]) + 1} on; byte {at:,} tells"


def say_record(market, data, number):
    """Which record this market never wrote."""
    found, broken = records_of(market, data)
    if number == broken or not 1 <= number <= len(found):
        return "it is cut off, or its length is wrong"
    command, end, reply = found[number - 1].partition(b"\n")
    return f"`{shown(command)}` with the reply `{shown(reply)}`" if end else "it has no reply"


def explain(line, market, name):
    """The sentence on a store that was refused with this line, or None where the line is no such refusal or does not fit."""
    found = re.fullmatch(r"refused store (foreign|record) (0|[1-9][0-9]{0,18})", line)
    if found is None:
        return None
    number = int(found[2])
    with open(name, "rb") as file:
        size = file.seek(0, 2)
        file.seek(0)
        data = file.read(len(market) + 18 if found[1] == "foreign" else 1 << 26)
    if found[1] == "foreign":
        if foreign_at(market, data, size) != number:
            return None
        return f"the store {name} is not this market's, and is as it was: {say_foreign(market, data, size, number)}"
    if foreign_at(market, data[:len(market) + 18], size) is not None:
        return None
    return f"record {number:,} of the store {name} is none that this market wrote, and the store is as it was: {say_record(market, data, number)}"
