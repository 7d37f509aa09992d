"""Whether a market allows the replies that somebody has to some lines."""
from __future__ import annotations

import os
import re
import tempfile
from collections.abc import Iterable
from dataclasses import dataclass
from enum import Enum

from .asking import _last_line, _strange

_VERDICT = re.compile("audit (?:(yes|no|unsure) ([1-9][0-9]{0,18})|(long))")


class Finding(Enum):
    """What an audit found."""

    YES = "yes"
    NO = "no"
    UNSURE = "unsure"
    LONG = "long"


@dataclass(frozen=True, slots=True)
class Verdict:
    """The whole transcript is allowed (YES, and it has `line` lines), or its line of this number is not (NO) or could not be decided (UNSURE).

    Lines count from 1, the ready line among them. A transcript that is too long (LONG) has no line to tell of.
    """

    finding: Finding
    line: int | None

    @classmethod
    def read(cls, text: str) -> Verdict | None:
        """The verdict that has this line, or None where it is none."""
        found = _VERDICT.fullmatch(text)
        if found is None:
            return None
        return cls(Finding(found[1]), int(found[2])) if found[1] else cls(Finding.LONG, None)

    def __bool__(self) -> bool:
        return self.finding is Finding.YES

    def __str__(self) -> str:
        return f"audit {self.finding.value}" + ("" if self.line is None else f" {self.line}")


def audit(file: str | os.PathLike[str], transcript: bytes | Iterable[str], lines: Iterable[str] = (), *, program: str | os.PathLike[str] | None = None,
          timeout: float | None = None) -> Verdict:
    """Whether the market of a file allows a transcript as the answer to these lines: its bytes, or its lines from the ready line on."""
    told = transcript if isinstance(transcript, bytes) else "".join(f"{line}\n" for line in transcript).encode("utf-8", "surrogateescape")
    with tempfile.NamedTemporaryFile(prefix="daggre-transcript-") as kept:
        kept.write(told)
        kept.flush()
        words = ["audit", os.fspath(file), kept.name]
        line = _last_line(words, lines, program, timeout)
    found = Verdict.read(line)
    if found is None:
        raise _strange(words, line)
    return found
