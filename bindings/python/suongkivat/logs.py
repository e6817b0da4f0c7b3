"""A log's samples, 4 bytes each."""
from __future__ import annotations

from typing import Iterator, NamedTuple, Optional

from . import raw
from .lent import Bytes, bytes_lent, bytes_of
from .library import ask
from .units import Count


class Sample(NamedTuple):
    """A record of a log; last is unit × 4 + attenuation."""

    raw: Count
    board: int
    last: int


def next_sample(log: Bytes) -> Optional[Sample]:
    """What a log begins with: a sample, or None at its end. Refusal 16."""
    found = ask("skv_next_sample", *bytes_lent(log))
    return Sample(Count(found.sample.raw.raw), found.sample.board, found.sample.last) if found.whole else None


def samples(log: Bytes) -> Iterator[Sample]:
    """A log's samples, one after the other. Where it ends inside one, Refused is raised (16) after those before it."""
    held = bytes_of(log)
    at = 0
    while (sample := next_sample(held[at : at + raw.SAMPLE_BYTES])) is not None:
        yield sample
        at += raw.SAMPLE_BYTES
