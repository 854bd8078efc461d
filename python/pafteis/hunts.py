"""Hunts for runs that end amiss, and mends of texts."""

from __future__ import annotations

import ctypes
from typing import NamedTuple, Optional

from pafteis import _library
from pafteis.replies import within
from pafteis.verdicts import Source, as_bytes, text_of

_STUCK, _BOUNDED, _FURTHER = 1, 2, 4


class Hunt(NamedTuple):
    """What came of a hunt: whether a run was found that ends amiss, and a schedule of it whose
    first line tells how; else the line that none is within reach."""

    found: bool
    text: str


def hunt(
    source: Source,
    threads: int = 2,
    packets: int = 2,
    worlds: int = 1_000_000,
    events: Optional[int] = None,
    argument: Optional[int] = None,
    stuck: bool = False,
) -> Hunt:
    """A shortest run of a set, accepted or refused, that ends amiss: on 1 to 64 threads, with 1 to
    4,096 packets at once, over up to 1,000,000,000 worlds, of so many events where they are given,
    with one more argument of requests; with `stuck` one from whose end nothing comes to rest too.

    Raises `Faulty`, `WrongArgument`, `NoMemory`. It may take long.
    """
    flags = _STUCK * stuck + _BOUNDED * (events is not None) + _FURTHER * (argument is not None)
    wide = [within(it or 0, 64) for it in (packets, worlds, events, argument)]
    asked = _library.CHunting(*wide, within(threads, 32), flags)
    data = as_bytes(source)
    none, text = text_of("hunt", data, len(data), ctypes.byref(asked))
    return Hunt(not none, text)


class Mend(NamedTuple):
    """Mends of a text, each a diff with a sentence for each change; whether one makes the whole an
    accepted set, or it is one already."""

    whole: bool
    text: str


def mend(source: Source, tries: int = 20_000) -> Mend:
    """Looks for mends of a refused text, or of an image's listing, so often for each faulty
    routine, 1 to 1,000,000 times.

    Raises `Faulty`, `WrongArgument`, `NoMemory`.
    """
    data = as_bytes(source)
    return Mend(*text_of("mend", data, len(data), within(tries, 64)))
