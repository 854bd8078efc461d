"""Verdicts on driver sets, and what the program says of them and of their runs."""

from __future__ import annotations

import ctypes
import enum
import re
from typing import Iterator, NamedTuple, Optional, Union

from pafteis import _library
from pafteis.errors import Faulty, FaultyImage, FaultySchedule, FaultyText, Refused
from pafteis.replies import Reply, ReplyKind, within
from pafteis.schedules import schedule_size

Source = Union[str, bytes, bytearray, memoryview]
"""A driver text, or the bytes of a text or of an image."""


class Rule(enum.IntEnum):
    """The rules that a set may break. docs/RULES.md has each."""

    MALFORMED = 1
    UNREACHABLE = 2
    STATES_DIFFER = 3
    WRONG_KIND = 4
    DOUBLE_COMPLETION = 5
    MARK_IRP_PENDING = 6
    CANCEL_SPIN_LOCK = 7
    SPIN_LOCK = 8
    LOCK_HELD = 9
    LEVEL = 10
    GUARD = 11
    CANCEL_STATE = 12
    DROPPED = 13
    TOKEN = 14
    SORT = 15
    COMPLETION = 16
    STACK_TOO_SMALL = 17
    NO_LOWER = 18
    TOO_LONG = 19
    MEMORY = 20


class TextFault(enum.IntEnum):
    """The faults of a driver text."""

    LEX = 1
    UNKNOWN_WORD = 2
    DUPLICATE_NAME = 3
    UNKNOWN_NAME = 4
    OUT_OF_RANGE = 5
    UNCLOSED = 6
    OVER_LIMIT = 7


class ImageFault(enum.IntEnum):
    """The faults of an image."""

    MAGIC = 1
    TRUNCATED = 2
    TRAILING = 3
    BAD_OPCODE = 4
    OVER_LIMIT = 5


class Place(NamedTuple):
    """Where a rule is broken, each number from 0 in the order of the text."""

    driver: int
    routine: int
    position: int


class Verdict(NamedTuple):
    """A verdict: of an accepted set both are None. It is true where the set is accepted."""

    rule: Optional[Rule]
    place: Optional[Place]

    @property
    def accepted(self) -> bool:
        """Whether the set keeps all rules."""
        return self.rule is None

    def __bool__(self) -> bool:
        return self.accepted

    def __str__(self) -> str:
        if self.rule is None or self.place is None:
            return "accepted"
        name = self.rule.name.title().replace("_", "")
        driver, routine, position = self.place
        return f"refused V{int(self.rule)} {name} driver {driver} routine {routine} at {position}"


def as_bytes(source: Source) -> bytes:
    """The bytes that the library reads. A `str` is written in UTF-8."""
    return source.encode() if isinstance(source, str) else bytes(source)


def verdict_of(status: int, found: _library.CVerdict) -> Verdict:
    """What a call has told by its status and its struct; raises where there is no set."""
    _library.raise_for(status)
    if status == _library.DONE:
        return Verdict(None, None)
    if found.rule:
        return Verdict(Rule(found.rule), Place(found.driver, found.routine, found.position))
    if found.text_fault:
        raise FaultyText(TextFault(found.text_fault), found.line)
    raise FaultyImage(ImageFault(found.image_fault))


def check(source: Source) -> Verdict:
    """The verdict on a driver set.

    Raises `FaultyText` or `FaultyImage` where the bytes are none, `NoMemory`.
    """
    data, found = as_bytes(source), _library.CVerdict()
    status = _library.CALLS["check"](data, len(data), ctypes.byref(found))
    return verdict_of(status, found)


def text_of(name: str, *arguments: object) -> tuple[bool, str]:
    """Whether all went well, and the words of an answer; raises where the input is faulty."""
    status, answer = _library.told(name, *arguments)
    words = answer.decode("utf-8", "replace")
    if status == _library.FAULTY:
        raise Faulty(words.strip())
    return status == _library.DONE, words


def report(source: Source) -> str:
    """What `drvhost check` prints: the verdict, and a certificate for each routine.

    Raises `Faulty`, `NoMemory`.
    """
    data = as_bytes(source)
    return text_of("report", data, len(data))[1]


def explain(source: Source, each: bool = False) -> str:
    """What `drvhost explain` prints: the verdict and words on the first fault, or with `each` on
    the first fault of each routine.

    Raises `Faulty`, `NoMemory`.
    """
    data = as_bytes(source)
    return text_of("explain", data, len(data), int(each))[1]


def explain_rule(rule: int) -> str:
    """A rule in words, 1 to 20 or a `Rule`.

    Raises `WrongArgument`, `NoMemory`.
    """
    return text_of("explain_rule", within(rule, 32))[1]


def listing(source: Source) -> str:
    """A text that names the same set, whatever the bytes are.

    Raises `Faulty`, `NoMemory`.
    """
    data = as_bytes(source)
    return text_of("list", data, len(data))[1]


def rewrite(source: Source) -> bytes:
    """The image of the set, of edition 2.

    Raises `Faulty`, `NoMemory`.
    """
    data = as_bytes(source)
    status, answer = _library.told("rewrite", data, len(data))
    if status == _library.FAULTY:
        raise Faulty(answer.decode("utf-8", "replace").strip())
    return answer


class Trace(NamedTuple):
    """A run of a schedule: what `drvhost trace` prints, and whether it came to the end of the
    schedule."""

    text: str
    complete: bool

    def replies(self) -> Iterator[Reply]:
        """The replies to the events, without the last one where a bug check or a wrong operand
        stopped the run."""
        for line in self.text.splitlines():
            reply = _reply_of(line)
            if reply is not None:
                yield reply


_LINE = re.compile(r"\d+ (\w+)(?: (\d+))?(?: (0x[0-9A-F]{8}) (\d+))?$")
_KINDS = {kind.name.lower(): kind for kind in ReplyKind}


def _reply_of(line: str) -> Optional[Reply]:
    found = _LINE.match(line)
    kind = _KINDS.get(found[1]) if found else None
    if found is None or kind is None:
        return None
    status = int(found[3], 16) if found[3] else 0
    return Reply(kind, int(found[2] or 0), status, int(found[4] or 0))


class Detail(enum.IntEnum):
    """Of which events `tell` tells a line: of those about packets, locks, lists and levels; of
    those that do more than step; of each."""

    USUAL = 0
    QUIET = 2
    EVERY = 4


_UNCHECKED, _STRICT = 1, 8


def _run(name: str, source: Source, schedule: Source, flags: int) -> tuple[bool, str]:
    """What a call answers of a run. Raises `Refused` where the set is refused and may not be."""
    data, events = as_bytes(source), as_bytes(schedule)
    try:
        complete, text = text_of(name, data, len(data), events, len(events), flags)
    except Faulty as faulty:
        if str(faulty).startswith("schedule fault "):
            raise _schedule_fault(events, str(faulty)) from None
        raise
    if not complete and text.startswith("refused "):
        raise Refused(check(data))
    return complete, text


def _schedule_fault(schedule: bytes, told: str) -> Faulty:
    """The fault of a schedule, with the words that are told of it."""
    try:
        schedule_size(schedule)
    except FaultySchedule as found:
        return FaultySchedule(found.fault, found.line, told)
    return Faulty(told)


def trace(source: Source, schedule: Source, unchecked: bool = False) -> Trace:
    """A run of a schedule of events; of a refused set only with `unchecked`.

    Raises `Refused` where the set is refused and may not be, `Faulty` where the set is faulty,
    `FaultySchedule` where the schedule is, `NoMemory`.
    """
    complete, text = _run("trace", source, schedule, int(unchecked))
    return Trace(text, complete)


def tell(
    source: Source,
    schedule: Source,
    unchecked: bool = False,
    detail: Detail = Detail.USUAL,
    strict: bool = False,
) -> str:
    """A run of a schedule in words, with an audit of what it has left behind: what `drvhost tell`
    prints. Raises what `trace` raises."""
    flags = int(unchecked) * _UNCHECKED + int(detail) + int(strict) * _STRICT
    return _run("tell", source, schedule, flags)[1]


def draw(source: Source, schedule: Source, unchecked: bool = False) -> str:
    """A run of a schedule as a picture in SVG: what `drvhost draw` prints. Raises what `trace`
    raises."""
    return _run("draw", source, schedule, int(unchecked))[1]


def library_version() -> str:
    """The name and the version that the library tells."""
    return text_of("version")[1].strip()
