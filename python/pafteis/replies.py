"""What worlds and runs reply, and the numbers that events have."""

from __future__ import annotations

import enum
import operator
from typing import NamedTuple

from pafteis.errors import WrongArgument


class ReplyKind(enum.IntEnum):
    """Kinds of replies. `REFUSED` is an event that can't be: nothing changed."""

    STARTED = 1
    STEPPED = 2
    FINISHED = 3
    TOPPED = 4
    WAITED = 5
    IDLE = 6
    REFUSED = 7


class Major(enum.IntEnum):
    """Major functions of requests."""

    READ = 3
    WRITE = 4
    CONTROL = 14


class Irql(enum.IntEnum):
    """Levels of threads, and of callers of IoCancelIrp."""

    PASSIVE = 0
    APC = 1
    DISPATCH = 2


class Status(enum.IntEnum):
    """The statuses that a packet may be completed with."""

    SUCCESS = 0x00000000
    PENDING = 0x00000103
    BUSY = 0x80000011
    UNSUCCESSFUL = 0xC0000001
    INVALID_PARAMETER = 0xC000000D
    INVALID_DEVICE_REQUEST = 0xC0000010
    CANCELLED = 0xC0000120


class Reply(NamedTuple):
    """A reply. `packet` is told by `STARTED` and `TOPPED`; `status` (an NTSTATUS) and `info`
    (IoStatus.Information) by `TOPPED`; they are 0 elsewhere."""

    kind: ReplyKind
    packet: int
    status: int
    info: int

    def __str__(self) -> str:
        word = self.kind.name.lower()
        if self.kind is ReplyKind.STARTED:
            return f"{word} {self.packet}"
        if self.kind is ReplyKind.TOPPED:
            return f"{word} {self.packet} 0x{self.status:08X} {self.info}"
        return word


def within(number: int, bits: int) -> int:
    """A number as the library takes it; raises `WrongArgument` where it has too many bits, and
    `TypeError` where it is none."""
    found = operator.index(number)
    if not 0 <= found < 1 << bits:
        raise WrongArgument(f"{found} isn't a number of {bits} bits")
    return found
