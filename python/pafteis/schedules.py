"""Texts of schedules: how large they are, and what is wrong with them."""

from __future__ import annotations

import ctypes
import enum
from typing import NamedTuple, Union

from pafteis import _library
from pafteis.errors import FaultySchedule


class ScheduleFault(enum.IntEnum):
    """The faults of a schedule."""

    LEX = 1
    UNKNOWN_WORD = 2
    OUT_OF_RANGE = 3
    TOO_LONG = 4


class ScheduleSize(NamedTuple):
    """How many threads a schedule has, and how many events."""

    threads: int
    events: int


def schedule_size(schedule: Union[str, bytes, bytearray, memoryview]) -> ScheduleSize:
    """How large a schedule is. Raises `FaultySchedule` with its first fault, `NoMemory`."""
    data = schedule.encode() if isinstance(schedule, str) else bytes(schedule)
    size, fault = _library.CScheduleSize(), _library.CScheduleFault()
    told = (ctypes.byref(size), ctypes.byref(fault))
    status = _library.CALLS["schedule"](data, len(data), *told)
    if status == _library.FAULTY:
        raise FaultySchedule(ScheduleFault(fault.kind), fault.line)
    _library.raise_for(status)
    return ScheduleSize(size.threads, size.events)
