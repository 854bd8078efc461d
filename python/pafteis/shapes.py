"""What an accepted driver set has: its devices, and the routines of its drivers."""

from __future__ import annotations

import ctypes
import enum
from typing import Any, NamedTuple, Optional

from pafteis import _library
from pafteis.errors import Refused
from pafteis.verdicts import Source, as_bytes, verdict_of

_NONE = 255
_WRONG_ARGUMENT = 4


class Sort(enum.IntEnum):
    """Sorts of routines."""

    DISPATCH = 1
    STARTIO = 2
    DPC = 3
    PROPAGATE = 4
    HOLD = 5
    CANCEL = 6


class Device(NamedTuple):
    """A device: its driver, how many stack locations a packet needs that is sent to it, the device
    under it, and by number the routines of its driver that serve it. A major function without a
    routine has None: the driver's default one answers it."""

    driver: int
    stack: int
    lower: Optional[int]
    read: Optional[int]
    write: Optional[int]
    control: Optional[int]
    startio: Optional[int]
    dpc: Optional[int]


class Routine(NamedTuple):
    """A routine: its sort, how many instructions it has, and how many an activation of it executes
    at most."""

    sort: Sort
    instructions: int
    certificate: int


class Shape(NamedTuple):
    """What a set has: its devices by number, and of each driver the routines by number."""

    devices: tuple[Device, ...]
    drivers: tuple[tuple[Routine, ...], ...]


def describe(source: Source) -> Shape:
    """What an accepted set has. Raises `Refused` with the verdict, `FaultyText` or `FaultyImage`,
    `NoMemory`."""
    data = as_bytes(source)
    found = _library.CSet()
    _ask("shape", data, found)
    devices = tuple(_device(data, number) for number in range(found.devices))
    return Shape(devices, tuple(_routines(data, driver) for driver in range(found.drivers)))


def _ask(name: str, data: bytes, found: ctypes.Structure, *numbers: int) -> bool:
    """Whether there is such a thing, of which is told then."""
    refusal = _library.CVerdict()
    words = (data, len(data), *numbers, ctypes.byref(found), ctypes.byref(refusal))
    status = _library.CALLS[name](*words)
    if status == _WRONG_ARGUMENT:
        return False
    verdict = verdict_of(status, refusal)
    if not verdict:
        raise Refused(verdict)
    return True


def _device(data: bytes, number: int) -> Device:
    found: Any = _library.CDeviceShape()
    _ask("device", data, found, number)
    served = (found.lower, found.read, found.write, found.control, found.startio, found.dpc)
    return Device(found.driver, found.stack, *(None if it == _NONE else it for it in served))


def _routines(data: bytes, driver: int) -> tuple[Routine, ...]:
    found: Any = _library.CRoutineShape()
    routines: list[Routine] = []
    while _ask("routine", data, found, driver, len(routines)):
        routines.append(Routine(Sort(found.sort), found.instructions, found.certificate))
    return tuple(routines)
