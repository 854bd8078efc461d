"""The order in which the routines of a driver take its locks, or a cycle of them."""

from __future__ import annotations

import ctypes
from typing import NamedTuple

from pafteis import _library
from pafteis.errors import Refused
from pafteis.replies import within
from pafteis.verdicts import Source, as_bytes, verdict_of

CANCEL_LOCK = 8
"""The number of the system cancel spin lock. 0 to 7 are the spin locks l0 to l7, of which each
device has its own."""

_CYCLE = 2


class LockEdge(NamedTuple):
    """A routine acquires a lock while it holds another: the two locks, the routine of the driver,
    and the position of the instruction, each by its number."""

    held: int
    taken: int
    routine: int
    position: int


class LockOrder(NamedTuple):
    """The nine locks of a driver in an order, or the edges of a cycle: one of the two is empty. It
    is true where there is an order: no routine acquires a lock while it holds that or a later one.
    Each edge of a cycle acquires the lock that is held at the next, and the last the one that is
    held at the first."""

    locks: tuple[int, ...]
    cycle: tuple[LockEdge, ...]

    def __bool__(self) -> bool:
        return not self.cycle


def order_of_locks(source: Source, driver: int) -> LockOrder:
    """The locks of a driver of an accepted set in an order, or where they have none a shortest
    cycle.

    Raises `Refused` with the verdict, `FaultyText` or `FaultyImage`, `WrongArgument` where the set
    has no driver of this number, `NoMemory`.
    """
    data, found, refusal = as_bytes(source), _library.CLockOrder(), _library.CVerdict()
    words = (data, len(data), within(driver, 8), ctypes.byref(found), ctypes.byref(refusal))
    verdict = verdict_of(_library.CALLS["order_of_locks"](*words), refusal)
    if not verdict:
        raise Refused(verdict)
    if found.kind != _CYCLE:
        return LockOrder(tuple(found.order), ())
    edges = found.cycle[: found.edges]
    return LockOrder((), tuple(LockEdge(e.held, e.taken, e.routine, e.position) for e in edges))
