"""What goes wrong, by kind. Each is a `PafteisError`."""

from __future__ import annotations

from typing import TYPE_CHECKING

if TYPE_CHECKING:
    from pafteis.schedules import ScheduleFault
    from pafteis.verdicts import ImageFault, TextFault, Verdict


class PafteisError(Exception):
    """Any error of this package."""


class LibraryMissing(PafteisError, ImportError):
    """The library libpafteis isn't found, or lacks a call."""


class Refused(PafteisError):
    """A set was refused where an accepted one is wanted. `verdict` says why."""

    def __init__(self, verdict: Verdict) -> None:
        super().__init__(str(verdict))
        self.verdict = verdict


class Faulty(PafteisError, ValueError):
    """The bytes are no driver set, or no schedule. The message is what the program tells."""


class FaultyText(Faulty):
    """The bytes are a faulty driver text: its fault, and the line, from 1."""

    def __init__(self, fault: TextFault, line: int) -> None:
        super().__init__(f"text fault {int(fault)} {fault.name} line {line}")
        self.fault = fault
        self.line = line


class FaultyImage(Faulty):
    """The bytes are a faulty image."""

    def __init__(self, fault: ImageFault) -> None:
        super().__init__(f"image fault {int(fault)} {fault.name}")
        self.fault = fault


class FaultySchedule(Faulty):
    """The bytes are no schedule: its first fault, and the line, from 1. `told` is what the program
    tells of it, where it was asked to run."""

    def __init__(self, fault: ScheduleFault, line: int, told: str = "") -> None:
        super().__init__(told or f"schedule fault {int(fault)} line {line}")
        self.fault = fault
        self.line = line


class WrongArgument(PafteisError, ValueError):
    """A number that names nothing."""


class NoMemory(PafteisError, MemoryError):
    """Memory was refused. Everything is as it was."""


class NoWorld(PafteisError):
    """The world was closed before."""
