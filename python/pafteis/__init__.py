"""Pafteis, a proved host for driver routines, over the library libpafteis.

`check` judges a driver set, `explain` says in words why it is refused, `trace`, `tell` and `draw`
run it by a schedule, and a `World` is its machine, driven event by event. docs/TEXTS.md says what stands in
texts and schedules.
"""

from pathlib import Path

from pafteis.errors import (
    Faulty,
    FaultyImage,
    FaultySchedule,
    FaultyText,
    LibraryMissing,
    NoMemory,
    NoWorld,
    PafteisError,
    Refused,
    WrongArgument,
)
from pafteis.hunts import Hunt, Mend, hunt, mend
from pafteis.locks import CANCEL_LOCK, LockEdge, LockOrder, order_of_locks
from pafteis.names import (
    bug_check_name,
    device_name,
    driver_name,
    queue_name,
    routine_name,
    rule_name,
    status_name,
)
from pafteis.replies import Irql, Major, Reply, ReplyKind, Status
from pafteis.schedules import ScheduleFault, ScheduleSize, schedule_size
from pafteis.shapes import Device, Routine, Shape, Sort, describe
from pafteis.verdicts import (
    Detail,
    ImageFault,
    Place,
    Rule,
    Source,
    TextFault,
    Trace,
    Verdict,
    check,
    draw,
    explain,
    explain_rule,
    library_version,
    listing,
    report,
    rewrite,
    tell,
    trace,
)
from pafteis.worlds import (
    Armed,
    ArmedKind,
    Cells,
    Due,
    Event,
    EventKind,
    Frame,
    FrameKind,
    Packet,
    PacketKind,
    Request,
    Thread,
    World,
)

__version__ = (Path(__file__).parent / "VERSION").read_text(encoding="ascii").strip()

__all__ = [
    "Armed", "ArmedKind", "CANCEL_LOCK", "Cells", "Detail", "Device", "Due", "Event", "EventKind",
    "Faulty", "FaultyImage", "FaultySchedule", "FaultyText", "Frame", "FrameKind", "Hunt",
    "ImageFault", "Irql", "LibraryMissing", "LockEdge", "LockOrder", "Major", "Mend", "NoMemory",
    "NoWorld", "Packet", "PacketKind", "PafteisError", "Place", "Refused", "Reply", "ReplyKind",
    "Request", "Routine", "Rule", "ScheduleFault", "ScheduleSize", "Shape", "Sort", "Source",
    "Status", "TextFault", "Thread", "Trace", "Verdict", "World", "WrongArgument", "bug_check_name",
    "check", "describe", "device_name", "draw", "driver_name", "explain", "explain_rule", "hunt",
    "library_version", "listing", "mend", "order_of_locks", "queue_name", "report", "rewrite",
    "routine_name", "rule_name", "schedule_size", "status_name", "tell", "trace",
]
