"""Worlds: the machine of an accepted set, driven event by event."""

from __future__ import annotations

import ctypes
import enum
import struct
from functools import partial
from types import TracebackType
from typing import Iterable, Iterator, NamedTuple, Optional, Type

from pafteis import _library
from pafteis.errors import NoWorld, Refused, WrongArgument
from pafteis.replies import Irql, Major, Reply, ReplyKind, within
from pafteis.verdicts import Source, as_bytes, verdict_of

_KINDS = (ReplyKind.IDLE, *ReplyKind)

# The fields of an event and of a reply, as they lie in the structs.
_EVENT, _REPLY = struct.Struct("=QQIBBBB"), struct.Struct("=QQII")
_PUT, _PACK = _EVENT.pack_into, _EVENT.pack
_GET, _EACH = _REPLY.unpack_from, _REPLY.iter_unpack
_made = tuple.__new__


class EventKind(enum.IntEnum):
    """Kinds of events."""

    ISSUE = 1
    CANCEL = 2
    INTERRUPT = 3
    DPC = 4
    STARTIO = 5
    STEP = 6


class Event(NamedTuple):
    """An event. What its kind doesn't need may be anything."""

    kind: EventKind
    thread: int = 0
    device: int = 0
    major: Major = Major.READ
    argument: int = 0
    packet: int = 0
    level: Irql = Irql.PASSIVE


def _wrong(event: Event) -> Exception:
    """What is wrong with an event that no struct can have."""
    kind, thread, device, major, argument, packet, level = event
    wide, narrow = (argument, packet), (thread, device, major, level)
    try:
        for number, bits in [(kind, 32), *((it, 64) for it in wide), *((it, 8) for it in narrow)]:
            within(number, bits)
    except (TypeError, WrongArgument) as error:
        return error
    return TypeError("an event has numbers")


class FrameKind(enum.IntEnum):
    """What the top frame of a thread does."""

    NONE = 0
    ROUTINE = 1
    COMPLETION = 2
    CANCEL = 3


class Frame(NamedTuple):
    """The top frame of a thread: of a routine the instruction before which it stands, of the I/O
    manager the packet. `next` is the next step of a cancel, 1 to 3."""

    kind: FrameKind
    packet: int
    driver: int
    routine: int
    device: int
    position: int
    next: int


class Thread(NamedTuple):
    """A thread: how many frames it has, the level of the lowest one, and the top one."""

    frames: int
    level: Irql
    top: Frame


class PacketKind(enum.IntEnum):
    """What became of a packet."""

    NONE = 0
    LIVE = 1
    TOPPED = 2


class ArmedKind(enum.IntEnum):
    """Of which kind of list a cancel routine is set."""

    NONE = 0
    QUEUE = 1
    DEVICE_QUEUE = 2


class Armed(NamedTuple):
    """Whose cancel routine is set."""

    kind: ArmedKind
    device: int
    queue: int


class Packet(NamedTuple):
    """A packet: its current location (1 is the top driver's), whose cancel routine is set,
    Irp->Cancel, and the pending marks of its locations, that of location 1 first."""

    kind: PacketKind
    depth: int
    armed: Armed
    cancel: bool
    marks: tuple[bool, ...]


class Due(NamedTuple):
    """What is due of a device: that its StartIo routine begins, that its DPC is queued."""

    start_io: bool
    dpc: bool


class Cells(NamedTuple):
    """The number cells of a device; those that are paged may be touched below DISPATCH_LEVEL
    alone."""

    plain: tuple[int, ...]
    paged: tuple[int, ...]


class Request(NamedTuple):
    """What is asked with a live packet: at its current location the major function (0 where nothing
    is asked there) and the argument; and IoStatus.Information."""

    major: int
    argument: int
    info: int


class World:
    """The world of an accepted driver set, with 1 to 64 threads. It is closed by `close`, at the
    end of a `with` block, or when nothing names it any more; its calls raise `NoWorld` then.

    Raises `Refused`, `FaultyText` or `FaultyImage`, `WrongArgument`, `NoMemory`.

    >>> with World(text) as world:                                      # doctest: +SKIP
    ...     world.issue(thread=0, device=0, major=Major.READ, argument=7)
    ...     for reply in world.finish(thread=0):
    ...         print(reply)
    """

    def __init__(self, source: Source, threads: int = 1) -> None:
        self._handle = _library.CWorld()
        self._event, self._reply = _library.CEvent(), _library.CReply()
        data, found = as_bytes(source), _library.CVerdict()
        call = _library.CALLS["world_new"]
        words = (data, len(data), within(threads, 8))
        status = call(*words, ctypes.byref(self._handle), ctypes.byref(found))
        verdict = verdict_of(status, found)
        if not verdict:
            raise Refused(verdict)
        self._bind()

    def _bind(self) -> None:
        passed = map(ctypes.byref, (self._handle, self._event, self._reply))
        self._apply = partial(_library.CALLS["world_apply"], *passed)

    def reset(self, threads: int = 1) -> None:
        """Begins anew: the world of the same set, before its first event. Raises `WrongArgument` of
        another number of threads than 1 to 64, `NoWorld`, `NoMemory`: it is as it was then."""
        self._ask("world_reset", within(threads, 8))

    def another(self, threads: int = 1) -> World:
        """Another world of the same set, before its first event. Raises what `reset` raises."""
        made = World.__new__(World)
        made._handle = _library.CWorld()
        made._event, made._reply = _library.CEvent(), _library.CReply()
        self._ask("world_another", within(threads, 8), ctypes.byref(made._handle))
        made._bind()
        return made

    def close(self) -> None:
        """Frees the world; nothing where it was closed before."""
        if self._handle.live:
            _library.CALLS["world_free"](ctypes.byref(self._handle))

    @property
    def closed(self) -> bool:
        """Whether the world was closed."""
        return not self._handle.live

    def __enter__(self) -> World:
        return self

    def __exit__(
        self,
        kind: Optional[Type[BaseException]],
        value: Optional[BaseException],
        traceback: Optional[TracebackType],
    ) -> None:
        self.close()

    def __del__(self) -> None:
        if hasattr(self, "_handle"):
            self.close()

    def __copy__(self) -> World:
        raise TypeError("a world can't be copied")

    def __deepcopy__(self, memo: object) -> World:
        raise TypeError("a world can't be copied")

    def __reduce__(self) -> str:
        raise TypeError("a world can't be pickled")

    # Events

    def apply(self, event: Event) -> Reply:
        """One event, which is one atomic step. Raises `WrongArgument`, `NoWorld`."""
        kind, thread, device, major, argument, packet, level = event
        try:
            _PUT(self._event, 0, packet, argument, kind, thread, device, major, level)
        except struct.error:
            raise _wrong(event) from None
        status = self._apply()
        if status:
            _library.raise_for(status)
        packet, info, answer, ended = _GET(self._reply)
        return _made(Reply, (_KINDS[answer], packet, ended, info))

    def apply_all(self, events: Iterable[Event]) -> list[Reply]:
        """Events one after the other, in one call: the replies to them. Raises `WrongArgument` where
        one of them is of no kind that there is: those before it are applied then, and `NoWorld`."""
        packed, wrong = bytearray(), None
        for event in events:
            kind, thread, device, major, argument, packet, level = event
            try:
                packed += _PACK(packet, argument, kind, thread, device, major, level)
            except struct.error:
                wrong = _wrong(event)
                break
        count = len(packed) // _EVENT.size
        replies, applied = ctypes.create_string_buffer(count * _REPLY.size), ctypes.c_size_t()
        words = (bytes(packed), count, replies, count, ctypes.byref(applied))
        status = _library.CALLS["world_apply_all"](ctypes.byref(self._handle), *words)
        if status:
            _library.raise_for(status)
        if wrong is not None:
            raise wrong
        return [
            _made(Reply, (_KINDS[answer], packet, ended, info))
            for packet, info, answer, ended in _EACH(replies.raw)
        ]

    def issue(self, thread: int, device: int, major: Major, argument: int = 0) -> Reply:
        """A request for a device arrives on a thread that is idle."""
        return self.apply(Event(EventKind.ISSUE, thread, device, major, argument))

    def cancel(self, thread: int, packet: int, level: Irql = Irql.PASSIVE) -> Reply:
        """IoCancelIrp is called for a packet, on a thread that is idle."""
        return self.apply(Event(EventKind.CANCEL, thread, packet=packet, level=level))

    def interrupt(self, device: int) -> Reply:
        """A device interrupts: its DPC is queued."""
        return self.apply(Event(EventKind.INTERRUPT, device=device))

    def dpc(self, thread: int, device: int) -> Reply:
        """The queued DPC of a device begins on a thread that is idle."""
        return self.apply(Event(EventKind.DPC, thread, device))

    def startio(self, thread: int, device: int) -> Reply:
        """The StartIo routine of a device begins on a thread that is idle."""
        return self.apply(Event(EventKind.STARTIO, thread, device))

    def step(self, thread: int) -> Reply:
        """One step of a thread's top frame."""
        return self.apply(Event(EventKind.STEP, thread))

    def steps(self, thread: int, count: int) -> tuple[int, Reply]:
        """At most so many steps of a thread, up to the first that replies otherwise than that it
        stepped: how many were made, and the reply to the last of them."""
        made, reply = ctypes.c_size_t(), _library.CReply()
        words = (within(thread, 8), within(count, 64), ctypes.byref(made), ctypes.byref(reply))
        status = _library.CALLS["world_steps"](ctypes.byref(self._handle), *words)
        _library.raise_for(status)
        return made.value, Reply(_KINDS[reply.kind], reply.packet, reply.status, reply.info)

    def run(self, events: Iterable[Event]) -> Iterator[Reply]:
        """The replies to events, each of which is applied when its reply is asked for."""
        return map(self.apply, events)

    def finish(self, thread: int) -> Iterator[Reply]:
        """Steps of a thread until it has nothing to do, or waits for a lock: their replies."""
        while True:
            reply = self.step(thread)
            if reply.kind is ReplyKind.IDLE:
                return
            yield reply
            if reply.kind in (ReplyKind.FINISHED, ReplyKind.WAITED, ReplyKind.REFUSED):
                return

    # What there is

    def thread(self, number: int) -> Thread:
        """Tells of a thread. Raises `WrongArgument` where there is none of this number."""
        found = _library.CThread()
        self._ask("world_thread", within(number, 8), ctypes.byref(found))
        top = found.top
        names = (top.packet, top.driver, top.routine, top.device, top.position, top.next)
        return Thread(found.frames, Irql(found.level), Frame(FrameKind(top.kind), *names))

    def packet(self, number: int) -> Packet:
        """Tells of a packet, by the number that `STARTED` told."""
        found = _library.CPacket()
        self._ask("world_packet", within(number, 64), ctypes.byref(found))
        armed = Armed(ArmedKind(found.armed.kind), found.armed.device, found.armed.queue)
        kind, marks = PacketKind(found.kind), tuple(found.marks)
        return Packet(kind, found.depth, armed, found.cancel, marks)

    def due(self, device: int) -> Due:
        """Tells what is due of a device; nothing where there is none of this number."""
        found = _library.CDue()
        self._ask("world_due", within(device, 8), ctypes.byref(found))
        return Due(found.start_io, found.dpc)

    def cells(self, device: int) -> Cells:
        """Tells the number cells of a device. Raises `WrongArgument` where there is none of this
        number."""
        found = _library.CCells()
        self._ask("world_cells", within(device, 8), ctypes.byref(found))
        return Cells(tuple(found.plain), tuple(found.paged))

    def owner(self, device: int, lock: int) -> Optional[int]:
        """The thread that owns a spin lock of a device, 0 to 7, or `CANCEL_LOCK`; None where it is
        free. Raises `WrongArgument` where there is no such lock."""
        found = _library.COwner()
        self._ask("world_lock", within(device, 8), within(lock, 8), ctypes.byref(found))
        return found.thread if found.owned else None

    def request(self, packet: int) -> Request:
        """Tells what is asked with a packet. Raises `WrongArgument` where it isn't live."""
        found = _library.CRequest()
        self._ask("world_request", within(packet, 64), ctypes.byref(found))
        return Request(found.major, found.argument, found.info)

    def words(self, thread: int) -> tuple[int, ...]:
        """The words in the registers r0 to r15 of the routine on the top of a thread. A word
        doesn't say what it is: a number stands as itself, a status as its value, a packet as the
        slot of which `number` tells. Raises `WrongArgument` where no routine stands there."""
        found = _library.CWords()
        self._ask("world_words", within(thread, 8), ctypes.byref(found))
        return tuple(found.words)

    def number(self, slot: int) -> int:
        """The number of the live packet in a slot. Raises `WrongArgument` where there is none."""
        found = ctypes.c_uint64()
        self._ask("world_number", within(slot, 64), ctypes.byref(found))
        return found.value

    def _ask(self, name: str, *arguments: object) -> None:
        if self.closed:
            raise NoWorld("the world was closed")
        _library.raise_for(_library.CALLS[name](ctypes.byref(self._handle), *arguments))
