"""The calls and the structs of include/pafteis.h, by ctypes.

`PAFTEIS_LIBRARY` names the shared library; else it is found as the system finds it. Calls that take
a world hold the interpreter's lock, so no two threads are in one world at once. Calls that judge or
run a whole set let other threads go on.
"""

from __future__ import annotations

import ctypes
import ctypes.util
import os
from ctypes import POINTER, c_bool, c_char_p, c_size_t, c_uint8, c_uint32, c_uint64, c_void_p
from typing import Any, Callable

from pafteis.errors import LibraryMissing, NoMemory, NoWorld, WrongArgument

DONE, REFUSED, FAULTY, NO_MEMORY, WRONG_ARGUMENT, NO_WORLD, HAS_WORLD = range(7)
SONAME = "libpafteis.so.1"


class CVerdict(ctypes.Structure):
    """`pafteis_verdict`"""

    _fields_ = [
        ("line", c_uint64),
        ("rule", c_uint32),
        ("driver", c_uint32),
        ("routine", c_uint32),
        ("position", c_uint32),
        ("text_fault", c_uint32),
        ("image_fault", c_uint32),
    ]


class CLockEdge(ctypes.Structure):
    """`pafteis_lock_edge`"""

    _fields_ = [
        ("position", c_uint32),
        ("routine", c_uint8),
        ("held", c_uint8),
        ("taken", c_uint8),
    ]


class CLockOrder(ctypes.Structure):
    """`pafteis_lock_order`"""

    _fields_ = [
        ("edges", c_uint64),
        ("kind", c_uint32),
        ("order", c_uint8 * 9),
        ("cycle", CLockEdge * 9),
    ]


class CSet(ctypes.Structure):
    """`pafteis_set`"""

    _fields_ = [("drivers", c_uint32), ("devices", c_uint32)]


class CDeviceShape(ctypes.Structure):
    """`pafteis_device_shape`"""

    _fields_ = [
        ("driver", c_uint8),
        ("stack", c_uint8),
        ("lower", c_uint8),
        ("read", c_uint8),
        ("write", c_uint8),
        ("control", c_uint8),
        ("startio", c_uint8),
        ("dpc", c_uint8),
    ]


class CRoutineShape(ctypes.Structure):
    """`pafteis_routine_shape`"""

    _fields_ = [("instructions", c_uint32), ("certificate", c_uint32), ("sort", c_uint32)]


class CWorld(ctypes.Structure):
    """`pafteis_world`"""

    _fields_ = [("live", c_bool), ("inside", c_void_p)]


class CEvent(ctypes.Structure):
    """`pafteis_event`"""

    _fields_ = [
        ("packet", c_uint64),
        ("argument", c_uint64),
        ("kind", c_uint32),
        ("thread", c_uint8),
        ("device", c_uint8),
        ("major", c_uint8),
        ("level", c_uint8),
    ]


class CReply(ctypes.Structure):
    """`pafteis_reply`"""

    _fields_ = [("packet", c_uint64), ("info", c_uint64), ("kind", c_uint32), ("status", c_uint32)]


class CFrame(ctypes.Structure):
    """`pafteis_frame`"""

    _fields_ = [
        ("packet", c_uint64),
        ("kind", c_uint32),
        ("position", c_uint32),
        ("driver", c_uint8),
        ("routine", c_uint8),
        ("device", c_uint8),
        ("next", c_uint8),
    ]


class CThread(ctypes.Structure):
    """`pafteis_thread`"""

    _fields_ = [("frames", c_uint64), ("level", c_uint32), ("top", CFrame)]


class CArmed(ctypes.Structure):
    """`pafteis_armed`"""

    _fields_ = [("kind", c_uint8), ("device", c_uint8), ("queue", c_uint8)]


class CPacket(ctypes.Structure):
    """`pafteis_packet`"""

    _fields_ = [
        ("kind", c_uint32),
        ("depth", c_uint8),
        ("armed", CArmed),
        ("cancel", c_bool),
        ("marks", c_bool * 16),
    ]


class CDue(ctypes.Structure):
    """`pafteis_due`"""

    _fields_ = [("start_io", c_bool), ("dpc", c_bool)]


class CCells(ctypes.Structure):
    """`pafteis_cells`"""

    _fields_ = [("plain", c_uint64 * 16), ("paged", c_uint64 * 16)]


class COwner(ctypes.Structure):
    """`pafteis_owner`"""

    _fields_ = [("owned", c_bool), ("thread", c_uint8)]


class CRequest(ctypes.Structure):
    """`pafteis_request`"""

    _fields_ = [("argument", c_uint64), ("info", c_uint64), ("major", c_uint64)]


class CWords(ctypes.Structure):
    """`pafteis_words`"""

    _fields_ = [("words", c_uint64 * 16)]


class CHunting(ctypes.Structure):
    """`pafteis_hunting`"""

    _fields_ = [
        ("packets", c_uint64),
        ("worlds", c_uint64),
        ("events", c_uint64),
        ("argument", c_uint64),
        ("threads", c_uint32),
        ("flags", c_uint32),
    ]


class CAnswer(ctypes.Structure):
    """`pafteis_answer`"""

    _fields_ = [("live", c_bool), ("inside", c_void_p)]


class CScheduleSize(ctypes.Structure):
    """`pafteis_schedule_size`"""

    _fields_ = [("events", c_uint64), ("threads", c_uint32)]


class CScheduleFault(ctypes.Structure):
    """`pafteis_schedule_fault`"""

    _fields_ = [("line", c_uint64), ("kind", c_uint32)]


SET = [c_char_p, c_size_t]
BUFFER = [c_char_p, c_size_t, POINTER(c_size_t)]
WORLD = [POINTER(CWorld)]
ANSWER = [POINTER(CAnswer)]
KEPT = [*ANSWER, POINTER(c_size_t)]

# Calls that let other threads go on, and calls that don't, by the types of their arguments.
WHOLE: dict[str, list[Any]] = {
    "check": [*SET, POINTER(CVerdict)],
    "order_of_locks": [*SET, c_uint8, POINTER(CLockOrder), POINTER(CVerdict)],
    "shape": [*SET, POINTER(CSet), POINTER(CVerdict)],
    "device": [*SET, c_uint8, POINTER(CDeviceShape), POINTER(CVerdict)],
    "routine": [*SET, c_uint8, c_uint8, POINTER(CRoutineShape), POINTER(CVerdict)],
    "report": [*SET, *BUFFER],
    "explain": [*SET, c_uint32, *BUFFER],
    "explain_rule": [c_uint32, *BUFFER],
    "trace": [*SET, *SET, c_uint32, *BUFFER],
    "tell": [*SET, *SET, c_uint32, *BUFFER],
    "draw": [*SET, *SET, c_uint32, *BUFFER],
    "hunt": [*SET, POINTER(CHunting), *BUFFER],
    "mend": [*SET, c_uint64, *BUFFER],
    "name_in": [*SET, c_uint32, c_uint8, c_uint8, *BUFFER],
    "name_of": [c_uint32, c_uint32, *BUFFER],
    "schedule": [*SET, POINTER(CScheduleSize), POINTER(CScheduleFault)],
    "list": [*SET, *BUFFER],
    "rewrite": [*SET, *BUFFER],
    "answer_explain": [*SET, c_uint32, *KEPT],
    "answer_trace": [*SET, *SET, c_uint32, *KEPT],
    "answer_tell": [*SET, *SET, c_uint32, *KEPT],
    "answer_draw": [*SET, *SET, c_uint32, *KEPT],
    "answer_hunt": [*SET, POINTER(CHunting), *KEPT],
    "answer_mend": [*SET, c_uint64, *KEPT],
    "answer_list": [*SET, *KEPT],
    "answer_read": [*ANSWER, c_size_t, *BUFFER],
    "answer_free": ANSWER,
    "version_number": [],
    "version": BUFFER,
    "world_new": [*SET, c_uint8, *WORLD, POINTER(CVerdict)],
}
OF_WORLDS: dict[str, list[Any]] = {
    "world_apply": [*WORLD, POINTER(CEvent), POINTER(CReply)],
    "world_apply_all": [*WORLD, c_char_p, c_size_t, c_char_p, c_size_t, POINTER(c_size_t)],
    "world_steps": [*WORLD, c_uint8, c_size_t, POINTER(c_size_t), POINTER(CReply)],
    "world_thread": [*WORLD, c_uint8, POINTER(CThread)],
    "world_packet": [*WORLD, c_uint64, POINTER(CPacket)],
    "world_due": [*WORLD, c_uint8, POINTER(CDue)],
    "world_reset": [*WORLD, c_uint8],
    "world_another": [*WORLD, c_uint8, *WORLD],
    "world_cells": [*WORLD, c_uint8, POINTER(CCells)],
    "world_lock": [*WORLD, c_uint8, c_uint8, POINTER(COwner)],
    "world_request": [*WORLD, c_uint64, POINTER(CRequest)],
    "world_words": [*WORLD, c_uint8, POINTER(CWords)],
    "world_number": [*WORLD, c_uint64, POINTER(c_uint64)],
    "world_free": WORLD,
}


def _path() -> str:
    asked = os.environ.get("PAFTEIS_LIBRARY")
    return asked or ctypes.util.find_library("pafteis") or SONAME


def _calls(library: ctypes.CDLL, types: dict[str, list[Any]]) -> dict[str, Callable[..., int]]:
    found: dict[str, Callable[..., int]] = {}
    for name, arguments in types.items():
        call = getattr(library, "pafteis_" + name)
        call.restype, call.argtypes = c_uint32, arguments
        found[name] = call
    return found


def _loaded() -> dict[str, Callable[..., int]]:
    path = _path()
    try:
        return {
            **_calls(ctypes.CDLL(path), WHOLE),
            **_calls(ctypes.PyDLL(path), OF_WORLDS),
        }
    except (OSError, AttributeError) as error:
        raise LibraryMissing(f"libpafteis is missing: {error}") from error


CALLS = _loaded()


def raise_for(status: int) -> None:
    """Raises the errors that any call may answer."""
    if status == NO_MEMORY:
        raise NoMemory("out of memory")
    if status == WRONG_ARGUMENT:
        raise WrongArgument("a number that names nothing")
    if status == NO_WORLD:
        raise NoWorld("the world was closed")


def told(name: str, *arguments: object) -> tuple[int, bytes]:
    """The status and the bytes of a call that answers in bytes. Large answers are made once."""
    answered = _kept if "answer_" + name in CALLS else _put
    return answered(name, *arguments)


def _put(name: str, *arguments: object) -> tuple[int, bytes]:
    """The same of a call that puts its answer into a buffer."""
    # A buffer that is too small has the call made twice.
    call, capacity = CALLS[name], 65_536
    while True:
        buffer, needed = ctypes.create_string_buffer(capacity), c_size_t()
        status = call(*arguments, buffer, capacity, ctypes.byref(needed))
        raise_for(status)
        if needed.value <= capacity:
            return status, buffer.raw[: needed.value]
        capacity = needed.value


def _kept(name: str, *arguments: object) -> tuple[int, bytes]:
    """The same of a call whose answer the library keeps: it is read, and freed."""
    answer, needed = CAnswer(), c_size_t()
    at = ctypes.byref(answer)
    try:
        status = CALLS["answer_" + name](*arguments, at, ctypes.byref(needed))
        raise_for(status)
        buffer = ctypes.create_string_buffer(needed.value)
        CALLS["answer_read"](at, 0, buffer, needed.value, ctypes.byref(needed))
        return status, buffer.raw
    finally:
        CALLS["answer_free"](at)
