"""Names by number: those that a driver text gives, and those of rules, statuses and bug checks."""

from __future__ import annotations

from typing import Optional

from pafteis.errors import WrongArgument
from pafteis.replies import within
from pafteis.verdicts import Source, as_bytes, text_of

_DRIVER, _DEVICE, _ROUTINE, _QUEUE, _RULE, _STATUS, _BUG_CHECK = range(1, 8)


def _given(source: Source, kind: int, driver: int, number: int) -> Optional[str]:
    data = as_bytes(source)
    numbers = (kind, within(driver, 8), within(number, 8))
    try:
        return text_of("name_in", data, len(data), *numbers)[1]
    except WrongArgument:
        return None


def driver_name(text: Source, driver: int) -> Optional[str]:
    """The name that a driver text gives to its driver of a number; None where it has none. An image
    has no names. So are the names of devices, routines and queues."""
    return _given(text, _DRIVER, 0, driver)


def device_name(text: Source, device: int) -> Optional[str]:
    """The name of a device."""
    return _given(text, _DEVICE, 0, device)


def routine_name(text: Source, driver: int, routine: int) -> Optional[str]:
    """The name of a routine of a driver."""
    return _given(text, _ROUTINE, driver, routine)


def queue_name(text: Source, driver: int, queue: int) -> Optional[str]:
    """The name of a queue of a driver."""
    return _given(text, _QUEUE, driver, queue)


def _constant(kind: int, number: int) -> str:
    return text_of("name_of", kind, within(number, 32))[1]


def rule_name(rule: int) -> str:
    """The name of a rule, such as `V11 Guard`. Raises `WrongArgument` where there is none of this
    number; so do the two below."""
    return _constant(_RULE, rule)


def status_name(status: int) -> str:
    """The name of a status, such as `STATUS_CANCELLED`."""
    return _constant(_STATUS, status)


def bug_check_name(number: int) -> str:
    """The name of a bug check, such as `MULTIPLE_IRP_COMPLETE_REQUESTS`."""
    return _constant(_BUG_CHECK, number)
