"""Whether the package has the structs and the numbers of the header."""

import ctypes
import re
import shutil
import subprocess
import tempfile
import unittest

from pafteis import ImageFault, Major, ReplyKind, Rule, TextFault, _library
from pafteis.worlds import EventKind
from tests import TOP

HEADER = TOP / "include/pafteis.h"
# Where each field lies since 1.0.0: a struct with its size, below it each field's place and size.
LAYOUT = TOP / "include/layout.txt"
STRUCTS = {
    "verdict": _library.CVerdict,
    "lock_edge": _library.CLockEdge,
    "lock_order": _library.CLockOrder,
    "set": _library.CSet,
    "device_shape": _library.CDeviceShape,
    "routine_shape": _library.CRoutineShape,
    "world": _library.CWorld,
    "event": _library.CEvent,
    "reply": _library.CReply,
    "frame": _library.CFrame,
    "thread": _library.CThread,
    "armed": _library.CArmed,
    "packet": _library.CPacket,
    "due": _library.CDue,
    "cells": _library.CCells,
    "owner": _library.COwner,
    "request": _library.CRequest,
    "words": _library.CWords,
    "hunting": _library.CHunting,
    "answer": _library.CAnswer,
    "schedule_size": _library.CScheduleSize,
    "schedule_fault": _library.CScheduleFault,
}
# The structs of the library's source, and the types of fields there and in the header.
OF_SOURCE = {
    "verdict": "VerdictValue",
    "lock_edge": "LockEdgeValue",
    "lock_order": "LockOrderValue",
    "set": "SetValue",
    "device_shape": "DeviceValue",
    "routine_shape": "RoutineValue",
    "world": "Handle",
    "event": "EventValue",
    "reply": "ReplyValue",
    "frame": "FrameValue",
    "thread": "ThreadValue",
    "armed": "ArmedValue",
    "packet": "PacketValue",
    "due": "DueValue",
    "cells": "CellsValue",
    "owner": "OwnerValue",
    "request": "RequestValue",
    "words": "WordsValue",
    "hunting": "HuntValue",
    "answer": "Kept",
    "schedule_size": "ScheduleValue",
    "schedule_fault": "ScheduleFaultValue",
}
TYPES = {"u8": "uint8_t", "u32": "uint32_t", "u64": "uint64_t", "bool": "bool"}
TYPES["*mut u8"] = "void *"
TYPES |= {found: f"pafteis_{name}" for name, found in OF_SOURCE.items()}
RENAMED = {"at": "inside", "CELLS": "16", "REGISTERS": "16"}

NUMBERS = (
    {f"PAFTEIS_TEXT_{it.name}": int(it) for it in TextFault}
    | {f"PAFTEIS_IMAGE_{it.name}": int(it) for it in ImageFault}
    | {f"PAFTEIS_{it.name}": int(it) for it in Rule}
    | {f"PAFTEIS_{it.name}": int(it) for it in ReplyKind if it is not ReplyKind.REFUSED}
    | {f"PAFTEIS_{it.name}": int(it) for it in EventKind if it is not EventKind.STARTIO}
    | {"PAFTEIS_READ": int(Major.READ), "PAFTEIS_WRITE": int(Major.WRITE)}
    | {"PAFTEIS_DEVICE_CONTROL": int(Major.CONTROL), "PAFTEIS_START_IO": int(EventKind.STARTIO)}
    | {"PAFTEIS_NOT_POSSIBLE": int(ReplyKind.REFUSED)}
)


DECLARED = r"#\[repr\(C\)\]\n(?:#\[derive\(.*\)\]\n)?pub struct %s {(.*?)\n}"


def source_of_library():
    """The source of the crates that have the structs."""
    folders = [TOP / f"crates/{name}/src" for name in ("pafteis_values", "pafteis_world", "pafteis")]
    return "\n".join(path.read_text() for folder in folders for path in sorted(folder.glob("*.rt")))


def source_field(name, kind):
    """A field of the source, as the header would have it."""
    array = re.fullmatch(r"\[(.+); (\w+)\]", kind)
    kind, count = array.groups() if array else (kind, "")
    count = count and f"[{RENAMED.get(count, count)}]"
    return TYPES[kind].replace(" ", ""), RENAMED.get(name, name), count


def header_fields(body):
    """The fields of a struct's body in the header: type, name, and how many."""
    for line in re.sub(r"/\*.*?\*/", "", body, flags=re.S).split(";"):
        if line.strip():
            kind, names = re.fullmatch(r"\s*(\w+) (.*)", line, re.S).groups()
            for one in names.split(","):
                star, name, count = re.fullmatch(r"\s*(\*?)(\w+)(\[\d+\])?\s*", one).groups()
                yield kind + star, name, count or ""


def in_order():
    """The structs with their names, in the order of the header."""
    names = re.findall(r"^} pafteis_(\w+);", HEADER.read_text(encoding="ascii"), re.M)
    return [(name, STRUCTS[name]) for name in names]


def program():
    """A program that tells where each field lies, with how many bytes."""
    lines = ["#include <stdio.h>", "#include <stddef.h>", '#include "pafteis.h"', "int main(void) {"]
    for name, struct in in_order():
        kind = f"pafteis_{name}"
        lines.append(f'printf("{kind} %zu\\n", sizeof({kind}));')
        for field, *_ in struct._fields_:
            size = f"sizeof((({kind} *)0)->{field})"
            lines.append(f'printf("    {field} %zu %zu\\n", offsetof({kind}, {field}), {size});')
    return "\n".join([*lines, "return 0; }", ""])


def wanted():
    """The same of the package."""
    for name, struct in in_order():
        yield f"pafteis_{name} {ctypes.sizeof(struct)}"
        for field, *_ in struct._fields_:
            found = getattr(struct, field)
            yield f"    {field} {found.offset} {found.size}"


class Header(unittest.TestCase):
    @unittest.skipUnless(shutil.which("cc"), "there is no C compiler")
    def test_structs(self):
        with tempfile.TemporaryDirectory() as folder:
            words = ["cc", "-x", "c", "-", "-I", HEADER.parent, "-o", f"{folder}/told"]
            subprocess.run(words, input=program(), text=True, check=True)
            told = subprocess.run([f"{folder}/told"], capture_output=True, text=True, check=True)
        self.assertEqual(told.stdout.splitlines(), list(wanted()))

    def test_layout(self):
        """No field of a struct has moved since the first version, and none was added."""
        self.assertEqual(LAYOUT.read_text(encoding="ascii").splitlines(), list(wanted()))

    def test_source(self):
        """Each struct of the header has the fields of the library's own, in their order."""
        source, text = source_of_library(), HEADER.read_text(encoding="ascii")
        for name, struct in OF_SOURCE.items():
            declared = re.search(DECLARED % struct, source, re.S)[1]
            fields = re.findall(r"^    (?:pub )?(\w+): ([^,{]+),$", declared, re.M)
            body = re.search(r"typedef struct {([^}]*)} pafteis_%s;" % name, text)[1]
            self.assertEqual(list(header_fields(body)), [source_field(*it) for it in fields], name)

    def test_all_fields(self):
        text = HEADER.read_text(encoding="ascii")
        for name, struct in STRUCTS.items():
            body = re.search(r"typedef struct {([^}]*)} pafteis_%s;" % name, text)[1]
            body = re.sub(r"/\*.*?\*/", "", body, flags=re.S)
            names = re.findall(r"[\s*](\w+)(?:\[\d+\])?(?=[,;])", body)
            self.assertEqual(names, [field for field, *_ in struct._fields_], name)

    def test_numbers(self):
        text = HEADER.read_text(encoding="ascii")
        found = {name: int(value) for name, value in re.findall(r"(PAFTEIS_\w+) = (\d+)", text)}
        self.assertEqual({name: found.get(name) for name in NUMBERS}, NUMBERS)

    def test_calls(self):
        text = HEADER.read_text(encoding="ascii")
        names = set(re.findall(r"^uint32_t pafteis_(\w+)\(", text, re.M))
        self.assertEqual(names, set(_library.CALLS))


if __name__ == "__main__":
    unittest.main()
