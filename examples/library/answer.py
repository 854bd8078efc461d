"""Answers a command of the program from Python, as answer.c does from C:

    PAFTEIS=out/lib/libpafteis.so python3 examples/library/answer.py check FILE

It has no more than ctypes; python/pafteis is a package that has everything.
"""

import ctypes
import os
import sys

LIBRARY = ctypes.CDLL(os.environ.get("PAFTEIS", "libpafteis.so.1"))
FAULTY, NO_MEMORY = 2, 3
BYTES = [ctypes.c_char_p, ctypes.c_size_t]
NUMBER = [ctypes.c_uint32]
BUFFER = [*BYTES, ctypes.POINTER(ctypes.c_size_t)]

# The words: the call of each, the types that it takes before the buffer, how many files are named,
# and the number that is passed last.
WORDS = {
    "check": ("report", BYTES, 1, None),
    "explain": ("explain", BYTES + NUMBER, 1, 0),
    "explain-each": ("explain", BYTES + NUMBER, 1, 1),
    "list": ("list", BYTES, 1, None),
    "rewrite": ("rewrite", BYTES, 1, None),
    "trace": ("trace", BYTES + BYTES + NUMBER, 2, 0),
    "trace-unchecked": ("trace", BYTES + BYTES + NUMBER, 2, 1),
    "tell": ("tell", BYTES + BYTES + NUMBER, 2, 0),
    "tell-every": ("tell", BYTES + BYTES + NUMBER, 2, 4),
    "draw": ("draw", BYTES + BYTES + NUMBER, 2, 0),
    "mend": ("mend", [*BYTES, ctypes.c_uint64], 1, 20_000),
    "version": ("version", [], 0, None),
}


def called(name, types, *arguments):
    """The status and the bytes of a call that puts its answer into a buffer."""
    call = getattr(LIBRARY, "pafteis_" + name)
    call.restype, call.argtypes = ctypes.c_uint32, [*types, *BUFFER]
    capacity = 64
    while True:
        buffer, needed = ctypes.create_string_buffer(capacity), ctypes.c_size_t()
        status = call(*arguments, buffer, capacity, ctypes.byref(needed))
        if needed.value <= capacity:
            return status, buffer.raw[: needed.value]
        capacity = needed.value


class Hunting(ctypes.Structure):
    """How far a hunt goes, as the program's own does."""

    _fields_ = [(it, ctypes.c_uint64) for it in ("packets", "worlds", "events", "argument")]
    _fields_ += [(it, ctypes.c_uint32) for it in ("threads", "flags")]


def hunted(data):
    usual = ctypes.byref(Hunting(2, 1_000_000, 0, 0, 2, 0))
    return called("hunt", [*BYTES, ctypes.POINTER(Hunting)], data, len(data), usual)


def read(name):
    with open(name, "rb") as file:
        return file.read()


def answered(word, names):
    """The status and the bytes; nothing where the words are wrong."""
    if word == "rule" and len(names) == 1 and names[0].isdecimal():
        return called("explain_rule", NUMBER, int(names[0]))
    if word == "hunt" and len(names) == 1:
        return hunted(read(names[0]))
    name, types, files, number = WORDS.get(word, (None, [], None, None))
    if len(names) != files:
        return None
    texts = [it for data in map(read, names) for it in (data, len(data))]
    return called(name, types, *texts, *([] if number is None else [number]))


def main():
    found = answered(sys.argv[1], sys.argv[2:]) if sys.argv[1:] else None
    if found is None:
        sys.exit("answer: its words are rule, hunt, " + ", ".join(WORDS))
    status, answer = found
    if status == NO_MEMORY:
        answer = b"out of memory\n"
    stream = sys.stderr if status >= FAULTY else sys.stdout
    stream.buffer.write(answer)
    return status


sys.exit(main())
