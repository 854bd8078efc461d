#!/usr/bin/env python3
"""Compares what the examples in C, Rust and Python answer by the library with what the program
answers, byte for byte, on examples/ and the gallery.

    tools/try library [PROGRAM [WORD ..]]

PROGRAM is crates/drvhost/out/drvhost if it isn't given; with words (check, trace ..) those of its
commands alone are compared. tools/build_library.py is to have run. A compiler that isn't there
(rustc) is told, and its example left out.
"""

import os
import pathlib
import shutil
import subprocess
import sys
import tempfile

from gallery import GALLERY
from versions import VERSION

TOP = pathlib.Path(__file__).resolve().parents[2]
LIBRARY = TOP / "out/lib"
EXAMPLES = TOP / "examples/library"


def answered(words):
    done = subprocess.run(words, cwd=TOP, capture_output=True, timeout=60)
    return done.returncode, done.stdout, done.stderr


def wanted(program, words, folder):
    """What the program answers; the image that it writes to a file stands for its output. The
    library explains bytes, which have no name: the command of a hunt is the program's alone."""
    if words[0] == "explain":
        status, output, told = answered([program, *words])
        return status, output.removesuffix(f"show it: drvhost hunt {words[-1]}\n".encode()), told
    if words[0] != "rewrite":
        return answered([program, *words])
    image = pathlib.Path(folder, "image")
    image.unlink(missing_ok=True)
    status, output, told = answered([program, *words, image])
    return status, output + (image.read_bytes() if image.exists() else b""), told


def built(folder):
    """The commands that answer as the program does, by their language."""
    found = {}
    here = ["-std=c11", "-Wall", "-Wextra", "-Werror", "-I", TOP / "include"]
    for name in ("answer", "step", "first", "locks", "inside"):
        subprocess.run(["cc", *here, EXAMPLES / f"{name}.c", LIBRARY / "libpafteis.a", "-o",
                        f"{folder}/{name}"], check=True)
    for name in ("pass_null", "keep_answers"):
        subprocess.run(["cc", *here, TOP / f"tools/parts/{name}.c", LIBRARY / "libpafteis.a", "-o",
                        f"{folder}/{name}"], check=True)
    found["C"] = [f"{folder}/answer"]
    for name, source in (("step_cpp", EXAMPLES / "step.cpp"),
                         ("try_header", TOP / "tools/parts/try_header.cpp")):
        subprocess.run(["c++", "-std=c++17", *here[1:], source, LIBRARY / "libpafteis.a", "-o",
                        f"{folder}/{name}"], check=True)
    if shutil.which("rustc"):
        subprocess.run(["rustc", "-O", "--edition", "2024", EXAMPLES / "answer.rs", "-L", LIBRARY,
                        "-o", f"{folder}/answer_rs"], check=True)
        found["Rust"] = [f"{folder}/answer_rs"]
    else:
        print("try_library: there is no rustc, so the example in Rust was left out")
    os.environ["PAFTEIS"] = str(LIBRARY / "libpafteis.so")
    found["Python"] = [sys.executable, EXAMPLES / "answer.py"]
    return found


def cases():
    """Words of the program, and the example's words for them."""
    sets = sorted([*TOP.glob("examples/*.drv"), *TOP.glob("examples/*.image"),
                   *pathlib.Path(GALLERY).glob("*/*.drv")])
    for name in map(str, sets):
        for word in ("check", "explain", "list", "rewrite"):
            yield [word, name], [word, name]
        yield ["explain", "--all", name], ["explain-each", name]
        own = pathlib.Path(name).with_suffix(".sched")
        events = own if own.exists() else pathlib.Path(name).parent / "events.sched"
        if events.exists():
            yield ["trace", name, str(events)], ["trace", name, str(events)]
            yield ["tell", name, str(events)], ["tell", name, str(events)]
            yield ["tell", "--every", name, str(events)], ["tell-every", name, str(events)]
            yield ["draw", name, str(events)], ["draw", name, str(events)]
            yield (["trace", name, str(events), "--unchecked"],
                   ["trace-unchecked", name, str(events)])
    for name in ("echo", "twice", "cancelring", "pending", "released"):
        name = f"examples/{name}.drv"
        yield ["hunt", name], ["hunt", name]
        yield ["mend", name], ["mend", name]
    for rule in range(1, 21):
        yield ["explain", "--rule", f"V{rule}"], ["rule", str(rule)]


# Sets with schedules: an accepted one, a refused one, and one whose run a bug check stops.
KEPT = ("csq", "race", "cancelring")

LOCKS = (b"driver 0\nl1, l0, l2, l3, l4, l5, l6, l7, cancel\n"
         b"driver 1\nroutine 0 at 1: l0 under cancel\n"
         b"routine 1 at 1: cancel under l0\n")


INSIDE = b"""0 counter
0 disk
0 on_read
4 
0 V11 Guard
0 STATUS_CANCELLED
0 MULTIPLE_IRP_COMPLETE_REQUESTS
schedule 0: 2 threads, 14 events; fault 0 line 0
schedule 2: 0 threads, 0 events; fault 2 line 2
4 steps: cell 0, lock owned, packet 0: 3 7 0
words 0: 7 4096, packet 0: 0
6 steps: cell 1, lock free, packet 0: 3 7 1
2 steps: cell 1, lock free, packet 4: 0 0 0
new 6, another 0, again 6
1 steps: cell 0, lock free, packet 4: 0 0 0
reset 0, with no threads 4
1 steps: cell 0, lock free, packet 4: 0 0 0
freed 0 0, reset 5
"""


def wrong_keeping(command):
    """What is told where answers that are kept aren't those that are put into a buffer."""
    checked = shutil.which("valgrind")
    words = [checked, "-q", "--error-exitcode=9", "--leak-check=full"] if checked else []
    for name in KEPT:
        files = [f"examples/{name}.drv", f"examples/{name}.sched"]
        told = answered([*words, command, *files])
        if told[:2] != (0, b"8 answers, 0 wrong\n"):
            yield f"answers on {name} are kept otherwise: {told}"
    told = answered([command, "examples/csq.sched", "examples/csq.drv"])
    if told[:2] != (0, b"8 answers, 0 wrong\n"):
        yield f"answers on what is faulty are kept otherwise: {told}"


def wrong_worlds(folder, commands):
    """What is told of the programs that drive a world or ask for orders of locks, each of which is
    tried once."""
    steps = b"started 0\nstepped\ntopped 0 0x00000000 0\nfinished\nidle\nfreed 0, again 5\n"
    if answered([f"{folder}/step", "examples/echo.drv"])[:2] != (0, steps):
        yield "a world from C answers otherwise"
    steps = b"started 0\nstepped\ntopped 0\nfinished\nidle\n"
    if answered([f"{folder}/step_cpp", "examples/echo.drv"])[:2] != (0, steps):
        yield "a world from C++ answers otherwise"
    files = [f"examples/{name}" for name in ("csq.drv", "csq.sched", "race.drv")]
    told = answered([f"{folder}/try_header", *files])
    if told[:2] != (0, b"26 tried, 0 wrong\n"):
        yield f"calls from C++ answer otherwise: {told}"
    told = answered([f"{folder}/locks"])
    if told[:2] != (0, LOCKS):
        yield f"orders of locks from C are others: {told}"
    told = answered([f"{folder}/inside"])
    if told[:2] != (0, INSIDE):
        yield f"what a world has is told otherwise from C: {told}"
    told = answered([f"{folder}/pass_null"])
    if told[:2] != (0, b"41 calls, 0 wrong\n"):
        yield f"NULL with the length 0 is answered otherwise: {told}"
    yield from wrong_keeping(f"{folder}/keep_answers")
    for command in commands:
        if answered([*command, "version"]) != (0, f"pafteis {VERSION}\n".encode(), b""):
            yield f"{command[-1]} tells another version"
    own = {"PYTHONPATH": str(TOP / "python"), "PAFTEIS_LIBRARY": os.environ["PAFTEIS"]}
    os.environ.update(own)
    first = (0, b"reply 1\nreply 2\nreply 4\npacket 0: 0x00000000\nreply 3\n")
    for words in ([f"{folder}/first"], [sys.executable, EXAMPLES / "first.py"]):
        if answered(words)[:2] != first:
            yield f"{words[-1]} answers otherwise"


def main():
    program = sys.argv[1] if len(sys.argv) > 1 else str(TOP / "crates/drvhost/out/drvhost")
    only = sys.argv[2:]
    wrong, tried = 0, 10 + len(KEPT)
    with tempfile.TemporaryDirectory() as folder:
        commands = built(folder)
        for words, own in cases():
            if only and words[0] not in only:
                continue
            right = wanted(program, words, folder)
            for language, command in commands.items():
                tried += 1
                if answered([*command, *own]) != right:
                    wrong += 1
                    print(f"{language} answers otherwise: {' '.join(words)}")
        for told in wrong_worlds(folder, commands.values()):
            wrong += 1
            print(told)
    print(f"{tried} tried, {wrong} wrong")
    return int(wrong > 0)


sys.exit(main())
