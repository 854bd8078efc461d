#!/usr/bin/env python3
"""Tells how many bytes of stack the library's calls take at most, as tools/build_library.py built
it into out/:

    tools/measure stack [SET SCHEDULE]

on all examples and wrong drivers with a schedule, or on SET and SCHEDULE alone. What a call takes
is what it has written to: `judge` are the calls that answer a verdict, an order of locks, a shape
or a schedule's size, `world` those that make a world and drive it.
"""

import pathlib
import subprocess
import sys
import tempfile

from gallery import GALLERY

TOP = pathlib.Path(__file__).resolve().parents[2]


def built(folder):
    program = f"{folder}/measure_stack"
    subprocess.run(["cc", "-O2", "-std=c11", "-D_GNU_SOURCE", "-Wall", "-Wextra", "-Werror", "-I",
                    TOP / "include", TOP / "tools/parts/measure_stack.c",
                    TOP / "out/lib/libpafteis.a", "-pthread", "-o", program], check=True)
    return program


def pairs():
    """Sets with a schedule."""
    for name in sorted([*TOP.glob("examples/*.drv"), *TOP.glob("examples/guide/*.drv"),
                        *pathlib.Path(GALLERY).glob("*/*.drv")]):
        own = name.with_suffix(".sched")
        events = own if own.exists() else name.parent / "events.sched"
        if events.exists():
            yield name, events


def main():
    most = {}
    with tempfile.TemporaryDirectory() as folder:
        program = built(folder)
        for names in [sys.argv[1:3]] if len(sys.argv) > 2 else pairs():
            told = subprocess.run([program, *names], check=True, capture_output=True, text=True)
            for line in told.stdout.splitlines():
                call, taken = line.split()
                most[call] = max(most.get(call, (0, "")), (int(taken), str(names[0])))
    for call, (taken, name) in most.items():
        print(f"{call:8} {taken:7} bytes, {name.removeprefix(str(TOP) + '/')}")


if __name__ == "__main__":
    main()
