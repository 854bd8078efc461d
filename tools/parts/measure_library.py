#!/usr/bin/env python3
"""Times the library from C, as tools/build_library.py built it into out/:

    tools/measure library [--runs N] [PROGRAM]

A check of a small set, and a million steps in one call; with PROGRAM also how many times what its
`trace` of the same steps takes that is, both with reading and making the world. The least of N
runs, 5 if left out.
"""

import argparse
import pathlib
import subprocess
import tempfile
import time

TOP = pathlib.Path(__file__).resolve().parents[2]
STEPS = 999_999
LOOPS = """driver d
dispatch READ f
routine f dispatch
const r1 0
const r2 1
loop 1000
loop 498
add r1 r2
end
end
complete r0 SUCCESS
ret SUCCESS
endr
endd
device v d 1
"""


def built(folder):
    program = f"{folder}/measure_library"
    subprocess.run(["cc", "-O2", "-std=c11", "-D_POSIX_C_SOURCE=199309L", "-Wall", "-Wextra",
                    "-Werror", "-I", TOP / "include", TOP / "tools/parts/measure_library.c",
                    TOP / "out/lib/libpafteis.a", "-o", program], check=True)
    return program


def told(words):
    return subprocess.run(words, check=True, capture_output=True, text=True).stdout.split()


def spent(words, runs):
    """The least time of a command, in milliseconds."""
    times = []
    for _ in range(runs):
        begun = time.perf_counter()
        subprocess.run(words, check=True, stdout=subprocess.DEVNULL)
        times.append(1000 * (time.perf_counter() - begun))
    return min(times)


def main():
    words = argparse.ArgumentParser(description=__doc__.split("\n")[0])
    words.add_argument("--runs", type=int, default=5)
    words.add_argument("program", nargs="?")
    given = words.parse_args()
    with tempfile.TemporaryDirectory() as folder:
        library = built(folder)
        for name in ("echo", "queue", "serial"):
            text = TOP / f"examples/{name}.drv"
            least = min(float(told([library, "check", text])[0]) for _ in range(given.runs))
            print(f"check of examples/{name}.drv: {least:.1f} microseconds")
        loops = pathlib.Path(folder, "loops.drv")
        loops.write_text(LOOPS, encoding="utf-8")
        own = [library, "steps", loops, str(STEPS)]
        taken, made = min((float(took), int(steps)) for took, steps in
                          (told(own) for _ in range(given.runs)))
        print(f"{made:,} steps in one call: {taken / 1000:.2f} ms")
        if given.program:
            schedule = pathlib.Path(folder, "loops.sched")
            schedule.write_text(f"threads 1\nissue 0 0 READ 0\nstep 0 {STEPS}\n", encoding="utf-8")
            whole = spent(own, given.runs)
            traced = spent([given.program, "trace", loops, schedule], given.runs)
            print(f"the same from C with all around it: {whole:.1f} ms, {whole / traced:.2f} times"
                  f" what trace takes ({traced:.1f} ms)")


main()
