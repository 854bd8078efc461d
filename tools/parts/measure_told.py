#!/usr/bin/env python3
"""tools/measure told [--runs N] [--only WORD] [PROGRAM]: what the program (crates/drvhost/out/drvhost, if none is named) takes
for runs in JSON, told and drawn, in times of what it takes to trace the same events, each writing to /dev/null, in turn: the least of
N (7 if left out). A table as docs/PERFORMANCE.md has it, of the rows of tools/measure program that trace events. With --only the
rows whose names have this word."""
import argparse, os, sys, tempfile

from measure import cases, spent, written

TOP = os.path.dirname(os.path.dirname(os.path.dirname(os.path.abspath(__file__))))
WAYS = ['trace'], ['trace', '--format', 'json'], ['tell', '--quiet'], ['tell'], ['tell', '--every'], ['draw']

def least(program, files, runs):
    """The least times of the ways of running these files."""
    words = [[way[0], *files, *way[1:]] for way in WAYS]
    taken = [[spent(program, its) for its in words] for _ in range(runs)]
    return [min(times) for times in zip(*taken)]

def main():
    asked = argparse.ArgumentParser()
    asked.add_argument('--runs', type=int, default=7)
    asked.add_argument('--only', default='')
    asked.add_argument('program', nargs='?', default=os.path.join(TOP, 'crates/drvhost/out/drvhost'))
    asked = asked.parse_args()
    print('| Events | `trace` | in JSON | `tell --quiet` | `tell` | `tell --every` | `draw` |\n|---|---|---|---|---|---|---|')
    with tempfile.TemporaryDirectory() as folder:
        for name, command, text, schedule in cases():
            if command != 'trace' or asked.only not in name:
                continue
            files = [written(folder, 'set.drv', text), written(folder, 'events.sched', schedule)]
            trace, *others = least(asked.program, files, asked.runs)
            ratios = ' | '.join('%.1f' % (other / trace) for other in others)
            print('| %s | %.1f ms | %s |' % (name.removeprefix('trace of '), trace * 1000, ratios), flush=True)

if __name__ == '__main__':
    main()
