#!/usr/bin/env python3
"""tools/measure scenarios [--runs N] [PROGRAM]: how long `test` takes for a scenario, beside `trace` of
the schedule that `schedule` writes of it (crates/drvhost/out/drvhost, if no program is named): of both
the least of N times (9 if left out) in milliseconds, each writing to /dev/null, and their ratio."""
import argparse, os, subprocess, sys, tempfile, time

import measure
from versions import TOP

def through_a_queue(requests):
    """Requests that a DPC routine completes, each with what is expected of it."""
    text, _, _ = measure.through_a_queue()
    lines = ['threads 2']
    for number in range(requests):
        name = 'p%d' % number
        lines += [name + ' = issue 0 v READ 0', 'run 0', 'interrupt v', 'dpc 1 v', 'run 1',
                  'expect %s topped SUCCESS' % name]
    return text, lines

LOOPS = ['loop 255', 'loop 255', 'clear r1', 'end', 'end']
CELLS = ['const r1 5', 'loop 255', 'loop 100', 'store c0 r1', 'load r1 c0', 'end', 'end']
DONE = ['complete r0 SUCCESS', 'ret SUCCESS']

def waiting():
    """Two threads of 64 that go on, where the others wait for a lock that one of them owns."""
    done = [*DONE, 'endr']
    text = ['driver d', 'dispatch READ f', 'dispatch WRITE g', 'dispatch CONTROL h',
            'routine f dispatch', 'acquire l0', *LOOPS, 'release l0', *done,
            'routine g dispatch', *LOOPS, *done,
            'routine h dispatch', 'acquire l0', 'release l0', *done, 'endd', 'device v d 1']
    lines = ['threads 64', 'a = issue 0 v READ 0', 'step 0']
    for thread in range(2, 64):
        lines += ['p%d = issue %d v CONTROL 0' % (thread, thread), 'run %d' % thread]
    return text, [*lines, 'b = issue 1 v WRITE 0', 'run all']

def cases():
    loops = measure.one_routine([*LOOPS, *DONE])
    runs = ['threads 1', 'a = issue 0 v READ 0', 'run 0', 'expect a topped SUCCESS']
    yield 'steps of loops', loops, runs
    yield 'the same, and its audit', loops, [*runs, 'expect clean']
    yield 'the same, and a hundred audits', loops, [*runs, *['expect clean'] * 100]
    issued = runs[:2]
    yield 'the same, up to an instruction behind them', loops, [*issued, 'run 0 until line %d' % (loops.index('end') + 3), 'run 0']
    yield 'the same, all threads of one in turn', loops, [*issued, 'run all']
    both = ['threads 2', issued[1], 'b = issue 1 v READ 0']
    yield 'the same, all threads of two in turn', loops, [*both, 'run all']
    apart = ['threads 64', issued[1], 'b = issue 63 v READ 0']
    yield 'the same, all threads of 64, of which two go on', loops, [*apart, 'run all']
    yield 'the same, all threads of 64, of which two go on and the others wait', *waiting()
    locked = measure.one_routine(['acquire l0', *LOOPS, 'release l0', *DONE])
    yield 'the same under a lock, up to its release', locked, [*issued, 'run 0 until release l0', 'run 0']
    yield 'the same, all threads of two, of which one waits', locked, [*both, 'step 0', 'run 1', 'run all']
    yield 'loads and stores of cells, all threads of one in turn', measure.one_routine([*CELLS, *DONE]), [*issued, 'run all']
    yield '1,000 requests through a queue', *through_a_queue(1_000)
    text, lines = through_a_queue(1_000)
    yield 'the same, all threads in turn', text, ['run all' if line.startswith('run') else line for line in lines]
    yield '10,000 requests through a queue', *through_a_queue(10_000)

def written(folder, name, lines):
    path = os.path.join(folder, name)
    with open(path, 'w') as file:
        file.write('\n'.join(lines) + '\n')
    return path

def least(runs, *words):
    times = []
    for _ in range(runs):
        start = time.perf_counter()
        subprocess.run(words, stdout=subprocess.DEVNULL, check=True)
        times.append(time.perf_counter() - start)
    return min(times) * 1000

def main():
    parser = argparse.ArgumentParser(description=__doc__)
    parser.add_argument('--runs', type=int, default=9)
    parser.add_argument('program', nargs='?', default=os.path.join(TOP, 'crates/drvhost/out/drvhost'))
    given = parser.parse_args()
    with tempfile.TemporaryDirectory() as folder:
        for name, text, lines in cases():
            driver, scenario = written(folder, 'a.drv', text), written(folder, 'a.scenario', lines)
            asked = [given.program, 'schedule', driver, scenario]
            listed = subprocess.run(asked, stdout=subprocess.PIPE, check=True, text=True)
            schedule = written(folder, 'a.sched', listed.stdout.splitlines())
            test = least(given.runs, given.program, 'test', driver, scenario)
            trace = least(given.runs, given.program, 'trace', driver, schedule)
            print('%s: test %.1f ms, trace %.1f ms, %.2f' % (name, test, trace, test / trace))

main()
