#!/usr/bin/env python3
"""tools/measure mends [PROGRAM] [--runs N] [--every N] [--each]: what the program (crates/drvhost/out/drvhost, if none is named)
takes to look for mends of the wrong drivers of the gallery, and of each 40th text, or Nth, that `tools/try offers` breaks in one
place. It is processor time, the least of 5 runs, or N, less the least that `version` takes: what a process costs isn't counted.
By how many tries are asked for, it prints the median for a routine with a fault, and the most that a text took; with --each
every text's. The exit status is 1 where one of them is above its bound, in milliseconds: 1 at the median, 25 with 2,000 tries,
200 with 20,000."""
import argparse, os, statistics, subprocess, sys, tempfile

from try_offers import TOP, broken, wrong

BOUNDS = {2_000: 25, 20_000: 200}
MEDIAN = 1


def spent(program, words):
    """How many milliseconds of processor time a run takes."""
    child = subprocess.Popen([program, *words], stdout=subprocess.DEVNULL, stderr=subprocess.DEVNULL)
    _, child.returncode, used = os.wait4(child.pid, 0)
    return 1000 * (used.ru_utime + used.ru_stime)


def least(program, words, runs):
    """The least of so many runs."""
    return min(spent(program, words) for _ in range(runs))


def faulty(program, path):
    """How many routines of a file have a fault."""
    done = subprocess.run([program, 'explain', '--all', path], capture_output=True, text=True, check=False)
    return sum(line.startswith('refused V') for line in done.stdout.splitlines())


def texts(program, every):
    """The texts that are mended, by name."""
    for name, _, text, _ in wrong(program):
        yield name, text
    for number, (name, kind, text, _) in enumerate(broken(program, ())):
        if number % every == 0:
            yield '%s, %s, number %d' % (name, kind, number), text


def main():
    asked = argparse.ArgumentParser()
    asked.add_argument('program', nargs='?', default=os.path.join(TOP, 'crates/drvhost/out/drvhost'))
    asked.add_argument('--runs', type=int, default=5)
    asked.add_argument('--every', type=int, default=40)
    asked.add_argument('--each', action='store_true')
    asked = asked.parse_args()
    program, start, above = os.path.abspath(asked.program), 0, False
    start = least(program, ['version'], 10 * asked.runs)
    taken = {tries: [] for tries in BOUNDS}
    with tempfile.TemporaryDirectory() as folder:
        path = os.path.join(folder, 'driver.drv')
        for name, text in texts(program, asked.every):
            with open(path, 'w', encoding='utf-8') as file:
                file.write(text)
            count = faulty(program, path)
            if count == 0:
                continue
            for tries, found in taken.items():
                took = max(0, least(program, ['mend', path, '--tries', str(tries)], asked.runs) - start)
                found.append((took, took / count, name))
            if asked.each:
                print('%-60s %d faulty,' % (name, count), ', '.join('%.2f ms' % each[-1][0] for each in taken.values()))
    for tries, found in taken.items():
        median, (most, _, name) = statistics.median(each[1] for each in found), max(found)
        print('%s tries: %d texts, %.2f ms for a routine at the median, %.1f ms at most (%s)' % (f'{tries:,}', len(found), median, most, name))
        above |= median > MEDIAN or most > BOUNDS[tries]
    sys.exit(above)


if __name__ == '__main__':
    main()
