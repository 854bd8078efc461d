#!/usr/bin/env python3
"""tools/measure hunts [--states N] [--stuck] [PROGRAM]: what the program (crates/drvhost/out/drvhost,
if none is named) takes for a hunt in each example: a table of what it answers, time, worlds a
second, the most memory, and how many bytes a world takes beyond what the smallest hunt has, at most
N worlds (200,000 if no number is given). Of finds no worlds are known, and bytes are told where
there are 10,000 worlds or more."""
import argparse, glob, os, re, subprocess, sys, time

TOP = os.path.dirname(os.path.dirname(os.path.dirname(os.path.abspath(__file__))))

MANY = 10_000

def high_water(process):
    """The most memory that a running process has had, in KB, or 0 where it has ended."""
    try:
        with open('/proc/%d/status' % process) as status:
            found = re.search(r'^VmHWM:\s+(\d+)', status.read(), re.M)
    except OSError:
        return 0
    return int(found.group(1)) if found else 0

def hunted(words):
    """What a hunt writes, the seconds that it takes, and the most memory that it has, in KB."""
    began, most = time.monotonic(), 0
    pipes = {'stdout': subprocess.PIPE, 'stderr': subprocess.DEVNULL}
    with subprocess.Popen(words, text=True, **pipes) as running:
        while running.poll() is None:
            most = max(most, high_water(running.pid))
            time.sleep(0.001)
        seconds = time.monotonic() - began
        return running.stdout.read(), seconds, most

def row(path, told, seconds, most, least):
    """The table's line of a hunt in the set of a file; the smallest hunt has so many KB."""
    worlds = re.search(r'(\d+) worlds', told)
    count = int(worlds.group(1)) if worlds else 0
    speed = '%d' % (count / seconds) if count else ''
    size = '%d' % ((most - least) * 1024 / count) if count >= MANY else ''
    name, answer = os.path.basename(path)[:-4], told.partition('\n')[0].lstrip('; ')
    return '| `%s` | %s | %.2f | %s | %.1f | %s |' % (name, answer, seconds, speed, most / 1024, size)

def main():
    asked = argparse.ArgumentParser()
    asked.add_argument('--states', type=int, default=200000)
    asked.add_argument('--stuck', action='store_true')
    built = os.path.join(TOP, 'crates/drvhost/out/drvhost')
    asked.add_argument('program', nargs='?', default=built)
    asked = asked.parse_args()
    words = [asked.program, 'hunt', '--states', str(asked.states)] + ['--stuck'] * asked.stuck
    paths = sorted(glob.glob(os.path.join(TOP, 'examples/*.drv')))
    found = [(path, *hunted([*words, path])) for path in paths]
    least = min(most for *_, most in found if most)
    print('| Set | Answer | Seconds | Worlds a second | MB | Bytes a world |')
    print('|---|---|---|---|---|---|')
    for one in found:
        print(row(*one, least))

if __name__ == '__main__':
    sys.exit(main())
