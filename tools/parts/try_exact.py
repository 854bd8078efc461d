#!/usr/bin/env python3
"""tools/try exact [--seed N] [--sets N] [--states N] [PROGRAM]: hunts with and without `--exact`, on 2 threads and with 2 packets, in
each wrong driver of the gallery, each mended one, each example, and N random sets (3,000, if no number is given), of which two in
three have lost a line and are mostly refused; at most N worlds each (3,000, if no number is given).

Without `--exact` packets are bounded that live at once, with it those that are issued in all: so a find of the former is looked for
by the latter only where its run issues no more than 2 packets, and then both runs have the same number of events, unless one
search stopped before, or the find is a status that disagrees with its mark, for which `--exact` doesn't look. A find of the latter
is always one of the former, and that one is no longer. Where one search has found none
in runs of up to so many events, the other hasn't found a shorter one within its bounds. What is found by `--exact` ends as its first
line tells, by `tell --unchecked`, with exit status 1. The last line counts."""
import argparse, glob, os, random, re, subprocess, sys, tempfile

import finds
import gallery
import try_orders

PACKETS = 2

def answer(program, *words):
    done = subprocess.run([program, *words], capture_output=True, text=True, errors='replace', timeout=600)
    return done.stdout, done.returncode

class Hunt:
    """What comes of a hunt: the events of the run that is found, and the packets that it issues; or up to how many events there is none
    (of any number where all worlds were seen)."""

    def __init__(self, program, path, states, *more):
        self.text, self.status = answer(program, 'hunt', '--states', str(states), *more, path)
        self.length, self.issued, self.fine = None, 0, None
        self.finding = self.text.partition('\n')[0].removeprefix('; ')
        if self.status == 1:
            lines = [line.partition(';')[0].split() for line in self.text.splitlines()]
            events = [words for words in lines if words and words[0] != 'threads']
            self.length = sum(int(words[2]) if words[0] == 'step' and len(words) > 2 else 1 for words in events)
            self.issued = sum(words[0] == 'issue' for words in events)
        elif self.status == 0:
            bound = re.match(r'none in runs of up to (\d+) events', self.text)
            self.fine = int(bound.group(1)) if bound else float('inf')

def wrong(quick, exact):
    """What two hunts say otherwise, or None."""
    for hunt in quick, exact:
        if hunt.status not in (0, 1):
            return 'exit status %d' % hunt.status
    if exact.length is not None and exact.issued > PACKETS:
        return 'the exact hunt issues %d packets' % exact.issued
    if exact.length is not None:
        if quick.length is None:
            return 'found by --exact alone' if quick.fine >= exact.length else None
        if quick.length > exact.length:
            return '%d events, and %d by --exact' % (quick.length, exact.length)
    if quick.length is not None and quick.issued <= PACKETS and not finds.is_disagreement(quick.finding):
        if exact.length is None:
            return 'not found by --exact' if exact.fine >= quick.length else None
        if exact.length > quick.length:
            return '%d events by --exact, and %d' % (exact.length, quick.length)
    return None

def ends(program, path, hunt):
    """Whether the run that is found ends amiss, as its first line tells."""
    with tempfile.NamedTemporaryFile('w', suffix='.sched') as file:
        file.write(hunt.text)
        file.flush()
        told, status = answer(program, 'tell', '--unchecked', '--every', path, file.name)
    return status == 1 and finds.is_shown(hunt.finding, told)

def random_set(rng):
    """A random set, mostly with a line left out."""
    drivers, lines = [], []
    for name in ('one', 'two')[:rng.randrange(1, 3)]:
        drivers.append(try_orders.Driver(rng, name, len(lines)))
        lines += drivers[-1].lines
    code = [place for place, line in enumerate(lines) if line.split()[0] in ('acquire', 'release', 'acqc', 'relc', 'complete', 'clear')]
    if rng.random() < 2 / 3:
        del lines[rng.choice(code)]
    lines += ['device d%d %s 1' % (n, driver.name) for n, driver in enumerate(drivers)]
    return '\n'.join(lines) + '\n'

def main():
    parser = argparse.ArgumentParser(description=__doc__, formatter_class=argparse.RawDescriptionHelpFormatter)
    parser.add_argument('--seed', type=int, default=1)
    parser.add_argument('--sets', type=int, default=3000)
    parser.add_argument('--states', type=int, default=3000)
    parser.add_argument('program', nargs='?', default=os.path.join(gallery.TOP, 'crates/drvhost/out/drvhost'))
    options = parser.parse_args()
    program, rng = os.path.abspath(options.program), random.Random(options.seed)
    counts = {'sets': 0, 'found by both': 0, 'all seen by both': 0, 'wrong': 0}

    def compare(path, name):
        quick, exact = Hunt(program, path, options.states), Hunt(program, path, options.states, '--exact')
        told = wrong(quick, exact)
        if exact.status == 1 and not told and not ends(program, path, exact):
            told = 'its run does not end as told: ' + exact.finding
        counts['sets'] += 1
        counts['found by both'] += quick.length is not None and quick.length == exact.length
        counts['all seen by both'] += quick.fine == exact.fine == float('inf')
        if told:
            counts['wrong'] += 1
            print('%s: %s' % (name, told))

    for folder in gallery.folders():
        compare(gallery.path(folder, 'driver.drv'), folder)
        if gallery.is_mended(folder):
            compare(gallery.path(folder, 'mended.drv'), folder + ', mended')
    for path in sorted(glob.glob(os.path.join(gallery.TOP, 'examples/*.drv'))):
        compare(path, os.path.basename(path))
    with tempfile.TemporaryDirectory() as folder:
        path = os.path.join(folder, 'set.drv')
        for number in range(options.sets):
            text = random_set(rng)
            open(path, 'w').write(text)
            compare(path, 'set %d\n%s' % (number, text))
    print(', '.join('%d %s' % (count, word) for word, count in counts.items()))
    return 1 if counts['wrong'] else 0

if __name__ == '__main__':
    sys.exit(main())
