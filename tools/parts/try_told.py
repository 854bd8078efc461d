#!/usr/bin/env python3
"""tools/try told [--write | --table] [PROGRAM]: whether the program (crates/drvhost/out/drvhost, if none is named) tells and draws
the runs of the wrong drivers and of the examples as it is stored, byte for byte.

The stored runs have what `tell --every` writes of each wrong driver of the gallery (gallery.py) with its events, unchecked, and of each
example with a schedule, and the digests of the pictures that `draw` does; some pictures of examples stand in docs/pictures. An
example that is refused is run with --unchecked. Of a mended driver nothing may be amiss, and of an example that is accepted nothing
but a ring of threads where its driver takes its locks in a cycle.

docs/GALLERY.md lists the wrong drivers of whose runs nothing shows that they are wrong (exit status 0), each with the reason
why: it has to list these and no others. With --table it prints what the end of each wrong driver's told run says, with --write
it writes the texts and the pictures anew. The last line counts."""
import os, re, subprocess, sys

import gallery
from gallery import TOP
from stored_runs import difference, groups, settle as settle_files

EXAMPLES, PICTURES = (os.path.join(TOP, folder) for folder in ('examples', 'docs/pictures'))
LISTED = os.path.join(TOP, 'docs/GALLERY.md')
# The examples that are run by the schedule of another one.
BY_ONE_READ = 'echo', 'forgets', 'locked', 'pending', 'stuck', 'twice'
# Those that are accepted, and whose threads wait for each other in a ring.
RINGED = 'abba', 'cancelring'
# The stored runs with their groups, by their words.
RUNS = {tuple(run.words): (group, run) for group in groups() for run in group.runs}
AMISS = re.compile(r'lost|left behind|in a ring|returned STATUS_PENDING|stopped by')

def answer(program, *words):
    """What the program writes, and its exit status."""
    done = subprocess.run([program, *words], capture_output=True, text=True, timeout=60)
    return done.stdout + done.stderr, done.returncode

class Picture:
    """A picture that stands in a file."""

    def __init__(self, path):
        self.path = path

    def settle(self, text, _, is_written):
        return settle(self.path, text, is_written)

class Answer:
    """A stored run, by its words."""

    def __init__(self, *words):
        self.path = os.path.join(TOP, ' '.join(words))
        self.group, self.run = RUNS.get(words, (None, None))

    def settle(self, text, status, is_written):
        lines = [*text.splitlines(), 'status %d' % status]
        if self.run and not difference(self.run, lines, False):
            return True
        if self.run and is_written:
            self.run.store(lines)
            settle_files(dict([self.group.file()]), False)
        return bool(self.run) and is_written

class Run:
    """A set and a schedule, and where its told run and its picture are stored."""

    def __init__(self, name, words, told, picture):
        self.name, self.words, self.told, self.picture = name, words, told, picture

    def answers(self, program):
        """The told run and the picture, each with the exit status."""
        return answer(program, 'tell', *self.words, '--every'), answer(program, 'draw', *self.words)

    def differs(self, told, drawn, is_written):
        """The paths of the texts that are stored otherwise."""
        for stored, found in (self.told, told), (self.picture, drawn):
            if not stored.settle(*found, is_written):
                yield stored.path

def wrong_drivers():
    """The runs of the wrong drivers."""
    for folder in gallery.folders():
        words = [gallery.path(folder, 'driver.drv'), gallery.path(folder, 'events.sched'), '--unchecked']
        named = ['gallery/%s/%s' % (folder, name) for name in ('driver.drv', 'events.sched')]
        yield Run(folder, words, Answer('tell', '--unchecked', '--every', *named), Answer('draw', '--unchecked', *named))

def mended_drivers():
    """The runs of the mended ones."""
    for folder in gallery.folders():
        if gallery.is_mended(folder):
            words = [gallery.path(folder, 'mended.drv'), gallery.path(folder, 'events.sched')]
            yield Run('%s, mended' % folder, words, None, None)

def examples(program):
    """The runs of the examples, and whether each is of an accepted set."""
    for file in sorted(os.listdir(EXAMPLES)):
        name, kind = os.path.splitext(file)
        schedule = 'one-read.sched' if name in BY_ONE_READ else name + '.sched'
        if kind != '.drv' or not os.path.exists(os.path.join(EXAMPLES, schedule)):
            continue
        driver = os.path.join(EXAMPLES, file)
        accepted = answer(program, 'check', driver)[1] == 0
        picture, level = os.path.join(PICTURES, name + '.svg'), [] if accepted else ['--unchecked']
        named = ['examples/' + file, 'examples/' + schedule, *level]
        drawn = Picture(picture) if os.path.exists(picture) else Answer('draw', *named)
        yield Run(name, [driver, os.path.join(EXAMPLES, schedule), *level], Answer('tell', *named, '--every'), drawn), accepted

def settle(path, text, is_written):
    """Whether a text is stored so, or is now."""
    if os.path.exists(path) and open(path, newline='').read() == text:
        return True
    if not is_written:
        return False
    os.makedirs(os.path.dirname(path), exist_ok=True)
    with open(path, 'w', newline='') as file:
        file.write(text)
    return True

def shown_by(told):
    """What the end of a told run says that is amiss."""
    events, _, audit = told.partition('\naudit\n')
    found = [line for line in audit.splitlines() if AMISS.search(line)]
    last = events.splitlines()[-1] if events else ''
    stop = re.search(r'(bug 0x\w+|wrong)', last)
    return '; '.join(([stop[1]] if stop else []) + [line for line in found if 'stopped by' not in line]) or 'nothing'

def listed():
    """The wrong drivers that docs/GALLERY.md lists."""
    return set(re.findall(r'^\| `([\w-]+)` \|', open(LISTED).read(), re.M)) if os.path.exists(LISTED) else set()

def main():
    is_written, is_table = '--write' in sys.argv, '--table' in sys.argv
    named = [word for word in sys.argv[1:] if not word.startswith('--')]
    program = os.path.abspath(named[0]) if named else os.path.join(TOP, 'crates/drvhost/out/drvhost')
    tried, wrong, silent, shown = 0, [], set(), 0

    def compare(run):
        told, drawn = run.answers(program)
        wrong.extend('%s differs' % os.path.relpath(path, TOP) for path in run.differs(told, drawn, is_written))
        return told

    for run in wrong_drivers():
        told, status = compare(run)
        tried, shown = tried + 1, shown + status
        silent |= set() if status else {run.name}
        if is_table:
            print('| `%s` | %s |' % (run.name, shown_by(told)))
    for run, accepted in examples(program):
        told, status = compare(run)
        tried += 1
        if accepted and status != (run.name in RINGED):
            wrong.append('%s: something is amiss: %s' % (run.name, shown_by(told)))
    for run in mended_drivers():
        told, status = answer(program, 'tell', *run.words)
        tried += 1
        if status:
            wrong.append('%s: something is amiss: %s' % (run.name, shown_by(told)))
    for name in sorted(silent ^ listed()):
        wrong.append('%s: docs/GALLERY.md %s' % (name, 'lists it' if name in listed() else "doesn't list it"))
    for line in wrong:
        print(line)
    print('%d told runs, %d wrong; of %d wrong drivers the run shows it, of %d it doesn\'t'
          % (tried, len(wrong), shown, len(silent)))
    return 1 if wrong else 0

sys.exit(main())
