#!/usr/bin/env python3
"""tools/try random-pictures [--seed N] [--runs N] [--rows N] [PROGRAM]: random runs (500, if no number is given) of the sets in
examples, gallery and stored runs, the refused ones among them, drawn by the program (crates/drvhost/out/drvhost, if
none is named).

A picture is read as it is seen: the lanes by their names and sides, the rows by their numbers, each packet's line from the number
beside it on, the bars with the names of locks, the boxes of threads and of waits, the bars of DPCs, and the rows that say that
others come again. At 25 rows of each run, or as many as are asked for, the line of each packet has to stand in the lane of its
holder, as `tell` has it of the run up to that event: of an accepted set the place that holds it by right, of others the first place
that it lists; and no line stands there where no packet lives. Of an accepted set that is so at each event before such a row too,
where the lines stand as in the row before. Bars and boxes are compared with the machine of tools/parts/second_machine.py, which makes
the same steps. The numbers of rows and of folded events add up, and where rows come again, that machine has the same in its lists,
slots, words and locks behind them as before, and the told lines of the rows that they repeat are among those of the folded events as
often as is said. With --keep FOLDER what was found wrong is written there. The last line counts."""
import argparse, os, random, re, sys, tempfile, xml.etree.ElementTree as ElementTree

from second_machine import CANCEL_LOCK, World, read_set, value_of
from try_pictures import SPACE, faults_of
from try_random_told import TOP, answer, schedule, sets_for
from try_told_changes import events_of, moved

HOLDS = 'routine', 'manager', 'queue', 'start', 'slot', 'nobody'
LIVE = re.compile(r'packet (\d+) is live at location \d+(?:; location \d+ of \S+ is (?:un)?marked)*(.*)')
PLACES = [(re.compile(form), lane) for form, lane in (
    (r'in r\d+ of frame \d+ of thread (\d+)', 'thread %s'),
    (r'(?:while it is )?completed on thread (\d+)', 'thread %s'),
    (r'in queue (\S+)', '%s'),
    (r'in the start list of (\S+)', '%s start list'),
    (r"in the device queue of (\S+)|(?:by its cancel word|its cancel routine is set), of (\S+)'s device queue", '%s device queue'),
    (r'in the current slot of (\S+)', '%s slot'),
    (r'(?:by its cancel word|its cancel routine is set), of (\S+)', '%s'))]

def lane_of(place):
    """The lane of a place, as an audit has it."""
    for form, lane in PLACES:
        found = form.fullmatch(place)
        if found:
            return lane % next(filter(None, found.groups()))
    raise ValueError(place)

def holders(audit):
    """The lanes of the live packets, by their numbers: of the place that holds each, or of the first one that names it."""
    found = {}
    for match in filter(None, map(LIVE.fullmatch, audit.splitlines())):
        packet, places = match.groups()
        listed = places.split('; ')[1:]
        held = [place[len('held '):] for place in listed if place.startswith('held ')]
        found[int(packet)] = lane_of((held or listed)[0]) if listed else 'nobody'
    return found

class Row:
    """A row: the height at which its signs stand, the number of its event (none, where it says that others come again), and how
    many events are folded there."""

    def __init__(self, y, number, repeat=None):
        self.y, self.number, self.repeat, self.folded = y, number, repeat, 0

class Picture:
    """What is seen in a picture."""

    def __init__(self, text):
        self.lanes, self.rows, self.starts, self.segments = [], [], {}, {}
        self.names, self.bars, self.boxes, self.end, self.behind = {}, [], [], None, 0
        self.folds, side, name = {}, None, None
        for element in ElementTree.fromstring(text.encode()).iter():
            kind, tag = element.get('class') or '', element.tag[len(SPACE):]
            if tag == 'text' and element.get('transform'):
                name = element.text
            elif tag == 'path' and kind == 'side':
                x = int(re.match(r'M(\d+)', element.get('d'))[1])
                if side is not None:
                    self.lanes.append((name, side, x))
                side = x if side is None else None
            elif tag == 'path' and kind in HOLDS:
                self.note_line(kind, element.get('d'))
            elif tag == 'rect':
                self.note_box(kind, *(int(element.get(word)) for word in ('x', 'y', 'width', 'height')))
            elif tag == 'text':
                self.note_words(kind, int(element.get('x')), int(element.get('y')), element.text or '')
        self.rows.sort(key=lambda row: row.y)
        for row in self.rows:
            row.folded = self.folds.get(row.y, 0)

    def note_line(self, kind, path):
        x, y, right, end = map(int, re.fullmatch(r'M(\d+) (\d+)L(\d+) (\d+)', path).groups())
        if x == right:
            self.segments[x, y] = max(end, self.segments.get((x, y), 0))

    def note_box(self, kind, x, y, width, height):
        if kind == 'queued' and height == 18 and width > 100:
            self.end = y
        elif kind in ('owns', 'busy', 'queued', 'waits'):
            self.boxes.append((kind, x, y, y + height))

    def note_words(self, kind, x, y, words):
        again = re.fullmatch(r'\.\. the same (row|(\d+) rows) (\d+) times more', words)
        if kind == 'end':
            self.rows.append(Row(y - 4, int(words)))
        elif kind == 'small' and again:
            self.rows.append(Row(y - 4, None, (int(again[2] or 1), int(again[3]))))
        elif kind == 'fold':
            self.folds[y + 4] = int(words[1:])
        elif kind == 'packet':
            self.starts.setdefault(int(words), []).append((y - 10, x - 5))
        elif kind == 'lock':
            self.names[y - 3, self.lane_at(x)] = words
        elif words.startswith('+'):
            self.behind = int(re.match(r'\+(\d+) events are folded behind', words)[1])

    def lane_at(self, x):
        return next(name for name, left, right in self.lanes if left <= x < right)

    def end_of(self, x, y):
        """Where the line ends that begins at a point: it goes on where its look alone changes."""
        numbered = {(x, y) for starts in self.starts.values() for y, x in starts}
        while (x, y) in self.segments:
            y = self.segments[x, y]
            if (x, y) in numbered:
                break
        return y

    def lines_at(self, y):
        """The lanes of the packets that have a line at a height, by their numbers."""
        found = {}
        for packet, starts in self.starts.items():
            begun = [start for start in starts if start[0] <= y]
            if begun and self.end_of(max(begun)[1], max(begun)[0]) > y:
                found[packet] = self.lane_at(max(begun)[1])
        return found

    def lasting_at(self, y):
        """What lasts at a height: the threads with frames, those that wait, the owners of locks, and devices with a queued DPC."""
        found = set()
        for kind, x, top, end in self.boxes:
            if top <= y < end:
                lane = self.lane_at(x)
                found.add((kind, lane, self.names[top, lane] if kind == 'owns' else None))
        return found

def lasting_in(world, waiting):
    """The same of a world, in which some threads wait."""
    found = {('busy', 'thread %d' % thread, None) for thread, stack in enumerate(world.stacks) if stack}
    found.update(('waits', 'thread %d' % thread, None) for thread in waiting)
    for key, value in world.shared.items():
        if value is not None and isinstance(key, str):
            found.add(('owns', 'thread %d' % value, 'cancel lock' if key == CANCEL_LOCK else key))
        elif value and key[1] == 'dpc':
            found.add(('queued', 'v%d' % key[0], None))
    return found

class Run:
    """A run of a set by a schedule, with its files."""

    def __init__(self, program, folder, listing, text):
        self.program, self.listing, self.text = program, listing, text
        self.set, self.by = os.path.join(folder, 'set.drv'), os.path.join(folder, 'events.sched')
        self.events = list(events_of(text))
        self.write(self.set, listing)
        self.write(self.by, text)
        told = answer(program, 'tell', self.set, self.by, '--unchecked', '--every')[0].partition('\naudit\n')[0]
        self.told = [' '.join(line.split()[1:]) for line in told.splitlines()]

    def write(self, path, content):
        with open(path, 'w') as out:
            out.write(content)

    def tell(self, count):
        """The audit of the first events."""
        cut = self.by + '.cut'
        self.write(cut, '\n'.join([self.text.split('\n')[0], *map(' '.join, self.events[:count])]) + '\n')
        return answer(self.program, 'tell', self.set, cut, '--unchecked')[0].partition('\naudit\n')[2]

    def worlds(self):
        """The machine behind each event, one after another, by the replies."""
        world = World(read_set(self.listing), value_of(self.text.split()[1]))
        self.waiting = set()
        for line, words in zip(self.told, self.events):
            if words[0] != 'interrupt':
                self.waiting.discard(value_of(words[1]))
            if line.startswith('waited'):
                self.waiting.add(value_of(words[1]))
            if line.split()[0] not in ('waited', 'idle', 'refused', 'bug', 'wrong'):
                world.step(value_of(words[1])) if words[0] == 'step' else world.begin(*words)
            yield world

def comes_again(told, passed, repeat, first, last):
    """Whether of the told lines that are folded those of the block of rows before them are there as often as is said, but for
    those that are folded themselves where they come again: turns of a wait and of a completion."""
    rows, times = repeat
    block = passed[-rows:]
    if len(block) != rows or None in block:
        return len(block) == rows
    lines = [told[number] for number in block]
    counted = [line for line in lines if not re.match('waited|.* IoCompleteRequest ', line)]
    return all(told[first:last].count(line) == times * lines.count(line) for line in counted)

def faults_in(run, picture, is_accepted, counts, chosen):
    """What is wrong with a picture of a run, in which the holders are compared at the rows that were chosen."""
    worlds, lines, passed = run.worlds(), {}, []
    facts, last = [World(read_set(run.listing), value_of(run.text.split()[1])).facts()], -1
    for row in picture.rows:
        first, last = last, last + row.folded + (row.number is not None)
        if row.number not in (None, last):
            yield 'event %d stands where event %d should' % (row.number, last)
            return
        for _ in range(last - first):
            world = next(worlds)
            facts.append(world.facts())
        if picture.end and row.y > picture.end:
            return
        if row in chosen:
            if is_accepted and row.folded and row.repeat is None and holders(run.tell(last)) != lines:
                yield 'before event %d: lines %s, where others hold' % (last, lines)
            held = holders(run.tell(last + 1))
            counts['rows'] += 1
            counts['lines'] += len(held)
            if picture.lines_at(row.y) != held:
                yield 'at event %d: lines %s, where %s hold' % (last, picture.lines_at(row.y), held)
        lines = picture.lines_at(row.y)
        strange = picture.lasting_at(row.y) ^ lasting_in(world, run.waiting)
        if strange:
            yield 'at event %d: lasts %s' % (last, sorted(map(str, strange)))
        if row.repeat:
            counts['repeats'] += 1
            if facts[first + 1] != facts[last + 1]:
                yield 'what comes again up to event %d changes something' % last
            if not comes_again(run.told, passed, row.repeat, first + 1, last + 1):
                yield 'what comes again up to event %d is not as before' % last
        passed.append(None if row.repeat else last)
    if not picture.end and last + 1 + picture.behind != len(list(run.told)):
        yield '%d events are drawn or folded' % (last + 1 + picture.behind)

def main():
    parser = argparse.ArgumentParser(description=__doc__.split(':')[0])
    parser.add_argument('--seed', type=int, default=1)
    parser.add_argument('--runs', type=int, default=500)
    parser.add_argument('--rows', type=int, default=25)
    parser.add_argument('--keep')
    parser.add_argument('program', nargs='?', default=os.path.join(TOP, 'crates/drvhost/out/drvhost'))
    given = parser.parse_args()
    program, rng, wrong = os.path.abspath(given.program), random.Random(given.seed), 0
    sets, counts, crowded = sets_for(program, 'list'), {'rows': 0, 'lines': 0, 'repeats': 0}, 0
    with tempfile.TemporaryDirectory() as folder:
        for number in range(given.runs):
            path, devices = rng.choice(sets)
            text = (moved(rng, path) if rng.random() < 0.5 else None) or schedule(rng, max(devices, 1))
            run = Run(program, folder, answer(program, 'list', path)[0], text)
            drawn = answer(program, 'draw', run.set, run.by, '--unchecked')[0]
            if 'all further packets share the last' in drawn:
                crowded += 1
                continue
            run.write(run.by + '.svg', drawn)
            is_accepted = answer(program, 'check', run.set)[1] == 0
            picture = Picture(drawn)
            chosen = rng.sample(picture.rows, min(given.rows, len(picture.rows)))
            faults = [*faults_in(run, picture, is_accepted, counts, chosen), *faults_of(run.by + '.svg')]
            if faults:
                wrong += 1
                print('%s, run %d: %s' % (os.path.relpath(path, TOP), number, '; '.join(faults[:3])))
                for file, content in (('drv', run.listing), ('sched', text), ('svg', drawn)) if given.keep else ():
                    run.write('%s/%d.%s' % (given.keep, number, file), content)
    print('%d runs on %d sets, %d rows with %d lines, %d of them that others come again, %d runs left out since packets share a '
          'line, %d wrong' % (given.runs, len(sets), counts['rows'], counts['lines'], counts['repeats'], crowded, wrong))
    return 1 if wrong else 0

if __name__ == '__main__':
    sys.exit(main())
