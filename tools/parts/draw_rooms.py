#!/usr/bin/env python3
"""tools/keep rooms [--check]: draws docs/rooms.svg from crates.txt: each family of crates as a
room, each crate on the floor that the crates below it leave: above all that it stands on. A line
leads down to a crate that it stands on, but for those that others of its lines lead to. With
--check it tells whether the file is what would be drawn, by its exit status."""
import os, sys
from html import escape

TOP = os.path.dirname(os.path.dirname(os.path.dirname(os.path.abspath(__file__))))
DRAWN = os.path.join(TOP, 'docs', 'rooms.svg')

# The rooms from left to right, each with its crates' names or how they begin, and what happens there.
ROOMS = [
    ('model', 'what is spoken of', ('model',)),
    ('laws', 'laws of runs', ('laws_',)),
    ('text', 'texts and images', ('text', 'words', 'driver_', 'image', 'asm')),
    ('verifier', 'verdicts', ('absstate', 'verifier')),
    ('packets', 'packets, queues, locks', ('irp', 'devqueue', 'iomgr', 'irql_locks')),
    ('checked', 'runs any set', ('checked',)),
    ('machine', 'runs accepted sets', ('machine',)),
    ('interleave', 'schedules, scripts', ('interleave',)),
    ('workers', 'threads over one core', ('hostcore', 'intake', 'workers')),
    ('tell', 'runs in words', ('tell_',)),
    ('draw', 'pictures', ('draw_',)),
    ('hunt', 'runs that end amiss', ('hunt_',)),
    ('mend', 'edits of a refused text', ('mend_',)),
    ('scenario', 'what a run is to show', ('scenario_',)),
    ('drvhost', 'the program', ('report', 'answer', 'cli', 'drvhost')),
    ('pafteis', 'the library for C', ('pafteis',)),
    ('tests', 'tests, an example', ('tests_', 'example_')),
]
WIDE, HIGH, GAP, LEFT, HEAD = 122, 24, 14, 40, 58
COLORS = '#e8eef7 #f3ecd9 #e6f2e6 #f7e8e8 #efe6f5 #e3f1f4'.split()

def listed():
    """The crates of crates.txt, each with those of them that it lists."""
    lines = [line.partition('#')[0].split(':') for line in open(os.path.join(TOP, 'crates.txt'))]
    below = {line[0].split()[0]: line[1].split() for line in lines if len(line) == 2}
    return {name: [it for it in names if it in below] for name, names in below.items()}

def reached(name, below):
    """All that a crate stands on."""
    found = set(below[name])
    for it in below[name]:
        found |= reached(it, below)
    return found

def floors(below):
    """The floor of each crate: 0 stands on none."""
    found = {}
    for name in below:
        found[name] = 1 + max((found[it] for it in below[name]), default=-1)
    return found

def room_of(name):
    """The number of a crate's room."""
    for number, (_, _, begins) in enumerate(ROOMS):
        if any(name == it or (it.endswith('_') and name.startswith(it)) or name.startswith(it + '_') for it in begins):
            return number
    sys.exit('no room for the crate ' + name)

def placed(below):
    """Of each crate where its box begins, and how wide and how high the house is. Crates of a floor of a room stand side by side."""
    floor_of = floors(below)
    in_cell, widths = {}, [1] * len(ROOMS)
    for name in below:
        cell = in_cell.setdefault((room_of(name), floor_of[name]), [])
        cell.append(name)
        widths[room_of(name)] = max(widths[room_of(name)], len(cell))
    starts = [LEFT]
    for width in widths:
        starts.append(starts[-1] + width * (WIDE + GAP) + GAP)
    top = max(floor_of.values())
    places = {}
    for (room, floor), names in in_cell.items():
        for number, name in enumerate(names):
            places[name] = (starts[room] + GAP + number * (WIDE + GAP), HEAD + (top - floor) * (HIGH + GAP * 2))
    return places, starts, HEAD + (top + 1) * (HIGH + GAP * 2) + GAP

def lines_of(below, places):
    """The lines from crates down to those that they stand on, but for those that another line leads to."""
    for name, names in below.items():
        behind = set().union(*(reached(it, below) for it in names)) if names else set()
        for it in names:
            if it not in behind:
                (x, y), (u, v) = places[name], places[it]
                middle = (y + HIGH + v) / 2
                yield 'M%d %dC%d %d %d %d %d %d' % (x + WIDE / 2, y + HIGH, x + WIDE / 2, middle, u + WIDE / 2, middle, u + WIDE / 2, v)

def drawing():
    below = listed()
    places, starts, high = placed(below)
    wide = starts[-1] + LEFT
    parts = ['<svg xmlns="http://www.w3.org/2000/svg" width="%d" height="%d" viewBox="0 0 %d %d" font-family="sans-serif" font-size="12">' % (wide, high, wide, high),
             '<title>The crates: families as rooms, what stands on what from the top down</title>',
             '<rect width="100%" height="100%" fill="#ffffff"/>']
    for number, (name, what, _) in enumerate(ROOMS):
        x, width = starts[number], starts[number + 1] - starts[number]
        parts.append('<rect x="%d" y="6" width="%d" height="%d" fill="%s"/>' % (x, width - 4, high - 12, COLORS[number % len(COLORS)]))
        parts.append('<text x="%d" y="26" font-weight="bold">%s</text>' % (x + 8, escape(name)))
        parts.append('<text x="%d" y="42" font-size="10" fill="#444">%s</text>' % (x + 8, escape(what)))
    parts += ['<path d="%s" fill="none" stroke="#7a8699" stroke-width="0.8" opacity="0.6"/>' % line for line in lines_of(below, places)]
    for name, (x, y) in places.items():
        parts.append('<rect x="%d" y="%d" width="%d" height="%d" rx="3" fill="#ffffff" stroke="#334"/>' % (x, y, WIDE, HIGH))
        parts.append('<text x="%d" y="%d" text-anchor="middle">%s</text>' % (x + WIDE / 2, y + 16, escape(name)))
    return '\n'.join(parts + ['</svg>', ''])

def main():
    text = drawing()
    if '--check' in sys.argv:
        same = os.path.isfile(DRAWN) and open(DRAWN).read() == text
        print('docs/rooms.svg is as crates.txt has it' if same else 'docs/rooms.svg is not what crates.txt has')
        return not same
    open(DRAWN, 'w').write(text)

sys.exit(main())
