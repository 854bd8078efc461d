#!/usr/bin/env python3
"""tools/measure gate [--family] [WORDS OF rt]: runs `rt ci` at the top of the tree (or `rt` with these words, as `must-fail asm`),
passes its output on, and prints by crate the processor seconds of the proof, of the tests and of the must-fail edits; with
--family by the first word of the crates' names, as the table of docs/GATE.md has them. It looks twice a second at the processes
that rt starts, so a figure may lack half a second. Behind that it tells how large the proofs were (`tools/measure bodies` says
of what), by crates and families, and the largest functions; what it noted stays in out/bodies.json, or in the file behind
--noted, for `tools/measure bodies --noted FILE`."""
import collections, os, re, resource, subprocess, sys, threading

from body_notes import Notes
from body_sizes import Sizes, taken, tell, without_tests
from processes import phase, processes

TOP = os.path.dirname(os.path.dirname(os.path.dirname(os.path.abspath(__file__))))
PHASES = 'proof', 'tests', 'edits'

class Watch:
    """The greatest cost that was seen of each process which rt started."""

    def __init__(self, rt):
        self.rt, self.phases, self.costs = rt, {}, collections.Counter()

    def look(self):
        all_of = processes()
        below = collections.defaultdict(list)
        for pid, (parent, _, _) in all_of.items():
            below[parent].append(pid)
        self.descend(self.rt, all_of, below)

    def descend(self, pid, all_of, below):
        for child in below[pid]:
            key = child, all_of[child][1]
            if key not in self.phases:
                self.phases[key] = phase(child)
            if self.phases[key]:
                self.costs[key] = max(self.costs[key], self.cost(child, all_of, below))
            else:
                self.descend(child, all_of, below)
                del self.phases[key]  # a process between fork and exec is looked at again

    def cost(self, pid, all_of, below):
        return all_of[pid][2] + sum(self.cost(child, all_of, below) for child in below[pid])

    def by_crate(self):
        table = collections.defaultdict(collections.Counter)
        for key, cost in self.costs.items():
            crate, what = self.phases[key]
            table[crate][what] += cost
        return table

def run(words):
    """Runs rt, and answers its exit status, what it wrote, what was seen of it, and how large its proofs were."""
    rt = subprocess.Popen(['rt', *words], cwd=TOP, stdout=subprocess.PIPE, stderr=subprocess.STDOUT, text=True, errors='replace')
    watch, notes, over = Watch(rt.pid), Notes(gate=rt.pid), threading.Event()

    def look_on():
        turn = 0
        while not over.wait(0.5):
            watch.look()
            turn += 1
            if turn % 4 == 0:
                notes.look()

    looker = threading.Thread(target=look_on)
    looker.start()
    lines = []
    for line in rt.stdout:
        lines.append(line)
        sys.stdout.write(line)
        sys.stdout.flush()
    rt.wait()
    over.set()
    looker.join()
    return rt.returncode, lines, watch, notes

def functions(lines):
    """How many functions rt says that it proved of each crate, without its tests."""
    found, crate = {}, None
    for line in lines:
        name = re.match(r'== (\w+)$', line)
        proved = re.match(r'logic=proved functions=(\d+)', line)
        if name or line.startswith('== '):
            crate = name and name[1]
        elif proved and crate:
            found[crate] = int(proved[1])
    return found

def family(crate):
    return crate.split('_')[0]

def summed(counts, name):
    """The counts of crates (numbers, or counters) by what `name` calls each."""
    sums = {}
    for crate, count in counts.items():
        sums[name(crate)] = sums[name(crate)] + count if name(crate) in sums else count
    return sums

def edits_of(crates):
    """How many must-fail edits each crate has that has some."""
    folders = {crate: os.path.join(TOP, 'crates', crate, 'must-fail') for crate in crates}
    return {crate: len(os.listdir(folder)) for crate, folder in folders.items() if os.path.isdir(folder)}

def print_table(first, table, proved, edits):
    print('\n| %s | Functions | Proof | Tests | Edits | All edits |' % first)
    print('|---|---|---|---|---|---|')
    for row in sorted(table, key=lambda it: -sum(table[it].values())):
        costs = ['%d' % round(table[row][what]) if what in table[row] else '' for what in PHASES]
        print('| `%s` | %s | %s | %s | %s | %s |' % (row, proved.get(row, ''), costs[0], costs[1], edits.get(row, ''), costs[2]))

def main():
    words = [word for word in sys.argv[1:] if word != '--family']
    noted = taken(words, '--noted') or os.path.join(TOP, 'out/bodies.json')
    status, lines, watch, notes = run(words or ['ci'])
    table, proved = watch.by_crate(), functions(lines)
    edits = edits_of(table)
    sums = [round(sum(costs[what] for costs in table.values())) for what in PHASES]
    if '--family' in sys.argv:
        print_table('Family', summed(table, family), summed(proved, family), summed(edits, family))
    else:
        print_table('Crate', table, proved, edits)
    used = resource.getrusage(resource.RUSAGE_CHILDREN)
    print('| all | %d | %d | %d | %d | %d |' % (sum(proved.values()), sums[0], sums[1], sum(edits.values()), sums[2]))
    print('%.1f processor minutes in all, of which %.1f are of no crate' % (
        (used.ru_utime + used.ru_stime) / 60, (used.ru_utime + used.ru_stime - sum(sums)) / 60))
    notes.save(noted)
    print()
    tell(Sizes(without_tests(notes.crates)))
    sys.exit(status)

if __name__ == '__main__':
    main()
