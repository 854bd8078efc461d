#!/usr/bin/env python3
"""tools/measure bodies [CRATE ..] [--above | --all] [--times] [--tests] [--beside FOLDER | --noted FILE] | --note FILE: how large the proofs of functions are.

What the proof of a function costs goes by its flow graph (`Lts`), which grows with each exit, above all with `?` where values
are owned; none is to be above 2.5 MB (docs/GATE.md). The sizes are those of the modules that `rt check` leaves in a crate's
folder, so they don't depend on how busy a machine is. It prints the thirty largest functions with what it took to write them,
in MB: `Lts`, `Proof`, and `Tie`, which ties both together; with --above those above the rule alone, with --all each one; and
the sums by crates and by families (the first word of a crate's name). Without a name it takes all crates that were checked.

With --times it tells too how long after the module before it each module of a function appeared, summed, in seconds: a
`static` of long texts has a small graph, and is dear all the same. That holds of one check from nothing by one job, with
little beside it. With --beside it sets the `Lts` of another clone, as before a change, beside these, of the crates that both
have.

`rt ci` leaves no such modules. With --note it notes them into a file, beside what that file has, while `rt ci` runs, until
none has run for ten minutes or it is ended itself; with --noted it reads that file, or out/bodies.json, which `tools/measure
gate` writes. What stood for less than two seconds isn't in it; what is of tests is read with --tests alone."""
import json, os, sys

from beliefs import TOP, listed
from body_notes import KINDS, kept, note_until_over, seconds

MOST, RULE = 30, 2_500_000
FLAGS = '--above', '--all', '--times', '--tests'

def family(crate):
    return crate.split('_')[0]

def megabytes(size):
    return '%8.2f' % (size / 1e6)

class Sizes:
    """The bytes of functions by crates: {crate: {function: {kind: bytes}}}."""

    def __init__(self, noted):
        self.crates = {crate: {name: {kind: it[0] for kind, it in one.items()} for name, one in functions.items()}
                       for crate, functions in noted.items() if functions}

    def all(self):
        """Each function with its crate, the largest graph first."""
        found = [(crate, name, one) for crate, functions in self.crates.items() for name, one in functions.items()]
        return sorted(found, key=lambda it: (-it[2].get('Lts', 0), it[0], it[1]))

    def sums(self, name):
        """Of each crate, or what `name` calls it: how many functions it has, how many above the rule, and the sum of each kind."""
        found = {}
        for crate, _, one in self.all():
            row = found.setdefault(name(crate), [0, 0, *(0 for _ in KINDS)])
            row[0] += 1
            row[1] += one.get('Lts', 0) > RULE
            for at, kind in enumerate(KINDS, 2):
                row[at] += one.get(kind, 0)
        return found

    def only(self, crates):
        """Those of these crates."""
        other = Sizes({})
        other.crates = {crate: functions for crate, functions in self.crates.items() if crate in crates}
        return other

def tell_functions(sizes, words, times, other):
    """Prints functions, a line each."""
    print('     Lts    Proof      Tie%s%s  function, in MB' % ('        s' if times else '', '   before' if other else ''))
    functions = [it for it in sizes.all() if '--above' not in words or it[2].get('Lts', 0) > RULE]
    for crate, name, one in functions if '--all' in words or '--above' in words else functions[:MOST]:
        line = ' '.join(megabytes(one.get(kind, 0)) for kind in KINDS)
        line += ' %8.1f' % times.get(crate, {}).get(name, 0) if times else ''
        if other:
            before = other.crates.get(crate, {}).get(name)
            line += ' ' + (megabytes(before.get('Lts', 0)) if before else '       -')
        print('%s  %s::%s' % (line, crate, name))

def tell_sums(sizes, other, head, name):
    """Prints sums, a line each, the largest first."""
    rows, before = sizes.sums(name), other.sums(name) if other else {}
    print('\n     Lts    Proof      Tie%s functions above  %s, in MB' % ('   before' if other else '', head))
    for key, (count, above, *sums) in sorted(rows.items(), key=lambda it: (-it[1][2], it[0])):
        line = ' '.join(map(megabytes, sums))
        line += ' ' + megabytes(before[key][2] if key in before else 0) if other else ''
        print('%s %9d %5d  %s' % (line, count, above, key))

def tell(sizes, words=(), times=None, other=None):
    """Prints functions, sums by crates and families, and the sum of all."""
    tell_functions(sizes, words, times, other)
    if len(sizes.crates) > 1:
        tell_sums(sizes, other, 'crate', str)
        tell_sums(sizes, other, 'family', family)
    count, above, *sums = sizes.sums(lambda _: 'all').get('all', [0, 0, *(0 for _ in KINDS)])
    print('\n%d functions of %d crates, %d above %.1f MB; %s' % (
        count, len(sizes.crates), above, RULE / 1e6, ', '.join('%s %.1f' % (kind, size / 1e6) for kind, size in zip(KINDS, sums))))
    if other:
        count, above, lts, *_ = other.sums(lambda _: 'all').get('all', [0, 0, 0])
        print('before: %d functions, %d above; Lts %.1f, so %+.1f %%' % (count, above, lts / 1e6, 100 * (sums[0] - lts) / max(lts, 1)))

def without_tests(noted):
    return {crate: functions for crate, functions in noted.items() if ' ' not in crate}

def taken(words, flag):
    """The word behind a flag, both taken out."""
    if flag not in words:
        return None
    at = words.index(flag)
    if at + 1 == len(words):
        sys.exit('a word is wanted behind ' + flag)
    value = words[at + 1]
    del words[at:at + 2]
    return value

def main():
    words = sys.argv[1:]
    note, noted, beside = (taken(words, flag) for flag in ('--note', '--noted', '--beside'))
    named = [word for word in words if not word.startswith('--')]
    unknown = [it for it in words if it.startswith('--') and it not in FLAGS] + ([] if noted else [it for it in named if it not in listed()])
    if unknown:
        sys.exit('unknown: ' + ' '.join(unknown) + '\n' + __doc__)
    if note:
        return note_until_over(note)
    crates, times = named or listed(), {}
    if noted:
        found = json.load(open(noted))
        found = found if '--tests' in words else without_tests(found)
        sizes = Sizes(found).only(named or found)
    else:
        found = {crate: kept(crate, TOP) for crate in crates}
        sizes = Sizes(found)
        times = {crate: seconds(crate, TOP, found[crate]) for crate in sizes.crates} if '--times' in words else {}
    if not sizes.crates:
        sys.exit('nothing was checked: run `rt check` in the folder of a crate first')
    other = Sizes({crate: kept(crate, os.path.abspath(beside)) for crate in sizes.crates}) if beside else None
    tell(sizes.only(other.crates) if other else sizes, words, times, other)

if __name__ == '__main__':
    main()
