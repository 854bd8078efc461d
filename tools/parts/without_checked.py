#!/usr/bin/env python3
"""tools/try without-checked [--prove]: the machine of accepted sets needs nothing of the plain machine. In a copy of the sources
without `checked`, `checked_parts` and every crate that stands on them, `machine` is built and the tests of `tests_machine` are
run: as the compiler makes them, without a proof, or with --prove after a proof of both. What passed without them is one line;
what didn't is told by what `rt` says. It takes a minute or two, with --prove as long as the crates below have to be proved."""
import os, shutil, subprocess, sys, tempfile

TOP = os.path.dirname(os.path.dirname(os.path.dirname(os.path.abspath(__file__))))
PLAIN = ['checked', 'checked_parts']
MACHINE, ROWS = 'machine', 'tests_machine'

def listed():
    """The lines of crates.txt: (the crate's name, what it stands on, the line)."""
    lines = [(line.partition('#')[0].partition(':'), line) for line in open(os.path.join(TOP, 'crates.txt'))]
    return [(head.split()[0], names.split(), line) for (head, _, names), line in lines if head.strip()]

def with_higher(names, crates):
    """These crates, and all that stand on one of them."""
    found = set(names)
    while True:
        more = {name for name, below, _ in crates if name not in found and found.intersection(below)}
        if not more:
            return found
        found |= more

def copy(folder, crates):
    """The sources of these crates alone."""
    shutil.copy(os.path.join(TOP, 'HANDLES'), folder)
    open(os.path.join(folder, 'crates.txt'), 'w').writelines(line for _, _, line in crates)
    for name, _, _ in crates:
        shutil.copytree(os.path.join(TOP, 'crates', name), os.path.join(folder, 'crates', name), ignore=shutil.ignore_patterns('out', 'must-fail'))

def passes(folder, crate, *words):
    """Whether a command passes in a crate's folder, with its tests if it runs them; what it says is told where it doesn't."""
    done = subprocess.run(['rt', *words], cwd=os.path.join(folder, 'crates', crate), stdout=subprocess.PIPE, stderr=subprocess.STDOUT, text=True)
    passed = done.returncode == 0 and (words == ('check',) or 'test result: ok.' in done.stdout)
    if not passed:
        print('%s: rt %s:\n%s' % (crate, ' '.join(words), done.stdout))
    return passed

def all_pass(folder, prove):
    """Whether the machine and its rows pass, where there is nothing else."""
    if prove:
        return passes(folder, MACHINE, 'check') and passes(folder, ROWS, 'check') and passes(folder, ROWS, 'test')
    return passes(folder, ROWS, 'try', '--test')

def main():
    words = sys.argv[1:]
    if words not in ([], ['--prove']):
        sys.exit(__doc__)
    crates = listed()
    names = {name for name, _, _ in crates}
    missed = [name for name in PLAIN + [MACHINE, ROWS] if name not in names]
    if missed:
        sys.exit('no such crate: ' + ' '.join(missed))
    gone = with_higher(PLAIN, crates)
    standing = [name for name in (MACHINE, ROWS) if name in gone]
    if standing:
        sys.exit('these stand on %s: %s' % (' or '.join(PLAIN), ' '.join(standing)))
    with tempfile.TemporaryDirectory() as folder:
        copy(folder, [crate for crate in crates if crate[0] not in gone])
        passed = all_pass(folder, words == ['--prove'])
    on_them = len(gone) - len(PLAIN)
    print('without %s and %d crates on them: %s and its rows: %s' % (', '.join(PLAIN), on_them, MACHINE, 'passed' if passed else 'failed'))
    return 0 if passed else 1

sys.exit(main())
