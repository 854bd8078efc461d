#!/usr/bin/env python3
"""tools/measure functions CRATE .. [--tests]: what the proof of each function of a crate costs, in processor seconds: the twenty dearest.

It runs `rt check --progress` from nothing in each crate named, with --tests also its tests, and looks at the processor time of
all that rt started each time the check has ended with a function. So a function's figure has what was read for it first, as the
lemmas that its proof cites, and the first function's all that the crate stands on: that is told apart. What earlier runs kept
of the crate is taken away; libraries that aren't built yet are built before. Where rt begins with what another checkout on this
machine kept, that is said, and the figures lack it."""
import collections, os, re, shutil, subprocess, sys

from gate_costs import TOP
from processes import processes

MOST = 20

def below(root):
    """The processor seconds of a process and of all that it started."""
    all_of = processes()
    children = collections.defaultdict(list)
    for pid, (parent, _, _) in all_of.items():
        children[parent].append(pid)
    total, waiting = 0, [root]
    while waiting:
        pid = waiting.pop()
        total += all_of[pid][2] if pid in all_of else 0
        waiting += children[pid]
    return total

def check(crate, words):
    """Checks a crate: whether it is proved, what was read before the first function, and what each function cost."""
    folder = os.path.join(TOP, 'crates', crate)
    shutil.rmtree(os.path.join(folder, 'out/incremental'), ignore_errors=True)
    rt = subprocess.Popen(['rt', 'check', '--progress', '--jobs', '1', *words], cwd=folder, stdout=subprocess.PIPE,
                          stderr=subprocess.STDOUT, text=True, errors='replace')
    costs, before, first = [], None, 0
    for line in rt.stdout:
        if 'begins with what a check kept' in line:
            print(line.strip())
        ended = re.match(r'checked (\S+), \d+ of \d+$', line)
        if ended:
            now = below(rt.pid)
            if before is None:
                first = now
            else:
                costs.append((now - before, ended[1]))
            before = now
    return rt.wait() == 0, first, costs

def main():
    names = [word for word in sys.argv[1:] if not word.startswith('--')]
    if not names:
        sys.exit(__doc__)
    words = ['--test'] if '--tests' in sys.argv else []
    all_costs, all_proved = [], True
    for crate in names:
        subprocess.run(['rt', 'check', '--only', ''], cwd=os.path.join(TOP, 'crates', crate), stdout=subprocess.DEVNULL)
        proved, first, costs = check(crate, words)
        all_costs += costs
        all_proved = all_proved and proved
        print('%s: %.0f s, of which %.0f up to the end of its first function; %s' % (
            crate, first + sum(cost for cost, _ in costs), first, 'proved' if proved else 'NOT PROVED'))
    for cost, name in sorted(all_costs, reverse=True)[:MOST]:
        print('%7.1f %s' % (cost, name))
    sys.exit(not all_proved)

if __name__ == '__main__':
    main()
