#!/usr/bin/env python3
"""tools/try random-told [--seed N] [--runs N] [PROGRAM]: random schedules (5,000, if no number is given) on all accepted texts of
examples, gallery and stored runs (crates/tests_stored), told and traced by the program (crates/drvhost/out/drvhost, if none is named). Of
each run every told line has to begin with the trace's line, both have to end alike, and the audit may find no packet that is
lost, no lock left behind and no stack location returned from otherwise than it was marked; each live packet has one holder by
right. That is asked with --every; with --quiet the same is told but for the lines of events that only step or find nothing to
do, and with neither but for those that find nothing to do or step at an instruction that only computes, as its line has it; and
with --strict it ends with exit status 1 also where the trace has an event that was refused. Threads may wait in a ring, since no
rule forbids that, and the told run ends with exit status 1 then. The last line counts."""
import argparse, glob, os, random, re, subprocess, sys, tempfile

from stored_runs import unpacked

TOP = os.path.dirname(os.path.dirname(os.path.dirname(os.path.abspath(__file__))))
# The folder with the texts of stored runs, while the tool runs.
STORED = tempfile.TemporaryDirectory()
AMISS = re.compile(r'lost|left behind|completion left it|stopped by')
COMPUTES = 'const|mov|clear|add|sub|jz|jlt|jmp|loop|end|load|store|loadp|storep|get|put|ifpending'
# The lines that the levels leave out.
LEFT_OUT = {
    ('--quiet',): re.compile(r'[0-9]+ (stepped|idle)\b'),
    (): re.compile(r'[0-9]+ (idle\b|stepped +\S+ +\S+ [0-9]+: (\S+: )?(%s)(?![\w:]))' % COMPUTES),
}
REFUSED = re.compile(r'^[0-9]+ refused$', re.M)

def answer(program, *words):
    done = subprocess.run([program, *words], capture_output=True, text=True, errors='replace', timeout=60)
    return done.stdout, done.returncode

def sets_for(program, job):
    """The texts of sets that a job takes, as `check` those that are accepted: each content once, with the number of their devices."""
    found = {}
    for folder in os.path.join(TOP, 'examples'), unpacked(STORED.name):
        for path in sorted(glob.glob(os.path.join(folder, '**/*.drv'), recursive=True)):
            text = open(path, errors='replace').read()
            if text not in found and answer(program, job, path)[1] == 0:
                found[text] = path, len(re.findall(r'^\s*device\s', text, re.M))
    return sorted(found.values())

def event(rng, threads, devices, issued):
    """A line of a schedule, and how many packets were asked for so far."""
    thread, device = rng.randrange(threads), rng.randrange(devices)
    kind = rng.choices(('issue', 'step', 'steps', 'interrupt', 'dpc', 'startio', 'cancel'), (3, 8, 4, 2, 3, 3, 2))[0]
    if kind == 'issue':
        return 'issue %d %d %s %d' % (thread, device, rng.choice(('READ', 'WRITE', 'CONTROL')), rng.randrange(9)), issued + 1
    if kind == 'cancel':
        return 'cancel %d %d %d' % (thread, rng.randrange(issued + 1), rng.choice((0, 0, 1, 2))), issued
    if kind == 'interrupt':
        return 'interrupt %d' % device, issued
    if kind in ('dpc', 'startio'):
        return '%s %d %d' % (kind, thread, device), issued
    return 'step %d%s' % (thread, '' if kind == 'step' else ' %d' % rng.randrange(2, 40)), issued

def schedule(rng, devices):
    threads, issued = rng.randrange(1, 5), 0
    lines = ['threads %d' % threads]
    for _ in range(rng.randrange(5, 90)):
        line, issued = event(rng, threads, devices, issued)
        lines.append(line)
    return '\n'.join(lines) + '\n'

def wrong_of(program, set_path, by):
    """What is wrong with a told run, or None."""
    (trace, traced), (told, ended) = answer(program, 'trace', set_path, by), answer(program, 'tell', set_path, by, '--every')
    events, _, audit = told.partition('\naudit\n')
    lines, heads = events.splitlines(), trace.splitlines()
    if len(lines) != len(heads) or any(not line.startswith(head) for line, head in zip(lines, heads)):
        return 'the lines differ'
    if ended != (1 if 'in a ring' in audit else traced):
        return 'exit status %d, and %d of the trace' % (ended, traced)
    for level, left_out in LEFT_OUT.items():
        kept = ''.join(line + '\n' for line in lines if not left_out.match(line))
        if answer(program, 'tell', set_path, by, *level) != (kept + '\naudit\n' + audit, ended):
            return 'with %s something else is told' % (' '.join(level) or 'no level')
    if answer(program, 'tell', set_path, by, '--every', '--strict') != (told, 1 if REFUSED.search(trace) else ended):
        return 'strictly it ends otherwise'
    found = [line for line in audit.splitlines() if AMISS.search(line) or ' is live ' in line and line.count('; held ') != 1]
    return found[0] if found else None

def main():
    parser = argparse.ArgumentParser(description=__doc__.split(':')[0])
    parser.add_argument('--seed', type=int, default=1)
    parser.add_argument('--runs', type=int, default=5000)
    parser.add_argument('program', nargs='?', default=os.path.join(TOP, 'crates/drvhost/out/drvhost'))
    given = parser.parse_args()
    program, rng = os.path.abspath(given.program), random.Random(given.seed)
    sets, wrong, events = sets_for(program, 'check'), 0, 0
    with tempfile.TemporaryDirectory() as folder:
        by = os.path.join(folder, 'schedule')
        for number in range(given.runs):
            path, devices = sets[number % len(sets)]
            text = schedule(rng, max(devices, 1))
            open(by, 'w').write(text)
            fault = wrong_of(program, path, by)
            events += text.count('\n') - 1
            if fault:
                wrong += 1
                print('%s, run %d: %s\n%s' % (os.path.relpath(path, TOP), number, fault, text))
    print('%d runs of %d lines of events on %d accepted sets, %d wrong' % (given.runs, events, len(sets), wrong))
    return 1 if wrong else 0

if __name__ == '__main__':
    sys.exit(main())
