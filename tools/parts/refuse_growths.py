#!/usr/bin/env python3
"""tools/try library-growths [CALL..]: each growth of a call of the library is refused in turn. The program of tools/growths is built
in a copy of the crates that it stands on, so that one allocation of its process, by number, is refused; it makes as many in
vain before the call as are needed for the Nth growth of the call to be that one, for N = 1, 2, .. up to one past the last. Each
run has to tell the call's own refusal for want of memory, to hand back what was handed in, and to answer with memory, the
second time, as the worked run does; the run past the last growth has to answer so the first time. The other calls take no
memory: they run with the first growth after them refused, and none comes before. It takes some minutes. The last lines give
the growths refused, by call."""
import hashlib, os, re, shutil, subprocess, sys, tempfile

TOP = os.path.dirname(os.path.dirname(os.path.dirname(os.path.abspath(__file__))))
SOURCES = os.path.join(TOP, 'tools/parts/growths')
PROGRAM = 'growths'
STANDS_ON = 'asm image verifier checked machine interleave hostcore intake workers devqueue report model'.split()
REFUSED = 20_000  # the number of the allocation that is refused

def listed():
    """The lines of crates.txt: the crate's name, what it stands on, the line."""
    lines = [(line.partition('#')[0].partition(':'), line) for line in open(os.path.join(TOP, 'crates.txt'))]
    return {head.split()[0]: (below.split(), line) for (head, _, below), line in lines if head.strip()}

def with_lower(names, crates):
    found = []
    for name in names:
        if name in crates and name not in found:
            found += [low for low in with_lower(crates[name][0], crates) if low not in found] + [name]
    return found

def make(folder):
    """The sources of the program and of the crates below it alone."""
    crates = listed()
    below = with_lower(STANDS_ON, crates)
    shutil.copy(os.path.join(TOP, 'HANDLES'), folder)
    with open(os.path.join(folder, 'crates.txt'), 'w') as lines:
        lines.writelines(crates[name][1] for name in below)
        lines.write('%s: %s\n' % (PROGRAM, ' '.join(STANDS_ON)))
    for name in below:
        shutil.copytree(os.path.join(TOP, 'crates', name), os.path.join(folder, 'crates', name),
                        ignore=shutil.ignore_patterns('out', 'must-fail'))
    src = os.path.join(folder, 'crates', PROGRAM, 'src')
    os.makedirs(src)
    for name in os.listdir(SOURCES):
        shutil.copy(os.path.join(SOURCES, name), os.path.join(src, name.replace('.txt', '.rt')))

def run(folder, cases):
    """What the program tells for each of these words, built once."""
    at = os.path.join(folder, 'cases')
    shutil.rmtree(at, ignore_errors=True)
    os.makedirs(at)
    for number, words in enumerate(cases):
        open(os.path.join(at, 'c%05d' % number), 'w').close()
        with open(os.path.join(at, 'c%05d.args' % number), 'w') as out:
            out.write('\n'.join(words) + '\n')
    done = subprocess.run(['rt', 'try', '--fail-alloc', str(REFUSED), '--seconds', '600', '--cases', at],
                          cwd=os.path.join(folder, 'crates', PROGRAM), stdin=subprocess.DEVNULL,
                          capture_output=True, text=True)
    told = re.split(r'^== c(\d+)\n', done.stdout, flags=re.M)
    if len(told) == 1:
        sys.exit(done.stderr)
    return {cases[int(number)]: text for number, text in zip(told[1::2], told[2::2])}

TAKEN = ['0 started 0', *('%d stepped' % n for n in range(1, 7)), '7 finished', '8 stepped', '9 stepped', '10 started 0',
         *('%d stepped' % n for n in range(11, 16)), '16 finished', '17 stepped', '18 stepped', '19 topped 0 0x00000000 0',
         '20 finished']
CANCELLED = [*TAKEN[:13], *('%d stepped' % n for n in range(13, 18)), '18 waited', '19 stepped', '20 finished',
             *('%d stepped' % n for n in range(21, 25)), '25 topped 0 0xC0000120 0', '26 finished']
LATE = ['0 started 0', '1 stepped', '2 topped 0 0x00000000 0', '3 finished', '4 started 1', '5 finished']
REUSED = ['0 started 0', '1 started 0', '2 stepped', '3 topped 0 0x00000000 0', '4 finished', '5 started 1', '6 stepped',
          '7 finished']
FULL = [line for packet in range(4096) for line in
        ['%d started %d' % (8 * packet, packet), *('%d stepped' % (8 * packet + n) for n in range(1, 7)),
         '%d finished' % (8 * packet + 7)]] + ['32768 refused']
SERVED = ['0 started 0', *('%d stepped' % n for n in range(1, 7)), '7 finished', *('%d stepped' % n for n in range(8, 15)),
          '15 topped 0 0x00000000 0', '16 finished']
CERTIFICATES = 'certificates 14 8 6'

# what is told of an answer, without the word that says when; of a refusal; of what was handed in; whether the answer is asked
# for again where the first one was no refusal
SET, BACK = ['set Q'], ['back set Q']
ACCEPTED = ['set Q', CERTIFICATES]
LENT = ['back set Q', 'back ' + CERTIFICATES]
NO_MEMORY = ['out of memory']
CALLS = {
    'decode': (SET, ['image fault 6'], [], True),
    'encode': (['image Q'], NO_MEMORY, BACK, True),
    'copy': (SET, NO_MEMORY, BACK, True),
    'assemble': (SET, ['text fault 8 line 0'], [], True),
    'disassemble': (SET, NO_MEMORY, BACK, True),
    'verify': (ACCEPTED, ['refused V20 driver 0 routine 0 at 0'], BACK, False),
    'parse_schedule': (['threads 3', 'replies', *TAKEN], ['schedule fault 5 line 0'], [], True),
    'Checked::new': (['replies', *TAKEN], NO_MEMORY, BACK, False),
    'Checked::run': (['replies', '0 finished'], NO_MEMORY, BACK, False),
    'World::new': (['replies', *TAKEN], NO_MEMORY, LENT, False),
    'run': (['replies', '0 finished'], NO_MEMORY, LENT, False),
    'Core::new': (['history 0 counted 2 history 2', 'replies', '0 started 0', '1 stepped'], NO_MEMORY, LENT, False),
    'Links::new': (['unlinked false true', 'list 0 slot 2', 'list 0 slot 3', 'list 0 empty', 'list 1 slot 0'], NO_MEMORY, [], False),
    'Intake::new': (['submitters 1 takers 2', 'put 2 taken 1 left 1'], NO_MEMORY, [], False),
    'serve': (['started 1 takers 1 counted 17', 'held 0 full false', 'replies', *SERVED],
              ['started 0 takers 1 counted 0', 'held 0 full false', 'replies'], [], False),
}
ROWS = {'taken': TAKEN, 'cancelled': CANCELLED, 'late': LATE, 'reused': REUSED, 'full': FULL}
# what is told of calls that take no memory
QUIET = {
    **{'%s-%s' % (machine, row): ['replies', *ROWS[row]] for machine in ('checked', 'world') for row in ROWS},
    'calls-of-a-core': ['counted 3 history 3', 'full 2', 'replies', '0 started 0', '1 stepped',
                        '2 topped 0 0x00000000 0', '3 refused', '4 refused'],
    'calls-of-a-queue': ['put 2 taken 1 left 1'],
}
IMAGE = 'f6a69216b017d9fc4e2d7cb076862343'  # md5 of the image, of edition 2, of the set of CALLS
BEHIND = 'left 25000'

def plain(text):
    """The lines that a run told, with the bytes of the set by its name."""
    name = lambda found: '%s %s' % (found[1], 'Q' if hashlib.md5(bytes.fromhex(found[2])).hexdigest() == IMAGE else 'other')
    text = re.sub(r'^(.*(?:set|image)) ([0-9a-f]{40,})$', name, text, flags=re.M)
    return [line for line in text.split('\n') if line]

def when(word, lines):
    """Lines of an answer, those of replies as they are."""
    return [line if re.match(r'\d', line) else word + ' ' + line for line in lines]

def is_wanted(call, told, number, growths):
    """Whether a run tells what it has to, where the growth of this number is refused."""
    if call in QUIET:
        return told == ['left 0', *when('first', QUIET[call])]
    answer, refusal, back, twice = CALLS[call]
    put = ['before put 2'] if call == 'serve' else []
    whole = [*put, *when('first', answer), *(back + when('again', answer) if twice else [])]
    refused = [*put, *when('first', refusal), *back, *when('again', answer)]
    if number > growths:
        return told == ['left 0', *whole]
    return told == [BEHIND, *refused] or call == 'serve' and told == [BEHIND, *whole]

def sweep(folder, names):
    """For each call the growths that it takes, those that were refused, and how many runs told something else."""
    made = run(folder, [(name, moment, '0') for name in names for moment in ('before', 'after')])
    before = {name: int(made[name, 'before', '0'].split()[0]) for name in names}
    growths = {name: before[name] - int(made[name, 'after', '0'].split()[0]) for name in names}
    cases = {(name, str(before[name] - number + 1)): number
             for name in names for number in range(1, growths[name] + 2)}
    told = run(folder, [(name, 'refused', count) for name, count in cases])
    wrong = 0
    for (name, count), number in cases.items():
        lines = plain(told.get((name, 'refused', count), ''))
        if not is_wanted(name, lines, number, growths[name]):
            wrong += 1
            print('%s, growth %d of %d refused, told otherwise: %s' % (name, number, growths[name], lines[:12]))
    return growths, wrong

def main():
    names = sys.argv[1:] or [*CALLS, *QUIET]
    unknown = [name for name in names if name not in CALLS and name not in QUIET]
    if unknown:
        sys.exit('no such call: ' + ' '.join(unknown))
    with tempfile.TemporaryDirectory() as folder:
        make(folder)
        growths, wrong = sweep(folder, names)
    for name in names:
        print('%-20s %4d growths%s' % (name, growths[name], ', none wanted' if name in QUIET else ''))
        wrong += name in QUIET and growths[name] > 0
    print('%d growths refused, %d told otherwise' % (sum(growths[name] for name in names if name in CALLS), wrong))
    return 1 if wrong else 0

if __name__ == '__main__':
    sys.exit(main())
