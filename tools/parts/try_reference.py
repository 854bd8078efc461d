#!/usr/bin/env python3
"""tools/try reference [PROGRAM] [--seed N] [--cases N] [--from N] [--minutes N] [--jobs N] [--rows FOLDER] [--other PROGRAM]: compares the
program (crates/drvhost/out/drvhost, if none is named) with `reference`, which cargo builds, in all that both answer: bytes of both
outputs and of files that are written, and exit statuses. Of the command line's own faults and of warnings on the order of locks only
that there are some counts.

First come the stored runs (crates/tests_stored), examples and gallery among them, and with --rows the runs below a folder: a folder for
each, with its words in `cmd`. Then come N cases (10,000, if no number is given) of a seed, from a number on: texts and images that were
spoilt, random sets and changed ones with random schedules, spoilt schedules, scripts for one worker, things at their limits, and runs that
`hunt` of the program finds, which have to end as it tells. A case is made of the seed, its number and the texts of this tree alone, so
`--from` goes on where a call ended; with --minutes a call ends after so many. N jobs share the cases (one, if no number is given). Each
case that is answered otherwise is kept below reference/target/differences, with as few lines as still show it, and is printed with both
answers. With --other another program stands for `reference`. The last line counts."""
import argparse, collections, concurrent.futures, os, re, shutil, subprocess, sys, tempfile, time

import reference_cases
import stored_runs
from stored_runs import TOP

REFERENCE = os.path.join(TOP, 'reference')
KEPT = os.path.join(REFERENCE, 'target/differences')
JOBS = 'check', 'trace', 'host', 'list', 'rewrite'
# Flags that `reference` doesn't know.
FORMED = re.compile(r'--(format|color|pass|all|rule|help|version)\b|-h$|-V$')
BATCH, PROGRESS, SECONDS, SHOWN = 100, 5000, 120, 20
USAGE = re.compile(rb'(error: |usage: ).*', re.S)
CYCLE = re.compile(rb'driver \w+ takes its locks in a cycle .*: workers may wait for each other for ever\n')

def built():
    """The path of `reference`, which is built where it is older than its sources."""
    subprocess.run(['cargo', 'build', '--release', '--offline', '--quiet'], cwd=REFERENCE, check=True)
    return os.path.join(REFERENCE, 'target/release/reference')

def answer(program, words, folder, out=None):
    """The exit status, both outputs, and the bytes of a file that is written: what counts of them."""
    path = os.path.join(folder, out) if out else None
    if path and os.path.exists(path):
        os.remove(path)
    try:
        done = subprocess.run([program, *words], cwd=folder, stdin=subprocess.DEVNULL, capture_output=True, timeout=SECONDS)
    except subprocess.TimeoutExpired:
        return ('it does not end',)
    written = open(path, 'rb').read() if path and os.path.exists(path) else None
    return done.returncode, done.stdout, CYCLE.sub(b'', USAGE.sub(b'...', done.stderr)), written

def by_file(said):
    """Of the answer to `check` about several files what is told of each."""
    found = collections.defaultdict(list)
    for text in said[1:3]:
        for line in text.splitlines():
            found[line.partition(b': ')[0].decode(errors='replace')].append(line)
    return found

class Pair:
    """The two programs that are compared."""

    def __init__(self, program, other):
        self.programs = program, other

    def answers(self, words, folder, out=None):
        return [answer(program, words, folder, out) for program in self.programs]

    def verdicts(self, names, folder):
        """Those of the files whose verdicts differ."""
        ours, theirs = self.answers(['check', '--jobs', '1', *names], folder)
        if ours == theirs:
            return []
        ours, theirs = by_file(ours), by_file(theirs)
        return [name for name in names if ours[name] != theirs[name]] or names

    def differing(self, case, folder):
        """The command lines of a case, but for verdicts, to which the answers differ."""
        for words in case.questions:
            if words[0] == 'hunt':
                yield from self.replayed(case, words, folder)
            elif words[0] != 'check':
                ours, theirs = self.answers(words, folder, case.out(words))
                if ours != theirs:
                    yield words

    def replayed(self, case, words, folder):
        """The command line of the run that a hunt of the program finds, where that doesn't end in both as the hunt's first line tells."""
        status, found, *_ = answer(self.programs[0], words, folder)
        if status == 1:
            schedule = case.add('sched', found)
            write_all(folder, {schedule: found})
            replay = ('trace', words[1], schedule, '--unchecked')
            ours, theirs = self.answers(replay, folder)
            finding = found.partition(b'\n')[0].removeprefix(b'; ')
            stops = finding.startswith((b'bug ', b'wrong '))
            if ours != theirs or theirs[0] != stops or stops and not theirs[1].endswith(b' %s\n' % finding):
                yield replay

    def try_files(self, files, words, out=None):
        """Both answers to a command line over these files."""
        with tempfile.TemporaryDirectory() as folder:
            write_all(folder, files)
            return self.answers(words, folder, out)

def write_all(folder, files):
    for name, content in files.items():
        with open(os.path.join(folder, name), 'wb') as file:
            file.write(content)

# What each process of the pool has.
STATE = {}

def prepare(seed, program, other):
    STATE['folder'] = tempfile.TemporaryDirectory()
    corpus = reference_cases.Corpus(STATE['folder'].name)
    STATE['pair'] = Pair(program, other)
    with tempfile.TemporaryDirectory() as folder:
        for at, text in enumerate(corpus.texts[::4]):
            write_all(folder, {'set': reference_cases.encoded(text)})
            image = answer(other, ['rewrite', 'set', 'out'], folder, 'out')[3]
            corpus.images += [image] if image else []
    STATE['maker'] = reference_cases.Maker(seed, corpus)

def try_batch(numbers):
    """How many cases of each kind these numbers make, how many command lines, and where the answers differ."""
    pair, cases = STATE['pair'], [STATE['maker'].case(number) for number in numbers]
    found = []
    with tempfile.TemporaryDirectory() as folder:
        for case in cases:
            write_all(folder, case.files)
        judged = {words[1]: case for case in cases for words in case.questions if words[0] == 'check'}
        found += [(judged[name], ('check', name)) for name in pair.verdicts(list(judged), folder)] if judged else []
        found += [(case, words) for case in cases for words in pair.differing(case, folder)]
    kinds = collections.Counter(case.kind for case in cases)
    return kinds, sum(len(case.questions) for case in cases), found

def lines_of(content):
    return content.splitlines(keepends=True)

def shrunk(pair, case, words):
    """The files of a case with as few lines as still show the difference."""
    out = case.out(words)
    files = {name: content for name, content in case.files.items() if name in words}
    def shows(changed):
        ours, theirs = pair.try_files(changed, words, out)
        return ours != theirs
    if not shows(files):
        return files
    for name in sorted(files):
        files = as_text(pair, files, name, shows) if name.endswith('.image') else files
        if not files[name].startswith(b'DVB'):
            files = without_lines(files, name, shows)
    return files

def as_text(pair, files, name, shows):
    """The files, with a listing in place of an image, where that shows the difference as well."""
    status, listing, *_ = pair.try_files(files, ['list', name])[1]
    changed = {**files, name: listing}
    return changed if status == 0 and shows(changed) else files

def without_lines(files, name, shows):
    """The files, with lines of one of them left out, as many at once as may go."""
    size = max(1, len(lines_of(files[name])) // 2)
    while size:
        at, left = 0, False
        while at < len(lines_of(files[name])):
            lines = lines_of(files[name])
            changed = {**files, name: b''.join(lines[:at] + lines[at + size:])}
            if shows(changed):
                files, left = changed, True
            else:
                at += size
        size = size if left and size == 1 else size // 2
    return files

def shown(content):
    """The lines of a text in a report, no more than some, or the digits of bytes."""
    if content.startswith(b'DVB'):
        return [content.hex()]
    lines = content.decode(errors='replace').splitlines()
    return lines if len(lines) <= 2 * SHOWN else [*lines[:SHOWN], '..', *lines[-SHOWN:]]

def show(head, content):
    print('\n'.join(['  ' + head, *('    ' + line for line in shown(content))]))

def tell(name, words, files, ours, theirs):
    """Keeps a case, and prints it with both answers."""
    folder = os.path.join(KEPT, name)
    shutil.rmtree(folder, ignore_errors=True)
    os.makedirs(folder)
    write_all(folder, {**files, 'cmd': (' '.join(words) + '\n').encode()})
    print('they differ: %s: %s' % (name, ' '.join(words)))
    for file, content in files.items():
        show(file, content)
    for whose, (status, *texts) in ('the program', ours), ('reference', theirs):
        print('  %s: status %s' % (whose, status))
        for what, text in zip(('standard output', 'standard error', 'what is written'), texts):
            if text:
                show('%s, %s' % (whose, what), text)

def try_stored(pair):
    """How many stored runs both programs were asked, and those answered otherwise."""
    groups, count, wrong = stored_runs.groups(), 0, 0
    with tempfile.TemporaryDirectory() as ours, tempfile.TemporaryDirectory() as theirs:
        folders = [stored_runs.unpacked(folder, groups) for folder in (ours, theirs)]
        for group in groups:
            for run in [run for run in group.runs if is_asked(run.words)]:
                out = run.words[-1] if run.words[0] == 'rewrite' and len(run.words) == 3 else None
                said = [stored_answer(program, run.words, folder, out) for program, folder in zip(pair.programs, folders)]
                count, wrong = count + 1, wrong + (said[0] != said[1])
                if said[0] != said[1]:
                    print('they differ: %s: %s' % (group.name, ' '.join(run.words)), *said, sep='\n')
    return count, wrong

def stored_answer(program, words, folder, out):
    """As an answer, where what is written may be the file that is read."""
    said = answer(program, words, folder)
    path = os.path.join(folder, out) if out else ''
    return said[:3] + ((open(path, 'rb').read() if os.path.isfile(path) else None),)

def is_asked(words):
    """Whether both programs have one answer to these words: with more than one worker there are several."""
    several = words[0] == 'host' and not re.search(r'--workers[ =]1( |$)', ' '.join(words))
    return words[0] in JOBS and not several and not any(FORMED.match(word) for word in words)

def try_rows(pair, rows):
    """The same of the runs below a folder."""
    count, wrong = 0, 0
    for row in sorted(os.listdir(rows)):
        path = os.path.join(rows, row, 'cmd')
        words = open(path).read().split() if os.path.exists(path) else ['']
        if is_asked(words):
            names = [name for name in os.listdir(os.path.join(rows, row)) if os.path.isfile(os.path.join(rows, row, name))]
            files = {name: open(os.path.join(rows, row, name), 'rb').read() for name in names}
            said = pair.try_files(files, words, words[-1] if words[0] == 'rewrite' else None)
            count, wrong = count + 1, wrong + (said[0] != said[1])
            if said[0] != said[1]:
                print('they differ: %s: %s' % (row, ' '.join(words)), *said, sep='\n')
    return count, wrong

def batches(given):
    """The numbers of cases, some at a time, up to the last one or until time is up."""
    end, until = given.first + given.cases, time.monotonic() + 60 * given.minutes
    for first in range(given.first, end, BATCH):
        if given.minutes and time.monotonic() > until:
            return
        yield range(first, min(first + BATCH, end))

def results(pool, given):
    """What comes of each batch, in order; a few are under way at once."""
    waiting = collections.deque()
    for batch in batches(given):
        waiting.append((batch, pool.submit(try_batch, batch)))
        if len(waiting) > 2 * given.jobs:
            batch, future = waiting.popleft()
            yield batch, future.result()
    for batch, future in waiting:
        yield batch, future.result()

def try_cases(pair, given):
    """Tries the cases; answers how many differ."""
    kinds, lines, wrong, behind = collections.Counter(), 0, 0, given.first
    with concurrent.futures.ProcessPoolExecutor(given.jobs, initializer=prepare, initargs=(given.seed, *pair.programs)) as pool:
        for batch, (made, count, found) in results(pool, given):
            kinds, lines, behind = kinds + made, lines + count, batch.stop
            if behind % PROGRESS == 0:
                print('up to %d: %d answered otherwise' % (behind, wrong + len(found)))
            for case, words in found:
                wrong += 1
                if wrong <= given.show:
                    files = shrunk(pair, case, words)
                    tell('%d-%d-%s' % (given.seed, case.number, words[0]), words, files, *pair.try_files(files, words, case.out(words)))
    print('seed %d, cases %d to %d: %s; %d command lines, %d answered otherwise' % (
        given.seed, given.first, behind - 1, ', '.join('%d %s' % (kinds[kind], kind) for kind in reference_cases.KINDS), lines, wrong))
    return wrong

def main():
    parser = argparse.ArgumentParser(description=__doc__, formatter_class=argparse.RawDescriptionHelpFormatter)
    parser.add_argument('program', nargs='?', default=os.path.join(TOP, 'crates/drvhost/out/drvhost'))
    parser.add_argument('--seed', type=int, default=1)
    parser.add_argument('--cases', type=int, default=10000)
    parser.add_argument('--from', type=int, default=0, dest='first')
    parser.add_argument('--minutes', type=float, default=0)
    parser.add_argument('--jobs', type=int, default=1)
    parser.add_argument('--show', type=int, default=10, help='how many differences are shrunk, kept and printed')
    parser.add_argument('--rows')
    parser.add_argument('--other', help='a program that stands for `reference`')
    given = parser.parse_args()
    sys.stdout.reconfigure(line_buffering=True)
    pair = Pair(os.path.abspath(given.program), os.path.abspath(given.other) if given.other else built())
    wrong = 0
    if given.first == 0:
        count, wrong = try_stored(pair)
        print('%d stored runs, %d answered otherwise' % (count, wrong))
    if given.rows:
        count, more = try_rows(pair, given.rows)
        print('%d rows, %d answered otherwise' % (count, more))
        wrong += more
    wrong += try_cases(pair, given) if given.cases else 0
    return 1 if wrong else 0

if __name__ == '__main__':
    sys.exit(main())
