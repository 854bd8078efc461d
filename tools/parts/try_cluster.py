#!/usr/bin/env python3
"""tools/try cluster [PROGRAM]: has examples/cluster hunt in some examples, by GNU parallel with two
jobs and by Dask with two workers, and compares what comes of each hunt with what the program answers
to it alone. On Debian they are `parallel` and `python3-distributed`."""
import argparse, os, re, shutil, subprocess, sys, tempfile

TOP = os.path.dirname(os.path.dirname(os.path.dirname(os.path.abspath(__file__))))
SCRIPTS = os.path.join(TOP, 'examples/cluster')
SETS = ['echo.drv', 'echo.image', 'first.drv', 'hold.drv', 'race.drv', 'twice.drv', 'abba.drv']
BOUNDS = [(threads, packets) for threads in (1, 2) for packets in (1, 2)]
STATES = 20000

def alone(program, corpus):
    """The answer to each hunt, by set and bounds."""
    answers = {}
    for name in SETS:
        for threads, packets in BOUNDS:
            words = [program, 'hunt', os.path.join(corpus, name), '--threads', str(threads), '--packets', str(packets), '--states', str(STATES)]
            done = subprocess.run(words, capture_output=True, text=True)
            answers[name, threads, packets] = done.returncode, done.stdout
    return answers

def by_parallel(program, corpus, results):
    """The same by GNU parallel, with the exit status of the script and the lines that it prints."""
    given = dict(os.environ, DRVHOST=program, STATES=str(STATES))
    done = subprocess.run([os.path.join(SCRIPTS, 'hunts.sh'), corpus, results, '--jobs', '2'], env=given, capture_output=True, text=True)
    answers = {}
    with open(os.path.join(results, 'log')) as log:
        for line in log.read().split('\n')[1:-1]:
            sequence, status, command = (line.split('\t')[at] for at in (0, 6, 8))
            found = re.search(r'hunt (\S+) --threads (\d) --packets (\d)', command)
            with open(os.path.join(results, sequence, 'stdout')) as out:
                answers[os.path.basename(found[1]), int(found[2]), int(found[3])] = int(status), out.read()
    return done.returncode, len(done.stdout.splitlines()), answers

def by_dask(program, corpus, results):
    """The schedules that are found by Dask, with the exit status of the script and how many lines it prints."""
    words = ['/usr/bin/python3', os.path.join(SCRIPTS, 'hunts.py'), corpus, results, '--program', program, '--states', str(STATES)]
    done = subprocess.run(words, capture_output=True, text=True)
    found = {}
    for name in os.listdir(results):
        parts = re.fullmatch(r'(.+)-(\d)-(\d)\.sched', name)
        with open(os.path.join(results, name)) as file:
            found[parts[1], int(parts[2]), int(parts[3])] = file.read()
    return done.returncode, len(done.stdout.splitlines()), found

def main():
    parser = argparse.ArgumentParser()
    parser.add_argument('program', nargs='?', default=os.path.join(TOP, 'crates/drvhost/out/drvhost'))
    program = os.path.abspath(parser.parse_args().program)
    if shutil.which('parallel') is None or subprocess.run(['/usr/bin/python3', '-c', 'import distributed'], capture_output=True).returncode:
        sys.exit('tools/try cluster wants GNU parallel and Dask: apt-get install parallel python3-distributed')
    with tempfile.TemporaryDirectory() as folder:
        corpus = os.path.join(folder, 'sets')
        os.mkdir(corpus)
        for name in SETS:
            shutil.copy(os.path.join(TOP, 'examples', name), corpus)
        wanted = alone(program, corpus)
        finds = {key: text for key, (status, text) in wanted.items() if status == 1}
        status, lines, answers = by_parallel(program, corpus, os.path.join(folder, 'parallel'))
        told = [] if (status, lines) == (1, len(finds)) else ['GNU parallel: exit status %d, %d lines' % (status, lines)]
        told += ['GNU parallel: %s differs' % (key,) for key in wanted if answers.get(key) != wanted[key]]
        again, more, _ = by_parallel(program, corpus, os.path.join(folder, 'parallel'))
        told += [] if (again, more) == (status, lines) else ['GNU parallel: another answer where nothing is left to do']
        status, lines, found = by_dask(program, corpus, os.path.join(folder, 'dask'))
        told += [] if (status, lines) == (1, len(wanted)) else ['Dask: exit status %d, %d lines' % (status, lines)]
        told += ['Dask: %s differs' % (key,) for key in {*finds, *found} if finds.get(key) != found.get(key)]
    print('\n'.join([*told, '%d hunts by each, %d runs found, %d wrong' % (len(wanted), len(finds), len(told))]))
    return 1 if told else 0

if __name__ == '__main__':
    sys.exit(main())
