#!/usr/bin/env python3
"""tools/measure many [--sets N] [--lines N] [PROGRAM]: what the program (crates/drvhost/out/drvhost, if none is named) takes to
check N sets (1,000 if left out) of N lines (60) in one folder, by one process with one job and by a process for each set; with 2,
4 and 8 jobs; by four processes at once, each with one job and a quarter of the sets: that is what the machine has to give; where
valgrind is there, the instructions of one job, and of the busiest thread of four, which no other work on the machine changes; and the
most memory of one job and of four, also for a tenth of the sets: it doesn't grow with their number, but for their names."""
import argparse, glob, os, re, shutil, subprocess, tempfile, time

TOP = os.path.dirname(os.path.dirname(os.path.dirname(os.path.abspath(__file__))))

def text(number, count):
    """A set of so many lines, each with another number of routines that only step."""
    lines = ['driver d', 'dispatch READ f', 'routine f dispatch', 'complete r0 SUCCESS', 'ret SUCCESS', 'endr']
    rest = count - len(lines) - 2
    lines += ['routine g dpc'] + ['const r%d %d' % (1 + place % 8, number) for place in range(rest - 3)] + ['ret void', 'endr']
    return '\n'.join(lines + ['endd', 'device v d 1', ''])

def spent(program, *commands):
    """How long these commands take that begin at once, each of which has to end well."""
    with open(os.devnull, 'w') as away:
        begun = time.monotonic()
        started = [os.posix_spawnp(program, [program, *words], os.environ, file_actions=[(os.POSIX_SPAWN_DUP2, away.fileno(), 1)])
                   for words in commands]
        ended = [os.waitpid(child, 0)[1] for child in started]
        took = time.monotonic() - begun
    assert not any(ended), commands
    return took

def instructions(folder, program, words):
    """How many instructions each thread of a run executes, the most first, by valgrind."""
    out = os.path.join(folder, 'threads')
    subprocess.run(['valgrind', '--tool=callgrind', '--separate-threads=yes', '--callgrind-out-file=' + out, program, *words],
                   stdout=subprocess.DEVNULL, stderr=subprocess.DEVNULL, check=True)
    found = [open(name).read() for name in glob.glob(out + '-*')]
    for name in glob.glob(out + '*'):
        os.remove(name)
    return sorted((int(re.search('^(?:summary|totals): *([0-9]+)', text, re.M)[1]) for text in found), reverse=True)

def most_memory(program, words):
    """The most memory of a run, in KiB, by `time`: a child of this process would count what this one has."""
    child = subprocess.Popen(['/usr/bin/env', 'time', '-f', '%M', program, *words], stdout=subprocess.DEVNULL, stderr=subprocess.PIPE)
    return int(child.communicate()[1].split()[-1])

def main():
    asked = argparse.ArgumentParser()
    asked.add_argument('--sets', type=int, default=1000)
    asked.add_argument('--lines', type=int, default=60)
    asked.add_argument('program', nargs='?', default=os.path.join(TOP, 'crates/drvhost/out/drvhost'))
    asked = asked.parse_args()
    with tempfile.TemporaryDirectory() as folder:
        for part, count in ('all', asked.sets), ('some', asked.sets // 10):
            os.mkdir(os.path.join(folder, part))
            for number in range(count):
                with open(os.path.join(folder, part, '%05d.drv' % number), 'w') as out:
                    out.write(text(number, asked.lines))
        every = [os.path.join(folder, 'all', name) for name in sorted(os.listdir(os.path.join(folder, 'all')))]
        apart = sum(spent(asked.program, ['check', name]) for name in every)
        every_one, some = ([os.path.join(folder, part)] for part in ('all', 'some'))
        def best(jobs):
            return min(spent(asked.program, ['check', '--jobs', str(jobs), *every_one]) for _ in range(9))
        together = best(1)
        print('%d sets: %.1f ms by one process, %.0f ms by one each (%.1f times)'
              % (asked.sets, together * 1000, apart * 1000, apart / together))
        for jobs in 2, 4, 8:
            took = best(jobs)
            print('%d jobs on %d processors: %.1f ms (%.1f times as fast as one)'
                  % (jobs, len(os.sched_getaffinity(0)), took * 1000, together / took))
        quarters = []
        for quarter in range(4):
            quarters.append(os.path.join(folder, 'quarter%d' % quarter))
            os.mkdir(quarters[-1])
            for name in every[quarter::4]:
                os.link(name, os.path.join(quarters[-1], os.path.basename(name)))
        apart = [['check', '--jobs', '1', quarter] for quarter in quarters]
        took = min(spent(asked.program, *apart) for _ in range(9))
        print('four processes at once, a quarter each: %.1f ms (%.1f times as fast as one)' % (took * 1000, together / took))
        if shutil.which('valgrind'):
            (one,), four = (instructions(folder, asked.program, ['check', '--jobs', jobs, *every_one]) for jobs in '14')
            print('instructions: %.1f million with one job, %.1f in the busiest thread of four (%.1f times as fast)'
                  % (one / 1e6, four[0] / 1e6, one / four[0]))
        for jobs in '1', '4':
            print('memory with %s: %d KiB for %d sets, %d KiB for %d' % (jobs,
                  most_memory(asked.program, ['check', '--jobs', jobs, *every_one]), asked.sets,
                  most_memory(asked.program, ['check', '--jobs', jobs, *some]), asked.sets // 10))

if __name__ == '__main__':
    main()
