#!/usr/bin/env python3
"""tools/measure memory [--threads K,..] PROGRAM ..: how many bytes of memory runs of programs ask for in all, by
tools/parts/refuse_growth.c, which the C compiler `cc` builds. Of a set with a queue, a StartIo list and a DPC routine: `check`; a
`trace` of no event, which makes a world, with each number of threads; and `host` of no command, which makes a core and a queue
of commands, with as many workers. Prints what they ask for beyond what `check` does and one block for the second file, so that
of a `trace` it is the world's alone but for the bytes of its schedule. A line for each number of threads (1, 32 and 64 if left
out), and what one thread more asks for."""
import argparse, os, subprocess, tempfile

TOP = os.path.dirname(os.path.dirname(os.path.dirname(os.path.abspath(__file__))))
BLOCK = 65536  # bytes that a file is read into

SET = '''driver d
queue q l0
dispatch READ f
startio s
dpc g
routine f dispatch
mark r0
start r0
ret PENDING
endr
routine s startio
begin r0
ret void
endr
routine g dpc
take r0 none
next
complete r0 SUCCESS
ret void
none: ret void
endr
endd
device v d 1
'''

def asked(library, program, words, folder):
    """How many bytes a run asks for."""
    told = os.path.join(folder, 'asked')
    subprocess.run([program, *words], cwd=folder, env={**os.environ, 'LD_PRELOAD': library, 'ASKED_BYTES': told},
                   stdin=subprocess.DEVNULL, stdout=subprocess.DEVNULL, stderr=subprocess.DEVNULL)
    with open(told) as number:
        return int(number.read())

def measure(library, program, threads, folder):
    check = asked(library, program, ['check', 'set'], folder)
    print('%s: check asks for %s bytes' % (program, f'{check:,}'))
    rows = {}
    for count in threads:
        with open(os.path.join(folder, 'schedule'), 'w') as out:
            out.write('threads %d' % count)
        with open(os.path.join(folder, 'script'), 'w') as out:
            out.write('; none')
        trace = asked(library, program, ['trace', 'set', 'schedule'], folder)
        host = asked(library, program, ['host', 'set', 'script', '--workers', str(count)], folder)
        rows[count] = trace - check - BLOCK, host - check - BLOCK
        print('%3d threads: a world %12s, a core and its queue %12s' % (count, *(f'{n:,}' for n in rows[count])))
    first, last = rows[threads[0]], rows[threads[-1]]
    if threads[-1] > threads[0]:
        more = [(b - a) / (threads[-1] - threads[0]) for a, b in zip(first, last)]
        print('a thread more: %s, %s' % tuple(f'{n:,.0f}' for n in more))

def main():
    parser = argparse.ArgumentParser(description=__doc__)
    parser.add_argument('--threads', default='1,32,64')
    parser.add_argument('programs', nargs='+')
    given = parser.parse_args()
    threads = [int(count) for count in given.threads.split(',')]
    with tempfile.TemporaryDirectory() as folder:
        library = os.path.join(folder, 'refuse_growth.so')
        subprocess.run(['cc', '-O1', '-shared', '-fPIC', '-o', library, os.path.join(TOP, 'tools/parts/refuse_growth.c'), '-ldl'],
                       check=True)
        with open(os.path.join(folder, 'set'), 'w') as out:
            out.write(SET)
        for program in given.programs:
            measure(library, os.path.abspath(program), threads, folder)

if __name__ == '__main__':
    main()
