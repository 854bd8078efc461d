#!/usr/bin/env python3
"""tools/try colors [PROGRAM]: whether the program (crates/drvhost/out/drvhost, if none is named) paints what it should. `explain` of
each wrong driver of the gallery and `tell` of its schedule, and `explain` of the folder examples, are each asked for with
`--color always`: what goes out is the plain answer with its lines painted, by the forms as they are said here, and the exit
status is the same. At a terminal an answer is painted, but for `NO_COLOR`, `TERM=dumb` and `--color never`; in a pipe it never is by itself.
It prints each case that is answered otherwise; the last line counts."""
import os, pty, subprocess, sys

import gallery

TOP = gallery.TOP
END = b'\x1b[0m'
GOOD, BAD, DOUBTFUL, PLACE = b'\x1b[32m', b'\x1b[1;31m', b'\x1b[33m', b'\x1b[1m'
BEGINNINGS = [(GOOD, [b'accepted', b'nothing is amiss']), (PLACE, [b'in ']),
              (BAD, [b'refused ', b'text fault ', b'image fault ', b'schedule fault ', b'  > ',
                     b'the run was stopped'])]
PARTS = [(BAD, [b' bug 0x', b' wrong ', b' is lost: ', b' is left behind: ', b' waits in a ring']),
         (DOUBTFUL, [b' refused ', b' is still to be cancelled: ', b' was refused: '])]
HEADS = [b'why:', b'see:', b'mend it:', b'show it:', b'at fault:', b'a path there:',
         b'one path there:', b'another path there:', b'what differs:',
         b'what is known where it arrives:', b'audit']

def color_of(line):
    """The colour of a line that is painted whole."""
    for color, words in BEGINNINGS:
        if any(line.startswith(it) for it in words):
            return color
    if line.startswith(b' '):
        return None
    return next((color for color, words in PARTS if any(it in line[1:] for it in words)), None)

def painted(line):
    whole = line.removesuffix(b'\n')
    color = color_of(line)
    if color:
        return color + whole + END + line[len(whole):]
    head = next((it for it in HEADS if line.startswith(it)), None)
    return PLACE + head + END + line[len(head):] if head else line

def answer(program, words, **how):
    return subprocess.run([program, *words], cwd=TOP, stdout=subprocess.PIPE,
                          stderr=subprocess.DEVNULL, **how)

def at_terminal(program, words, **more):
    """What goes to a terminal."""
    leader, follower = pty.openpty()
    child = subprocess.Popen([program, *words], cwd=TOP, stdout=follower,
                             stderr=subprocess.DEVNULL, env={**os.environ, **more})
    os.close(follower)
    out = b''
    try:
        while piece := os.read(leader, 65536):
            out += piece
    except OSError:
        pass
    child.wait()
    os.close(leader)
    return out.replace(b'\r\n', b'\n')

def cases():
    for folder in gallery.folders():
        driver, events = gallery.path(folder, 'driver.drv'), gallery.path(folder, 'events.sched')
        yield ['explain', driver]
        yield ['tell', '--unchecked', driver, events]
    yield ['explain', '--all', 'examples']
    yield ['explain', 'examples/gone.drv']

def faults(program, words):
    """What is wrong with the answer to these words, wherever it goes."""
    plain = answer(program, words)
    if b'\x1b' in plain.stdout:
        yield 'painted in a pipe'
    wanted = b''.join(painted(line) for line in plain.stdout.splitlines(True))
    always = answer(program, [*words, '--color', 'always'])
    if always.stdout != wanted:
        yield 'painted otherwise'
    if always.returncode != plain.returncode:
        yield 'with another exit status'

def terminal_faults(program, words):
    plain, always = (answer(program, [*words, '--color', it]).stdout for it in ('never', 'always'))
    env = {'NO_COLOR': '', 'TERM': 'xterm'}
    none = {'NO_COLOR': '1', 'TERM': 'xterm'}
    dumb = {'NO_COLOR': '', 'TERM': 'dumb'}
    for flags, more, wanted in ([], env, always), (['--color', 'never'], env, plain), \
            ([], none, plain), (['--color', 'always'], none, always), ([], dumb, plain), \
            (['--color', 'always'], dumb, always):
        if at_terminal(program, [*words, *flags], **more) != wanted:
            yield 'at a terminal with %s and %s' % (flags, more)

def main():
    built = os.path.join(TOP, 'crates/drvhost/out/drvhost')
    program = os.path.abspath(sys.argv[1] if len(sys.argv) > 1 else built)
    count = wrong = 0
    every = list(cases())
    tried = [(words, faults) for words in every]
    tried += [(words, terminal_faults) for words in (every[0], every[1], every[-2])]
    for words, told in tried:
        count += 1
        for fault in told(program, words):
            wrong += 1
            print(' '.join(words), fault)
    print('%d answers tried, %d wrong' % (count, wrong))
    sys.exit(wrong > 0)

if __name__ == '__main__':
    main()
