#!/usr/bin/env python3
"""tools/try program [PROGRAM]: runs the built program (crates/drvhost/out/drvhost, if none is named) on real files and
streams, for what a proof can't see of them, and compares its exit status and what it writes on both streams. It prints
each case that is answered otherwise; the last line counts."""
import os, subprocess, sys, tempfile

from versions import TOP, VERSION

GOOD = b'driver d\ndispatch READ f\nroutine f dispatch\ncomplete r0 SUCCESS\nret SUCCESS\nendr\nendd\ndevice v d 1\n'
TWICE = GOOD.replace(b'ret SUCCESS', b'complete r0 SUCCESS\nret SUCCESS')
BOTH = TWICE.replace(b'endd', b'routine g dpc\nret void\nret void\nendr\nendd')
FILES = {
    'good.drv': GOOD,
    'twice.drv': TWICE,
    'both.drv': BOTH,
    'open.drv': b'driver d\n',
    'short.image': b'DVB1',
    'former.image': bytes.fromhex('44564231 01010000 010000ff ffffff00 00000200 2200000000000000 2400000000000000 0001ff00'),
    'good.sched': b'threads 1\nissue 0 0 READ 7\nstep 0 4\n',
    'none.sched': b'threads 0\n',
    'two.script': b'request 0 READ 7\ninterrupt 0\n',
    'early.script': b'interrupt 0\ncancel 0 0\n',
    'none.script': b'; no command\n',
}
IMAGE = bytes.fromhex('44564232 01010000 010000ff ffffffff 00000200 2200000000000000 2400000000000000 0001ff00')
IMAGES = {
    'good.image': IMAGE,
    'former.image': IMAGE,
    'twice.image': IMAGE[:18] + b'\3' + IMAGE[19:20] + IMAGE[20:28] + IMAGE[20:],
}
LISTED = b'driver d0\ndispatch READ f0\nroutine f0 dispatch\ncomplete r0 SUCCESS\nret SUCCESS\nendr\nendd\ndevice v0 d0 1\n'
ACCEPTED = b'accepted\ndriver 0 routine 0 dispatch certificate 2\n'
MEASURED = b'drivers 1\ndevices 1\nroutines 1\ninstructions 2\nlocks 0\n'
REFUSED = b'refused V5 DoubleCompletion driver 0 routine 0 at 1\n'
NAMED = (ACCEPTED + b'driver 0 routine 0: driver d, routine f (dispatch)\n'
         b'No threads ever wait for each other in a ring, and every routine ends.\n')
EXPLAINED = REFUSED + b'''
in driver d, routine f (dispatch), position 1, line 5:
    3  routine f dispatch
    4  complete r0 SUCCESS
  > 5  complete r0 SUCCESS
    6  ret SUCCESS
    7  endr
a path there:
     at 0, line 4: complete r0 SUCCESS
     at 1, line 5: complete r0 SUCCESS
what is known where it arrives:
  owed: the final status, since the packet was completed unmarked
r0 went blank, since its packet was completed, at 0, line 4: complete r0 SUCCESS
why: the register is blank: its packet was completed or given away before
see: Static Driver Verifier, DoubleCompletion; IoCompleteRequest; bug check 0x44
mend it: take out line 5 "complete r0 SUCCESS": the packet is completed once
'''
EXPLAINED_EACH = EXPLAINED + b'''
refused V2 Unreachable driver 0 routine 1 at 1

in driver d, routine g (dpc), position 1, line 10:
    8  routine g dpc
    9  ret void
  > 10  ret void
    11  endr
    12  endd
why: no path leads to this instruction
see: this bytecode's form
mend it: take out line 10 "ret void": a path leads to each instruction
'''
RULE = b'''V2 Unreachable
A path leads to each instruction.
see: nothing of the Kit: what no path reaches was meant for a path that is not there

this is refused:

driver d
routine f dpc
ret void
ret void
endr
endd
device v d 1

mend it: take it out, or jump there
this is accepted:

driver d
routine f dpc
ret void
endr
endd
device v d 1
'''
TRACED = b'0 started 0\n1 stepped\n2 topped 0 0x00000000 0\n3 finished\n4 idle\n'
STOPPED = b'0 started 0\n1 stepped\n2 topped 0 0x00000000 0\n3 bug 0x44 packet 0\n'
SERVED = b'0 topped 0 0x00000000 0\n1 refused\nhistory 5 agrees\n'
# what stands behind the words on a refused set
HUNT = b'show it: drvhost hunt '
SOME = object()  # some text, whatever it is

# what `explain` tells of an image that ends too early, and `tell` of a schedule without threads
SHORT = (
    b'image fault 2 Truncated\n'
    b'\n'
    b'in an image of 4 bytes\n'
    b'at fault: the image ends inside of a field, or before all that its counts tell\n'
    b'what may stand there: as many drivers, queues, routines, instructions and devices as the counts before them say\n')
NO_THREADS = (
    b'schedule fault 3 OutOfRange line 1\n'
    b'\n'
    b'in line 1:\n'
    b'  > 1  threads 0\n'
    b'at fault: `0`, whose number is out of range\n'
    b'what may stand there: how many threads there are, 1 to 64\n')
# what `explain` tells of a text that ends too early
UNCLOSED = (b'text fault 6 Unclosed line 2\n\nin driver d, line 2:\n    1  driver d\n'
            b'at fault: the text ends inside the driver\nwhat may stand there: `endd`\n')

# the line of a completion
DONE = b'complete r0 SUCCESS\n'

# words, and the exit status, the standard output and the error output
CASES = [
    ('check good.drv', 0, ACCEPTED, b''),
    ('check twice.drv', 1, REFUSED, b''),
    ('check open.drv', 2, b'', b'text fault 6 Unclosed line 2\n'),
    ('check short.image', 2, b'', b'image fault 2 Truncated\n'),
    ('check nothing.drv', 2, b'', b'read failed\n'),
    ('check good.drv twice.drv', 1, b'good.drv: accepted\ngood.drv: driver 0 routine 0 dispatch certificate 2\n'
     b'twice.drv: refused V5 DoubleCompletion driver 0 routine 0 at 1\n', b''),
    ('check nothing.drv good.drv', 2, b'good.drv: accepted\ngood.drv: driver 0 routine 0 dispatch certificate 2\n',
     b'nothing.drv: read failed\n'),
    ('check empty', 0, b'', b''),
    ('explain good.drv', 0, NAMED, b''),
    ('explain twice.drv', 1, EXPLAINED + HUNT + b'twice.drv\n', b''),
    ('explain open.drv', 2, b'', UNCLOSED),
    ('explain short.image', 2, b'', SHORT),
    ('explain nothing.drv', 2, b'', b'cannot read nothing.drv\n'),
    ('explain --all good.drv', 0, NAMED, b''),
    ('explain twice.drv --all', 1, EXPLAINED + HUNT + b'twice.drv\n', b''),
    ('explain both.drv', 1, EXPLAINED + HUNT + b'both.drv\n', b''),
    ('explain --all both.drv', 1, EXPLAINED_EACH + HUNT + b'both.drv\n', b''),
    ('explain --all open.drv', 2, b'', UNCLOSED),
    ('explain empty', 0, b'', b''),
    ('explain --all nothing.drv', 2, b'', b'cannot read nothing.drv\n'),
    ('explain --rule V2', 0, RULE, b''),
    ('explain --rule=V2', 0, RULE, b''),
    ('explain --rule V21', 2, b'', SOME),
    ('explain --rule', 2, b'', SOME),
    ('explain --rule V2 --all', 2, b'', SOME),
    ('explain good.drv --rule V2', 2, b'', SOME),
    ('explain --all', 2, b'', SOME),
    ('explain', 2, b'', SOME),
    ('stats good.drv', 0, ACCEPTED + MEASURED + b'text bytes %d\n' % len(GOOD), b''),
    ('stats good.drv --format json', 0, b'{"format":"pafteis.stats/1","file":"good.drv","routines":'
     b'[{"driver":0,"routine":0,"name":"f","sort":"dispatch","certificate":2,"instructions":2}],'
     b'"orders":[{"driver":0,"order":[],"cycle":[]}],"sizes":{"drivers":1,"devices":1,"routines":1,'
     b'"instructions":2,"locks":0,"input":"text","bytes":%d}}\n' % len(GOOD), b''),
    ('stats twice.drv', 1, REFUSED, b''),
    ('stats open.drv', 2, b'', b'text fault 6 Unclosed line 2\n'),
    ('stats nothing.drv', 2, b'', b'cannot read nothing.drv\n'),
    ('stats good.drv --format sarif', 2, b'', SOME),
    ('stats', 2, b'', SOME),
    ('list good.drv', 0, LISTED, b''),
    ('list open.drv', 2, b'', b'text fault 6 Unclosed line 2\n'),
    ('list nothing.drv', 2, b'', b'cannot read nothing.drv\n'),
    ('rewrite open.drv open.image', 2, b'', b'text fault 6 Unclosed line 2\n'),
    ('rewrite short.image open.image', 2, b'', b'image fault 2 Truncated\n'),
    ('rewrite nothing.drv open.image', 2, b'', b'read failed\n'),
    ('rewrite good.drv .', 2, b'', b'write failed\n'),
    ('rewrite good.drv no/such/good.image', 2, b'', b'write failed\n'),
    ('rewrite good.drv /dev/full', 2, b'', b'write failed\n'),
    ('rewrite good.drv', 2, b'', SOME),
    ('mend good.drv --apply', 0, b'accepted: nothing to mend\n', b''),
    ('mend open.drv --nth 1', 2, b'', b'text fault 6 Unclosed line 2\n'),
    ('mend nothing.drv --apply', 2, b'', b'cannot read nothing.drv\n'),
    ('mend twice.drv --nth 4', 2, b'', SOME),
    ('version', 0, f'drvhost {VERSION}\n'.encode(), b''),
    ('trace good.drv good.sched', 0, TRACED, b''),
    ('trace good.drv good.sched --unchecked', 0, TRACED, b''),
    ('trace twice.drv good.sched', 1, REFUSED, b''),
    ('trace twice.drv none.sched', 1, REFUSED, b''),
    ('trace twice.drv nothing.sched', 1, REFUSED, b''),
    ('trace --unchecked twice.drv good.sched', 1, STOPPED, b''),
    ('trace good.drv none.sched', 2, b'', b'schedule fault 3 OutOfRange line 1\n'),
    ('trace good.drv nothing.sched', 2, b'', b'read failed\ncannot read nothing.sched\n'),
    ('trace open.drv nothing.sched', 2, b'', b'text fault 6 Unclosed line 2\n'),
    ('tell twice.drv good.sched --quiet', 1, REFUSED, b''),
    ('tell twice.drv nothing.sched', 1, REFUSED, b''),
    ('tell good.drv none.sched', 2, b'', NO_THREADS),
    ('tell good.drv nothing.sched', 2, b'', b'read failed\ncannot read nothing.sched\n'),
    ('tell open.drv nothing.sched', 2, b'', b'text fault 6 Unclosed line 2\n'),
    ('tell good.drv', 2, b'', SOME),
    ('tell good.drv good.sched --quiet --every', 2, b'', SOME),
    ('tell twice.drv good.sched --every --strict', 1, REFUSED, b''),
    ('host good.drv two.script --workers 1', 0, SERVED, b''),
    ('host good.drv none.script --workers 64', 0, b'history 0 agrees\n', b''),
    ('host --workers=2 twice.drv two.script', 1, REFUSED, b''),
    ('host twice.drv early.script --workers 2', 1, REFUSED, b''),
    ('host twice.drv nothing.script --workers 2', 1, REFUSED, b''),
    ('host good.drv early.script --workers 2', 2, b'', b'script fault 3 OutOfRange line 2\n'),
    ('host good.drv nothing.script --workers 2', 2, b'', b'read failed\ncannot read nothing.script\n'),
    ('host open.drv nothing.script --workers 2', 2, b'', b'text fault 6 Unclosed line 2\n'),
    ('host good.drv two.script', 2, b'', SOME),
    ('host good.drv two.script --workers 0', 2, b'', SOME),
    ('host good.drv two.script --workers 65', 2, b'', SOME),
    ('', 2, b'', SOME),
    ('run good.drv', 2, b'', SOME),
    ('check', 2, b'', SOME),
    ('check good.drv --unchecked', 2, b'', SOME),
    ('trace good.drv', 2, b'', SOME),
    ('--help', 0, SOME, b''),
]

# words of which one is `-`, and what the standard input gives
FED = [
    ('check -', GOOD, 0, ACCEPTED, b''),
    ('check -', TWICE, 1, REFUSED, b''),
    ('check -', IMAGE, 0, ACCEPTED, b''),
    ('check -', b'', 1, b'refused V1 Malformed driver 0 routine 0 at 0\n', b''),
    ('explain -', TWICE, 1, EXPLAINED + HUNT + b'-\n', b''),
    ('check good.drv -', TWICE, 1, b'good.drv: accepted\ngood.drv: driver 0 routine 0 dispatch certificate 2\n'
     b'-: refused V5 DoubleCompletion driver 0 routine 0 at 1\n', b''),
    ('stats -', IMAGE, 0, ACCEPTED + MEASURED + b'image bytes %d\n' % len(IMAGE), b''),
    ('list -', IMAGE, 0, LISTED, b''),
    ('trace - good.sched', GOOD, 0, TRACED, b''),
    ('trace good.drv -', b'threads 1\nissue 0 0 READ 7\nstep 0 4\n', 0, TRACED, b''),
    ('tell good.drv -', b'threads 0\n', 2, b'', NO_THREADS),
    ('host good.drv - --workers 1', b'request 0 READ 7\ninterrupt 0\n', 0, SERVED, b''),
]

def is_as(wanted, found):
    return bool(found) if wanted is SOME else wanted == found

def run(program, words, folder, out=subprocess.PIPE, given=b''):
    done = subprocess.run([program, *words], cwd=folder, input=given, stdout=out, stderr=subprocess.PIPE)
    return done.returncode, done.stdout, done.stderr

def answers(program, folder):
    """Each case with what is wanted and what was found."""
    for words, *wanted in CASES:
        yield words, wanted, run(program, words.split(), folder)
    for words, given, *wanted in FED:
        yield words + ' < input', wanted, run(program, words.split(), folder, given=given)
    # from a file, a standard input is read from where it stands; a file named `-` is `./-`
    for name, content in ('-', GOOD), ('behind', b'driver d\n' + TWICE):
        with open(os.path.join(folder, name), 'wb') as out:
            out.write(content)
    with open(os.path.join(folder, 'behind'), 'rb', buffering=0) as behind:
        behind.read(9)
        done = subprocess.run([program, 'check', '-'], cwd=folder, stdin=behind, capture_output=True)
    yield 'check - < behind', (1, REFUSED, b''), (done.returncode, done.stdout, done.stderr)
    yield 'check ./-', (0, ACCEPTED, b''), run(program, ['check', './-'], folder, given=TWICE)
    # a word that is no text, and an output that takes nothing
    yield 'check <a byte that is no text>', (2, b'', SOME), run(program, [b'check', b'\xff'], folder)
    with open('/dev/full', 'wb') as full:
        status, _, told = run(program, ['check', 'good.drv'], folder, full)
    yield 'check good.drv > /dev/full', (2, b'', b'write failed\n'), (status, b'', told)
    # images are written, also over the file that was read; a faulty set leaves the file as it was
    for words, name in ('good.drv good.image', 'good.image'), ('good.image good.image', 'good.image'), \
            ('former.image former.image', 'former.image'), ('twice.drv twice.image', 'twice.image'):
        found = run(program, ['rewrite', *words.split()], folder)
        yield 'rewrite ' + words, (0, b'', b''), found
        with open(os.path.join(folder, name), 'rb') as image:
            yield name, (0, IMAGES[name], b''), (0, image.read(), b'')
    run(program, ['rewrite', 'open.drv', 'good.image'], folder)
    with open(os.path.join(folder, 'good.image'), 'rb') as image:
        yield 'good.image after a faulty set', (0, IMAGES['good.image'], b''), (0, image.read(), b'')
    yield 'open.image', (0, False, b''), (0, os.path.exists(os.path.join(folder, 'open.image')), b'')
    # a mend is applied once its answer was written
    with open('/dev/full', 'wb') as full:
        status, _, told = run(program, ['mend', 'twice.drv', '--apply'], folder, full)
    yield 'mend twice.drv --apply > /dev/full', (2, b'', b'write failed\n'), (status, b'', told)
    for words, text in (None, FILES['twice.drv']), ('mend twice.drv --apply', FILES['twice.drv'].replace(DONE, b'', 1)):
        if words:
            status, told, errors = run(program, words.split(), folder)
            yield words, (0, True, b''), (status, told.endswith(b'\napplied mend 1\n'), errors)
        with open(os.path.join(folder, 'twice.drv'), 'rb') as held:
            yield 'twice.drv', (0, text, b''), (0, held.read(), b'')
    # several workers: the history is of their making, and agrees
    status, told, errors = run(program, 'host good.drv two.script --workers 4'.split(), folder)
    yield 'host, 4 workers', (0, True, b''), (status, told.endswith(b' agrees\n'), errors)

def example_runs(program):
    """The examples whose run is stored beside them, likewise."""
    folder = os.path.join(TOP, 'examples')
    for name in sorted(os.listdir(folder)):
        set_name, kind = os.path.splitext(name)
        if kind == '.txt':
            with open(os.path.join(folder, name), 'rb') as stored:
                wanted = (0, stored.read(), b'')
            yield 'trace ' + set_name, wanted, run(program, ['trace', set_name + '.drv', set_name + '.sched'], folder)

def main():
    program = os.path.abspath(sys.argv[1] if len(sys.argv) > 1 else os.path.join(TOP, 'crates/drvhost/out/drvhost'))
    tried = wrong = 0
    with tempfile.TemporaryDirectory() as folder:
        for name, content in FILES.items():
            with open(os.path.join(folder, name), 'wb') as out:
                out.write(content)
        os.mkdir(os.path.join(folder, 'empty'))
        for words, wanted, found in [*answers(program, folder), *example_runs(program)]:
            tried += 1
            if wanted[0] != found[0] or not all(map(is_as, wanted[1:], found[1:])):
                wrong += 1
                print('drvhost %s: wanted %r, found %r' % (words, wanted, found))
    print('%d answers, %d wrong' % (tried, wrong))
    sys.exit(bool(wrong))

main()
