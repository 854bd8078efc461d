#!/usr/bin/env python3
"""tools/try growths [PROGRAM [COMMAND]]: each growth of a whole run of the built program (crates/drvhost/out/drvhost, if none
is named) is refused in turn, from outside: tools/parts/refuse_growth.c, which the C compiler `cc` builds, stands before the C
library and refuses the Nth call for memory, or for a thread, for N = 1, 2, .. up to one past the last. Each run has to answer
`out of memory` with exit status 3 and nothing on standard output, or to give the whole answer, and nothing else. Then each
read of it fails in turn, and each write: what is told is `read failed`, perhaps with the file's name, and nothing on standard
output; or `write failed` behind a beginning of the answer; or a beginning of what would be told. The file whose text a mend
is applied to has what it had wherever the answer isn't whole, but where its own write fails: then it has a beginning of the
text. Where several files are judged the answer has to be that of the files before, what became of the file where it fails, and
after a read those behind it. With COMMAND only the runs of that one are tried, as `mend`. The last line counts."""
import os, re, subprocess, sys, tempfile

from versions import TOP, VERSION

LIBRARY = os.path.join(TOP, 'tools/parts/refuse_growth.c')

QUEUES = '''driver d
queue q l0 gone
dispatch READ f
dpc g
routine f dispatch
mark r0
acquire l0
insert r0 q
arm r0 q
ifcancel r0 was
release l0
ret PENDING
was: disarm r0 lost
unlink r0 q
release l0
complete r0 CANCELLED
ret PENDING
lost: release l0
ret PENDING
endr
routine g dpc
acquire l0
remove r0 q none
disarm r0 none
release l0
complete r0 SUCCESS
ret void
none: release l0
ret void
endr
routine gone cancel
relc
acquire l0
unlink r0 q
release l0
complete r0 CANCELLED
ret void
endr
endd
device v d 1
'''
TWICE = QUEUES.replace('complete r0 SUCCESS\n', 'complete r0 SUCCESS\ncomplete r0 SUCCESS\n')
BOTH = TWICE.replace('complete r0 CANCELLED\nret void\n', 'complete r0 CANCELLED\nret void\nret void\n')
ONE_READ = bytes.fromhex('44564231 01010000 010000ff ffffff00 00000200 2200000000000000 2400000000000000 0001ff00')
STEPS = lambda first, last: ''.join('%d stepped\n' % number for number in range(first, last + 1))
TRACED = ('0 started 0\n' + STEPS(1, 6) + '7 finished\n8 stepped\n9 stepped\n10 started 0\n' + STEPS(11, 15) + '16 finished\n'
          + STEPS(17, 18) + '19 topped 0 0x00000000 0\n20 finished\n')
FILES = {
    'set': QUEUES.encode(),
    'image': ONE_READ,
    'schedule': b'threads 3\nissue 0 0 READ 5\nstep 0 7\ninterrupt 0\ndpc 1 0\ncancel 2 0 0\nstep 2 2\nstep 1 3\nstep 2\nstep 1 4\n',
    'script': b'request 0 READ 0\ninterrupt 0\n',
    'twice': TWICE.encode(),
    'both': BOTH.encode(),
    'open': b'driver d\n',
    'applied': TWICE.encode(),
    'holds': b'threads 1\na = issue 0 v READ 7\nrun 0\nexpect a in q of v\n',
    'fails': b'threads 1\nexpect thread 0 busy\n',
    'past': b'what it had\n',
}
HISTORY = b'threads 1\nissue 0 0 READ 0\nstep 0 7\ninterrupt 0\ndpc 0 0\nstep 0 7\n'
# the text that a run writes to a file of that name
WRITTEN = {'mend applied --tries 60 --apply': ('applied', QUEUES.encode()),
           'host set script --workers 1 --history past': ('past', HISTORY)}
ACCEPTED = ('accepted\ndriver 0 routine 0 dispatch certificate 14\ndriver 0 routine 1 dpc certificate 8\n'
            'driver 0 routine 2 cancel certificate 6\n')
LISTED = 'driver d0\ndispatch READ f0\nroutine f0 dispatch\ncomplete r0 SUCCESS\nret SUCCESS\nendr\nendd\ndevice v0 d0 1\n'
EXPLAINED = '''refused V5 DoubleCompletion driver 0 routine 1 at 5

in driver d, routine g (dpc), position 5, line 27:
    25  release l0
    26  complete r0 SUCCESS
  > 27  complete r0 SUCCESS
    28  ret void
    29  none: release l0
a path there:
     at 0, line 22: acquire l0
     at 1, line 23: remove r0 q none
     at 2, line 24: disarm r0 none
     at 3, line 25: release l0
     at 4, line 26: complete r0 SUCCESS
     at 5, line 27: complete r0 SUCCESS
what is known where it arrives:
  nothing: each register is blank, and no lock is held
r0 went blank, since its packet was completed, at 4, line 26: complete r0 SUCCESS
why: the register is blank: its packet was completed or given away before
see: Static Driver Verifier, DoubleCompletion; IoCompleteRequest; bug check 0x44
mend it: take out line 27 "complete r0 SUCCESS": the packet is completed once
'''
EXPLAINED_EACH = EXPLAINED + '''
refused V2 Unreachable driver 0 routine 2 at 6

in driver d, routine gone (cancel), position 6, line 39:
    37  complete r0 CANCELLED
    38  ret void
  > 39  ret void
    40  endr
    41  endd
why: no path leads to this instruction
see: this bytecode's form
mend it: take out line 39 "ret void": a path leads to each instruction
'''
# what stands behind the words on a refused set
HUNT = 'show it: drvhost hunt '
MENDED = '''refused V5 DoubleCompletion driver 0 routine 1 at 5
mend 1 of the whole: sure, cost 0.87
take out line 27 "complete r0 SUCCESS": the packet is completed once
--- set
+++ mended
@@ -24,7 +24,6 @@
 disarm r0 none
 release l0
 complete r0 SUCCESS
-complete r0 SUCCESS
 ret void
 none: release l0
 ret void
'''
RULE = '''V20 Memory
The verifier found no memory. The program tells it as `out of memory` on standard
error, with status 3, and says nothing of the set. No text mends it.
see: nothing of the Kit: it is no fault of the set
'''

# what `explain` tells of a text that ends too early
UNCLOSED = ('text fault 6 Unclosed line 2\n\nin driver d, line 2:\n    1  driver d\n'
            'at fault: the text ends inside the driver\nwhat may stand there: `endd`\n')

# words, and the whole answer: exit status, standard output, error output
CASES = [
    ('check set', 0, ACCEPTED, ''),
    ('check image', 0, 'accepted\ndriver 0 routine 0 dispatch certificate 2\n', ''),
    ('check twice', 1, 'refused V5 DoubleCompletion driver 0 routine 1 at 5\n', ''),
    ('check open', 2, '', 'text fault 6 Unclosed line 2\n'),
    ('explain image', 0, 'accepted\ndriver 0 routine 0 dispatch certificate 2\n'
     'driver 0 routine 0: driver d0, routine f0 (dispatch)\n'
     'No threads ever wait for each other in a ring, and every routine ends.\n', ''),
    ('explain twice', 1, EXPLAINED + HUNT + 'twice\n', ''),
    ('explain --all twice', 1, EXPLAINED + HUNT + 'twice\n', ''),
    ('explain --all both', 1, EXPLAINED_EACH + HUNT + 'both\n', ''),
    ('explain --rule V20', 0, RULE, ''),
    ('explain --rule V21', 2, '', None),  # some text on how the program is used
    ('explain open', 2, '', UNCLOSED),
    ('stats image', 0, 'accepted\ndriver 0 routine 0 dispatch certificate 2\n'
     'drivers 1\ndevices 1\nroutines 1\ninstructions 2\nlocks 0\nimage bytes 40\n', ''),
    ('stats open', 2, '', 'text fault 6 Unclosed line 2\n'),
    ('list image', 0, LISTED, ''),
    ('list open', 2, '', 'text fault 6 Unclosed line 2\n'),
    ('rewrite set out', 0, '', ''),
    ('rewrite image out', 0, '', ''),
    ('rewrite open out', 2, '', 'text fault 6 Unclosed line 2\n'),
    ('mend image', 0, 'accepted: nothing to mend\n', ''),
    ('mend twice --tries 60', 0, MENDED, ''),
    ('mend open', 2, '', 'text fault 6 Unclosed line 2\n'),
    ('mend applied --tries 60 --apply', 0, MENDED + 'applied mend 1\n', ''),
    ('mend image --apply', 0, 'accepted: nothing to mend\n', ''),
    ('mend open --nth 1', 2, '', 'text fault 6 Unclosed line 2\n'),
    ('version', 0, f'drvhost {VERSION}\n', ''),
    ('trace set schedule', 0, TRACED, ''),
    ('trace set schedule --unchecked', 0, TRACED, ''),
    ('host set script --workers 1', 0, '0 topped 0 0x00000000 0\n1 stepped\nhistory 17 agrees\n', ''),
    ('host set script --workers 1 --history past', 0, '0 topped 0 0x00000000 0\n1 stepped\nhistory 17 agrees\n', ''),
    ('test set holds', 0, 'ok holds\n', ''),
    ('test set holds fails --jobs 2', 1, 'ok holds\nfailed fails line 2: thread 0: expected busy, it is idle\n', ''),
    ('test twice holds', 1, 'refused V5 DoubleCompletion driver 0 routine 1 at 5\n', ''),
    ('check', 2, '', None),  # some text on how the program is used
]
NO_MEMORY = (3, '', 'out of memory\n')
UNREAD = re.compile(r'read failed\n(cannot read \w+\n)?')
UNREAD_BY_NAME = re.compile(r'\w+: read failed\n')
KINDS = 'GROWTH', 'READ', 'WRITE'

# what is answered for one file, by the command
ALONE = {
    'check': {
        'set': (0, ACCEPTED, ''),
        'twice': (1, 'refused V5 DoubleCompletion driver 0 routine 1 at 5\n', ''),
        'open': (2, '', 'text fault 6 Unclosed line 2\n'),
        'sets/image.image': (0, 'accepted\ndriver 0 routine 0 dispatch certificate 2\n', ''),
        'sets/twice.drv': (1, 'refused V5 DoubleCompletion driver 0 routine 1 at 5\n', ''),
    },
    'explain': {
        'image': (0, 'accepted\ndriver 0 routine 0 dispatch certificate 2\n'
                  'driver 0 routine 0: driver d0, routine f0 (dispatch)\n'
                  'No threads ever wait for each other in a ring, and every routine ends.\n', ''),
        'twice': (1, EXPLAINED + HUNT + 'twice\n', ''),
        'open': (2, '', UNCLOSED),
    },
}

# commands for several files: their words, and the files that these stand for
SEVERAL = [
    ('check', 'set twice', ['set', 'twice']),
    ('check', 'open set', ['open', 'set']),
    ('check', 'sets', ['sets/image.image', 'sets/twice.drv']),
    ('explain', 'twice image', ['twice', 'image']),
    ('explain', 'open twice', ['open', 'twice']),
]

def marked(command, name, text):
    """A text as it is told of a file of a name."""
    if command == 'check':
        return ''.join('%s: %s\n' % (name, line) for line in text.splitlines())
    return text and '%s:\n%s' % (name, text)

def joined(answers):
    """The answers for files, one behind the other."""
    return max((one[0] for one in answers), default=0), ''.join(one[1] for one in answers), ''.join(one[2] for one in answers)

def whole_of(command, names):
    """The answer for each of these files, told with its name."""
    told = lambda name, answer: (answer[0], marked(command, name, answer[1]), marked(command, name, answer[2]))
    return [told(name, ALONE[command][name]) for name in names]

def allowed(kind, command, names):
    """What may be answered where one growth, read or write fails."""
    answers = whole_of(command, names)
    yield joined(answers)
    if kind == 'GROWTH':
        yield NO_MEMORY
    for place, name in enumerate(names):
        before = joined(answers[:place])
        if kind == 'GROWTH':
            yield 3, before[1], before[2] + marked(command, name, 'out of memory\n')
        elif kind == 'READ':
            unread = 2, '', marked(command, name, 'read failed\n')
            yield joined(answers[:place] + [unread] + answers[place + 1:])
        else:
            yield 2, before[1], before[2] + 'write failed\n'
            # once the error writer has failed, nothing more is told
            yield *joined(answers)[:2], before[2]

def run(program, words, folder, library, kind, number):
    """What the program answers, with the growth, the read or the write of this number refused, what the file that it writes
    has then, and how many of the kind it asked for."""
    counted = os.path.join(folder, 'counted')
    how = {**os.environ, 'LD_PRELOAD': library, 'REFUSED_' + kind: str(number), 'COUNTED_%sS' % kind: counted}
    if os.path.exists(counted):
        os.remove(counted)
    name, _ = WRITTEN.get(words, ('set', None))
    with open(os.path.join(folder, name), 'wb') as out:
        out.write(FILES[name])
    done = subprocess.run([program, *words.split()], cwd=folder, env=how, stdin=subprocess.DEVNULL, capture_output=True, text=True, timeout=60)
    held = open(os.path.join(folder, name), 'rb').read()
    if not os.path.exists(counted):
        return (done.returncode, done.stdout, done.stderr + '(it ended without a count)'), held, 0
    return (done.returncode, done.stdout, done.stderr), held, int(open(counted).read())

def is_whole(wanted, found):
    return wanted[:2] == found[:2] and (bool(found[2]) if wanted[2] is None else wanted[2] == found[2])

def is_without(wanted, out):
    """Whether nothing goes out, or all lines but one: of a test whose scenario can't be read."""
    lines = wanted.splitlines(True)
    return out in ['', *(''.join(lines[:place] + lines[place + 1:]) for place in range(len(lines)))]

def is_fault(kind, wanted, found):
    """Whether a fault of a kind is answered so."""
    status, out, told = found
    if kind == 'GROWTH':
        return found == NO_MEMORY
    if kind == 'READ':
        alone = out == '' and bool(UNREAD.fullmatch(told))
        return status == 2 and (alone or bool(UNREAD_BY_NAME.fullmatch(told)) and is_without(wanted[1], out))
    said = wanted[2] is None or wanted[2].startswith(told)
    return (status == 2 and wanted[1].startswith(out) and told == 'write failed\n') or (wanted[:2] == found[:2] and said)

def holds_rightly(words, wanted, found, held):
    """Whether the file that a run writes has the text, or what it had where the answer isn't whole; a write to it that fails
    behind the answer leaves a beginning of the text."""
    if words not in WRITTEN:
        return True
    name, text = WRITTEN[words]
    if is_whole(wanted, found):
        return held == text
    return held == FILES[name] or wanted[1] == found[1] and text.startswith(held)

def sweep(program, folder, library, words, wanted, kind):
    """The calls of a kind of a run, how many of them ended in a fault, and how many in another answer."""
    whole, held, calls = run(program, words, folder, library, kind, 0)
    if not is_whole(wanted, whole) or not holds_rightly(words, wanted, whole, held):
        print('drvhost %s: %r' % (words, whole))
        return calls, 0, 1
    ended = wrong = 0
    for number in range(1, calls + 2):
        found, held, _ = run(program, words, folder, library, kind, number)
        whole, fault = is_whole(wanted, found), is_fault(kind, wanted, found)
        ended += fault and not whole
        if not (whole or fault) or not holds_rightly(words, wanted, found, held):
            wrong += 1
            print('drvhost %s, %s %d of %d refused: %r' % (words, kind.lower(), number, calls, found))
    return calls, ended, wrong

def sweep_several(program, folder, library, kind, command, words, names):
    """The same where several files are judged, and growths, reads or writes fail."""
    words = command + ' ' + words
    wanted = list(allowed(kind, command, names))
    _, _, count = run(program, words, folder, library, kind, 0)
    ended = wrong = 0
    for number in range(count + 2):
        found, _, _ = run(program, words, folder, library, kind, number)
        ended += found != wanted[0]
        if found not in wanted:
            wrong += 1
            print('drvhost %s, %s %d of %d refused: %r' % (words, kind.lower(), number, count, found))
    return count, ended, wrong

def counted(words, found, total):
    """Tells what came of a run, and adds it to what came of all."""
    print('drvhost %-32s %4d growths refused, %4d told as want of memory; %d reads, %d writes'
          % (words, *found['GROWTH'][:2], found['READ'][0], found['WRITE'][0]))
    for kind in KINDS:
        total[kind] = [sum(both) for both in zip(total[kind], found[kind])]

def main():
    program = os.path.abspath(sys.argv[1] if len(sys.argv) > 1 else os.path.join(TOP, 'crates/drvhost/out/drvhost'))
    commands = sys.argv[2:] or [case[0].split()[0] for case in CASES]
    cases = [case for case in CASES if case[0].split()[0] in commands]
    total = {kind: [0, 0, 0] for kind in KINDS}
    with tempfile.TemporaryDirectory() as folder:
        library = os.path.join(folder, 'refuse_growth.so')
        subprocess.run(['cc', '-shared', '-fPIC', '-O1', '-o', library, LIBRARY, '-ldl', '-lpthread'], check=True)
        for name, content in FILES.items():
            with open(os.path.join(folder, name), 'wb') as out:
                out.write(content)
        for words, *wanted in cases:
            found = {kind: sweep(program, folder, library, words, tuple(wanted), kind) for kind in KINDS}
            counted(words, found, total)
        os.mkdir(os.path.join(folder, 'sets'))
        for name, content in ('image.image', 'image'), ('twice.drv', 'twice'):
            with open(os.path.join(folder, 'sets', name), 'wb') as out:
                out.write(FILES[content])
        for command, words, names in (it for it in SEVERAL if it[0] in commands):
            found = {kind: sweep_several(program, folder, library, kind, command, words, names) for kind in KINDS}
            counted(command + ' ' + words, found, total)
    wrong = sum(counts[2] for counts in total.values())
    print('%d growths refused, %d told as want of memory; %d reads and %d writes failed; %d wrong'
          % (*total['GROWTH'][:2], total['READ'][0], total['WRITE'][0], wrong))
    return 1 if wrong else 0

if __name__ == '__main__':
    sys.exit(main())
