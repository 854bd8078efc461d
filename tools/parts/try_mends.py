#!/usr/bin/env python3
"""tools/try mends PROGRAM [--each | --store] [NAME..]: tries whether the mends that `explain` tells are mends. Each accepted driver
text of the folder examples (or those named) is broken in one way at a time: an instruction is left out, written twice or
added, or a routine returns in another form. Each wrong driver of the gallery (or those named) is taken as it is. PROGRAM
explains the broken text; where the words of the mend are known here,
they are followed to the letter, and `explain` is asked again. The text has to be accepted then, or have its next fault
further on, or of a later rule at the same place: of two faults of an instruction the one of the lesser rule is told first.
A mend after which it is refused there by the same rule, or earlier, is printed with its break, and the exit status is 1 then.
Otherwise each mend is printed with how often it was told, whether it is known, and one of its breaks;
with --each every break is. The last line counts. With --store a break of each reason and of each mend is stored, with what
is told of it, and, where the mend is followed, the mended text with its verdict: the group mends of the stored runs is
written anew.

A mend that was searched names lines, and is followed by these. Where another one speaks of a label L, the place that it names is made: the guard of the queue is released there, and the routine
returns. Where it leaves open which status, SUCCESS is taken. Mends that ask for a decision of the author (states that differ,
another register) aren't followed."""
import concurrent.futures, itertools, os, re, subprocess, sys

from gallery import GALLERY
from stored_runs import Group, Run, Text, settle, text_of as stored_text

TOP = os.path.dirname(os.path.dirname(os.path.dirname(os.path.abspath(__file__))))
EXAMPLES = os.path.join(TOP, 'examples')
# Texts in which instructions are added, at the start of a routine and before each return.
SMALL = 'cancel', 'filter', 'queue', 'startio'
# How many mends are stored at least with the text that they mend.
STORED = 69
FORMS = 'SUCCESS', 'PENDING', 'lower r0', 'continue', 'stop', 'void'
ADDED = ('mark r0', 'complete r0 SUCCESS', 'complete r0 PENDING', 'pass r0', 'call r0', 'start r0', 'begin r0', 'next', 'acqc',
         'relc', 'acquire l0', 'release l0', 'dequeue r0', 'clear r0', 'const r0 1', 'loadp r9 p0', 'get r9 r0 ARG', 'get r9 r8 ARG',
         'insert r0 Q', 'arm r0 Q', 'unlink r0 Q', 'disarm r0 L', 'ifpending r0 L', 'ifcancel r0 L', 'take r0 L', 'remove r9 Q L')
OUTSIDE = 'driver', 'endd', 'dispatch', 'startio', 'dpc', 'queue', 'routine', 'endr', 'device'
RETURNED = {'dispatch': 'ret PENDING', 'propagate': 'ret continue', 'hold': 'ret continue'}

class Line:
    """A line of a text: its label, and the words behind it."""

    def __init__(self, words, label=''):
        self.words, self.label = words, label

    def text(self):
        return (self.label + ': ' if self.label else '') + self.words

    def is_code(self):
        return bool(self.words) and self.words.split()[0] not in OUTSIDE

def read(path):
    lines = []
    for raw in open(path):
        found = re.match(r'(?:(\w+):)?\s*(.*?)\s*$', raw.partition(';')[0].strip())
        lines.append(Line(found[2], found[1] or ''))
    return [line for line in lines if line.words or line.label]

def copied(lines):
    return [Line(line.words, line.label) for line in lines]

def text_of(lines):
    return ''.join(line.text() + '\n' for line in lines)

def answer(program, command, lines):
    """What the program answers of a text, and its exit status."""
    done = subprocess.run([program, command, '/dev/stdin'], input=text_of(lines), capture_output=True, text=True)
    return done.stdout, done.returncode

def explain(program, lines):
    return answer(program, 'explain', lines)[0]

class Told:
    """What is told of a refused text: its first line, the rule's number, the line at fault, why and the mend."""

    def __init__(self, words):
        self.words, self.first = words, words.split('\n')[0]
        self.rule = int(re.match(r'refused V(\d+)', words)[1])
        place = re.search(r', position \d+, line (\d+):', words)
        self.at = int(place[1]) - 1 if place else -1
        self.why, self.mend = re.search(r'^why: (.*)$', words, re.M)[1], re.search(r'^mend it: (.*)$', words, re.M)[1]

    def line_behind(self, title):
        found = re.search(title + r'.*line (\d+): ', self.words, re.M)
        return int(found[1]) - 1 if found else None

class Routine:
    """The lines of the routine that has a line: where it begins and ends, its sort and its queues' locks."""

    def __init__(self, lines, at):
        self.lines = lines
        self.start = max(i for i in range(at + 1) if lines[i].words.startswith('routine '))
        self.end = next(i for i in range(at, len(lines)) if lines[i].words == 'endr')
        self.sort = lines[self.start].words.split()[2]

    def before(self, at, word):
        """The last line before one that begins with a word."""
        return max((i for i in range(self.start, at) if self.lines[i].words.split()[0] == word), default=None)

    def queue(self):
        """The name and the lock of a queue that the driver declares, if it declares one."""
        driver = max(i for i in range(self.start) if self.lines[i].words.startswith('driver '))
        queues = [line.words.split() for line in self.lines[driver:self.start] if line.words.startswith('queue ')]
        return queues[0][1:3] if queues else (None, 'l0')

    def labels(self, at):
        return [line.label for line in self.lines[at + 1:self.end] if line.label]

def put(lines, at, words):
    """Puts instructions before a line, which leaves its label to the first of them."""
    fresh = [Line(word) for word in words]
    fresh[0].label, lines[at].label = lines[at].label, ''
    lines[at:at] = fresh

def take_out(lines, at):
    """Takes a line out, and leaves its label to the next; False where that has one."""
    label = lines[at].label
    if label and lines[at + 1].label:
        return False
    lines[at + 1].label = lines[at + 1].label or label
    del lines[at]
    return True

def breaks(name, lines):
    """Each broken text, with what was done to it."""
    for at, line in enumerate(lines):
        if not line.is_code():
            continue
        place = '%s, `%s`' % (name, line.text())
        broken = copied(lines)
        if lines[at + 1].is_code() and take_out(broken, at):
            yield place + ' left out', broken
        broken = copied(lines)
        broken.insert(at + 1, Line(line.words))
        yield place + ' twice', broken
        for form in FORMS if line.words.startswith('ret ') else ():
            if line.words != 'ret ' + form:
                broken = copied(lines)
                broken[at].words = 'ret ' + form
                yield '%s as `ret %s`' % (place, form), broken
        routine = Routine(lines, at)
        is_edge = at == routine.start + 1 or line.words.startswith('ret')
        for words in ADDED if name in SMALL and is_edge else ():
            labels, (queue, _) = routine.labels(at), routine.queue()
            if re.search(r'\bL\b', words) and not labels or 'Q' in words.split() and not queue:
                continue
            words = re.sub(r'\bL\b', labels[0] if labels else '', re.sub(r'\bQ\b', queue or '', words))
            broken = copied(lines)
            put(broken, at, [words])
            yield '%s behind `%s`' % (place, words), broken

def quoted(words):
    return re.findall(r'`([^`]*)`', words)

# The sentences of a mend that was searched, which name lines of the text as it was.
PUT = re.compile(r'insert ((?:"[^"]*"(?:, )?)+) before line (\d+)')
REPLACED = re.compile(r'replace line (\d+) "[^"]*" by "([^"]*)"')
TAKEN = re.compile(r'take out line (\d+) "[^"]*"')
LABELLED = re.compile(r'put the label "(\w+)" on line (\d+)')
MOVED = re.compile(r'move line (\d+) "([^"]*)" before line (\d+)')

def is_searched(mend):
    return any(form.match(mend) for form in (PUT, REPLACED, TAKEN, LABELLED, MOVED))

def labelled(words):
    label, colon, rest = words.partition(': ')
    return Line(rest, label) if colon else Line(words)

def follow_searched(lines, mend):
    """Follows a mend that was searched. What is inserted stands before a line and its label, unless it has that label itself;
    a line goes with its label, unless another one is told to have that."""
    before = {int(at) - 1: [labelled(words) for words in re.findall(r'"([^"]*)"', put)] for put, at in PUT.findall(mend)}
    replaced = {int(at) - 1: words for at, words in REPLACED.findall(mend)}
    taken = {int(at) - 1 for at in TAKEN.findall(mend)}
    named = {int(at) - 1: label for label, at in LABELLED.findall(mend)}
    for at, words, to in MOVED.findall(mend):
        line = labelled(words)
        before.setdefault(int(to) - 1, []).append(Line(line.words, named.get(int(at) - 1) or line.label))
        taken.add(int(at) - 1)
    elsewhere = set(named.values()).union(line.label for put in before.values() for line in put)
    routines = list(itertools.accumulate(line.words.startswith('routine ') for line in lines))
    edited = {routines[at] for at in {*before, *replaced, *taken, *named}}
    made = []
    for at, line in enumerate(lines):
        made += before.get(at, [])
        if at not in taken:
            own = '' if routines[at] in edited and line.label in elsewhere else line.label
            made.append(Line(replaced.get(at, line.words), named.get(at) or own))
    lines[:] = made
    return True

def with_label(lines, at, words):
    """Instructions with a label for L, of a place at the routine's end where the lock is released and the routine returns."""
    if not any(re.search(r'\bL\b', word) for word in words):
        return words
    routine = Routine(lines, at)
    lines[routine.end:routine.end] = [Line('release ' + routine.queue()[1], 'mended'), Line(RETURNED.get(routine.sort, 'ret void'))]
    return [re.sub(r'\bL\b', 'mended', word) for word in words]

def status_before(lines, at):
    completed = Routine(lines, at).before(at, 'complete')
    return lines[completed].words.split()[2] if completed else 'SUCCESS'

def own_words(lines, told, mend):
    """Follows a mend with words of its own; False where it has none."""
    at = told.at
    line, routine = lines[at], Routine(lines, at)
    if re.match(r'complete a packet once', mend):
        return take_out(lines, at)
    if re.match(r'`arm .* behind its `insert`', mend):
        lines.insert(routine.before(at, 'insert') + 1, Line(quoted(mend)[0]))
    elif re.match(r'`disarm .* behind the `remove`', mend):
        removed = routine.before(at, 'remove')
        lines.insert(removed + 1, Line(quoted(mend)[0].replace(' L', ' ' + lines[removed].words.split()[3])))
    elif re.search(r'return the status|`ret` with the status', mend) and line.words.startswith('ret '):
        line.words = 'ret ' + status_before(lines, at)
    elif re.match(r'`complete r\d+` with', mend):
        status = line.words.split()[1] if line.words.split()[1].isupper() and 'PENDING' not in line.words else 'SUCCESS'
        put(lines, at, [quoted(mend)[0] + ' ' + status])
    elif re.match(r'`mark` the packet and put', mend):
        register = re.search(r'(r\d+): the packet as it was', told.words)[1]
        put(lines, at, ['complete %s SUCCESS' % register])
        line.words = 'ret SUCCESS'
    elif mend == 'complete it with its final status':
        line.words = line.words.replace('PENDING', 'SUCCESS')
    elif re.match(r'`ifpending .* `ret continue`$', mend):
        look, mark, form = quoted(mend)
        lines[routine.end:routine.end] = [Line(mark, 'mended'), Line(form)]
        put(lines, at, [look.replace(' L', ' mended')])
    elif re.match(r'`ifpending .* marked at L alone', mend):
        put(lines, at, [quoted(mend)[0].replace(' L', ' mended'), 'ret continue'])
        line.label = 'mended'
    elif re.match(r'start the `next` and', mend):
        put(lines, at, ['next', quoted(mend)[1] + ' SUCCESS'])
    elif re.match(r'`release .* leaves that one', mend):
        put(lines, at, quoted(mend))
    elif re.match(r'start the `next` before', mend):
        put(lines, at, ['next'])
    elif mend.startswith('`take` the current packet first'):
        put(lines, at, ['take r9 mended'])
        lines[routine.end + 1:routine.end + 1] = [Line('ret void', 'mended')]
    elif re.match(r'name (`r\d+`|the register that it was moved)', mend):
        blank = re.search(r'^(r\d+) (?:was never set|went blank)', told.words, re.M)[1]
        line.words = re.sub(r'\b%s\b' % blank, re.findall(r'r\d+', mend)[0], line.words)
    elif mend.startswith('end the routine with'):
        lines.insert(routine.end, Line({'dispatch': 'ret SUCCESS'}.get(routine.sort, RETURNED.get(routine.sort, 'ret void'))))
    elif mend.startswith('write the stack size'):
        device, size = told.line_behind('^the device,'), re.search(r'(\d+) is needed', told.words)[1]
        parts = lines[device].words.split()
        lines[device].words = ' '.join(parts[:3] + [size] + parts[4:])
    elif mend.startswith('do this before') and told.line_behind('went blank') is not None:
        emptied = told.line_behind('went blank')
        words = line.words
        take_out(lines, at)
        put(lines, emptied, [words])
    else:
        return False
    return True

def follow(lines, told):
    """Follows a mend; False where its words aren't known here."""
    at, mend = told.at, told.mend
    if at < 0:
        return False
    if is_searched(mend):
        return follow_searched(lines, mend)
    if own_words(lines, told, mend):
        return True
    if re.match(r'take (it|this) out', mend):
        return take_out(lines, at)
    both = re.match(r'`acqc` before it, and `relc` after it$', mend)
    if both:
        lines.insert(at + 1, Line('relc'))
        put(lines, at, ['acqc'])
        return True
    before = re.match(r'((`[^`]*`|, | and )+) before ', mend)
    if before:
        words = with_label(lines, at, quoted(before[1]))
        put(lines, at, ['complete' in word and len(word.split()) == 2 and word + ' SUCCESS' or word for word in words])
        if mend.endswith('and `ret PENDING`'):
            last = next(i for i in range(at + 1, len(lines)) if lines[i].words.startswith('ret '))
            lines[last].words = 'ret PENDING'
        return True
    instead = re.match(r'((`[^`]*`| and )+) instead', mend)
    alone = re.match(r'`(ret [^`]*)`(, since .*|, or .*)?$', mend)
    if instead or alone:
        words = quoted(instead[1] if instead else alone[0])[:None if instead else 1]
        words = with_label(lines, at, words)
        if len(words) > 1:
            put(lines, at, words[:-1])
        lines[at + len(words) - 1].words = words[-1]
        return True
    return False

class Tried:
    """A broken text and what is told of it; the text with the mend followed, None where it isn't known here, whether it is
    mended, and what is told then."""

    def __init__(self, program, what, lines, words):
        self.what, self.lines, self.told = what, lines, Told(words)
        self.mended, self.mends, self.after = copied(lines), None, 'not known here'
        faulty = self.mended[self.told.at]
        if not follow(self.mended, self.told):
            self.mended = None
            return
        self.after = explain(program, self.mended)
        self.mends = self.after.startswith('accepted')
        if self.after.startswith('refused'):
            again = Told(self.after)
            place = self.mended.index(faulty) if faulty in self.mended else self.told.at - 1
            self.mends = (again.at, again.rule) > (place, self.told.rule)

def tried(program, what, lines):
    """What comes of a broken text; None where it isn't refused."""
    words = explain(program, lines)
    return Tried(program, what, lines, words) if words.startswith('refused') else None

def run_of(program, command, name, lines, parts):
    """A stored run, behind its text, which is a change of one before it."""
    told, status = answer(program, command, lines)
    name = 'mends/' + name
    text = stored_text(name, text_of(lines), [part for part in parts if isinstance(part, Text)])
    return [text, Run([command, name], [*told.splitlines(), 'status %d, opened 1' % status])]

def store(program, firsts):
    """Stores the first break of each mend that is followed."""
    parts = ['; Drivers broken in one place: how the fault came about and how to mend it, and the verdict on the text that is '
             'mended so.']
    for number, it in enumerate(firsts, 1):
        parts += ['', '# ' + it.what]
        parts += run_of(program, 'explain', 'broken-%02d.drv' % number, it.lines, parts)
        if it.mends:
            parts += run_of(program, 'check', 'mended-%02d.drv' % number, it.mended, parts)
    settle(dict([Group('mends', parts).file()]), False)

def plain(words):
    """Words without the names of registers, queues, locks and labels; of a mend that was searched what it is for alone."""
    if is_searched(words):
        words = re.sub(r'^.*(?:"|line \d+): ', '', words)
    return re.sub(r'\b(r\d+|l\d+)\b|(?<=queue )\w+', '_', words)

def firsts_of(all_told):
    """By rule, a break of each reason and of each mend that is told, and of the mends that are followed those that are told
    most often; of each the first, and one that is mended, if there is one."""
    kinds = {}
    for (rule, why, mend), found in sorted(all_told.items()):
        kinds.setdefault((rule, plain(why), plain(mend)), []).extend(found)
    often = sorted(kinds, key=lambda kind: (all(it.mends is None for it in kinds[kind]), -len(kinds[kind]), kind))
    chosen, covered = [], set()
    for kind in often:
        if not {('why', kind[1]), ('mend', kind[2])} <= covered:
            chosen.append(kind)
            covered |= {('why', kind[1]), ('mend', kind[2])}
    followed = [kind for kind in chosen if any(it.mends for it in kinds[kind])]
    chosen += [kind for kind in often if kind not in chosen and any(it.mends for it in kinds[kind])][:max(0, STORED - len(followed))]
    return [next((it for it in kinds[kind] if it.mends), kinds[kind][0]) for kind in sorted(chosen)]

def main():
    flags = [word for word in sys.argv[1:] if word.startswith('--')]
    program, *names = [word for word in sys.argv[1:] if not word.startswith('--')]
    each, stores, program = '--each' in flags, '--store' in flags, os.path.abspath(program)
    texts = [(name[:-4], read(os.path.join(EXAMPLES, name))) for name in sorted(os.listdir(EXAMPLES))
             if name.endswith('.drv') and (not names or name[:-4] in names)]
    broken = [it for name, lines in texts if explain(program, lines).startswith('accepted') for it in breaks(name, lines)]
    broken += [('gallery, ' + name, read(os.path.join(GALLERY, name, 'driver.drv'))) for name in sorted(os.listdir(GALLERY))
               if not names or name in names]
    counts, all_told = {True: 0, False: 0, None: 0}, {}
    with concurrent.futures.ThreadPoolExecutor(4) as workers:
        for it in filter(None, workers.map(lambda it: tried(program, *it), broken)):
            counts[it.mends] += 1
            all_told.setdefault((it.told.rule, it.told.why, it.told.mend), []).append(it)
            if each or it.mends is False:
                print('%s\n  %s\n  why: %s\n  mend it: %s' % (it.what, it.told.first, it.told.why, it.told.mend))
                print('  followed: %s' % it.after.split('\n')[0])
    for (rule, why, mend), found in sorted(all_told.items()) if not each else ():
        print('V%d, %d times%s, as %s\n  %s\n  %s'
              % (rule, len(found), '' if found[0].mends is not None else ', not followed', found[0].what, why, mend))
    if stores:
        store(program, firsts_of(all_told))
    print('%d breaks, %d mended, %d not followed, %d refused again' % (sum(counts.values()), counts[True], counts[None], counts[False]))
    sys.exit(bool(counts[False]))

if __name__ == '__main__':
    main()
