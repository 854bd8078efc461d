"""Random driver sets over the whole instruction set. Each routine is one that is accepted by how it is made: computations, and a way
in which its packet is handed on. Edits of some lines then make most sets refused in one place or another."""
import re

STATUSES = 'SUCCESS BUSY UNSUCCESSFUL INVALID_PARAMETER INVALID_DEVICE_REQUEST CANCELLED'.split()
MAJORS = 'READ', 'WRITE', 'CONTROL'
# What stands in random instructions for each sort of operand: registers and locks that are much used stand there often.
OPERANDS = {
    'r': 'r0 r0 r0 r1 r1 r2 r8 r9 r15'.split(), 'l': 'l0 l0 l1 l2 l7'.split(), 'c': 'c0 c1 c15'.split(), 'p': 'p0 p1 p15'.split(),
    'Q': 'qa qb qc'.split(), 'F': 'MAJOR ARG INFO'.split(), 'S': STATUSES + ['PENDING'], 'N': '0 1 2 7 4294967295'.split(),
    'T': '1 2 3 1000'.split(), 'f': 'up held up held read gone'.split(),
}
FORMS = '''const r N|mov r r|clear r|add r r|sub r r|jz r L|jlt r r L|jmp L|loop T|end|load r c|store c r|loadp r p|storep p r|get r r F|
put r r|mark r|acquire l|release l|acqc|relc|insert r Q|remove r Q L|unlink r Q|arm r Q|disarm r L|ifcancel r L|start r|take r L|begin r|next|
pass r|call r|call r f|complete r S|ifpending r L|ret S|ret lower r|ret continue|ret stop|ret void|dequeue r'''.replace('\n', '').split('|')
NUMBERS = 'r8', 'r9', 'r10', 'r11'

class Driver:
    """The lines of a random driver. Its queues are `qa`, a plain one, and `qb`, whose packets `gone` cancels; of its StartIo routine
    packets wait that `off` cancels, or can't be cancelled."""

    def __init__(self, rng, name, has_lower):
        self.rng, self.name, self.has_lower, self.labels = rng, name, has_lower, 0
        self.has_numbers = False
        self.plain, self.cancelable, self.starts = rng.random() < 0.5, rng.random() < 0.5, rng.random() < 0.5
        self.waits = self.starts and rng.random() < 0.5

    def label(self):
        self.labels += 1
        return 'x%d' % self.labels

    def compute(self, packet=None, depth=0):
        """Some lines over numbers, where there are some, and over a packet that is looked at."""
        pick, lines = self.rng.choice, []
        for _ in range(self.rng.randrange(4) if self.has_numbers else 0):
            kind, (a, b) = self.rng.randrange(9), self.rng.sample(NUMBERS, 2)
            if kind == 0 and depth < 3:
                lines += ['loop %d' % pick((1, 2, 3, 5)), *self.compute(packet, depth + 1), 'end']
            elif kind == 1:
                label = self.label()
                lines += [pick(('jz %s %s' % (a, label), 'jlt %s %s %s' % (a, b, label))), *self.compute(packet, depth + 1)]
                lines += ['%s: %s %s %s' % (label, pick(('add', 'sub')), a, b)]
            elif kind == 2 and packet:
                lines += [pick(('get %s %s %s' % (a, packet, pick(OPERANDS['F'])), 'put %s %s' % (packet, a)))]
            elif kind == 3:
                lines += [pick(('load %s c1', 'load %s c2')) % a]
            elif kind == 4:
                lines += ['store c1 ' + a]
            else:
                lines += [pick(('const %s 1' % a, 'const %s 0' % a, 'mov %s %s' % (a, b), 'add %s %s' % (a, b), 'sub %s %s' % (a, b)))]
        return lines

    def begin(self, packet=None):
        self.has_numbers = True
        return ['const %s %d' % (it, self.rng.randrange(3)) for it in NUMBERS] + self.compute(packet)

    def status(self):
        return self.rng.choice(STATUSES)

    def ways(self):
        """The ways of a dispatch routine."""
        found = ['complete', 'completed pending']
        found += ['keep'] * self.plain + ['keep cancelable'] * self.cancelable + ['start'] * self.starts
        return found + ['pass', 'call', 'call and pend'] * self.has_lower

    def hand_on(self):
        """The lines that hand on the packet in r0, up to the return."""
        way, label, other = self.rng.choice(self.ways()), self.label(), self.label()
        if way == 'complete':
            return ['complete r0 ' + self.status(), *self.compute(), 'ret ' + self.status()]
        if way == 'pass':
            return ['pass r0', *self.compute(), 'ret lower r0']
        if way == 'call':
            return [self.rng.choice(('call r0', 'call r0 up')), *self.compute(), 'ret lower r0']
        return ['mark r0', *self.compute('r0'), *self.hand_on_marked(way, label, other), 'ret PENDING']

    def hand_on_marked(self, way, label, other):
        if way == 'completed pending':
            return ['complete r0 ' + self.status()]
        if way == 'call and pend':
            return [self.rng.choice(('call r0', 'call r0 up', 'call r0 held'))]
        if way == 'keep':
            return ['acquire l0', 'insert r0 qa', 'release l0']
        if way == 'start' and not self.waits:
            return ['start r0']
        cancelled = ['complete r0 CANCELLED', 'ret PENDING']
        if way == 'start':
            return ['acqc', 'ifcancel r0 ' + label, 'start r0', 'relc', 'ret PENDING', label + ': relc', *cancelled[:1]]
        return ['acquire l1', 'insert r0 qb', 'arm r0 qb', 'ifcancel r0 ' + label, 'release l1', 'ret PENDING',
                '%s: disarm r0 %s' % (label, other), 'unlink r0 qb', 'release l1', *cancelled, other + ': release l1']

    def dispatch(self):
        if self.rng.random() < 0.3:
            label = self.label()
            return [*self.begin('r0'), 'jz r8 ' + label, *self.hand_on(), label + ': const r8 1', *self.hand_on()]
        self.has_numbers = False
        return self.begin('r0') + self.hand_on() if self.rng.random() < 0.7 else self.hand_on()

    def dpc(self):
        """Takes one packet out of each thing that has some, one after another."""
        lines, done = self.begin(), 'complete r0 ' + self.status()
        if self.plain:
            none, on = self.label(), self.label()
            lines += ['acquire l0', 'remove r0 qa ' + none, 'release l0', done, 'jmp ' + on, none + ': release l0', on + ': const r8 0']
        if self.cancelable:
            none, on = self.label(), self.label()
            lines += ['acquire l1', 'remove r0 qb ' + none, 'disarm r0 ' + none, 'release l1', done, 'jmp ' + on]
            lines += [none + ': release l1', on + ': const r8 0']
        if self.starts:
            none, following = self.label(), ['acqc', 'next', 'relc'] if self.waits else ['next']
            lines += ['take r0 ' + none, *self.rng.choice((following + [done], [done] + following)), 'ret void', none + ': ret void']
            return lines
        return lines + ['ret void']

    def startio(self):
        following = ['acqc', 'next', 'relc'] if self.waits else ['next']
        return self.rng.choice((['begin r0'], self.begin('r0') + ['begin r0'], following + ['complete r0 ' + self.status()])) + ['ret void']

    def completions(self):
        """Completion routines, which queue a held packet where there is a queue."""
        mark, hold = self.label(), ['mark r0', 'acquire l0', 'insert r0 qa', 'release l0', 'ret stop']
        look = self.begin('r0') if self.rng.random() < 0.2 else []
        yield 'up propagate', [*look, 'ifpending r0 ' + mark, 'ret continue', mark + ': mark r0', 'ret continue']
        keeps = self.plain and self.rng.random() < 0.7
        yield 'held hold', hold if keeps else ['ret continue']

    def cancels(self):
        if self.cancelable:
            yield 'gone cancel', ['relc', 'acquire l1', 'unlink r0 qb', 'release l1', 'complete r0 CANCELLED', 'ret void']
        if self.waits:
            yield 'off cancel', ['dequeue r0', 'relc', 'complete r0 CANCELLED', 'ret void']

    def routines(self):
        served = [it for it in MAJORS if self.rng.random() < 0.6] or ['READ']
        found = [('%s dispatch' % it.lower(), self.dispatch()) for it in served]
        found += [('work dpc', self.dpc())] if self.rng.random() < 0.8 else []
        found += [('begins startio', self.startio())] * self.starts + [*self.cancels()] + [*self.completions()] * self.has_lower
        self.rng.shuffle(found)
        return found

    def lines(self):
        """The lines of the driver, some of its tables before and some behind its routines."""
        routines = self.routines()
        tables = ['queue qa l0'] * self.plain + ['queue qb l1 gone'] * self.cancelable
        tables += ['dispatch %s %s' % (it.split()[0].upper(), it.split()[0]) for it, _ in routines if it.endswith(' dispatch')]
        tables += ['dpc work'] * any(it == 'work dpc' for it, _ in routines)
        tables += ['startio begins off' if self.waits else 'startio begins'] * self.starts
        place = self.rng.randrange(len(routines) + 1)
        written = [['routine ' + head, *code, 'endr'] for head, code in routines]
        ordered = written[:place] + [tables] + written[place:]
        return ['driver ' + self.name, *[line for lines in ordered for line in lines], 'endd']

def instruction(rng, labels):
    """A random instruction, which jumps to one of these labels."""
    word, *operands = rng.choice(FORMS).split()
    written = [rng.choice(labels or ['x1']) if it == 'L' else rng.choice(OPERANDS.get(it, [it])) for it in operands]
    return ' '.join([word, *written])

def edit(rng, lines):
    """Changes a line of the routines: it is left out, doubled, exchanged with the next one, written anew, or put before."""
    code = [at for at, line in enumerate(lines) if line.split()[0].rstrip(':') not in OUTSIDE]
    if not code:
        return lines
    at, labels = rng.choice(code), re.findall(r'^(\w+):', '\n'.join(lines), re.M)
    kind, label = rng.randrange(5), re.match(r'\w+: |', lines[at]).group()
    if kind == 0:
        return lines[:at] + lines[at + 1:]
    if kind == 1:
        return lines[:at] + [lines[at][len(label):]] + lines[at:]
    if kind == 2 and at + 1 in code:
        return lines[:at] + [lines[at + 1], lines[at]] + lines[at + 2:]
    if kind == 3:
        return lines[:at] + [label + instruction(rng, labels)] + lines[at + 1:]
    return lines[:at] + [instruction(rng, labels)] + lines[at:]

OUTSIDE = 'driver endd queue dispatch startio dpc routine endr device'.split()

def random_set(rng, edits):
    """The text of a random set with so many lines edited, and the number of its devices."""
    names = ['low', 'middle', 'top'][:rng.choice((1, 1, 2, 3))]
    lines = []
    for at, name in enumerate(names):
        lines += Driver(rng, name, at > 0).lines()
    devices = []
    for at, name in enumerate(names):
        under = ' v%d' % (at - 1) if at else ''
        devices.append('device v%d %s %d%s' % (at, name, at + 1 + (rng.random() < 0.2), under))
    if rng.random() < 0.2:
        devices.append('device twin %s %d%s' % (names[-1], len(names), ' v%d' % (len(names) - 2) if len(names) > 1 else ''))
    for _ in range(edits):
        lines = edit(rng, lines)
    return '\n'.join(lines + devices) + '\n', len(devices)
