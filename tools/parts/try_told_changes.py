#!/usr/bin/env python3
"""tools/try told-changes [--seed N] [--runs N] [--forms] [PROGRAM]: random runs (2,000, if no number is given) of all sets in examples,
gallery and stored runs, the refused ones among them, told by the program (crates/drvhost/out/drvhost, if none is
named). Half of the schedules stand beside the sets, with lines moved. The machine of tools/parts/second_machine.py makes the same
steps. The words on each event are read, and have to say what the worlds before and after it differ in: each change of a list, a
slot, a cancel word, a cancel flag, a mark, a location, a lock, a busy device, a queued DPC, a cell or a register of the frame
that acts is told, nothing else is, and what is said to stay as it was does; so are the numbers and the jumps. The places of the
steps and the replies are compared too; what a bug check is about and why, the operand that is wrong, and what the audit says
of threads in a ring, of locks and of packets that are still to be cancelled, are read against the world at the end. With
--forms it lists how often each form of words was read. The last line counts."""
import argparse, collections, os, random, re, sys, tempfile

from second_machine import CANCEL_LOCK, STATUSES, Ref, Status, World, read_set, value_of
from told_stops import STOPS, audit_fault, stop_of
from try_random_told import TOP, answer, schedule, sets_for

LINE = re.compile(r'\d+ (?:(started) \d+|(topped) \d+ 0x\w+ \d+|(stepped|finished|waited|idle|refused)|(%s)) +[.|\d]+  (.*)' % STOPS)
MISSED = re.compile(r"packet (\d+) is still to be cancelled: Irp->Cancel and its cancel routine of v(\d+)(?:\.(q\d)|'s (device queue)) "
                    'are set, and no thread is in IoCancelIrp for it')

class Scene:
    """What an event is read by: the frame that acts, its place and its instruction, and the world behind it."""

    def __init__(self, world, words):
        self.world, self.event, self.frame, self.operation, self.place = world, words, None, ('',), '-'
        self.thread = None if words[0] == 'interrupt' else value_of(words[1])
        self.stack = world.stacks[self.thread] if self.thread is not None and self.thread < len(world.stacks) else []
        if words[0] == 'step' and self.stack:
            self.look(self.stack[-1])
        self.device = self.frame.device if self.frame else value_of(words[-1])
        self.at, self.depth = (self.frame.at, len(self.frame.loops)) if self.frame else (None, None)
        self.registers = self.registers_now()

    def look(self, frame):
        self.frame, self.place = frame, 'IoCompleteRequest' if frame.kind == 'walk' else 'IoCancelIrp: ' + self.cancelling(frame)
        if frame.kind == 'routine':
            ended = ('',), '%s at %d' % (frame.routine.name, frame.at)
            self.operation, self.place = frame.routine.code[frame.at] if frame.at < len(frame.routine.code) else ended

    def cancelling(self, frame):
        """What IoCancelIrp does in a step: once it has the lock, of a packet that has topped out only to release it."""
        return frame.kind if frame.kind == 'acquires' or frame.packet in self.world.packets else 'releases'

    def registers_now(self):
        """What stands in the registers of the frame that acts."""
        return {r: value for r, value in self.frame.registers.items() if value is not None} if self.frame else {}

    def register(self, place):
        """The register that is an operand."""
        return self.operation[place] if len(self.operation) > place else None

    def lock(self):
        """The lock that is acquired."""
        if self.operation[0] == 'acquire':
            return 'v%d.%s' % (self.device, self.operation[1])
        return CANCEL_LOCK if self.operation[0] == 'acqc' or self.frame and self.frame.kind == 'acquires' else None

    def goes(self, label):
        """Whether the routine has jumped to a label, or has gone on where there is none."""
        return self.frame.at == (self.frame.routine.labels[label] if label else self.at + 1)

    def reply(self):
        """What the event replies that happened."""
        if self.event[0] in ('issue', 'startio') or self.event[0] == 'cancel' and self.stack:
            return 'started'
        if self.event[0] == 'step' and self.world.topped:
            return 'topped'
        return 'stepped' if self.stack or self.thread is None else 'finished'

# What a value has to be before and after an event; of an empty list, and of what isn't there, it is None.
def is_(value):
    return lambda before, after: before == after == value

def turns(was, becomes):
    return lambda before, after: (before, after) == (was, becomes) and was != becomes

def stays(before, after):
    return before == after is not None

def ends(before, after):
    return before is not None and after is None

def gains(n):
    return lambda before, after: after == (before or ()) + (n,)

def lacks(n):
    return lambda before, after: before == after and n not in (after or ())

def loses(n):
    def is_so(before, after):
        place = before.index(n) if before and n in before else None
        return place is not None and before[:place] + before[place + 1:] == (after or ())
    return is_so

def armed(how, by):
    """A cancel word that names a list now, as it is said how it was before."""
    return {'': turns(None, by), ', as before': is_(by)}.get(how, lambda before, after: before not in (None, by) and after == by)

def climbs(depth, carried):
    """Marks after completion left a location, with the one that was carried up, if one was."""
    def is_so(before, after):
        is_carried = carried == depth - 1 and before[-2:] == (False, True)
        return len(before) == depth and after == (before[:-2] + (True,) if is_carried else before[:-1]) and (carried is None or is_carried)
    return is_so

def off(key, n, holder, scene):
    return {key: lacks(n), 'the cancel routine acts': bool(holder) == (scene.frame.routine.sort == 'cancel')}

def issued(scene, n, major, argument, device):
    return {('marks', n): turns(None, (False,)), ('cancel', n): turns(None, False), ('info', n): turns(None, 0),
            'so issued': scene.event[3:4] == [major] and [value_of(scene.event[at]) for at in (2, 4)] == [value_of(str(device)), argument]}

def topped(scene, n, status, info):
    p = scene.world.topped
    return {**{(kind, n): lambda before, after: after is None for kind in ('marks', 'cancel', 'armer', 'info')},
            'so topped out': p and (STATUSES.get(p.status, p.status), p.info) == (status, info)}

def sent(scene, n, device, depth):
    grows = () if scene.operation[0] == 'pass' else (False,)
    return {('marks', n): lambda before, after: after == before + grows and len(after) == depth,
            'the lower device': scene.world.devices[scene.device][1] == device}

def becomes(value):
    return lambda before, after: after == value and type(after) is type(value)

def shown(value):
    """A value of a register in words."""
    return 'nothing' if value is None else 'packet %d' % value if isinstance(value, Ref) else str(value)

def got(scene, r, value):
    """A register that has become what is said."""
    return {r: lambda before, after: shown(after) == str(value), 'that register': r == scene.register(1),
            'so set': scene.operation[0] in ('const', 'mov', 'clear') or scene.operation[0] in ('add', 'sub') and r == scene.register(2)}

def computed(scene, r, first, sign, second, number):
    return {r: turns(first, number) if first != number else is_(number),
            'those numbers': second == scene.registers.get(scene.register(2)) and r == scene.register(1) != scene.register(2),
            'so computed': (scene.operation[0], number) == (('add', (first + second) % 2 ** 64) if sign == '+'
                                                            else ('sub', (first - second) % 2 ** 64))}

def loaded(scene, r, cell, number):
    return {r: becomes(number), cell: lambda before, after: before == after and (after or 0) == number,
            'so loaded': scene.operation[0] in ('load', 'loadp') and r == scene.register(1)
            and cell == 'v%d.%s' % (scene.device, scene.operation[2])}

def stored(scene, cell, number):
    return {cell: lambda before, after: (after or 0) == number,
            'so stored': scene.operation[0] in ('store', 'storep') and scene.registers.get(scene.register(2)) == number
            and cell == 'v%d.%s' % (scene.device, scene.operation[1])}

def looked(scene, r, number, label):
    return {r: is_(number), 'that jump': scene.operation[0] == 'jz' and r == scene.register(1) and bool(label) == (number == 0),
            'so gone on': scene.goes(label)}

def compared(scene, r, first, s, second, label):
    return {r: is_(first), s: is_(second), 'so gone on': scene.goes(label),
            'that jump': (scene.operation[0], r, s) == ('jlt', scene.register(1), scene.register(2)) and bool(label) == (first < second)}

def turned(scene, again, turn, count):
    _, left, all_turns = (scene.frame.loops or [(0, 0, 0)])[-1]
    return {'that turn': (turn, count) == (all_turns - left + 1, all_turns), 'as deep': len(scene.frame.loops) == scene.depth + (not again),
            'that instruction': scene.operation[0] == ('end' if again else 'loop')}

def left(scene):
    return {'an end': scene.operation[0] == 'end', 'so gone on': scene.goes(None), 'as deep': len(scene.frame.loops) == scene.depth - 1}

FIELDS = {'argument': 'ARG', 'information': 'INFO', 'major function': 'MAJOR'}

def read(scene, r, number, n, field):
    return {r: becomes(number), ('marks', n): stays,
            'that field': scene.operation == ['get', r, scene.operation[2], FIELDS[field]] and scene.registers.get(scene.register(2)) == n}

def taken(scene, n, said):
    """What is said of a packet that was taken, with the register that has it then."""
    got = {scene.register(1): lambda before, after: shown(after) == 'packet %d' % n}
    return {**said, **(got if scene.operation[0] in ('remove', 'take') else {})}

def returned(scene, status, lower):
    form = scene.operation[1:] if scene.operation[0] == 'ret' else ['']
    value = scene.registers.get(form[-1]) if lower else Status.of(form[0])
    return {'that return': value == 'STATUS_' + status and bool(lower) == (form[0] == 'lower')}

def refused(of):
    """The words of a refusal, with what follows for packets that are issued later."""
    return lambda scene, later: {**of(scene), 'a packet': bool(later) == (scene.event[0] == 'issue')}

LATER = '(; packets issued later have lower numbers than were counted)?'
FREE = lambda s: {CANCEL_LOCK: turns(s.thread, None)}
# Of each form of words what they say: by what it is about, a test of the values before and after, or whether it is so.
FORMS = {
    r'packet #: a (\w+) with # is issued to v#': issued,
    r'packet #: IoCancelIrp begins': lambda s, n: {('marks', n): stays},
    r'packet #: has topped out, nothing to cancel': lambda s, n: {('marks', n): is_(None)},
    r'packet #: taken off the start list, StartIo begins': lambda s, n: {(s.device, 'start list'): loses(n)},
    r'v#: its DPC is queued': lambda s, d: {(d, 'dpc'): turns(None, True)},
    r'v#: its DPC routine begins': lambda s, d: {(d, 'dpc'): turns(True, None)},
    r'the DPC is queued already': lambda s: {(s.device, 'dpc'): is_(True)},
    r'no DPC is queued': lambda s: {(s.device, 'dpc'): is_(None)},
    r'the start list is empty': lambda s: {(s.device, 'start list'): is_(None)},
    r'the thread has no frame': lambda s: {'no frame': not s.stack},
    r'waits: thread # owns (.+)': lambda s, t, lock: {lock: is_(t), 'that lock': lock == s.lock()},
    r'owns the system cancel spin lock': lambda s: {CANCEL_LOCK: turns(None, s.thread)},
    r'thread # owns (.+)': lambda s, t, lock: {lock: turns(None, t), 'that thread': t == s.thread},
    r'(v\d+\.l\d|the system cancel spin lock) is free': lambda s, lock: {lock: turns(s.thread, None)},
    r'packet #: has topped out; the system cancel spin lock is free': lambda s, n: {**FREE(s), ('marks', n): is_(None)},
    r'packet #: no cancel routine was set; the system cancel spin lock is free':
        lambda s, n: {**FREE(s), ('marks', n): stays, ('armer', n): is_(None)},
    r'packet #: its cancel routine is called':
        lambda s, n: {('armer', n): ends, 'a cancel routine': s.stack[-1].routine and s.stack[-1].routine.sort == 'cancel'},
    r'packet #: Irp->Cancel is set': lambda s, n: {('cancel', n): is_(True) if s.operation[0] else turns(False, True)},
    r'packet #: Irp->Cancel is set already': lambda s, n: {('cancel', n): is_(True), 'IoCancelIrp': not s.operation[0]},
    r"packet #: Irp->Cancel isn't set": lambda s, n: {('cancel', n): is_(False)},
    r'packet #: completion leaves location #(?:, the mark is carried up to #)?': lambda s, n, d, e: {('marks', n): climbs(d, e)},
    r'packet #: tops out with STATUS_(\w+), information #': topped,
    r'packet #: put into queue (q\d)': lambda s, n, q: {(s.device, q): gains(n)},
    r'packet #: taken off queue (q\d)': lambda s, n, q: taken(s, n, {(s.device, q): loses(n)}),
    r'packet #: taken off the device queue': lambda s, n: {(s.device, 'device queue'): loses(n)},
    r"packet #: isn't in queue (q\d)(; the cancel routine has it)?": lambda s, n, q, it: off((s.device, q), n, it, s),
    r"packet #: isn't in the device queue(; the cancel routine has it)?": lambda s, n, it: off((s.device, 'device queue'), n, it, s),
    r'packet #: put into the start list': lambda s, n: {(s.device, 'start list'): gains(n), (s.device, 'busy'): turns(None, True)},
    r'packet #: waits in the device queue': lambda s, n: {(s.device, 'device queue'): gains(n), (s.device, 'busy'): is_(True)},
    r'packet #: waits in the device queue; its cancel routine is set(.*)': lambda s, n, how: {
        (s.device, 'device queue'): gains(n), (s.device, 'busy'): is_(True), ('armer', n): armed(how, (s.device, 'device queue'))},
    r'packet #: goes from the device queue to the start list(; its cancel routine is set no more)?': lambda s, n, more: {
        (s.device, 'device queue'): loses(n), (s.device, 'start list'): gains(n), **({('armer', n): ends} if more else {})},
    r'v# is idle: no packet waits': lambda s, d: {(d, 'busy'): turns(True, None), (d, 'device queue'): is_(None)},
    r'v# is idle already: no packet waits': lambda s, d: {(d, 'busy'): is_(None), (d, 'device queue'): is_(None)},
    r'queue (q\d) is empty': lambda s, q: {(s.device, q): is_(None)},
    r'packet #: the cancel routine is set of queue (q\d)(.*)': lambda s, n, q, how: {('armer', n): armed(how, (s.device, q))},
    r'packet #: its cancel routine is set no more': lambda s, n: {('armer', n): ends},
    r'packet #: no cancel routine was set': lambda s, n: {('marks', n): stays, ('armer', n): is_(None)},
    r'packet #: taken out of the current slot': lambda s, n: taken(s, n, {(s.device, 'slot'): turns(n, None)}),
    r'packet #: put into the current slot': lambda s, n: {(s.device, 'slot'): lambda before, after: before != n and after == n},
    r'packet #: is in the current slot already': lambda s, n: {(s.device, 'slot'): is_(n)},
    r'the current slot is empty': lambda s: {(s.device, 'slot'): is_(None)},
    r'packet #: its information is #': lambda s, n, number: {
        ('info', n): becomes(number), 'that number': s.operation[0] == 'put' and s.registers.get(s.register(2)) == number},
    r'packet #: its current location is marked pending': lambda s, n: {
        ('marks', n): lambda before, after: not before[-1] and after == before[:-1] + (True,)},
    r'packet #: its current location is marked pending already': lambda s, n: {
        ('marks', n): lambda before, after: before[-1] and after == before},
    r'packet #: sent down to v#, location #': sent,
    r'packet #: IoCompleteRequest is called with STATUS_(\w+)': lambda s, n, status: {
        'that status': STATUSES.get(s.operation[2], s.operation[2]) == status},
    r"packet #: PendingReturned (is|isn't) set": lambda s, n, it: {
        ('marks', n): stays, 'so returned': s.operation[0] == 'ifpending' and s.world.packets[n].pending == (it == 'is')},
    r'STATUS_(\w+)(, which the lower driver returned)?': returned,
    r'completion goes on': lambda s: {'that return': s.operation == ['ret', 'continue']},
    r'STATUS_MORE_PROCESSING_REQUIRED: the packet is held': lambda s: {'that return': s.operation == ['ret', 'stop']},
    r'(r\d+) = (\d+|packet \d+|STATUS_\w+|nothing)': got,
    r'(r\d+) = # ([+-]) # = #': computed,
    r'(r\d+) = (v\d+\.[cp]\d+) = #': loaded,
    r'(v\d+\.[cp]\d+) = #': stored,
    r'(r\d+) is #: (?:goes on|jumps to (\w+))': looked,
    r'(r\d+) is #, (r\d+) is #: (?:goes on|jumps to (\w+))': compared,
    r'(goes round again: )?turn # of #': turned,
    r'leaves the loop': left,
    r"(r\d+) = #, packet #'s (argument|information|major function)": read,
    r'': lambda s: {'an instruction without words': s.operation[0] in ('jmp', 'ret')},
    r"the thread isn't idle" + LATER: refused(lambda s: {'a frame': bool(s.stack)}),
    r"the thread's stack is full": lambda s: {'32 frames': len(s.stack) == 32},
    r'the list is full': lambda s: {'a full list': any(len(entries) == 4096 for entries in s.world.lists.values())},
    r'there is no such (?:thread|device)' + LATER: refused(lambda s: {}),
    r'there is no such level|no such packet was issued|the device has no (?:DPC|StartIo) routine': lambda s: {},
}
READ = {form: re.compile(form.replace('#', r'(\d+)')) for form in FORMS}

def fault_of(words, before, scene, forms):
    """What is wrong with the words on an event, by the facts before it, or None."""
    for form, pattern in READ.items():
        found = pattern.fullmatch(words)
        if found:
            break
    else:
        return 'no form has these words'
    forms[form] += 1
    said = FORMS[form](scene, *(int(word) if word and word.isdigit() else word for word in found.groups()))
    after = {**scene.world.facts(), **scene.registers_now()}
    untold = [key for key in before.keys() | after.keys() if key not in said and before.get(key) != after.get(key)]
    wrong = [key for key, is_so in said.items() if not (is_so(before.get(key), after.get(key)) if callable(is_so) else is_so)]
    return 'said of %s' % wrong if wrong else 'unsaid of %s' % untold if untold else None

def fault_at(line, words, world, forms):
    """What is wrong with the told line of an event, or None; the world goes on by it."""
    *replies, rest = LINE.fullmatch(line).groups()
    reply, scene = next(filter(None, replies)), Scene(world, words)
    before = {**world.facts(), **scene.registers}
    if not rest.startswith(scene.place):
        return 'another place'
    if re.fullmatch(STOPS, reply):
        return None if stop_of(scene, reply, forms) == rest[len(scene.place):].strip() else 'stopped by %s' % stop_of(scene, reply, forms)
    if reply not in ('waited', 'idle', 'refused'):
        world.step(scene.thread) if words[0] == 'step' else world.begin(*words)
        if reply != scene.reply():
            return 'another reply, %s' % scene.reply()
    return fault_of(rest[len(scene.place):].strip(), before, scene, forms)

def missed_in(audit):
    """The packets that are still to be cancelled, by the lines of an audit, each with the list that has the cancel routine."""
    said = (MISSED.fullmatch(line) for line in audit if 'IoCancelIrp' in line)
    return [found and (int(found[1]), (int(found[2]), found[3] or found[4])) for found in said]

def events_of(text):
    """The events of a schedule, one by one."""
    for line in text.splitlines()[1:]:
        words = line.split()
        yield from [words[:2]] * value_of(str((words + [1])[2])) if words[0] == 'step' else [words]

def moved(rng, path):
    """The schedule that stands beside a set, with runs of steps split and a few lines moved; none, where there is no such schedule."""
    for file in path[:-len('.drv')] + '.sched', os.path.join(os.path.dirname(path), 'events.sched'):
        if os.path.exists(file):
            head, *lines = filter(None, (line.partition(';')[0].strip() for line in open(file, errors='replace')))
            events = [part for line in lines for part in split(rng, line.split())]
            for _ in range(rng.randrange(4)):
                events.insert(rng.randrange(len(events)), events.pop(rng.randrange(len(events))))
            return '\n'.join([head, *events]) + '\n'
    return None

def split(rng, words):
    """A line of a schedule, in two where it is of several steps."""
    count = value_of(words[2]) if words[0] == 'step' and words[2:] else 1
    first = rng.randrange(count)
    return ['step %s %d' % (words[1], part) for part in (first, count - first) if part] if count > 1 else [' '.join(words)]

def wrong_of(told, text, listing, forms):
    """What is wrong with a told run, or None, and how many events were read."""
    world, (events, _, audit) = World(read_set(listing), value_of(text.split()[1])), told.partition('\naudit\n')
    lines = events.splitlines()
    for number, (line, words) in enumerate(zip(lines, events_of(text))):
        fault = fault_at(line, words, world, forms)
        if fault:
            return '%s: %s' % (line, fault), number
    scenes = [Scene(world, ['step', str(thread)]) for thread in range(len(world.stacks))]
    fault = audit_fault(scenes, audit, forms)
    if not fault and missed_in(audit.splitlines()) != world.missed():
        fault = 'still to be cancelled are %s' % world.missed()
    return fault, len(lines)

def main():
    parser = argparse.ArgumentParser(description=__doc__.split(':')[0])
    parser.add_argument('--seed', type=int, default=1)
    parser.add_argument('--runs', type=int, default=2000)
    parser.add_argument('--forms', action='store_true')
    parser.add_argument('program', nargs='?', default=os.path.join(TOP, 'crates/drvhost/out/drvhost'))
    given = parser.parse_args()
    program, rng, forms, wrong, events = os.path.abspath(given.program), random.Random(given.seed), collections.Counter(), 0, 0
    sets = sets_for(program, 'list')
    with tempfile.TemporaryDirectory() as folder:
        listed, by = os.path.join(folder, 'set.drv'), os.path.join(folder, 'events.sched')
        for number in range(given.runs):
            path, devices = sets[number % len(sets)]
            listing, text = answer(program, 'list', path)[0], moved(rng, path) if rng.random() < 0.5 else None
            text = text or schedule(rng, max(devices, 1))
            for file, content in (listed, listing), (by, text):
                with open(file, 'w') as out:
                    out.write(content)
            fault, read = wrong_of(answer(program, 'tell', listed, by, '--unchecked', '--every')[0], text, listing, forms)
            events += read
            if fault:
                wrong += 1
                print('%s, run %d: %s' % (os.path.relpath(path, TOP), number, fault))
    for form, count in forms.most_common() if given.forms else []:
        print('%7d  %s' % (count, form))
    print('%d runs of %d events on %d sets, %d wrong' % (given.runs, events, len(sets), wrong))
    return 1 if wrong else 0

if __name__ == '__main__':
    sys.exit(main())
