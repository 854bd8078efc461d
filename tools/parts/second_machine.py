"""A small machine of a set, driven by a run: it makes the steps that the program says were made, and tells what a world has. It finds
neither bug checks nor wrong operands, nor does it say what waits or is refused: nothing changes then but that a run ends."""
import collections

MAJORS = {'READ': 3, 'WRITE': 4, 'CONTROL': 14}
STATUSES = {'BUSY': 'DEVICE_BUSY'}
CANCEL_LOCK = 'the system cancel spin lock'

def value_of(word):
    """What a number of a text or a schedule says: decimal, or hexadecimal behind 0x."""
    return int(word, 0) if word[:2] in ('0x', '0X') else int(word)

class Ref(int):
    """The packet of a number, in a register; a number there is a plain one, and None is nothing."""

class Status(str):
    """A status in a register, by its name."""

    @staticmethod
    def of(word):
        return Status('STATUS_' + STATUSES.get(word, word))

class Routine:
    """The name of a routine, its sort, its instructions with the words on their places, and its labels."""

    def __init__(self, name, sort):
        self.name, self.sort, self.code, self.labels = name, sort, [], {}

    def add(self, line, place):
        label, _, rest = line.rpartition(': ')
        self.labels[label] = len(self.code)
        self.code.append((rest.split(), place))
        return self

DEFAULT = Routine('(default)', 'dispatch').add('complete r0 INVALID_DEVICE_REQUEST', '(default) at 0')
DEFAULT.add('ret INVALID_DEVICE_REQUEST', '(default) at 1')

class Driver:
    """The routines of a driver by their names, which of them serve what, and the cancel routines of its lists."""

    def __init__(self):
        self.routines, self.serves, self.cancels = {None: DEFAULT}, {}, {}

    def note(self, word, names):
        """Notes a line that stands outside routines."""
        if word == 'queue':
            self.cancels[names[0]] = (names[2:] or [None])[0]
        elif word == 'startio':
            self.serves[word], self.cancels['device queue'] = names[0], (names[1:] or [None])[0]
        else:
            self.serves[names[0] if word == 'dispatch' else word] = names[-1]

def read_set(listing):
    """The devices of a set, as `list` writes it: the driver of each, and the device under it."""
    drivers, devices = [], []
    for number, line in enumerate(listing.splitlines(), 1):
        word, *names = line.split()
        if word == 'driver':
            drivers.append(Driver())
        elif word == 'routine':
            name, routine = names[0], Routine(*names[:2])
            drivers[-1].routines[name] = routine
        elif word == 'device':
            devices.append((drivers[int(names[1][1:])], int(names[3][1:]) if names[3:] else None))
        elif word in ('queue', 'startio', 'dispatch', 'dpc'):
            drivers[-1].note(word, names)
        elif word not in ('endr', 'endd'):
            routine.add(line, '%s %d: %s' % (name, number, line))
    return devices

class Frame:
    """A routine that runs for a device, or a step of the I/O manager, which has a packet."""

    def __init__(self, kind, packet, routine=None, device=None):
        self.kind, self.packet, self.routine, self.device = kind, packet, routine, device
        self.at, self.loops = 0, []
        self.registers = collections.defaultdict(lambda: None, r0=None if packet is None else Ref(packet))

    def jump(self, label, jumps=True):
        self.at = self.routine.labels[label] if jumps else self.at

class Packet:
    """A live packet: of each of its locations down to the current one the mark and the completion routine."""

    def __init__(self, major, argument):
        self.locations, self.major, self.argument = [[False, None]], major, argument
        self.info, self.status, self.pending, self.cancel, self.armer = 0, 'SUCCESS', False, False, None

class World:
    """Threads with their frames, packets by their numbers, and by a device and a name lists, slots, locks and cells."""

    def __init__(self, devices, threads):
        self.devices, self.stacks, self.packets, self.issued = devices, [[] for _ in range(threads)], {}, 0
        self.lists, self.shared, self.cells = collections.defaultdict(list), {}, collections.defaultdict(int)
        self.topped = None

    def facts(self):
        """What words tell of, by what it is about."""
        found = {key: value for key, value in self.shared.items() if value is not None}
        found.update({'v%d.%s' % place: number for place, number in self.cells.items() if number})
        found.update({key: tuple(entries) for key, entries in self.lists.items() if entries})
        for n, p in self.packets.items():
            found.update({('marks', n): tuple(mark for mark, _ in p.locations), ('cancel', n): p.cancel, ('armer', n): p.armer,
                          ('info', n): p.info})
        return {key: value for key, value in found.items() if value is not None}

    def missed(self):
        """The live packets whose Irp->Cancel and cancel routine are set while no thread is in IoCancelIrp for them, with the list that
        has the routine."""
        cancelled = {frame.packet for stack in self.stacks for frame in stack if frame.kind not in ('routine', 'walk')}
        return [(n, p.armer) for n, p in sorted(self.packets.items()) if p.cancel and p.armer and n not in cancelled]

    def enter(self, stack, device, serves, packet, by_name=False):
        driver = self.devices[device][0]
        name = serves if by_name else driver.serves.get(serves)
        stack.append(Frame('routine', packet, driver.routines[name], device))

    def begin(self, kind, *words):
        """An event that isn't a step, and that happened."""
        device = value_of(words[kind != 'interrupt'])
        stack = self.stacks[value_of(words[0])] if kind != 'interrupt' else None
        if kind == 'issue':
            self.packets[self.issued] = Packet(words[2], value_of(words[3]))
            self.enter(stack, device, words[2], self.issued)
            self.issued += 1
        elif kind == 'cancel':
            stack.extend([Frame('acquires', device)] if device in self.packets else [])
        elif kind == 'startio':
            self.enter(stack, device, kind, self.lists[device, 'start list'].pop(0))
        elif kind == 'dpc':
            self.shared[device, 'dpc'] = None
            self.enter(stack, device, kind, None)
        else:
            self.shared[device, 'dpc'] = True

    def step(self, thread):
        """A step of a thread, which was made."""
        self.thread, self.stack, self.topped = thread, self.stacks[thread], None
        self.frame = f = self.stack[-1]
        if f.kind == 'walk':
            self.walk(f.packet)
        elif f.kind != 'routine':
            self.go_on_cancelling(f.kind, f.packet)
        else:
            (word, *operands), _ = f.routine.code[f.at]
            f.at += 1
            getattr(self, 'do_' + word)(f, *operands)

    def walk(self, n):
        p = self.packets[n]
        p.pending, completion = p.locations.pop()
        if completion:
            self.enter(self.stack, *completion, n, True)
        elif not p.locations:
            self.stack.pop()
            self.topped = self.packets.pop(n)
        elif p.pending:
            p.locations[-1][0] = True

    def go_on_cancelling(self, kind, n):
        p = self.packets.get(n)
        self.stack.pop()
        if kind == 'acquires':
            self.shared[CANCEL_LOCK] = self.thread
            self.stack.append(Frame('sets the flag', n))
        elif p and kind == 'sets the flag':
            p.cancel = True
            self.stack.append(Frame('takes the routine', n))
        elif p and p.armer:
            (device, name), p.armer = p.armer, None
            self.enter(self.stack, device, self.devices[device][0].cancels[name], n, True)
        else:
            self.shared[CANCEL_LOCK] = None

    def take_off(self, n, key):
        if n in self.lists[key]:
            self.lists[key].remove(n)

    def do_const(self, f, r, n): f.registers[r] = value_of(n)
    def do_mov(self, f, r, s): f.registers[r] = f.registers[s]
    def do_clear(self, f, r): f.registers[r] = None
    def do_add(self, f, r, s): f.registers[r] = (f.registers[r] + f.registers[s]) % 2 ** 64
    def do_sub(self, f, r, s): f.registers[r] = (f.registers[r] - f.registers[s]) % 2 ** 64
    def do_jz(self, f, r, label): f.jump(label, f.registers[r] == 0)
    def do_jlt(self, f, r, s, label): f.jump(label, f.registers[r] < f.registers[s])
    def do_jmp(self, f, label): f.jump(label)
    def do_loop(self, f, n): f.loops.append([f.at, value_of(n), value_of(n)])

    def do_end(self, f):
        f.loops[-1][1] -= 1
        if f.loops[-1][1]:
            f.at = f.loops[-1][0]
        else:
            f.loops.pop()

    def do_load(self, f, r, cell): f.registers[r] = self.cells[f.device, cell]
    def do_store(self, f, cell, r): self.cells[f.device, cell] = f.registers[r]
    do_loadp, do_storep = do_load, do_store

    def do_get(self, f, r, s, field):
        p = self.packets[f.registers[s]]
        f.registers[r] = {'MAJOR': MAJORS[p.major], 'ARG': p.argument, 'INFO': p.info}[field]

    def do_put(self, f, s, r): self.packets[f.registers[s]].info = f.registers[r]
    def do_mark(self, f, r): self.packets[f.registers[r]].locations[-1][0] = True
    def do_acquire(self, f, lock): self.shared['v%d.%s' % (f.device, lock)] = self.thread
    def do_release(self, f, lock): self.shared['v%d.%s' % (f.device, lock)] = None
    def do_acqc(self, f): self.shared[CANCEL_LOCK] = self.thread
    def do_relc(self, f): self.shared[CANCEL_LOCK] = None
    def do_insert(self, f, r, q): self.lists[f.device, q].append(f.registers[r])
    def do_unlink(self, f, r, q): self.take_off(f.registers[r], (f.device, q))
    def do_dequeue(self, f, r): self.take_off(f.registers[r], (f.device, 'device queue'))

    def do_remove(self, f, r, q, label):
        if self.lists[f.device, q]:
            f.registers[r] = self.lists[f.device, q].pop(0)
        else:
            f.jump(label)

    def do_arm(self, f, r, q): self.packets[f.registers[r]].armer = f.device, q

    def do_disarm(self, f, r, label):
        p = self.packets[f.registers[r]]
        f.jump(label, p.armer is None)
        p.armer = None

    def do_ifcancel(self, f, r, label): f.jump(label, self.packets[f.registers[r]].cancel)
    def do_ifpending(self, f, r, label): f.jump(label, self.packets[f.registers[r]].pending)

    def has_cancel(self, f): return self.devices[f.device][0].cancels.get('device queue')

    def do_start(self, f, r):
        n, waits = f.registers[r], self.shared.get((f.device, 'busy'))
        self.lists[f.device, 'device queue' if waits else 'start list'].append(n)
        self.shared[f.device, 'busy'] = True
        if waits and self.has_cancel(f):
            self.packets[n].armer = f.device, 'device queue'

    def do_next(self, f):
        waiting = self.lists[f.device, 'device queue']
        if not waiting:
            self.shared[f.device, 'busy'] = None
            return
        self.lists[f.device, 'start list'].append(waiting[0])
        if self.has_cancel(f):
            self.packets[waiting[0]].armer = None
        waiting.pop(0)

    def do_begin(self, f, r): self.shared[f.device, 'slot'] = f.registers[r]

    def do_take(self, f, r, label):
        n = self.shared.get((f.device, 'slot'))
        f.jump(label, n is None)
        f.registers[r], self.shared[f.device, 'slot'] = f.registers[r] if n is None else n, None

    def do_call(self, f, r, routine=None):
        n = f.registers[r]
        self.packets[n].locations.append([False, routine and (f.device, routine)])
        self.do_pass(f, r)

    def do_pass(self, f, r):
        f.told, n = r, f.registers[r]
        self.enter(self.stack, self.devices[f.device][1], self.packets[n].major, n)

    def do_complete(self, f, r, status):
        self.packets[f.registers[r]].status = status
        self.stack.append(Frame('walk', f.registers[r]))

    def do_ret(self, f, *form):
        self.stack.pop()
        if form == ('stop',) and self.stack and self.stack[-1].kind == 'walk':
            self.stack.pop()
        if f.routine.sort == 'dispatch' and self.stack and self.stack[-1].kind == 'routine':
            status = f.registers[form[1]] if form[0] == 'lower' else Status.of(form[0])
            self.stack[-1].registers[self.stack[-1].told] = status
