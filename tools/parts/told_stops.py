"""What tools/try told-changes expects where a run stops, and of its audit: the words on a bug check or a wrong operand, and
the lines on threads that wait in a ring and on locks that are left behind, of a machine of tools/parts/second_machine.py."""
import re

from second_machine import CANCEL_LOCK, Ref, Status

STOPS = r'bug 0x\w\w (?:packet \d+|lock cancel|lock \d+\.\d+|cell \d+\.\d+)|wrong \d+\.\d+\.\d+'
CHECKS = {'0x0A': 'IRQL_NOT_LESS_OR_EQUAL', '0x0F': 'SPIN_LOCK_ALREADY_OWNED', '0x10': 'SPIN_LOCK_NOT_OWNED',
          '0x35': 'NO_MORE_IRP_STACK_LOCATIONS', '0x44': 'MULTIPLE_IRP_COMPLETE_REQUESTS', '0x48': 'CANCEL_STATE_IN_COMPLETED_IRP'}

def is_completed(world, n):
    """Whether a packet was completed: it topped out, or the I/O manager completes it."""
    return n not in world.packets or any(f.kind == 'walk' and f.packet == n for stack in world.stacks for f in stack)

# Why a bug check is raised, and whether it is so: of a packet, a lock or a cell.
CAUSES = {
    ('0x0A', 'packet'): ('a packet is touched that has topped out', lambda s, n: n not in s.world.packets),
    ('0x0A', 'cell'): ('a paged cell is touched at DISPATCH_LEVEL', lambda s, cell: s.operation[0] in ('loadp', 'storep')
                       and cell == 'v%d.%s' % (s.device, next(word for word in s.operation[1:] if word[0] == 'p'))),
    ('0x0F', 'lock'): ('the thread owns the lock already', lambda s, lock: s.world.shared.get(lock) == s.thread),
    ('0x10', 'lock'): ("the thread doesn't own the lock that it releases", lambda s, lock: s.world.shared.get(lock) != s.thread),
    ('0x35', 'packet'): ('no stack location is left for the device below', lambda s, n: s.operation[0] == 'call'),
    ('0x44', 'packet'): ('the packet is completed already', lambda s, n: is_completed(s.world, n)),
    ('0x48', 'packet'): ('its cancel routine is still set', lambda s, n: s.world.packets[n].armer is not None),
}

def bug_of(scene, check, sort, number):
    """The words on a bug check."""
    subject = {'packet': 'packet %s', 'cell': 'v%s'}.get(sort, 'v%s') % number.replace('.', '.p' if sort == 'cell' else '.l')
    subject = CANCEL_LOCK if number == 'cancel' else subject
    cause, is_so = CAUSES[check, sort]
    told = '%s: %s: %s' % (CHECKS[check], subject, cause)
    return told if is_so(scene, int(number) if sort == 'packet' else subject) else 'not so: %s' % told

# The operands that an instruction reads, in the order in which it asks for them.
NUMBER, PACKET, STATUS = 'number', 'packet', 'status'
WANTS = {'add': ((1, NUMBER), (2, NUMBER)), 'jz': ((1, NUMBER),), 'store': ((2, NUMBER),), 'get': ((2, PACKET),),
         'put': ((2, NUMBER), (1, PACKET)), 'ret': ((2, STATUS),)}
WANTS.update({'sub': WANTS['add'], 'jlt': WANTS['add'], 'storep': WANTS['store']})
WANTS.update({word: ((1, PACKET),) for word in ('mark', 'insert', 'unlink', 'arm', 'disarm', 'ifcancel', 'start', 'begin', 'dequeue',
                                                 'pass', 'call', 'complete', 'ifpending')})
ENDS = {'dispatch': '`ret STATUS` or `ret lower`', 'propagate': '`ret continue` or `ret stop`', 'hold': '`ret continue` or `ret stop`'}

def kind_of(value):
    return None if value is None else PACKET if isinstance(value, Ref) else STATUS if isinstance(value, Status) else NUMBER

def had(value):
    kind = kind_of(value)
    return 'nothing' if kind is None else '%s %s' % ({NUMBER: 'the number', STATUS: 'the status'}.get(kind, kind), value)

def wrong_of(scene):
    """The words on the instruction of a frame that couldn't be executed."""
    f, (word, *operands) = scene.frame, scene.operation
    if not word:
        last = f.routine.code[-1][1].split()[1].rstrip(':') if f.routine.code else None
        return 'the routine has ended: no instruction stands behind line %s' % last if last else 'the routine has no instruction'
    for place, kind in WANTS.get(word, ()) if word != 'ret' or operands[0] == 'lower' and f.routine.sort == 'dispatch' else ():
        register = scene.operation[place]
        if kind_of(f.registers[register]) != kind:
            return '%s has no %s: it has %s' % (register, kind, had(f.registers[register]))
    (driver, lower), last = scene.world.devices[scene.device], ''.join(operands[-1:])
    told = {
        'arm': not driver.cancels.get(last) and 'queue %s has no cancel routine' % last,
        'pass': lower is None and 'v%d has no device under it' % scene.device,
        'loop': len(f.loops) == 4 and 'four loops are open already',
        'end': not f.loops and 'no loop is open',
        'ret': 'a %s routine ends with %s' % (f.routine.sort, ENDS.get(f.routine.sort, '`ret void`')),
    }
    return told.get('pass' if word == 'call' else word) or 'nothing is wrong'

def stop_of(scene, reply, forms):
    """The words on what stopped a run."""
    kind, *rest = reply.split()
    told = bug_of(scene, *rest) if kind == 'bug' else wrong_of(scene)
    forms[re.sub(r'\d+', '#', told)] += 1
    return told

def waits_for(scene):
    """The lock that a thread waits for and who owns it, another thread; or None."""
    lock = scene.lock()
    owner = scene.world.shared.get(lock)
    return None if owner is None or owner == scene.thread else (lock, owner)

def ring_line(scenes, scene):
    """What the audit says of a thread, if it waits in a ring."""
    met, waits = scene, waits_for(scene)
    for _ in scenes:
        met = scenes[waits_for(met)[1]] if waits_for(met) else None
        if met is None or met is scene:
            break
    if met is not scene:
        return []
    place = 'IoCancelIrp' if scene.frame.kind != 'routine' else scene.place.partition(':')[0]
    return ['thread %d waits in a ring at %s: thread %d owns %s' % (scene.thread, place, waits[1], waits[0])]

def left_lines(scenes):
    """What it says of locks that idle threads own: first the system cancel spin lock, then those of the devices."""
    owned = {lock: owner for lock, owner in scenes[0].world.shared.items() if isinstance(lock, str) and owner is not None}
    order = lambda lock: (lock != CANCEL_LOCK, [int(number) for number in re.findall(r'\d+', lock)])
    return ['%s is left behind: thread %d owns it and is idle' % (lock, owned[lock]) for lock in sorted(owned, key=order)
            if not scenes[owned[lock]].stack]

def audit_fault(scenes, audit, forms):
    """What is wrong with the audit's lines on locks and rings, or None."""
    wanted = sorted(left_lines(scenes) + [line for scene in scenes for line in ring_line(scenes, scene)])
    found = sorted(line for line in audit.splitlines() if re.search('is left behind|waits in a ring', line))
    forms.update(re.sub(r'\d+', '#', line) for line in found)
    return None if found == wanted else 'the audit has %s and not %s' % (found, wanted)
