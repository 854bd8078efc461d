"""The cases by which a program is compared with `reference`: a case has a number, and its files and questions are those of that number,
a seed and the corpus, whatever cases were made before it."""
import glob, os, random

import random_sets
import stored_runs
import try_random_told
import try_scripts
import try_texts

# How often cases of a kind are made.
KINDS = {'text': 3, 'image': 4, 'set': 6, 'changed': 4, 'schedule': 2, 'script': 3, 'limit': 0.1, 'hunt': 0.1}
# Odd lines of schedules and scripts: numbers of nothing, levels that there are not, numbers at their limits.
ODD_EVENTS = ['issue 0 15 READ 0', 'issue 63 0 READ 0', 'cancel 0 0 3', 'cancel 0 18446744073709551615 0', 'interrupt 255', 'dpc 0 16',
              'startio 255 0', 'step 64', 'step 0 300', 'issue 0 0 CONTROL 18446744073709551615', 'cancel 1 0x1 2', 'step 00']
ODD_COMMANDS = ['request 16 READ 0', 'request 0 WRITE 18446744073709551616', 'cancel 0 3', 'cancel 0 256', 'interrupt 255',
                'request 0 READ']

class Case:
    """Files by their names, and questions: the words of command lines, with the names of these files."""

    def __init__(self, number, kind):
        self.number, self.kind, self.files, self.questions = number, kind, {}, []

    def add(self, ending, content):
        """Adds a file, and answers its name."""
        name = '%d.%s' % (self.number, ending)
        self.files[name] = content.encode('utf8', 'surrogateescape') if isinstance(content, str) else content
        return name

    def ask(self, *words):
        self.questions.append(words)

    def out(self, words):
        """The file that a command line writes, if it writes one."""
        return words[-1] if words[0] == 'rewrite' or '--history' in words else None

def lined(lines):
    return '\n'.join(lines) + '\n'

def encoded(text):
    return text.encode('utf8', 'surrogateescape')

class Corpus:
    """The texts, images and schedules of examples and stored runs, each content once, in the order of their names."""

    def __init__(self, folder):
        data = stored_runs.unpacked(folder)
        self.texts, self.images, self.schedules = (self.read(data, ending) for ending in ('drv', 'image', 'sched'))
        self.texts = [it for it in self.texts if len(it) < 20000]
        self.images = [encoded(it) for it in self.images if len(it) < 20000]
        self.schedules = [it for it in self.schedules if len(it) < 2000] or ['threads 1\n']

    def read(self, data, ending):
        found = {}
        for folder in os.path.join(stored_runs.TOP, 'examples'), data:
            for path in sorted(glob.glob(os.path.join(folder, '**/*.' + ending), recursive=True)):
                found[open(path, errors='surrogateescape', newline='').read()] = path
        return list(found)

def first_edition(image):
    """An image of edition 2 with the bytes that edition 1 has otherwise: it is one of that edition where its set is."""
    image, at = bytearray(image), 8
    image[3] = 0x31
    for _ in range(image[4]):
        routines, queues = image[at], image[at + 1]
        image[at + 7] = 0 if image[at + 7] == 0xFF else image[at + 7]
        at += 8 + 2 * queues
        for _ in range(routines):
            at += 4 + 8 * int.from_bytes(image[at + 2:at + 4], 'little')
    return bytes(image)

def changed_image(image, rng):
    """An image with some bytes changed, left out, put in or cut off."""
    image = bytearray(image)
    for _ in range(rng.choice((0, 1, 1, 1, 1, 2, 3))):
        at, kind = rng.randrange(len(image) or 1), rng.randrange(10)
        if kind == 0:
            del image[at:]
        elif kind == 1:
            image += bytes(rng.randrange(256) for _ in range(rng.choice((1, 4, 8))))
        elif kind == 2:
            del image[at:at + rng.choice((1, 8))]
        elif kind == 3:
            image[at:at] = bytes([rng.choice((0, 1, 0xFF, rng.randrange(256)))])
        elif image:
            image[at % len(image)] = rng.choice((0, 1, 0xFF, rng.randrange(40), rng.randrange(256), (image[at % len(image)] + 1) % 256))
    return bytes(image)

def with_odd(text, odd, rng):
    """A text with some odd lines in it."""
    lines = text.splitlines()
    for _ in range(rng.choice((0, 0, 1, 2))):
        lines.insert(rng.randrange(1, len(lines) + 1), rng.choice(odd))
    return lined(lines)

def driven(rng, devices):
    """A schedule in which what begins on a thread is mostly stepped on."""
    threads, issued = rng.randrange(1, 4), 0
    lines = ['threads %d' % threads]
    for _ in range(rng.choice((150, rng.randrange(3, 16), rng.randrange(3, 16), rng.randrange(3, 16)))):
        thread, device = rng.randrange(threads), rng.randrange(devices)
        kind = rng.choices(('issue', 'dpc', 'startio', 'cancel', 'none'), (4, 2, 2, 2, 2))[0]
        if kind == 'issue':
            lines.append('issue %d %d %s %d' % (thread, device, rng.choice(('READ', 'READ', 'WRITE', 'CONTROL')), rng.randrange(4)))
            issued += 1
        elif kind == 'cancel':
            lines.append('cancel %d %d %d' % (thread, rng.randrange(issued + 1), rng.choice((0, 0, 1, 2))))
        elif kind != 'none':
            lines += ['interrupt %d' % device] * (kind == 'dpc') + ['%s %d %d' % (kind, thread, device)]
        lines.append('step %d %d' % (thread, rng.choice((1, 2, 3, 5, 8, 13, 40))))
    return lined(lines)

def limit_texts(rng):
    """Texts at limits and one past them: of things that are counted, and of a certificate."""
    near, ret = lambda number: number + rng.choice((-1, 0, 1)), ['ret void', 'endr']
    def body(lines):
        return ['driver d', *lines, 'endd', 'device v d 1']
    yield [line for at in range(near(8)) for line in ('driver d%d' % at, 'endd')] + ['device v d0 1']
    yield ['driver d', 'endd'] + ['device v%d d 1' % at for at in range(near(16))]
    yield body([line for at in range(near(32)) for line in ('routine f%d dpc' % at, *ret)])
    yield body(['queue q%d l%d' % (at, at) for at in range(near(4))])
    yield body(['routine f dpc'] + ['clear r1'] * (near(1024) - 1) + ret)
    yield body(['routine f dpc', 'loop 1000', 'loop 998', 'end', 'end'] + ['clear r1'] * near(999) + ret)
    yield body(['routine f dpc'] + ['loop 2'] * near(4) + ['end'] * 4 + ret)

# Instructions of which many are executed on one packet, which a list then has so many times.
GROWING = ['insert r0 qa'], ['start r0'], ['start r0', 'next'], ['start r0', 'insert r0 qa']

def grows(rng):
    """The text of a set in which a list comes to have more entries than it may."""
    code = ['loop 5', 'loop %d' % rng.choice((819, 820)), *rng.choice(GROWING), 'end', 'end', 'ret PENDING']
    tables = ['queue qa l0', 'dispatch READ f', rng.choice(('startio s', 'startio s c'))]
    others = ['routine s startio', 'begin r0', 'ret void', 'endr', 'routine c cancel', 'relc', 'ret void', 'endr']
    return ['driver d', *tables, 'routine f dispatch', 'mark r0', *code, 'endr', *others, 'endd', 'device v d 1']

def deep(rng):
    """The text of a set in which a thread comes to have more frames than it may."""
    low = ['driver low', 'dispatch READ f', 'routine f dispatch', 'complete r0 SUCCESS', 'ret SUCCESS', 'endr', 'endd']
    again = rng.choice((['complete r0 SUCCESS'], ['mark r0', 'complete r0 SUCCESS'], ['mov r1 r0', 'call r0 h']))
    top = ['driver top', 'dispatch READ f', 'routine f dispatch', 'mark r0', 'call r0 h', 'ret PENDING', 'endr',
           'routine h hold', *again, 'ret stop', 'endr', 'endd']
    devices = ['device v%d %s %d%s' % (at, 'top' if at else 'low', at + 1, ' v%d' % (at - 1) if at else '') for at in range(16)]
    return low + top + devices

def endless(rng):
    """The text of a set whose StartIo routine starts its packet again and again."""
    again = rng.choice((['next', 'start r0'], ['next', 'const r1 1', 'start r0']))
    return ['driver d', 'dispatch READ f', 'startio s', 'dpc g', 'routine f dispatch', 'mark r0', 'start r0', 'ret PENDING', 'endr',
            'routine s startio', *again, 'ret void', 'endr', 'routine g dpc', 'ret void', 'endr', 'endd', 'device v d 1']

def random_keeper(rng):
    """The text of a set that keeps each packet."""
    way = rng.choice((['start r0'], ['acquire l0', 'insert r0 qa', 'release l0'], ['clear r0']))
    tables = ['queue qa l0', 'dispatch READ f', 'startio s']
    return ['driver d', *tables, 'routine f dispatch', 'mark r0', *way, 'ret PENDING', 'endr', 'routine s startio', 'begin r0', 'ret void',
            'endr', 'endd', 'device v d 1']

class Maker:
    """Makes the cases of a seed."""

    def __init__(self, seed, corpus):
        self.seed, self.corpus = seed, corpus

    def case(self, number):
        rng = random.Random('%d %d' % (self.seed, number))
        kind = rng.choices(list(KINDS), KINDS.values())[0]
        case = Case(number, kind)
        getattr(self, 'make_' + kind)(case, rng)
        return case

    def ask_of_set(self, case, name, rng):
        """What is asked of each set: a verdict, sometimes its listing and its image."""
        case.ask('check', name)
        if rng.random() < 0.15:
            case.ask('list', name)
        if rng.random() < 0.1:
            case.ask('rewrite', name, '%d.out' % case.number)

    def ask_of_run(self, case, name, devices, rng):
        made = rng.choice((try_random_told.schedule, driven, driven))
        text = with_odd(made(rng, max(devices, 1)), ODD_EVENTS, rng)
        schedule = case.add('sched', text)
        flags = rng.choice(([['--unchecked']], [['--unchecked']], [[], ['--unchecked']], [[]]))
        for flag in flags:
            case.ask('trace', name, schedule, *flag)

    def make_text(self, case, rng):
        self.ask_of_set(case, case.add('drv', try_texts.spoil(rng.choice(self.corpus.texts), rng)), rng)

    def make_image(self, case, rng):
        image = rng.choice(self.corpus.images)
        if rng.random() < 0.3 and image[:4] == b'DVB2' and len(image) > 16:
            try:
                image = first_edition(image)
            except IndexError:
                pass
        self.ask_of_set(case, case.add('image', changed_image(image, rng)), rng)

    def make_set(self, case, rng):
        text, devices = random_sets.random_set(rng, rng.choice((0, 0, 0, 1, 1, 1, 2, 3, 4)))
        name = case.add('drv', text)
        self.ask_of_set(case, name, rng)
        self.ask_of_run(case, name, devices, rng)

    def make_changed(self, case, rng):
        lines = [line for line in rng.choice(self.corpus.texts).split('\n') if line.split(';')[0].split()]
        for _ in range(rng.choice((0, 1, 1, 1, 2, 3)) if lines else 0):
            lines = random_sets.edit(rng, lines)
        name = case.add('drv', lined(lines))
        self.ask_of_set(case, name, rng)
        self.ask_of_run(case, name, sum(line.split()[0] == 'device' for line in lines), rng)

    def make_limit(self, case, rng):
        """Counts at their limits, lists and threads that get too many entries and frames, too many live packets and commands."""
        kind, count = rng.choice(('counts', 'list', 'frames', 'live', 'commands', 'history')), 65536 + rng.choice((-1, 0, 1))
        if kind == 'counts':
            self.ask_of_set(case, case.add('drv', lined(rng.choice(list(limit_texts(rng))))), rng)
        elif kind == 'commands':
            lines = ['request 0 READ 0'] + [rng.choice(('interrupt 0', 'cancel 0 0'))] * (count - 1)
            case.ask('host', case.add('drv', random_sets.random_set(rng, 0)[0]), case.add('script', lined(lines)), '--workers', '1')
        elif kind == 'history':
            commands = case.add('script', lined(['request 0 READ 0'] * rng.choice((1, 2)) + ['interrupt 0', 'cancel 0 0']))
            case.ask('host', case.add('drv', lined(endless(rng))), commands, '--workers', '1', '--history', '%d.out' % case.number)
        else:
            text = {'list': grows, 'frames': deep, 'live': random_keeper}[kind](rng)
            more = ['issue 0 0 READ 0', 'step 0 9'] * 4097 if kind == 'live' else ['issue 0 15 READ 0', 'issue 0 0 READ 0', 'step 0 20600']
            case.ask('trace', case.add('drv', lined(text)), case.add('sched', lined(['threads 1', *more])), '--unchecked')

    def make_hunt(self, case, rng):
        text, _ = random_sets.random_set(rng, rng.choice((0, 1, 1, 2)))
        case.ask('hunt', case.add('drv', text), '--states', '500', '--events', '60')

    def make_schedule(self, case, rng):
        text = rng.choice(self.corpus.schedules) if rng.random() < 0.5 else try_random_told.schedule(rng, 2)
        case.ask('trace', case.add('drv', rng.choice(self.corpus.texts)), case.add('sched', try_texts.spoil(text, rng)), '--unchecked')

    def make_script(self, case, rng):
        if rng.random() < 0.6:
            text, devices = random_sets.random_set(rng, 0)
        else:
            text = rng.choice(self.corpus.texts)
            devices = max(1, text.count('\ndevice '))
        script = lined(try_scripts.script(devices, rng))
        script = with_odd(script, ODD_COMMANDS, rng) if rng.random() < 0.3 else script
        script = try_texts.spoil(script, rng) if rng.random() < 0.1 else script
        more = ['--history', '%d.out' % case.number] if rng.random() < 0.5 else []
        case.ask('host', case.add('drv', text), case.add('script', script), '--workers', '1', *more)
