#!/usr/bin/env python3
"""tools/try offers PROGRAM [--each] [--gallery | NAME..]: tries whether what `mend` offers are mends. Each wrong driver of the
gallery is mended, and each accepted text of the folder examples and of the gallery (or those named) is broken in one way at a
time, by eight kinds of faults: an instruction is left out, written twice, swapped with the next one or moved three places on; a
mark is left out; another lock, another status that is returned, another label. Some 300 texts, the same each time, are broken
in two such places. PROGRAM offers mends of each broken text that it refuses. Each diff that is offered is applied by `patch -p0`, and `check` is asked of what that makes: it has to accept a mend of
the whole, and to tell a fault of a later routine of a mend of a part. An offer is right if the set is the one that was broken: the
listings are the same; or, but for which status, number or order there is, nearly. By kind it prints how many broken texts were
refused, how many of them have an offer, how many first offers are right and how many have a right one among the first three.
With --each every text is printed whose first offer isn't. The exit status is 1 where an offered diff doesn't do what is said of
it, or where, of all texts, fewer than the floors want are mended whole, or have a right first offer, or one among three: in
percent 96, 63 and 75 of the gallery, where nearly right ones count, 99, 80 and 90 of those broken in one place, and 97 mended
whole of those broken in two. The last line counts."""
import collections, concurrent.futures, os, random, re, subprocess, sys, tempfile

from gallery import GALLERY

TOP = os.path.dirname(os.path.dirname(os.path.dirname(os.path.abspath(__file__))))
EXAMPLES = os.path.join(TOP, 'examples')
OUTSIDE = 'driver', 'endd', 'dispatch', 'startio', 'dpc', 'queue', 'routine', 'endr', 'device'
JUMPS = 'jmp', 'jz', 'jlt', 'remove', 'disarm', 'ifcancel', 'take', 'ifpending'
FLOW = 'jmp', 'loop', 'end', 'ret'
TWICE, TWICE_BROKEN, SEED = 'two places', 300, 1
FLOORS = {'gallery': (96, 63, 75), 'all': (99, 80, 90), TWICE: (97, 0, 0)}

class Step:
    """An instruction on a line of a text: its label, its words, and its comment."""

    def __init__(self, at, line):
        self.at = at
        code, semicolon, comment = line.partition(';')
        found = re.match(r'\s*(?:(\w+):)?\s*(.*?)\s*$', code)
        self.label, self.words, self.comment = found[1], found[2], semicolon + comment

    def line(self, words=None, label=None):
        """The line with other words, and with the label of another instruction."""
        label = self.label if label is None else label
        return (label + ': ' if label else '') + (self.words if words is None else words) + (' ' + self.comment if self.comment else '')

def routines(lines):
    """The instructions of each routine."""
    found, inside = [], False
    for at, line in enumerate(lines):
        word = line.split(';')[0].split()
        if not word:
            continue
        if word[0] == 'routine':
            found.append([])
            inside = True
        elif word[0] in OUTSIDE:
            inside = False
        elif inside:
            found[-1].append(Step(at, line))
    return found

def without(lines, step, later):
    """The text without an instruction, whose label goes to the next; None where that has one."""
    if step.label and (not later or later.label):
        return None
    broken = list(lines)
    if step.label:
        broken[later.at] = later.line(label=step.label)
    del broken[step.at]
    return broken

def changed(lines, *pairs):
    broken = list(lines)
    for at, line in pairs:
        broken[at] = line
    return broken

def breaks_of(lines, steps, index):
    """Each text in which an instruction is broken, by kind."""
    step = steps[index]
    later = steps[index + 1] if index + 1 < len(steps) else None
    word = step.words.split()[0]
    if later:
        yield 'mark' if word == 'mark' else 'left out', without(lines, step, later)
    if word not in FLOW:
        yield 'twice', lines[:step.at + 1] + [step.words] + lines[step.at + 1:]
    if later and later.words != step.words:
        yield 'swapped', changed(lines, (step.at, step.line(later.words)), (later.at, later.line(step.words)))
    if index + 3 < len(steps) and not any(it.label for it in steps[index + 1:index + 4]):
        target = steps[index + 3].at
        broken = changed(lines, (steps[index + 1].at, steps[index + 1].line(label=step.label or '')))
        yield 'moved', broken[:step.at] + broken[step.at + 1:target + 1] + [step.words] + broken[target + 1:]
    if word in ('acquire', 'release'):
        other = 'l1' if step.words.split()[1] == 'l0' else 'l0'
        yield 'lock', changed(lines, (step.at, step.line(word + ' ' + other)))
    if re.match(r'ret [A-Z_]+$', step.words):
        other = 'SUCCESS' if step.words == 'ret PENDING' else 'PENDING'
        yield 'status', changed(lines, (step.at, step.line('ret ' + other)))
    if word in JUMPS:
        *words, label = step.words.split()
        for other in sorted({it.label for it in steps if it.label} - {label}):
            yield 'label', changed(lines, (step.at, step.line(' '.join(words + [other]))))

def breaks(lines):
    """Each broken text, with its kind, and where it is broken."""
    for number, steps in enumerate(routines(lines)):
        for index in range(len(steps)):
            for kind, broken in breaks_of(lines, steps, index):
                if broken and broken != lines:
                    yield kind, broken, (number, index)

def twice_broken(good):
    """Texts that are broken in two places, the same each time."""
    choice, found = random.Random(SEED), {}
    while good and len(found) < TWICE_BROKEN:
        name, lines, listing = choice.choice(good)
        _, once, place = choice.choice(list(breaks(lines)))
        others = [broken for _, broken, other in breaks(once) if other != place and broken != lines]
        if others:
            found['\n'.join(choice.choice(others)) + '\n'] = name, listing
    return [(name, TWICE, text, listing) for text, (name, listing) in found.items()]

def answer(program, command, path):
    """What the program answers of a file, and its exit status."""
    done = subprocess.run([program, command, path], capture_output=True, text=True)
    return done.stdout, done.returncode

def with_text(text, asked):
    """What is asked of a file with a text."""
    with tempfile.TemporaryDirectory() as folder:
        path = os.path.join(folder, 'driver.drv')
        with open(path, 'w') as file:
            file.write(text)
        return asked(folder, path)

def place(told):
    """The driver and the routine that a refusal tells."""
    found = re.match(r'refused .* driver (\d+) routine (\d+) at', told)
    return (int(found[1]), int(found[2])) if found else None

def nearly(listing):
    """A listing without statuses that are completed or returned, numbers, and the order of lines."""
    words = re.sub(r'\b(complete r\d+|ret) (?!PENDING)[A-Z_]+', r'\1', listing)
    words = re.sub(r'\b(const r\d+|loop) \d+', r'\1', words)
    return sorted(re.sub(r'\ba\d+(: )?', '', line) for line in words.splitlines())

class Offer:
    """An offer: its head and sentences, what its diff makes of the text, and what is amiss with it."""

    def __init__(self, program, text, block, refused):
        self.words, self.amiss, self.listing = block.split('\n--- set\n')[0], '', ''
        self.whole = ' of the whole: ' in self.words.split('\n')[0]
        diff = '--- set\n' + block.split('\n--- set\n')[1]

        def applied(folder, path):
            done = subprocess.run(['patch', '-p0', '--fuzz=0', '-s', path], input=diff, capture_output=True, text=True, cwd=folder)
            if done.returncode:
                self.amiss = 'patch: ' + done.stdout.strip()
                return
            told, status = answer(program, 'check', path)
            if self.whole and status:
                self.amiss = 'not accepted: ' + told.strip()
            elif not self.whole and (place(told) is None or place(told) <= place(refused)):
                self.amiss = 'no later fault: ' + told.strip()
            self.listing = answer(program, 'list', path)[0]

        with_text(text, applied)

class Tried:
    """A text that is refused, and what is offered for it; `good`: the listing of the set that was broken."""

    def __init__(self, program, name, kind, text, good):
        self.name, self.kind, self.text, self.good = name, kind, text, good
        self.told, self.status = with_text(text, lambda folder, path: answer(program, 'mend', path))
        self.refused = self.told.startswith('refused ')
        head, *blocks = re.split(r'^(?=mend \d+ of )', self.told, flags=re.M)
        self.offers = [Offer(program, text, block, self.told) for block in blocks]
        self.amiss = [offer.amiss for offer in self.offers if offer.amiss]
        if self.refused and (self.status == 0) != any(offer.whole for offer in self.offers):
            self.amiss.append('exit status %d' % self.status)

    def right(self, count, alike=lambda listing: listing):
        """Whether one of the first so many offers makes the set that was broken."""
        return self.good is not None and any(alike(offer.listing) == alike(self.good) for offer in self.offers[:count])

def texts(names):
    """Good texts, by name: the examples, and the mended drivers of the gallery."""
    paths = [(name[:-4], os.path.join(EXAMPLES, name)) for name in sorted(os.listdir(EXAMPLES)) if name.endswith('.drv')]
    paths += [(name, os.path.join(GALLERY, name, 'mended.drv')) for name in sorted(os.listdir(GALLERY))]
    return [(name, open(path).read()) for name, path in paths if os.path.exists(path) and (not names or name in names)]

def wrong(program):
    """The wrong drivers of the gallery, each with the listing of the mended one, if there is one."""
    for name in sorted(os.listdir(GALLERY)):
        mended = os.path.join(GALLERY, name, 'mended.drv')
        good = answer(program, 'list', mended)[0] if os.path.exists(mended) else None
        yield name, 'gallery', open(os.path.join(GALLERY, name, 'driver.drv')).read(), good

def broken(program, names):
    """The broken texts, each once, with the listing of the set that was broken."""
    seen, good = set(), []
    for name, text in texts(names):
        if with_text(text, lambda folder, path: answer(program, 'check', path))[1] == 0:
            listing = with_text(text, lambda folder, path: answer(program, 'list', path))[0]
            good.append((name, text.splitlines(), listing))
            for kind, lines, _ in breaks(text.splitlines()):
                made = '\n'.join(lines) + '\n'
                if made not in seen:
                    seen.add(made)
                    yield name, kind, made, listing
    yield from (case for case in twice_broken(good) if case[2] not in seen)

def percent(part, whole):
    return '%d (%d %%)' % (part, round(100 * part / whole)) if whole else '0'

def tell(kind, found):
    """A line on the refused texts of a kind."""
    known = [it for it in found if it.good is not None]
    print('%-10s %5d refused, %s with an offer, %s mended whole; first right %s, nearly %s; among three %s, nearly %s' % (
        kind, len(found), percent(sum(bool(it.offers) for it in found), len(found)),
        percent(sum(it.status == 0 for it in found), len(found)),
        percent(sum(it.right(1) for it in known), len(known)), percent(sum(it.right(1, nearly) for it in known), len(known)),
        percent(sum(it.right(3) for it in known), len(known)), percent(sum(it.right(3, nearly) for it in known), len(known))))

def below_floor(kind, found):
    """Which floors of a kind so many refused texts are below: of those mended whole, right at first, right among three."""
    known, alike = [it for it in found if it.good is not None], (nearly if kind == 'gallery' else lambda listing: listing)
    counts = (len(found), sum(it.status == 0 for it in found)), *(
        (len(known), sum(it.right(count, alike) for it in known)) for count in (1, 3))
    for floor, (whole, part) in zip(FLOORS[kind], counts):
        if 100 * part < floor * whole:
            yield '%s: %d of %d, and the floor is %d %%' % (kind, part, whole, floor)

def main():
    flags = [word for word in sys.argv[1:] if word.startswith('--')]
    program, *names = [word for word in sys.argv[1:] if not word.startswith('--')]
    program, by_kind, amiss = os.path.abspath(program), collections.defaultdict(list), 0
    cases = list(wrong(program) if not names else ()) + list(broken(program, names) if '--gallery' not in flags else ())
    with concurrent.futures.ThreadPoolExecutor(4) as workers:
        for it in workers.map(lambda case: Tried(program, *case), cases):
            if not it.refused:
                continue
            by_kind[it.kind].append(it)
            amiss += bool(it.amiss)
            if it.amiss or '--each' in flags and not it.right(1):
                print('%s, %s\n%s%s' % (it.name, it.kind, it.text if it.amiss else '', it.told), *it.amiss, '', sep='\n')
    for kind, found in by_kind.items():
        tell(kind, found)
    single = [it for kind, found in by_kind.items() if kind not in ('gallery', TWICE) for it in found]
    if single:
        tell('all', single)
    low = [] if names else [each for kind, found in (('gallery', by_kind['gallery']), ('all', single), (TWICE, by_kind[TWICE]))
                            for each in below_floor(kind, found)]
    print(*low, sep='\n', end='\n' * bool(low))
    print('%d texts, %d refused, %d offers, %d texts with an offer that is amiss' % (
        len(cases), sum(map(len, by_kind.values())), sum(len(it.offers) for found in by_kind.values() for it in found), amiss))
    sys.exit(bool(amiss or low))

if __name__ == '__main__':
    main()
