#!/usr/bin/env python3
"""tools/try orders [--seed N] [--sets N] [--runs N] [PROGRAM]: what `explain` says of the locks of random accepted sets (3,000, if
no number is given), each with random runs that are told (10 a set). Of each driver the edges are found here anew, from its text:
where there are none in a cycle, an order of exactly their locks has to be told in which each is taken, or that no two are held at
once, and of a set whose drivers all have one no run may have threads in a ring; else a cycle of the driver's edges is told, each with its line, and none of its cycles is shorter. Where
threads stand in a ring, the set has to be one with a cycle. The last line counts."""
import argparse, itertools, os, random, re, subprocess, sys, tempfile

TOP = os.path.dirname(os.path.dirname(os.path.dirname(os.path.abspath(__file__))))
CANCEL = 'the system cancel spin lock'
LOCKS = ['l%d' % n for n in range(8)] + [CANCEL]
MAJORS = 'READ', 'WRITE', 'CONTROL'
ORDER = re.compile(r'driver (\w+) takes its locks in this order: (.*)\.')
APART = re.compile(r'driver (\w+) holds no two locks at once\.')
CYCLE = re.compile(r'driver (\w+) takes its locks in a cycle: (.*?)\. Threads')
EDGE = re.compile(r'(\w+) acquires (l\d|%s) at line (\d+) while it holds (l\d|%s)' % (CANCEL, CANCEL))
NO_RING = 'No threads ever wait for each other in a ring'
RINGED = re.compile(r'^thread \d+ waits in a ring', re.M)

def take(lock):
    return 'acqc' if lock == CANCEL else 'acquire ' + lock

def let_go(lock):
    return 'relc' if lock == CANCEL else 'release ' + lock

class Routine:
    """A random dispatch routine's lines, and the locks that it takes under others, each with the line's place in it."""

    def __init__(self, rng, name, locks):
        self.rng, self.name, self.locks, self.lines, self.edges, self.labels = rng, name, locks, [], [], 0
        self.block([], rng.randrange(1, 4))
        self.lines += ['complete r0 SUCCESS', 'ret SUCCESS']

    def take(self, held, lock):
        self.edges += [(before, lock, len(self.lines)) for before in held]
        self.lines.append(take(lock))

    def block(self, held, depth):
        """Some locks that are taken under those held, each released in turn or under the next one; some behind a jump."""
        for _ in range(self.rng.randrange(1, 3)):
            free = [lock for lock in self.locks if lock not in held]
            if not free or not depth:
                return
            if self.rng.random() < 0.2:
                self.behind_a_jump(held, depth)
                continue
            lock = self.rng.choice(free)
            self.take(held, lock)
            self.block(held + [lock], depth - 1)
            self.lines.append(let_go(lock))

    def behind_a_jump(self, held, depth):
        label = '%s_%d' % (self.name, self.labels)
        self.labels += 1
        self.lines += ['get r1 r0 ARG', 'jz r1 ' + label]
        self.block(held, depth - 1)
        self.lines += ['clear r1', 'jmp %s_on' % label, label + ': clear r1', label + '_on: const r2 0', 'clear r2']

class Driver:
    """A random driver's text from a line on, and its edges: lock held, lock taken, routine and line."""

    def __init__(self, rng, name, line):
        self.name, self.edges = name, []
        locks = rng.sample(LOCKS, rng.randrange(2, 5))
        self.majors = rng.sample(MAJORS, rng.randrange(1, 4))
        self.lines = ['driver ' + name] + ['dispatch %s on_%s' % (major, major.lower()) for major in self.majors]
        for major in self.majors:
            routine = Routine(rng, 'on_' + major.lower(), locks)
            first = line + len(self.lines) + 2
            self.edges += [(held, lock, routine.name, first + at) for held, lock, at in routine.edges]
            self.lines += ['routine %s dispatch' % routine.name] + routine.lines + ['endr']
        self.lines.append('endd')

    def shortest_cycle(self):
        """How many edges the shortest cycle has, or 0."""
        reached = {(held, taken) for held, taken, _, _ in self.edges}
        step = set(reached)
        for length in range(1, 10):
            if any(a == b for a, b in step):
                return length
            step = {(a, d) for (a, b), (c, d) in itertools.product(step, reached) if b == c}
        return 0

def wrong_order(driver, told):
    """What is wrong with the order that is told of a driver, or None."""
    if driver.shortest_cycle():
        return 'an order of a driver with a cycle'
    order = told.split(', ')
    for held, taken, _, line in driver.edges:
        if held not in order or taken not in order or order.index(held) >= order.index(taken):
            return 'line %d takes %s under %s' % (line, taken, held)
    if sorted(order) != sorted({lock for held, taken, _, _ in driver.edges for lock in (held, taken)}):
        return 'an order of other locks than those of which one is taken under another'
    return None

def wrong_cycle(driver, told):
    """What is wrong with the cycle that is told of a driver, or None."""
    edges = [(held, taken, routine, int(line)) for routine, taken, line, held in EDGE.findall(told)]
    if [edge for edge in edges if edge not in driver.edges]:
        return 'an edge that no routine has'
    if not edges or any(a[1] != b[0] for a, b in zip(edges, edges[1:] + edges[:1])):
        return 'no cycle'
    if len(edges) != driver.shortest_cycle():
        return '%d edges, and there is a cycle of %d' % (len(edges), driver.shortest_cycle())
    return None

def wrong_words(drivers, told):
    """What is wrong with what is told of the drivers' locks, or None."""
    orders, cycles, apart = dict(ORDER.findall(told)), dict(CYCLE.findall(told)), APART.findall(told)
    for driver in drivers:
        wrong = None
        takes = any(line.startswith('acquire ') or line == 'acqc' for line in driver.lines)
        if (driver.name in apart) != (takes and not driver.edges):
            wrong = 'whether two locks are held at once is told otherwise than the routines do'
        elif driver.name in cycles:
            wrong = wrong_cycle(driver, cycles[driver.name])
        elif driver.name in orders or driver.edges:
            wrong = wrong_order(driver, orders.get(driver.name, ''))
        if wrong:
            return '%s: %s' % (driver.name, wrong)
    if (NO_RING in told) == bool(cycles):
        return 'whether there may be a ring is told otherwise than the orders'
    return None

def schedule(rng, drivers):
    """A random schedule over a device of each driver."""
    threads = rng.randrange(2, 5)
    lines = ['threads %d' % threads]
    for _ in range(rng.randrange(10, 60)):
        thread, device = rng.randrange(threads), rng.randrange(len(drivers))
        if rng.random() < 0.3:
            lines.append('issue %d %d %s %d' % (thread, device, rng.choice(drivers[device].majors), rng.randrange(2)))
        else:
            lines.append('step %d %d' % (thread, rng.randrange(1, 5)))
    return '\n'.join(lines) + '\n'

def answer(program, *words):
    done = subprocess.run([program, *words], capture_output=True, text=True, errors='replace', timeout=60)
    return done.stdout

def main():
    parser = argparse.ArgumentParser(description=__doc__, formatter_class=argparse.RawDescriptionHelpFormatter)
    parser.add_argument('--seed', type=int, default=1)
    parser.add_argument('--sets', type=int, default=3000)
    parser.add_argument('--runs', type=int, default=10)
    parser.add_argument('program', nargs='?', default=os.path.join(TOP, 'crates/drvhost/out/drvhost'))
    options = parser.parse_args()
    rng = random.Random(options.seed)
    accepted = cyclic = ringed = wrong = runs = 0
    with tempfile.TemporaryDirectory() as folder:
        set_path, by = os.path.join(folder, 'set.drv'), os.path.join(folder, 'run.sched')
        for number in range(options.sets):
            drivers, lines = [], []
            for name in ('one', 'two')[:rng.randrange(1, 3)]:
                drivers.append(Driver(rng, name, len(lines)))
                lines += drivers[-1].lines
            lines += ['device d%d %s 1' % (n, driver.name) for n, driver in enumerate(drivers)]
            open(set_path, 'w').write('\n'.join(lines) + '\n')
            told = answer(options.program, 'explain', set_path)
            problem = None if told.startswith('accepted') else 'it is not accepted'
            accepted += problem is None
            problem = problem or wrong_words(drivers, told)
            has_cycle = any(driver.shortest_cycle() for driver in drivers)
            cyclic += has_cycle
            for _ in range(options.runs):
                open(by, 'w').write(schedule(rng, drivers))
                runs += 1
                if RINGED.search(answer(options.program, 'tell', set_path, by)):
                    ringed += 1
                    if not has_cycle:
                        problem = problem or 'a ring, and each driver has an order'
            if problem:
                wrong += 1
                print('set %d: %s\n%s\n%s' % (number, problem, open(set_path).read(), told))
    print('%d sets, %d accepted, %d with a cycle; %d runs, %d with a ring: %d wrong' % (
        options.sets, accepted, cyclic, runs, ringed, wrong))
    sys.exit(wrong > 0)

if __name__ == '__main__':
    main()
