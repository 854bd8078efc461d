"""random_calls.py [COUNT [SEED]]: so many random calls of the package python/pafteis, with wrong
arguments and closed worlds among them. None may end otherwise than by an answer or by an error of
the package or of the language, and memory may not grow. `tools/try python` runs it."""
import os, random, sys, time

import pafteis
from pafteis import Event, EventKind, Irql, Major, NoWorld, PafteisError, World
from versions import TOP

USUAL = (PafteisError, TypeError, ValueError, OverflowError)
SCHEDULES = (b"threads 1\nissue 0 0 READ 1\nstep 0 40\n", b"threads 2\nissue 1 0 WRITE 9\nstep 1 9\n",
             b"threads 9\n", b"threads", b"", None)
ODD = (-1, 0, 1, 2, 3, 7, 8, 63, 64, 65, 255, 256, 2**32, 2**64 - 1, 2**64, 10**30, None, "1", 1.5, b"", [])


def texts():
    """Driver texts, right and wrong."""
    names = ("echo", "counter", "startio", "cancel", "twice", "abba", "waiting")
    found = [open(os.path.join(TOP, f"examples/{name}.drv"), "rb").read() for name in names]
    return found + [b"", b"driver", b"DVB1", b"\x00\xff", "driver d\nendd\ndevice v d 1\n", 5, None]


class Caller:
    """Makes calls, and keeps some worlds."""

    def __init__(self, seed):
        self.random = random.Random(seed)
        self.texts, self.worlds, self.ended = texts(), [], {}

    def number(self, most):
        """A small number mostly, else an odd thing."""
        return self.random.randrange(most) if self.random.random() < 0.9 else self.random.choice(ODD)

    def world(self):
        if not self.worlds or self.random.random() < 0.002:
            made = World(self.random.choice(self.texts[:7]), threads=self.number(4))
            self.worlds.append(made)
            if len(self.worlds) > 12:
                self.worlds.pop(self.random.randrange(12))
        return self.random.choice(self.worlds)

    def event(self):
        pick, number = self.random.choice, self.number
        return Event(pick([*EventKind, 0, 9]), number(3), number(3), pick([*Major, 5]), number(20),
                     number(20), pick([*Irql, 3]))

    def answer(self):
        """One call whose answer may be large."""
        pick, schedule = self.random.choice, self.random.choice(SCHEDULES)
        return pick([lambda it: pafteis.explain(it, pick([False, True])), pafteis.listing,
                     lambda it: pafteis.trace(it, schedule, pick([False, True])),
                     lambda it: pafteis.tell(it, schedule), lambda it: pafteis.draw(it, schedule),
                     lambda it: pafteis.mend(it, self.number(50))])(pick(self.texts))

    def one(self):
        """One call of the package."""
        roll, number = self.random.random(), self.number
        if roll < 0.001:
            return self.answer()
        if roll < 0.02:
            text = self.random.choice(self.texts)
            return self.random.choice([pafteis.check, lambda it: pafteis.order_of_locks(it, number(3)),
                                       pafteis.describe, pafteis.schedule_size])(text)
        world = self.world()
        if roll < 0.55:
            return world.apply(self.event())
        if roll < 0.6:
            return world.apply_all([self.event() for _ in range(self.random.randrange(9))])
        if roll < 0.95:
            name, most = self.random.choice([("thread", 5), ("packet", 30), ("due", 4), ("cells", 4),
                                             ("request", 30), ("words", 4), ("number", 9),
                                             ("step", 4), ("interrupt", 4)])
            return getattr(world, name)(number(most))
        return self.random.choice([
            lambda: world.steps(number(4), number(50)), lambda: world.owner(number(3), number(10)),
            lambda: world.cancel(number(3), number(9)), lambda: world.reset(number(4)),
            lambda: self.worlds.append(world.another(number(4))) or self.worlds.pop(0).close(),
            lambda: self.random.random() < 0.1 and world.close(), world.__copy__,
            lambda: world.startio(number(3), number(3)), lambda: world.dpc(number(3), number(3))])()

    def call(self):
        try:
            self.one()
            told = "answered"
        except USUAL as error:
            told = type(error).__name__
            if isinstance(error, NoWorld):
                self.worlds = [it for it in self.worlds if not it.closed]
        self.ended[told] = self.ended.get(told, 0) + 1


def pages():
    """How many bytes of memory the process has."""
    with open("/proc/self/statm", encoding="ascii") as file:
        return int(file.read().split()[1]) * os.sysconf("SC_PAGE_SIZE")


def main():
    count = int(sys.argv[1]) if len(sys.argv) > 1 else 20_000
    caller, before = Caller(int(sys.argv[2]) if len(sys.argv) > 2 else 1), 0
    start = time.monotonic()
    for made in range(count):
        caller.call()
        if made == count // 4:
            before = pages()
    grown = pages() - before
    print(f"{count} calls in {time.monotonic() - start:.1f} s: {caller.ended}; "
          f"memory grew by {grown // 1024} KB in the last three quarters")
    # Twelve worlds of the largest set take less.
    return int(grown > 64 << 20)


if __name__ == "__main__":
    sys.exit(main())
