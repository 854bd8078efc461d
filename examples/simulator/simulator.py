"""A simulator of a disk, which embeds a world of Pafteis.

    PYTHONPATH=python python3 examples/simulator/simulator.py [--requests N] [--seed S] [--picture FILE]

The simulator has the clock, the load, the arm of the disk and the patience of who asks; the driver
(disk.drv) runs in the world, on simulated processors that make a step each microsecond. The world
says what becomes of each request. So a simulator decides *when* something happens, and never *what*
a driver or the I/O manager does then. The library is found as python/README.md says.
"""

import argparse
import heapq
import pathlib
import random
from dataclasses import dataclass

from picture import write_picture
from pafteis import Major, ReplyKind, Status, World

HERE = pathlib.Path(__file__).parent
DISK = 0
PROCESSORS = 4
STEP = 1.0  # microseconds that a processor takes for a step
LOAD = 4_500.0  # microseconds between two requests, on the average
PATIENCE = 40_000.0  # after which a request is given up


@dataclass
class Request:
    """When a request came, when it ended, and how: None while it is under way."""

    came: float
    size: int
    ended: float = 0.0
    status: "int | None" = None


class Simulator:
    """The clock, what is to come (by time), what each processor runs, and all requests."""

    def __init__(self, seed: int, requests: int) -> None:
        self.world = World((HERE / "disk.drv").read_bytes(), PROCESSORS)
        self.random = random.Random(seed)
        self.now, self.count, self.left = 0.0, 0, requests
        self.coming: list = []  # a heap of (time, count, what to do)
        self.jobs: dict = {}  # of each busy processor what is done when it is idle again
        self.requests: list = []
        self.at(0.0, self.arrive)

    def at(self, delay: float, act) -> None:
        """Has something done later."""
        self.count += 1
        heapq.heappush(self.coming, (self.now + delay, self.count, act))

    def arrive(self) -> None:
        """A request arrives, on a processor that has nothing to do, and so does the next one."""
        processor = self.idle()
        if processor is None:
            return self.at(STEP, self.arrive)
        size = 512 * self.random.randint(1, 64)
        major = Major.READ if self.random.random() < 0.7 else Major.WRITE
        reply = self.world.issue(processor, DISK, major, size)
        self.requests.append(Request(self.now, size))
        self.jobs[processor] = self.start_what_is_due
        self.at(PATIENCE * self.random.uniform(0.5, 2), lambda: self.give_up(reply.packet))
        self.left -= 1
        if self.left:
            self.at(self.random.expovariate(1 / LOAD), self.arrive)

    def give_up(self, packet: int) -> None:
        """Who asked doesn't want it any more."""
        if self.requests[packet].status is not None:
            return
        processor = self.idle()
        if processor is None:
            return self.at(STEP, lambda: self.give_up(packet))
        if self.world.cancel(processor, packet).kind is ReplyKind.STARTED:
            self.jobs[processor] = lambda: None

    def seek(self) -> None:
        """The arm moves to the current request, and the disk interrupts when it is done."""
        self.at(self.random.uniform(1_000.0, 9_000.0), self.interrupt)

    def interrupt(self) -> None:
        self.world.interrupt(DISK)
        self.serve()

    def serve(self) -> None:
        """The DPC routine begins, where a processor is free."""
        processor = self.idle()
        if processor is None:
            return self.at(STEP, self.serve)
        if self.world.dpc(processor, DISK).kind is ReplyKind.STEPPED:
            self.jobs[processor] = self.start_what_is_due

    def start_what_is_due(self) -> None:
        """The StartIo routine begins, if a request is to be started."""
        processor = self.idle()
        if processor is None:
            return self.at(STEP, self.start_what_is_due)
        if self.world.startio(processor, DISK).kind is ReplyKind.STARTED:
            self.jobs[processor] = self.seek

    def idle(self) -> "int | None":
        return next((it for it in range(PROCESSORS) if it not in self.jobs), None)

    def step_all(self) -> None:
        """Each busy processor makes a step."""
        for processor in list(self.jobs):
            reply = self.world.step(processor)
            if reply.kind is ReplyKind.TOPPED:
                request = self.requests[reply.packet]
                request.ended, request.status = self.now, reply.status
            if reply.kind is ReplyKind.FINISHED:
                self.jobs.pop(processor)()

    def run(self) -> None:
        """Goes on until nothing is to come and no processor is busy."""
        while self.coming or self.jobs:
            if self.jobs:
                self.now += STEP
                self.step_all()
            else:
                self.now = max(self.now, self.coming[0][0])
            while self.coming and self.coming[0][0] <= self.now:
                heapq.heappop(self.coming)[2]()


def main() -> None:
    words = argparse.ArgumentParser(description=__doc__.split("\n")[0])
    words.add_argument("--requests", type=int, default=1000)
    words.add_argument("--seed", type=int, default=1)
    words.add_argument("--picture", metavar="FILE")
    given = words.parse_args()
    simulator = Simulator(given.seed, given.requests)
    simulator.run()
    ended = simulator.requests
    served = sorted(it.ended - it.came for it in ended if it.status == Status.SUCCESS)
    cancelled = sum(it.status == Status.CANCELLED for it in ended)
    last = max(it.ended for it in ended)
    print(f"{len(ended)} requests in {last / 1e6:.3f} s: "
          f"{len(served)} served, {cancelled} cancelled, {len(ended) - len(served) - cancelled} left")
    if served:
        half, most = served[len(served) // 2], served[len(served) * 95 // 100]
        print(f"latency: {half / 1000:.1f} ms in the middle, {most / 1000:.1f} ms for 95 of 100")
    if given.picture:
        write_picture(given.picture, ended, last)


main()
