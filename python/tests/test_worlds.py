"""Worlds, event by event."""

import copy
import os
import pickle
import random
import resource
import unittest

import pafteis
from pafteis import Due, Event, EventKind, FrameKind, Irql, Major, PacketKind, ReplyKind, Request
from pafteis import World
from tests import EXAMPLES, IS_STAND_IN, full, text

# How many random calls are made; 2,000,000 take some seconds.
CALLS = int(os.environ.get("PAFTEIS_CALLS", "20000"))
KINDS = {kind.name.lower(): kind for kind in EventKind}


def events_of(schedule):
    """The number of threads of a schedule, and its events."""
    lines = [line.split(";")[0].split() for line in schedule.splitlines()]
    lines = [words for words in lines if words]
    return int(lines[0][1]), [event for words in lines[1:] for event in of_line(words)]


def of_line(words):
    kind, numbers = KINDS[words[0]], words[1:]
    if kind is EventKind.ISSUE:
        thread, device, major, argument = numbers
        return [Event(kind, int(thread), int(device), Major[major], int(argument))]
    if kind is EventKind.CANCEL:
        thread, packet, level = map(int, numbers)
        return [Event(kind, thread, packet=packet, level=Irql(level))]
    if kind is EventKind.INTERRUPT:
        return [Event(kind, device=int(numbers[0]))]
    if kind is EventKind.STEP:
        return [Event(kind, int(numbers[0]))] * int(numbers[1] if numbers[1:] else 1)
    return [Event(kind, int(numbers[0]), int(numbers[1]))]


def schedules():
    """Accepted examples with their schedules."""
    names = sorted(path.stem for path in EXAMPLES.glob("*.sched"))
    sets = [name for name in names if (EXAMPLES / f"{name}.drv").exists()]
    return ["filter"] if IS_STAND_IN else [it for it in sets if pafteis.check(text(f"{it}.drv"))]


class Worlds(unittest.TestCase):
    def test_read(self):
        with World(text("echo.drv"), threads=2) as world:
            started = world.issue(thread=0, device=0, major=Major.READ, argument=7)
            self.assertEqual((started.kind, started.packet), (ReplyKind.STARTED, 0))
            told = [str(reply) for reply in world.finish(thread=0)]
            self.assertEqual(told, ["stepped", "topped 0 0x00000000 0", "finished"])
            self.assertIs(world.step(0).kind, ReplyKind.IDLE)
            self.assertIs(world.step(9).kind, ReplyKind.REFUSED)

    @full
    def test_what_threads_share(self):
        with World(text("counter.drv"), threads=2) as world:
            world.issue(thread=0, device=0, major=Major.READ, argument=7)
            self.assertEqual(world.steps(thread=0, count=4)[0], 4)
            self.assertEqual((world.owner(0, 0), world.owner(0, 1)), (0, None))
            self.assertIsNone(world.owner(0, pafteis.CANCEL_LOCK))
            self.assertEqual(world.request(0), Request(Major.READ, 7, 0))
            self.assertEqual(world.words(0)[1:3], (7, 4096))
            self.assertEqual(world.number(world.words(0)[0]), 0)
            world.steps(thread=0, count=6)
            self.assertEqual((world.owner(0, 0), world.request(0).info), (None, 1))
            cells = world.cells(0)
            self.assertEqual((cells.plain, cells.paged), ((1, *[0] * 15), (0,) * 16))
            for call in (lambda: world.cells(1), lambda: world.owner(1, 0), lambda: world.owner(0, 9)):
                self.assertRaises(pafteis.WrongArgument, call)
            self.assertRaises(pafteis.WrongArgument, world.request, 1)
            self.assertRaises(pafteis.WrongArgument, world.words, 1)
            self.assertRaises(pafteis.WrongArgument, world.number, 1 << 40)

    @full
    def test_begun_anew(self):
        with World(text("counter.drv")) as world:
            world.issue(thread=0, device=0, major=Major.READ)
            list(world.finish(thread=0))
            with world.another(threads=2) as other:
                self.assertEqual((other.cells(0).plain[0], world.cells(0).plain[0]), (0, 1))
                self.assertIs(other.step(1).kind, ReplyKind.IDLE)
            world.reset(threads=3)
            self.assertEqual(world.cells(0).plain[0], 0)
            self.assertIs(world.step(2).kind, ReplyKind.IDLE)
            self.assertRaises(pafteis.WrongArgument, world.reset, 65)
            self.assertRaises(pafteis.WrongArgument, world.another, 0)
        self.assertRaises(pafteis.NoWorld, world.reset)

    def test_runs_are_those_of_the_program(self):
        for name in schedules():
            schedule = text(f"{name}.sched")
            threads, events = events_of(schedule)
            with World(text(f"{name}.drv"), threads) as world:
                replies = [str(reply) for reply in world.run(events)]
            lines = pafteis.trace(text(f"{name}.drv"), schedule).text.splitlines()
            self.assertEqual(replies, [line.partition(" ")[2] for line in lines], name)

    def test_all_at_once(self):
        for name in schedules():
            threads, events = events_of(text(f"{name}.sched"))
            with World(text(f"{name}.drv"), threads) as world:
                one_by_one = list(world.run(events))
            with World(text(f"{name}.drv"), threads) as world:
                self.assertEqual(world.apply_all(events), one_by_one, name)
                self.assertEqual(world.apply_all([]), [])

    def test_all_before_a_wrong_one(self):
        issue = Event(EventKind.ISSUE, major=Major.READ)
        for wrong in (Event(9), Event(EventKind.STEP, 256)):
            with World(text("echo.drv")) as world:
                with self.assertRaises(pafteis.WrongArgument):
                    world.apply_all([issue, Event(EventKind.STEP), wrong, issue])
                self.assertIs(world.step(0).kind, ReplyKind.TOPPED)

    def test_steps(self):
        with World(text("echo.drv")) as world:
            self.assertEqual(world.steps(0, 0)[0], 0)
            world.issue(0, 0, Major.READ)
            made, reply = world.steps(0, 100)
            self.assertEqual((made, reply.kind), (2, ReplyKind.TOPPED))

    def test_closed(self):
        world = World(text("echo.drv"))
        world.close()
        world.close()
        self.assertTrue(world.closed)
        for call in (lambda: world.step(0), lambda: world.thread(0), lambda: world.packet(0),
                     lambda: world.due(0), lambda: world.steps(0, 1), lambda: world.interrupt(0),
                     lambda: world.apply_all([])):
            self.assertRaises(pafteis.NoWorld, call)

    def test_refused_sets(self):
        with self.assertRaises(pafteis.Refused) as caught:
            World(text("twice.drv"))
        self.assertEqual(caught.exception.verdict.rule, pafteis.Rule.DOUBLE_COMPLETION)
        self.assertRaises(pafteis.FaultyText, World, "what\n")

    def test_wrong_arguments(self):
        for threads in (0, 65, 256, -1):
            self.assertRaises(pafteis.WrongArgument, World, text("echo.drv"), threads)
        with World(text("echo.drv")) as world:
            wrong = pafteis.WrongArgument
            self.assertRaises(wrong, world.step, 256)
            self.assertRaises(wrong, world.issue, 0, 0, 7)
            self.assertRaises(wrong, world.apply, Event(9))
            self.assertRaises(wrong, world.issue, 0, 0, Major.READ, 1 << 64)
            self.assertRaises(TypeError, world.step, "0")
            self.assertRaises(wrong, world.thread, 1)

    def test_not_copied(self):
        with World(text("echo.drv")) as world:
            self.assertRaises(TypeError, copy.copy, world)
            self.assertRaises(TypeError, copy.deepcopy, world)
            self.assertRaises(TypeError, pickle.dumps, world)


@full
class Told(unittest.TestCase):
    def test_threads_and_packets(self):
        with World(text("cancel.drv"), 2) as world:
            world.issue(0, 0, Major.READ)
            thread = world.thread(0)
            self.assertEqual((thread.frames, thread.level), (1, Irql.PASSIVE))
            self.assertIs(thread.top.kind, FrameKind.ROUTINE)
            self.assertEqual(thread.top.position, 0)
            self.assertEqual(world.thread(1).frames, 0)
            list(world.finish(0))
            packet = world.packet(0)
            self.assertEqual((packet.kind, packet.depth), (PacketKind.LIVE, 1))
            self.assertTrue(packet.marks[0])
            self.assertFalse(packet.cancel)
            self.assertIs(world.packet(1).kind, PacketKind.NONE)

    def test_due(self):
        with World(text("startio.drv")) as world:
            self.assertEqual(world.due(0), Due(False, False))
            world.issue(0, 0, Major.READ)
            list(world.finish(0))
            world.interrupt(0)
            self.assertEqual(world.due(0), Due(True, True))
            self.assertEqual(world.due(9), Due(False, False))


def random_call(choose, world):
    """A call with numbers that are often wrong."""
    thread, device = choose.choice((0, 0, 1, 2, 255, 256, -1)), choose.choice((0, 0, 1, 255, 300))
    packet, level = choose.choice((0, 1, 2, 5000, 1 << 64)), choose.choice((0, 1, 2, 3, 255))
    calls = (
        lambda: world.step(thread), lambda: world.step(choose.randrange(2)),
        lambda: world.issue(thread, device, choose.choice((3, 4, 14, 5))),
        lambda: world.cancel(thread, packet, level), lambda: world.interrupt(device),
        lambda: world.dpc(thread, device), lambda: world.startio(thread, device),
        lambda: world.packet(packet), lambda: world.thread(thread), lambda: world.due(device),
        lambda: world.steps(thread, choose.randrange(9)),
    )
    return choose.choice(calls)()


@full
class Random(unittest.TestCase):
    def test_random_calls(self):
        choose, source = random.Random(7), text("cancel.drv")
        world, wrong = World(source, 2), 0
        for _ in range(CALLS):
            try:
                random_call(choose, world)
            except pafteis.PafteisError:
                wrong += 1
            if choose.random() < 0.001:
                world.close()
            if world.closed and choose.random() < 0.1:
                world = World(source, 2)
        self.assertLess(wrong, CALLS)

    def test_no_leak(self):
        source = text("cancel.drv")
        for turn in range(400):
            World(source, 64).issue(0, 0, Major.READ)
            if turn == 100:
                before = resource.getrusage(resource.RUSAGE_SELF).ru_maxrss
        after = resource.getrusage(resource.RUSAGE_SELF).ru_maxrss
        self.assertLess(after - before, 8192)


if __name__ == "__main__":
    unittest.main()
