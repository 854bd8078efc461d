"""Hunts, mends, names and schedules."""

import unittest

import pafteis
from pafteis import FaultySchedule, ScheduleFault, ScheduleSize, WrongArgument
from tests import full, text


@full
class Hunts(unittest.TestCase):
    def test_found(self):
        found = pafteis.hunt(text("twice.drv"))
        self.assertTrue(found.found)
        run = pafteis.trace(text("twice.drv"), found.text, unchecked=True)
        self.assertFalse(run.complete)

    def test_none(self):
        found = pafteis.hunt(text("echo.drv"), threads=1, packets=1, events=9, stuck=True)
        self.assertFalse(found.found)

    def test_wrong(self):
        for words in ({"threads": 0}, {"threads": 65}, {"packets": 0}, {"packets": 4097}):
            self.assertRaises(WrongArgument, pafteis.hunt, text("echo.drv"), **words)
        self.assertRaises(WrongArgument, pafteis.hunt, text("echo.drv"), worlds=0)
        self.assertRaises(pafteis.Faulty, pafteis.hunt, "what")

    def test_mends(self):
        self.assertEqual(pafteis.mend(text("echo.drv")).text, "accepted: nothing to mend\n")
        self.assertTrue(pafteis.mend(text("echo.drv")).whole)
        self.assertIn("+++ mended", pafteis.mend(text("twice.drv")).text)
        self.assertRaises(WrongArgument, pafteis.mend, text("twice.drv"), 0)


@full
class Names(unittest.TestCase):
    def test_given(self):
        source = text("filter.drv")
        shape = pafteis.describe(source)
        for number in range(len(shape.devices)):
            self.assertIn(f"device {pafteis.device_name(source, number)} ", source)
        for driver, routines in enumerate(shape.drivers):
            self.assertIn(f"driver {pafteis.driver_name(source, driver)}\n", source)
            for number in range(len(routines)):
                name = pafteis.routine_name(source, driver, number)
                self.assertIn(f"routine {name} ", source)
            self.assertIsNone(pafteis.routine_name(source, driver, len(routines)))
        self.assertIsNone(pafteis.driver_name(source, len(shape.drivers)))
        self.assertIsNone(pafteis.driver_name(pafteis.rewrite(source), 0))

    def test_of_queues(self):
        source = text("queue.drv")
        self.assertIn(f"queue {pafteis.queue_name(source, 0, 0)} ", source)

    def test_constants(self):
        self.assertEqual(pafteis.rule_name(11), "V11 Guard")
        self.assertEqual(pafteis.status_name(0xC0000120), "STATUS_CANCELLED")
        self.assertEqual(pafteis.bug_check_name(0x44), "MULTIPLE_IRP_COMPLETE_REQUESTS")
        for call in (pafteis.rule_name, pafteis.bug_check_name):
            self.assertRaises(WrongArgument, call, 0)
        self.assertRaises(WrongArgument, pafteis.status_name, 1)


@full
class Schedules(unittest.TestCase):
    def test_size(self):
        found = pafteis.schedule_size(text("one-read.sched"))
        self.assertEqual(found, ScheduleSize(threads=1, events=5))

    def test_faults(self):
        faults = {
            b"threads 1\n\x01\n": (ScheduleFault.LEX, 2),
            "threads 1\nwhat\n": (ScheduleFault.UNKNOWN_WORD, 2),
            "": (ScheduleFault.UNKNOWN_WORD, 1),
            "threads 65\n": (ScheduleFault.OUT_OF_RANGE, 1),
            "threads 1\nstep 0 1000000\nstep 0\n": (ScheduleFault.TOO_LONG, 3),
        }
        for schedule, fault in faults.items():
            with self.assertRaises(FaultySchedule) as caught:
                pafteis.schedule_size(schedule)
            self.assertEqual((caught.exception.fault, caught.exception.line), fault)

    def test_fault_of_a_run(self):
        for call in (pafteis.trace, pafteis.tell, pafteis.draw):
            with self.assertRaises(FaultySchedule) as caught:
                call(text("echo.drv"), "threads 1\nwhat\n")
            self.assertIs(caught.exception.fault, ScheduleFault.UNKNOWN_WORD)
            self.assertEqual(caught.exception.line, 2)


if __name__ == "__main__":
    unittest.main()
