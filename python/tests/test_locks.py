"""Orders of locks."""

import unittest

import pafteis
from pafteis import CANCEL_LOCK, FaultyText, LockEdge, Refused, Rule, WrongArgument
from tests import full, text


@full
class Locks(unittest.TestCase):
    def test_order(self):
        found = pafteis.order_of_locks(text("cancel.drv"), 0)
        self.assertTrue(found)
        self.assertEqual(sorted(found.locks), list(range(9)))
        self.assertEqual(found.cycle, ())

    def test_spin_locks_in_a_cycle(self):
        found = pafteis.order_of_locks(text("abba.drv").encode(), 0)
        self.assertFalse(found)
        self.assertEqual(found.locks, ())
        self.assertEqual(found.cycle, (LockEdge(0, 1, 0, 1), LockEdge(1, 0, 1, 1)))

    def test_cycle_through_the_cancel_lock(self):
        found = pafteis.order_of_locks(text("cancelring.drv"), 0)
        edges = LockEdge(CANCEL_LOCK, 0, 0, 1), LockEdge(0, CANCEL_LOCK, 1, 1)
        self.assertEqual(found.cycle, edges)

    def test_no_such_driver(self):
        for driver in (1, 255, 256, -1):
            with self.assertRaises(WrongArgument):
                pafteis.order_of_locks(text("abba.drv"), driver)

    def test_no_set(self):
        with self.assertRaises(Refused) as caught:
            pafteis.order_of_locks(text("twice.drv"), 0)
        self.assertIs(caught.exception.verdict.rule, Rule.DOUBLE_COMPLETION)
        with self.assertRaises(FaultyText):
            pafteis.order_of_locks("what", 0)


if __name__ == "__main__":
    unittest.main()
