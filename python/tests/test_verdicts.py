"""Verdicts, words and traces."""

import pathlib
import sys
import unittest

import pafteis
from pafteis import Detail, Faulty, FaultyImage, FaultyText, ImageFault, Place, Rule, TextFault
from tests import EXAMPLES, IS_STAND_IN, TOP, text

sys.path.append(str(TOP / "tools/parts"))
import gallery  # noqa: E402

GALLERY = pathlib.Path(gallery.GALLERY)


def sets():
    """All driver sets of the tree; with a stand-in some."""
    found = sorted([*EXAMPLES.glob("*.drv"), *GALLERY.glob("*/*.drv"), *EXAMPLES.glob("*.image")])
    return found[:8] if IS_STAND_IN else found


class Verdicts(unittest.TestCase):
    def test_accepted(self):
        verdict = pafteis.check(text("echo.drv"))
        self.assertTrue(verdict)
        self.assertTrue(verdict.accepted)
        self.assertEqual((verdict.rule, verdict.place), (None, None))

    def test_refused(self):
        verdict = pafteis.check(text("twice.drv").encode())
        self.assertFalse(verdict)
        self.assertIs(verdict.rule, Rule.DOUBLE_COMPLETION)
        self.assertEqual(verdict.place, Place(0, 0, 1))

    def test_words_are_those_of_the_program(self):
        for path in sets():
            data = path.read_bytes()
            first = pafteis.report(data).splitlines()[0]
            self.assertEqual(str(pafteis.check(data)), first, path)

    def test_faulty_text(self):
        with self.assertRaises(FaultyText) as caught:
            pafteis.check("driver d\nwhat\n")
        self.assertIs(caught.exception.fault, TextFault.UNKNOWN_WORD)
        self.assertEqual(caught.exception.line, 2)

    def test_faulty_image(self):
        with self.assertRaises(FaultyImage) as caught:
            pafteis.check(b"DVB2")
        self.assertIs(caught.exception.fault, ImageFault.TRUNCATED)

    def test_sources(self):
        data = text("echo.drv").encode()
        for source in (data, bytearray(data), memoryview(data), data.decode()):
            self.assertTrue(pafteis.check(source))
        with self.assertRaises(TypeError):
            pafteis.check(None)

    def test_empty(self):
        self.assertIs(pafteis.check(b"").rule, Rule.MALFORMED)

    def test_nul_is_a_byte(self):
        with self.assertRaises(FaultyText) as caught:
            pafteis.check(b"\n\n\0")
        self.assertEqual((caught.exception.fault, caught.exception.line), (TextFault.LEX, 3))


class Words(unittest.TestCase):
    def test_explain(self):
        told = pafteis.explain(text("twice.drv"))
        self.assertTrue(told.startswith("refused V5 DoubleCompletion driver 0 routine 0 at 1\n"))
        self.assertIn("\nmend it: ", told)
        self.assertGreaterEqual(len(pafteis.explain(text("twice.drv"), each=True)), len(told))

    def test_explain_faulty(self):
        with self.assertRaisesRegex(Faulty, "^text fault 2 UnknownWord line 1"):
            pafteis.explain("what\n")

    def test_rule(self):
        self.assertTrue(pafteis.explain_rule(Rule.GUARD).startswith("V11 Guard\n"))
        for number in (0, 21, -1, 1 << 32, 1 << 40):
            with self.assertRaises(pafteis.WrongArgument):
                pafteis.explain_rule(number)

    def test_listing(self):
        listing = pafteis.listing(text("csq.drv"))
        self.assertEqual(pafteis.listing(listing), listing)
        self.assertEqual(pafteis.report(listing), pafteis.report(text("csq.drv")))

    @unittest.skipIf(IS_STAND_IN, "a stand-in for the library")
    def test_rewrite(self):
        image = pafteis.rewrite(text("csq.drv"))
        self.assertEqual(image[:4], b"DVB2")
        self.assertEqual(pafteis.rewrite(image), image)


@unittest.skipIf(IS_STAND_IN, "a stand-in for the library")
class Shapes(unittest.TestCase):
    def test_filter(self):
        found = pafteis.describe(text("filter.drv"))
        self.assertEqual([it.lower for it in found.devices], [None, 0])
        self.assertEqual([it.stack for it in found.devices], [1, 2])
        lines = [
            f"driver {number} routine {at} {it.sort.name.lower()} certificate {it.certificate}"
            for number, routines in enumerate(found.drivers)
            for at, it in enumerate(routines)
        ]
        self.assertEqual(lines, pafteis.report(text("filter.drv")).splitlines()[1:])

    def test_refused(self):
        with self.assertRaises(pafteis.Refused):
            pafteis.describe(text("twice.drv"))
        self.assertRaises(FaultyText, pafteis.describe, "what\n")


class Traces(unittest.TestCase):
    def test_replies(self):
        found = pafteis.trace(text("echo.drv"), text("one-read.sched"))
        self.assertTrue(found.complete)
        self.assertEqual(
            [str(it) for it in found.replies()],
            [line.partition(" ")[2] for line in found.text.splitlines()],
        )

    def test_refused(self):
        with self.assertRaises(pafteis.Refused) as caught:
            pafteis.trace(text("twice.drv"), text("one-read.sched"))
        self.assertIs(caught.exception.verdict.rule, Rule.DOUBLE_COMPLETION)

    def test_unchecked(self):
        found = pafteis.trace(text("twice.drv"), text("one-read.sched"), unchecked=True)
        self.assertFalse(found.complete)
        self.assertEqual(len(list(found.replies())), 3)
        self.assertTrue(found.text.endswith("3 bug 0x44 packet 0\n"))

    @unittest.skipIf(IS_STAND_IN, "a stand-in for the library")
    def test_told(self):
        told = pafteis.tell(text("echo.drv"), text("one-read.sched"))
        every = pafteis.tell(text("echo.drv"), text("one-read.sched"), detail=Detail.EVERY)
        self.assertIn("topped 0 0x00000000 0", told)
        self.assertGreaterEqual(len(every), len(told))
        with self.assertRaises(pafteis.Refused):
            pafteis.tell(text("twice.drv"), text("one-read.sched"))

    @unittest.skipIf(IS_STAND_IN, "a stand-in for the library")
    def test_drawn(self):
        self.assertIn("<svg", pafteis.draw(text("echo.drv"), text("one-read.sched")))

    def test_faulty_schedule(self):
        with self.assertRaisesRegex(Faulty, "^schedule fault 2 UnknownWord line 1"):
            pafteis.trace(text("echo.drv"), "what\n")


if __name__ == "__main__":
    unittest.main()
