"""Tests of the package over the library that PAFTEIS_LIBRARY names.

    PAFTEIS_LIBRARY=out/lib/libpafteis.so python3 -m unittest discover -s python/tests -t python

A stand-in for the library (tools/parts/stand_in.c) is slow, and tells nothing of threads, packets
and devices: `full` leaves out what wants the library itself.
"""

import pathlib
import unittest

import pafteis

TOP = pathlib.Path(__file__).resolve().parents[2]
EXAMPLES = TOP / "examples"
IS_STAND_IN = "stand-in" in pafteis.library_version()

full = unittest.skipIf(IS_STAND_IN, "a stand-in for the library")


def text(name: str) -> str:
    """The text of an example."""
    return (EXAMPLES / name).read_text(encoding="ascii")
