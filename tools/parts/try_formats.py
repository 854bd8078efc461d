#!/usr/bin/env python3
"""Whether the examples of docs/FORMATS.md are what their schemas say: each schema takes its
examples, and refuses each of them where a member lacks or is of another type, but for those that may
lack (MAY_LACK). A log of SARIF is what its standard wants, too.

    tools/try formats [FILE ..]     these documents, or docs/FORMATS.md

It needs a validator of JSON Schema, and the classes of SARIF: on Debian `python3-jsonschema` and
`python3-sarif-python-om`.
"""

import copy
import json
import os
import re
import sys

from jsonschema import Draft202012Validator

import sarif_standard

TOP = os.path.dirname(os.path.dirname(os.path.dirname(os.path.abspath(__file__))))
# The members that a shape may lack: a result on an image, or on an empty file, has no region.
MAY_LACK = {("log", "region")}
BLOCK = re.compile(r"<!-- format: (\w+) -->\n```json\n(.*?)\n```", re.S)


def validator_of(shape):
    """The validator of a shape, whose schema is one itself."""
    with open(os.path.join(TOP, "docs", "schemas", shape + ".json"), encoding="ascii") as file:
        schema = json.load(file)
    Draft202012Validator.check_schema(schema)
    return Draft202012Validator(schema)


def objects_in(value):
    """The objects in a value, each as the value that it is part of would have it."""
    if isinstance(value, dict):
        yield value
    for part in value.values() if isinstance(value, dict) else value:
        if isinstance(part, (dict, list)):
            yield from objects_in(part)


def wrong_ones(value):
    """A value without each of its members, and with each of another type."""
    count = sum(len(each) for each in objects_in(value))
    for number in range(count):
        for other in (None, True):
            changed = copy.deepcopy(value)
            places = [(each, key) for each in objects_in(changed) for key in each]
            place, key = places[number]
            if other is None:
                del place[key]
            else:
                place[key] = 0.5 if isinstance(place[key], bool) else other
            yield key, other is None, changed


def faults_of(shape, validator, line):
    """What is wrong with an example of a shape."""
    value = json.loads(line)
    if json.dumps(value, separators=(",", ":"), ensure_ascii=False) != line:
        yield "isn't written as the program writes it"
    if shape == "log":
        yield from sarif_standard.faults_of(value)
    for error in validator.iter_errors(value):
        yield f"is refused: {error.message}"
    for key, lacks, changed in wrong_ones(value):
        if validator.is_valid(changed) and not (lacks and (shape, key) in MAY_LACK):
            yield f"is taken with another member `{key}`, or without it"


def main():
    paths = sys.argv[1:] or [os.path.join(TOP, "docs", "FORMATS.md")]
    tried = wrong = 0
    for path in paths:
        with open(path, encoding="utf-8") as file:
            blocks = BLOCK.findall(file.read())
        for shape, block in blocks:
            validator = validator_of(shape)
            for line in block.splitlines():
                tried += 1
                for fault in faults_of(shape, validator, line):
                    wrong += 1
                    print(f"{line}\n    {fault}")
    print(f"{tried} examples tried, {wrong} faults")
    sys.exit(wrong > 0 or tried == 0)


main()
