#!/usr/bin/env python3
"""Whether the logs of SARIF that the program writes are what their schema and the standard say.

    tools/try logs PROGRAM [PATH ..]     of these paths, or of the gallery and of files that can't be read

Each is written by `check` and by `explain`, with accepted sets and without them. Beside the schema
docs/schemas/log.json and the standard's classes it looks whether each region is in its file and
holds a line of it, whether a result of `explain` is that of `check` with more behind its message,
whether a path ends where its result is, whether `--pass` adds results of accepted sets alone, and
whether `check` accepts what each fix makes of its file, or finds its first fault in a later routine.
A fix may not reach behind the end of its file, and has to make of it what the edits make of it that
`explain --format json` tells, but for the line feed at its end.

It needs, on Debian, `python3-jsonschema` and `python3-sarif-python-om`."""

import itertools
import json
import os
import subprocess
import sys
import tempfile
import urllib.parse

from jsonschema import Draft202012Validator

import sarif_standard

# A set that is mended in its last line.
STACK = b"""driver disk
endd
driver filter
dispatch READ f
routine f dispatch
call r0
ret lower r0
endr
endd
device low disk 1
device up filter 1 low
"""
TOP = os.path.dirname(os.path.dirname(os.path.dirname(os.path.abspath(__file__))))


def validator():
    """The validator of the shape."""
    with open(os.path.join(TOP, "docs", "schemas", "log.json"), encoding="ascii") as file:
        return Draft202012Validator(json.load(file))


def log_of(program, words):
    """The log that the program writes."""
    ran = subprocess.run([program, *words], capture_output=True, cwd=TOP, check=False)
    return json.loads(ran.stdout)


def results_of(log):
    """The results of a log."""
    return log["runs"][0]["results"]


def place_of(location):
    """The file of a location, and the line in it that its region says, or None."""
    physical = location["physicalLocation"]
    region = physical.get("region")
    return physical["artifactLocation"]["uri"], region and region["startLine"]


def text_of(name):
    """The text of the file that a URI names."""
    path = os.path.join(os.fsencode(TOP), urllib.parse.unquote_to_bytes(name))
    with open(path, encoding="utf-8", newline="") as file:
        return file.read()


def units_of(text):
    """How many units of UTF-16 a text has."""
    return len(text.encode("utf-16-le")) // 2


def region_faults(location):
    """Whether a region is a line of its file from its first byte that is no blank to its end."""
    physical = location["physicalLocation"]
    if "region" not in physical:
        return
    region = physical["region"]
    line = text_of(physical["artifactLocation"]["uri"]).split("\n")[region["startLine"] - 1]
    line = line.removesuffix("\r")
    start = 1 + len(line) - len(line.lstrip("\t\r "))
    end = 1 + units_of(line)
    if (region["startColumn"], region["endColumn"]) != (start, end):
        yield f"{region} isn't {start} to {end}, of {line!r}"
    if region["endLine"] != region["startLine"]:
        yield f"{region} is of two lines"


def flow_faults(result):
    """What is wrong with the paths of a result."""
    for flow in result["codeFlows"]:
        steps = [each["location"] for each in flow["threadFlows"][0]["locations"]]
        for step in steps:
            yield from region_faults(step)
        if not steps[0]["message"]["text"].startswith("at 0: "):
            yield "a path doesn't begin at 0"
    for flow in result["codeFlows"][:1]:
        last = flow["threadFlows"][0]["locations"][-1]["location"]
        is_loop = len(result["codeFlows"]) == 2 and result["ruleId"] == "V3"
        if place_of(last) != place_of(result["locations"][0]) and not is_loop:
            yield "a path ends elsewhere"


def key_of(result):
    """What is the same of a result of `check` and of `explain`."""
    return (
        result["ruleId"],
        json.dumps(result["locations"], sort_keys=True),
        result["partialFingerprints"]["pafteis/v1"],
    )


def index_of(text, line, column):
    """Where a place of a text is, if there is such a place."""
    lines = text.split("\n")
    if line > len(lines) or column > 1 + units_of(lines[line - 1]):
        raise ValueError(f"the text has no place {line}:{column}")
    before = lines[line - 1].encode("utf-16-le")[: 2 * (column - 1)].decode("utf-16-le")
    return sum(len(each) + 1 for each in lines[: line - 1]) + len(before)


def fixed(text, fix):
    """What a fix makes of a text."""
    made, passed = "", 0
    for each in fix["artifactChanges"][0]["replacements"]:
        region = each["deletedRegion"]
        start = index_of(text, region["startLine"], region["startColumn"])
        made += text[passed:start] + each["insertedContent"]["text"]
        passed = index_of(text, region["endLine"], region["endColumn"])
    return made + text[passed:]


def edited(text, edits):
    """What edits of lines make of a text."""
    lines, made, next_line = text.split("\n"), [], 1
    if lines[-1] == "":
        lines.pop()
    for edit in edits:
        made += [line + "\n" for line in lines[next_line - 1 : edit["start"] - 1]] + [edit["text"]]
        next_line = edit["end"]
    return "".join(made + [line + "\n" for line in lines[next_line - 1 :]])


def place_in(result):
    """The driver and the routine of a result of a refusal."""
    return [int(each) for each in result["partialFingerprints"]["pafteis/v1"].split("/")[1:3]]


def fix_faults(program, result):
    """What is wrong with the fix of a result: `check` refuses what it makes no later."""
    uri = place_of(result["locations"][0])[0]
    name, text = urllib.parse.unquote(uri), text_of(uri)
    try:
        made = fixed(text, result["fixes"][0])
    except ValueError as fault:
        yield f"of the fix of {name} {fault}"
        return
    with tempfile.NamedTemporaryFile("w", suffix=".drv", encoding="utf-8", newline="") as file:
        file.write(made)
        file.flush()
        left = results_of(log_of(program, ["check", file.name, "--format", "sarif"]))
    if left and (left[0]["ruleId"][0] != "V" or place_in(left[0]) <= place_in(result)):
        yield f"the fix of {name} leaves {left[0]['message']['text']}"
    told = subprocess.run(
        [program, "explain", name, "--format", "json"], capture_output=True, cwd=TOP, check=False
    )
    edits = json.loads(told.stdout.splitlines()[0])["edits"]
    if made.removesuffix("\n") != edited(text, edits).removesuffix("\n"):
        yield f"JSON has other edits of {name}"


def pair_faults(checked, explained):
    """What differs between the results of `check` and of `explain`."""
    if [key_of(each) for each in checked] != [key_of(each) for each in explained]:
        yield "explain has other results than check"
    for one, other in zip(checked, explained):
        if one["codeFlows"] or one["fixes"]:
            yield "check has a path or a fix"
        if not other["message"]["text"].startswith(one["message"]["text"]):
            yield "explain has another message than check"


def faults_in(check, log):
    """What is wrong with a log by itself."""
    for error in check.iter_errors(log):
        yield f"is refused: {error.message[:200]}"
    yield from sarif_standard.faults_of(log)
    for result in results_of(log):
        for location in result["locations"]:
            yield from region_faults(location)
        yield from flow_faults(result)


def odd_files(program, folder):
    """Files whose results have no line: an image that is named as a text, an empty text, an image
    that ends early. Then texts with odd lines or names: lines that end with CR and LF, something left
    open, no last line feed, marks of placeholders and links, slashes that stand together."""
    image = os.path.join(folder, "image.drv")
    subprocess.run([program, "rewrite", "examples/twice.drv", image], cwd=TOP, check=True)
    yield image
    with open(os.path.join(TOP, "examples/twice.drv"), "rb") as file:
        twice = file.read()
    for name, content in (
        ("empty.drv", b""),
        ("cut.image", b"DRVS"),
        ("ends.drv", twice.replace(b"\n", b"\r\n")),
        ("ended.drv", twice.rstrip(b"\n")),
        ("last.drv", STACK.rstrip(b"\n")),
        ("none.drv", b"driver d\nendd"),
        ("open.drv", b"driver d"),
        ("opened.drv", b"driver d\n"),
        ("marks.drv", b"driver d\n[a](1) {0} \\[b\\](2)\nendd\n"),
        ("a b%5[c]:{d}.drv", twice),
    ):
        path = os.path.join(folder, name)
        with open(path, "wb") as file:
            file.write(content)
        yield path
    yield "/" + os.path.join(folder, "", "") + "/ends.drv"


def main():
    with tempfile.TemporaryDirectory() as folder:
        program, paths = os.path.abspath(sys.argv[1]), sys.argv[2:]
        usual = ["examples", "examples/gone.drv", *odd_files(program, folder)]
        sys.exit(try_logs(program, paths or usual))


def try_logs(program, paths):
    """Tries logs of paths, and answers whether anything is wrong."""
    check, logs, wrong = validator(), {}, 0
    words = itertools.product(("check", "explain"), ((), ("--pass",), ("--all",)))
    for command, flags in words:
        if command == "check" and "--all" in flags:
            continue
        logs[command, flags] = log_of(program, [command, *paths, "--format", "sarif", *flags])
        for fault in faults_in(check, logs[command, flags]):
            wrong += 1
            print(f"{command} {' '.join(flags)}: {fault}")
    faults = list(pair_faults(*(results_of(logs[each, ()]) for each in ("check", "explain"))))
    mended = [each for each in results_of(logs["explain", ()]) if each["fixes"]]
    for each in mended:
        faults += fix_faults(program, each)
    for command in "check", "explain":
        more = [each for each in results_of(logs[command, ("--pass",)]) if each["kind"] == "fail"]
        if more != results_of(logs[command, ()]):
            faults.append(f"--pass changes what fails of {command}")
    for fault in faults:
        print(fault)
    count = sum(len(results_of(log)) for log in logs.values())
    wrong += len(faults)
    print(f"{len(logs)} logs tried, {count} results, {len(mended)} fixes, {wrong} faults")
    return wrong > 0 or count == 0


main()
