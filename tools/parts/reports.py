"""Reports of tests under names that attack: what other programs read of them. Debian's `prove` has to
read TAP, and `xmllint` and Python's parser JUnit; each test has to come out once, under its own name,
as what `test` answers for it alone."""
import os
import re
import shutil
import subprocess
import urllib.parse
import xml.etree.ElementTree as tree

# Names of scenarios in a folder. Each would end a line, begin something of the report's own, or is
# none that a form can have.
NAMES = [name + ".scenario" for name in (
    "x # SKIP", "x # TODO later", "#", "a\nok 3", "b\n1..9", "c\nBail out!", "d\rok 4", "1..1",
    "\\", "\\# SKIP", "\\\\# TODO", "x\\", "]]>", "&amp;", "<failure>", "\"'", "<!--", "<?xml?>",
    "\x01", "\x1b[31mred", "\x7f", "\t", "e #2", "%0A", "%", "%25", "é", "è", "\u0085ok 5",
    "\u2028ok 6", "\ufffe", "\uffff", "\U0001f600", " ok 7", "8", "TAP version 13", "--verbose", "e",
)]
# What stands in them in turn: a test that holds, one that fails, and a faulty one.
HOLDS, FAILS = "threads 1\nexpect clean\n", "threads 1\nstep 0\n"
FAULTY = b"threads 1\nstep \xff ]]> \x01 # & \xc3\xa9\n"
# What is read of a test: whether it is a failure or an error, by its exit status.
KINDS = {0: None, 1: "failure", 2: "error"}


def written(folder, name, content):
    """A file with this content."""
    path = os.path.join(folder, name)
    with open(path, "wb") as file:
        file.write(content if isinstance(content, bytes) else content.encode())
    return path


def answered(program, *words):
    """What goes out, and the exit status."""
    done = subprocess.run([program, "test", "--unchecked", *words], capture_output=True, timeout=60)
    return done.stdout, done.returncode


def decoded(text):
    """A name as a report has it, read as a URI is."""
    return urllib.parse.unquote(text, errors="strict")


def points(report):
    """The version, the plan, and the tests of TAP: whether each went well, its number and its name.
    Any other line is a comment, or this fails."""
    text = report.decode("ascii")
    head = re.match(r"TAP version (\d+)\n1\.\.(\d+)\n", text)
    if not head or not text.endswith("\n"):
        raise ValueError("no TAP: %r" % text)
    found = []
    for line in text[head.end():].split("\n")[:-1]:
        point = re.fullmatch(r"(not )?ok (\d+) - ((?:[^\\#]|\\[\\#])*)", line)
        if point:
            name = decoded(re.sub(r"\\(.)", r"\1", point[3]))
            found.append((not point[1], int(point[2]), name))
        elif not line.startswith("# drvhost: "):
            raise ValueError("a line of TAP that is none: %r" % line)
    return head[1], int(head[2]), found


def tap_faults(report, version, wanted):
    """What is wrong with a report in TAP of tests: their names, and their exit statuses."""
    try:
        said, plan, found = points(report)
    except ValueError as fault:
        yield str(fault)
        return
    if (said, plan) != (version, len(wanted)):
        yield "version %s with a plan of %d" % (said, plan)
    if found != [(status == 0, number, name) for number, (name, status) in enumerate(wanted, 1)]:
        yield "its points are %r" % found


def prove_faults(path, wanted):
    """What is wrong with what `prove` reads of a report in TAP."""
    done = subprocess.run(["prove", "--exec", "cat", path], capture_output=True, text=True)
    failed = [str(number) for number, (_, status) in enumerate(wanted, 1) if status]
    told = re.search(r"Failed tests?: +(.*?)\n(?! {16})", done.stdout, re.S)
    told = numbers(told[1]) if told else []
    if done.returncode != bool(failed) or told != failed or "Tests: %d " % len(wanted) not in \
            done.stdout + "Tests: %d " % len(wanted) * (not failed):
        yield "prove: %s" % done.stdout
    for word in "Parse errors", "TODO passed", "skipped", "Bailout", "No plan":
        if word in done.stdout + done.stderr:
            yield "prove: %s" % (done.stdout + done.stderr)


def numbers(text):
    """The numbers in a list of them and of their ranges."""
    found = []
    for part in re.findall(r"\d+(?:-\d+)?", text):
        first, _, last = part.partition("-")
        found += map(str, range(int(first), int(last or first) + 1))
    return found


def junit_faults(report, wanted, driver):
    """What is wrong with a report in JUnit of tests, whose repeated names have a turn."""
    try:
        suite = tree.fromstring(report)
    except tree.ParseError as fault:
        yield "no XML: %s" % fault
        return
    counts = {"tests": len(wanted), "skipped": 0}
    for kind in "failure", "error":
        counts[kind + "s"] = sum(KINDS[status] == kind for _, status in wanted)
    if {key: suite.get(key) for key in counts} != {key: str(it) for key, it in counts.items()}:
        yield "its counts are %r" % suite.attrib
    cases = suite.findall("testcase")
    names = [case.get("name") for case in cases]
    if len(set(names)) < len(names):
        yield "names come again: %r" % names
    found = [(decoded(re.sub(r" %#\d+$", "", name)), kind_of(case)) for name, case in zip(names, cases)]
    if found != [(name, KINDS[status]) for name, status in wanted]:
        yield "its cases are %r" % found
    for case in cases:
        yield from case_faults(case, driver)


def kind_of(case):
    """Whether a test case has a failure or an error."""
    kinds = [part.tag for part in case]
    return kinds[0] if len(kinds) == 1 else kinds or None


def case_faults(case, driver):
    """What is wrong with a test case."""
    if decoded(case.get("classname")) != driver or not re.fullmatch(r"\d+(\.\d+)?", case.get("time")):
        yield "%r" % case.attrib
    for part in case:
        if not part.get("message") or part.get("message") != (part.text or "").split("\n")[0]:
            yield "the message %r of %r" % (part.get("message"), part.text)


def xmllint_faults(path):
    """What `xmllint` tells of a report, where it is on the machine."""
    if shutil.which("xmllint"):
        done = subprocess.run(["xmllint", "--noout", path], capture_output=True, text=True)
        if done.returncode:
            yield "xmllint: %s" % done.stderr


def tested(program, folder, driver):
    """Words of tests, and for each its name and its exit status: in order, one of them twice."""
    scenarios = os.path.join(folder, "scenarios")
    os.mkdir(scenarios)
    contents = HOLDS, FAILS, FAULTY
    for number, name in enumerate(NAMES):
        written(scenarios, name, contents[number % 3])
    again = os.path.join(scenarios, "e.scenario")
    paths = sorted((os.path.join(scenarios, name) for name in NAMES), key=os.fsencode) + [again, again]
    return [scenarios, again, again], [(path, answered(program, driver, path)[1]) for path in paths]


def faults_of(program, folder):
    """What is wrong with the program's reports; it writes below a folder."""
    driver = written(folder, "a&<\"'>é # SKIP\n1..7.drv", "driver a\nroutine r dispatch\n"
                     "complete r0 SUCCESS\nret SUCCESS\nendr\ndispatch READ r\nendd\ndevice d a 1\n")
    words, wanted = tested(program, folder, driver)
    missing = os.path.join(folder, "none\nok 1.drv")
    for set_name, tests in (driver, wanted), (missing, [(missing, 2)]):
        for more in [], ["--verbose"]:
            for form, version in ("tap", "13"), ("tap14", "14"):
                report = answered(program, set_name, *words, *more, "--format", form)[0]
                yield from tap_faults(report, version, tests)
                if version == "13":
                    yield from prove_faults(written(folder, "report.tap", report), tests)
            report = answered(program, set_name, *words, *more, "--format", "junit")[0]
            yield from junit_faults(report, tests, set_name)
            yield from xmllint_faults(written(folder, "report.xml", report))
