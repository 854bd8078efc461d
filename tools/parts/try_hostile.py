#!/usr/bin/env python3
"""Files that attack: sets, images, schedules, scenarios and scripts of the examples, changed at
random, a folder of them at a time.

    tools/try hostile PROGRAM [SECONDS [SEED]]

Of each folder the verdicts in text, in JSON and in SARIF have to be the same, with one job and with
four, and those of each file alone; each changed schedule, scenario and script has to be answered in
every form alike. A run may take ten seconds and 2 GiB, and ends with status 0, 1 or 2. What is
answered otherwise is kept below out/hostile, with the words that show it. It goes on for so many
seconds (60), from a seed (1); the last line counts."""

import glob
import json
import os
import random
import re
import resource
import shutil
import subprocess
import sys
import tempfile
import time

from versions import TOP

SECONDS_A_RUN, MEMORY = 10, 2 << 30
FILES_A_FOLDER = 100
# Words that texts of all kinds have, and numbers at the ends of what fits.
WORDS = b"""driver routine endr endd dispatch device queue dpc lock l0 l9 r0 r9 ret complete acquire
    release start step run expect until together threads 0 1 63 64 65 255 256 4294967296
    18446744073709551615 18446744073709551616 -1 0x80000000 # - -- ; '""".split()
BYTES = [b"\0", b"\n", b"\r\n", b"\t", b"\x1b[31m", b"\xff\xfe", b"\xef\xbb\xbf", b"DVB2", b"A" * 99]
# How an input is answered: the command, its other words, and the forms beside text.
ANSWERED = {
    "sched": ("trace", ["--unchecked"], [["--format", "json"]]),
    "script": ("host", ["--workers", "1"], [["--format", "json"]]),
    "scenario": ("test", ["--unchecked"], [["--format", "tap"], ["--format", "junit"]]),
}


def examples():
    """The examples by their kind."""
    found = {}
    for path in sorted(glob.glob(os.path.join(TOP, "examples/**/*"), recursive=True)):
        kind = os.path.splitext(path)[1][1:]
        if os.path.isfile(path) and kind in ("drv", "image", "sched", "scenario", "script"):
            found.setdefault(kind, []).append((path, open(path, "rb").read()))
    return found


def changed_line(chance, line):
    """A line with one of its words changed."""
    words = line.split(b" ")
    words[chance.randrange(len(words))] = chance.choice(WORDS)
    return b" ".join(words)


def changed_lines(chance, content):
    """A text with a line taken out, told twice, put elsewhere, or with another word."""
    lines = content.split(b"\n")
    at, to = chance.randrange(len(lines)), chance.randrange(len(lines))
    line = lines[at]
    ways = [[], [line, line], [lines[to]], [changed_line(chance, line)]]
    lines[at:at + 1] = chance.choice(ways)
    return b"\n".join(lines)


def changed_bytes(chance, content):
    """Bytes with one changed, some put in, or the end cut off."""
    at = chance.randrange(len(content) + 1)
    ways = [content[:at] + bytes([chance.randrange(256)]) + content[at + 1:], content[:at],
            content[:at] + chance.choice(BYTES) + content[at:]]
    return chance.choice(ways)


def changed(chance, content, is_text):
    """Content after one to four changes."""
    for _ in range(chance.choice([1, 1, 1, 2, 4])):
        lined = is_text and chance.random() < 0.8
        content = (changed_lines if lined else changed_bytes)(chance, content)
    return content


class Sweep:
    """A program that is tried, and what it answered otherwise."""

    def __init__(self, program, seed):
        self.program, self.seed, self.chance = os.path.abspath(program), seed, random.Random(seed)
        self.examples, self.runs, self.files, self.wrong = examples(), 0, 0, []

    def run(self, folder, *words):
        """Status, output and what is told."""
        self.runs += 1
        limit = lambda: resource.setrlimit(resource.RLIMIT_AS, (MEMORY, MEMORY))
        try:
            done = subprocess.run([self.program, *words], cwd=folder, stdin=subprocess.DEVNULL,
                                  capture_output=True, timeout=SECONDS_A_RUN, preexec_fn=limit)
        except subprocess.TimeoutExpired:
            self.say(folder, words, "took more than %d s" % SECONDS_A_RUN)
            return None, b"", b""
        if done.returncode not in (0, 1, 2):
            self.say(folder, words, "status %d" % done.returncode)
        return done.returncode, done.stdout, done.stderr

    def say(self, folder, words, reason):
        """Keeps a folder in which something was answered otherwise."""
        kept = os.path.join(TOP, "out/hostile", "%d-%d" % (self.seed, len(self.wrong)))
        shutil.copytree(folder, kept, dirs_exist_ok=True)
        self.wrong.append(reason)
        print("%s: drvhost %s: %s" % (kept, " ".join(words), reason), flush=True)

    def same(self, folder, words, what, one, other):
        """Wants two answers to be the same."""
        if one != other:
            self.say(folder, words, "%s: %.200r and %.200r" % (what, one, other))

    def sets(self, folder):
        """Puts changed sets into a folder, and answers their names."""
        names = []
        for number in range(FILES_A_FOLDER):
            kind = "drv" if self.chance.random() < 0.8 else "image"
            content = self.chance.choice(self.examples[kind])[1]
            names.append("f%03d.%s" % (number, kind))
            with open(os.path.join(folder, names[-1]), "wb") as file:
                file.write(changed(self.chance, content, kind == "drv"))
        self.files += len(names)
        return names

    def judge(self, folder):
        """Verdicts on a folder, in each form."""
        names = self.sets(folder)
        status, out, told = self.run(folder, "check", *names)
        four = self.run(folder, "check", "--jobs", "4", *names)
        self.same(folder, ["check"], "one job and four", (status, out, told), four)
        texts = verdicts_in_text(out, told)
        for form, read in ("json", verdicts_in_json), ("sarif", verdicts_in_sarif):
            words = ["--format", form]
            other, lines, _ = self.run(folder, "check", *words, *names)
            self.same(folder, words, "status", status, other)
            wanted = {name: texts[name] for name in names if name in texts}
            if form == "sarif":
                wanted = {name: it for name, it in wanted.items() if it != "accepted"}
            found = self.read(folder, words, read, lines)
            self.same(folder, words, "verdicts", sorted(wanted.items()), sorted(found.items()))
        self.alone(folder, names, texts)

    def read(self, folder, words, read, lines):
        """The verdicts in an answer, or none where it is no such answer."""
        try:
            return read(lines)
        except (ValueError, KeyError, IndexError) as reason:
            self.say(folder, words, "can't be read: %r" % reason)
            return {}

    def alone(self, folder, names, texts):
        """Some files alone: `check` and `explain` in each form, `list`, and `rewrite` and back."""
        for name in self.chance.sample(names, 8):
            status, out, told = self.run(folder, "check", name)
            first = (out or told).split(b"\n")[0]
            self.same(folder, [name], "alone", texts.get(name), verdict_of(first))
            for words in ["explain", "--all", name], ["explain", "--format", "json", name]:
                self.same(folder, words, "status", status, self.run(folder, *words)[0])
            if status == 0:
                self.again(folder, name, out)

    def again(self, folder, name, out):
        """An accepted set as a text and as an image: the same verdict."""
        text = self.run(folder, "list", name)[1]
        with open(os.path.join(folder, "listed"), "wb") as file:
            file.write(text)
        self.run(folder, "rewrite", name, "rewritten")
        for other in "listed", "rewritten":
            verdict = self.run(folder, "check", other)[1]
            self.same(folder, [other], "verdict of " + name, out, verdict)

    def runs_of(self, folder):
        """A changed schedule, scenario and script, each on the set of its name."""
        for kind, (command, others, forms) in ANSWERED.items():
            path, content = self.chance.choice(self.examples[kind])
            held = re.sub(r"\.\w+$", ".drv", path)
            if not os.path.isfile(held):
                continue
            shutil.copy(held, os.path.join(folder, "set.drv"))
            with open(os.path.join(folder, "input"), "wb") as file:
                file.write(changed(self.chance, content, True))
            self.files += 1
            words = [command, "set.drv", "input", *others]
            status = self.run(folder, *words)[0]
            for form in forms if kind != "sched" else [*forms, None]:
                self.alike(folder, [*words, *form] if form else ["tell", *words[1:]], status)

    def alike(self, folder, words, status):
        """Another answer to the same input: with that status, or at least as faulty."""
        other = self.run(folder, *words)[0]
        if words[0] == "tell":
            status, other = status == 2, other == 2
        self.same(folder, words, "status", status, other)

    def go_on(self, seconds):
        """Sweeps for so long."""
        end = time.monotonic() + seconds
        while time.monotonic() < end:
            with tempfile.TemporaryDirectory(prefix="hostile-") as folder:
                self.judge(folder)
            for _ in range(10):
                with tempfile.TemporaryDirectory(prefix="hostile-") as folder:
                    self.runs_of(folder)


def verdict_of(line):
    """What the first line of an answer says of a set."""
    words = line.split()
    if words[:1] == [b"accepted"]:
        return "accepted"
    return words[1].decode() if words[:1] == [b"refused"] else "faulty"


def verdicts_in_text(out, told):
    """The verdicts on several files by the first line of each."""
    found = {}
    for line in (out + told).split(b"\n"):
        name, colon, rest = line.partition(b": ")
        if colon:
            found.setdefault(name.decode(), verdict_of(rest))
    return found


def verdicts_in_json(out):
    """The same of lines of JSON."""
    found = {}
    for line in out.decode().splitlines():
        told = json.loads(line)
        found[told["file"]] = told.get("rule") or told.get("verdict") or "faulty"
    return found


def verdicts_in_sarif(out):
    """The same of a log: each file that has a result."""
    found = {}
    for result in json.loads(out)["runs"][0]["results"]:
        place = result["locations"][0]["physicalLocation"]["artifactLocation"]["uri"]
        rule = result["ruleId"].split("/")[0]
        found[place] = rule if re.fullmatch(r"V\d+", rule) else "faulty"
    return found


def main():
    if len(sys.argv) < 2 or sys.argv[1] == "--help":
        sys.exit(__doc__)
    seconds = float(sys.argv[2]) if len(sys.argv) > 2 else 60
    sweep = Sweep(sys.argv[1], int(sys.argv[3]) if len(sys.argv) > 3 else 1)
    sweep.go_on(seconds)
    print("%d files, %d runs, %d answered otherwise" % (sweep.files, sweep.runs, len(sweep.wrong)))
    sys.exit(1 if sweep.wrong else 0)


if __name__ == "__main__":
    main()
