"""tools/keep version [--write]: the version of the project, which the file VERSION has. Tells each
place where another stands, in the sources, the header and the packages; with --write makes these
the same. What is proved reads no file, C and Cargo want a literal, and a Python package has its own
files."""
import os
import re
import sys

TOP = os.path.dirname(os.path.dirname(os.path.dirname(os.path.abspath(__file__))))


def read(name):
    with open(os.path.join(TOP, name), encoding="utf-8") as file:
        return file.read()


VERSION = read("VERSION").strip()
MAJOR = VERSION.split(".")[0]
NUMBER = "%d%03d%03d" % tuple(map(int, VERSION.split(".")))

# Where it stands besides: what comes before it, the version or its number, and what comes behind.
COPIES = (
    ("crates/cli/src/program.rt", 'VERSION: &str = "', VERSION, '"'),
    ("crates/drvhost_devices/specs/Answer.antt", 'codes "drvhost ', VERSION, '\\n"'),
    ("crates/answer_explain/src/version.rt", 'b"drvhost ', VERSION, '\\n"'),
    ("crates/pafteis/src/version.rt", "VERSION_NUMBER: u32 = ", f"{int(NUMBER):_}", ";"),
    ("crates/pafteis/src/version.rt", 'b"pafteis ', VERSION, '\\n"'),
    ("crates/report_sarif/src/log.rt", 'VERSION: &str = "', VERSION, '"'),
    ("include/pafteis.h", "VERSION_NUMBER ", NUMBER, "\n"),
    ("python/pafteis/VERSION", "", VERSION, "\n"),
    ("rust/Cargo.toml", '\nversion = "', VERSION, '"'),
)


def stale(write=False):
    """The places where another version stands; with `write` they are made the same."""
    for name, before, told, behind in COPIES:
        text = read(name)
        pattern = f"({re.escape(before)})[0-9][0-9._]*({re.escape(behind)})"
        right = re.sub(pattern, lambda found: found[1] + told + found[2], text)
        if before + told + behind in right and right == text:
            continue
        yield f"{name}: behind {before.strip()!r} isn't {told}, as the file VERSION has it"
        if write:
            with open(os.path.join(TOP, name), "w", encoding="utf-8") as file:
                file.write(right)
    if f"## {VERSION}" not in read("CHANGELOG.md"):
        yield f"CHANGELOG.md has nothing on {VERSION}"


if __name__ == "__main__":
    faults = list(stale(sys.argv[1:] == ["--write"]))
    print("\n".join(faults) or f"{VERSION}, the same in {len(COPIES)} places more")
    sys.exit(bool(faults))
