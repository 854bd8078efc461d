"""A toolchain that compiles otherwise: a folder that leads to the kit's own, but for clang, which is
given the code with unwind tables and, where that is asked for, with more (`Marks`)."""
import os, sys
from dataclasses import dataclass, field

# What clang is told for each sort of instrumentation, and what each function is marked with.
SORTS = {"address": ("-fsanitize=address", "sanitize_address"),
         "fuzzer": ("-fsanitize=fuzzer-no-link", "")}

CLANG = '''#!%(python)s
"""Marks the code that the compiler made, and has the kit's clang compile it."""
import os, re, subprocess, sys
CLANG, MARKS, FLAGS, DEBUG = %(clang)r, %(marks)r, %(flags)r, %(debug)r
words = sys.argv[1:]
if "-c" in words and "module.bc" in words:
    subprocess.run([CLANG, "-x", "ir", "module.bc", "-S", "-emit-llvm", "-Xclang",
                    "-disable-llvm-passes", "-o", "marked.ll"], check=True)
    with open("marked.ll", encoding="utf-8", newline="") as file:
        text = file.read()
    with open("marked.ll", "w", encoding="utf-8", newline="") as file:
        file.write(re.sub(r"^(attributes #\\d+ = \\{)", r"\\1 " + MARKS, text, flags=re.M))
    words = [*words, *FLAGS]
    words[words.index("module.bc")] = "marked.ll"
    if DEBUG:
        asked = [it for it in words if it != "-c"]
        asked[asked.index("module.o")] = DEBUG
        subprocess.run([CLANG, "-S", *asked], check=True)
        os.execv(CLANG, ["clang", words[0], "-g", "-fPIC", "-c", DEBUG, "-o", "module.o"])
os.execv(CLANG, ["clang", *words])
'''


@dataclass
class Marks:
    """What is asked for beside unwind tables: sorts of instrumentation, and for debuggers a file
    for the assembly, whose lines the code tells then."""
    sorts: list = field(default_factory=list)
    assembly: str = ""

    def clang(self, kit):
        """The program in clang's place."""
        found = [SORTS[it] for it in self.sorts]
        marks = ["uwtable", *(mark for _, mark in found if mark)]
        if self.assembly:
            marks.append('"frame-pointer"="all"')
        return CLANG % {"python": sys.executable, "clang": f"{kit}/toolchain/bin/clang",
                        "marks": " ".join(marks) + " ", "flags": [flag for flag, _ in found],
                        "debug": os.path.abspath(self.assembly) if self.assembly else ""}


def lead(folder, kit, names):
    for name in names:
        os.symlink(os.path.join(kit, name), os.path.join(folder, name))


def make(folder, kit, marks):
    """Makes the toolchain in an empty folder, and answers its `rt`."""
    kit = os.path.realpath(kit)
    lead(folder, kit, [it for it in os.listdir(kit) if it not in ("bin", "toolchain")])
    for name in ("bin", "toolchain", "toolchain/bin"):
        os.mkdir(os.path.join(folder, name))
    # `rt` finds its kit by where its own files lie.
    own = ("rt", "rtlib.py")
    lead(folder, kit, [f"bin/{it}" for it in os.listdir(f"{kit}/bin") if it not in own])
    for name in own:
        with open(f"{kit}/bin/{name}", "rb") as file, open(f"{folder}/bin/{name}", "wb") as out:
            out.write(file.read())
    lead(folder, kit, [f"toolchain/{it}" for it in os.listdir(f"{kit}/toolchain") if it != "bin"])
    programs = os.listdir(f"{kit}/toolchain/bin")
    lead(folder, kit, [f"toolchain/bin/{it}" for it in programs if it != "clang"])
    with open(f"{folder}/toolchain/bin/clang", "w", encoding="utf-8") as out:
        out.write(marks.clang(kit))
    os.chmod(f"{folder}/toolchain/bin/clang", 0o755)
    return f"{folder}/bin/rt"
