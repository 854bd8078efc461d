#!/usr/bin/env python3
"""Builds the library for C into out/: out/lib/libpafteis.a and .so, out/include/pafteis.h,
pafteis.hpp, and out/lib/pkgconfig/pafteis.pc.

    python3 tools/build_library.py [--prefix PREFIX] [--archive FILE] [--into FOLDER]
                                   [--instrument address|fuzzer ..] [--debug]

It proves crates/pafteis and all below it first, over what earlier checks kept; with FILE, a static
library that was built elsewhere, it proves nothing. PREFIX is where the folder FOLDER (out/) will
stand for who links, FOLDER itself if it isn't given. Both libraries have no global names but those
of the header, and tables by which stacks are unwound. `--instrument` has the code tell a sanitizer
(`address`) or libFuzzer (`fuzzer`) of itself; `--debug` adds debug information, which tells names
and lines of the assembly, FOLDER/lib/pafteis.s. It wants `rt`, `ar`, `ld`, `objcopy` and `cc`.
"""

import argparse
import os
import pathlib
import shutil
import subprocess
import sys
import tempfile

TOP = pathlib.Path(__file__).resolve().parent.parent
sys.path.insert(0, str(TOP / "tools/parts"))
import marked_kit  # noqa: E402
from versions import MAJOR, VERSION  # noqa: E402

SONAME = f"libpafteis.so.{MAJOR}"
WILDCARD = "pafteis_*"


def kit():
    """The folder of the toolchain, which has the heap that the library calls."""
    rt = pathlib.Path(shutil.which("rt") or sys.exit("build_library: there is no rt")).resolve()
    return pathlib.Path(os.environ.get("RATTLE_KIT", rt.parent.parent))


def proved_archives(marks):
    """The archives of the proved library and of the heap that it calls."""
    with tempfile.TemporaryDirectory() as folder:
        rt = marked_kit.make(folder, kit(), marks)
        ran = subprocess.run([sys.executable, rt, "lib"], cwd=TOP / "crates/pafteis")
    if ran.returncode:
        sys.exit("build_library: the library was not built")
    proved = TOP / "crates/pafteis/out/libpafteis.a"
    if b".eh_frame" not in proved.read_bytes():
        sys.exit("build_library: no tables for unwinding: the compiler calls clang otherwise now")
    return [proved, kit() / "c/liblibc_c.a"]


def whole(archives):
    return ["--whole-archive", *archives, "--no-whole-archive"]


def one_object(archives, into):
    """One object of all that archives have, in which the header's calls alone are global."""
    subprocess.run(["ld", "-r", "-o", into, *whole(archives)], check=True)
    keep = ["--wildcard", f"--keep-global-symbol={WILDCARD}"]
    subprocess.run(["objcopy", *keep, into], check=True)


def put_archive(piece, lib):
    archive = lib / "libpafteis.a"
    archive.unlink(missing_ok=True)
    subprocess.run(["ar", "rcsD", archive, piece], check=True)
    return archive


def put_shared(piece, lib):
    """The shared library, by its whole version, and the names by which it is found."""
    shared = lib / f"libpafteis.so.{VERSION}"
    script = TOP / "include/pafteis.map"
    words = [f"-Wl,-soname,{SONAME}", f"-Wl,--version-script={script}", "-Wl,-z,relro,-z,now"]
    subprocess.run(["cc", "-shared", *words, "-o", shared, piece], check=True)
    for name in (SONAME, "libpafteis.so"):
        (lib / name).unlink(missing_ok=True)
        (lib / name).symlink_to(shared.name)


def pc_text(prefix, libdir="${prefix}/lib"):
    """The text of the pkg-config file."""
    text = (TOP / "include/pafteis.pc.in").read_text(encoding="utf-8")
    for name, value in (("PREFIX", prefix), ("LIBDIR", libdir), ("VERSION", VERSION)):
        text = text.replace(f"@{name}@", value)
    return text


def main():
    words = argparse.ArgumentParser(description=__doc__.split("\n")[0])
    words.add_argument("--prefix")
    words.add_argument("--archive", action="append", type=pathlib.Path)
    words.add_argument("--into", type=pathlib.Path, default=TOP / "out")
    sorts = list(marked_kit.SORTS)
    words.add_argument("--instrument", action="append", choices=sorts, default=[])
    words.add_argument("--debug", action="store_true")
    given = words.parse_args()
    lib = given.into / "lib"
    for folder in (lib / "pkgconfig", given.into / "include"):
        folder.mkdir(parents=True, exist_ok=True)
    assembly = str(lib / "pafteis.s") if given.debug else ""
    archives = given.archive or proved_archives(marked_kit.Marks(given.instrument, assembly))
    with tempfile.TemporaryDirectory() as folder:
        piece = pathlib.Path(folder, "pafteis.o")
        one_object(archives, piece)
        archive = put_archive(piece, lib)
        put_shared(piece, lib)
    for name in ("pafteis.h", "pafteis.hpp"):
        shutil.copy(TOP / "include" / name, given.into / "include")
    found = pc_text(given.prefix or str(given.into.resolve()))
    (lib / "pkgconfig/pafteis.pc").write_text(found, encoding="utf-8")
    print(f"{archive}: {archive.stat().st_size} bytes")


if __name__ == "__main__":
    main()
