#!/usr/bin/env python3
"""tools/try install [--program FILE] [--library DIR] [--root DIR]: installs into a folder, tries
what is there, and takes it away; makes the packages twice, and compares them. With a root that
debootstrap has made, it installs the packages there, as root, and purges them.

What wants a program that isn't there (mandoc, lintian) is told, and left out. What is completed on
command lines `tools/try completions` tries."""
import argparse, filecmp, os, shutil, subprocess, sys, tempfile

import packing
from versions import TOP, VERSION

OWN = """
#include <pafteis.h>
/* A host may have such names of its own. */
void *rattle_alloc(void) { return 0; }
void rattle_dealloc(void) {}
void *rattle_realloc(void) { return 0; }
int main(void) {
    pafteis_verdict verdict;
    return pafteis_check((const uint8_t *)"", 0, &verdict) == PAFTEIS_REFUSED ? 0 : 1;
}
"""
faults = []

def tool(name, *words):
    return subprocess.run([sys.executable, os.path.join(TOP, "tools", name), *words],
                          capture_output=True, text=True)

def want(right, told):
    if not right:
        faults.append(told)
        print(told)

def answered(words, **more):
    """What a command writes; nothing where there is no such program."""
    if not shutil.which(words[0]):
        print(f"there is no {words[0]}: left out")
        return None
    done = subprocess.run(words, capture_output=True, text=True, **more)
    return (done.stdout + done.stderr).strip() + ("" if done.returncode == 0 else "\nfailed")

def below(folder):
    return sorted(os.path.relpath(os.path.join(where, name), folder)
                  for where, _, names in os.walk(folder) for name in names)

def try_manuals(prefix):
    for name in packing.man_pages.PAGES:
        path = f"{prefix}/share/man/man{name[-1]}/{name}"
        told = answered(["mandoc", "-Tlint", "-Wwarning", path])
        want(not told, f"{name}: {told}")
        done = subprocess.run(["man", "--warnings", "-l", path], capture_output=True, text=True)
        want(not done.stderr, f"{name}: {done.stderr}")

def try_compiler(prefix, folder):
    """A host that has names of its own links with either library, in C and in C++."""
    source = os.path.join(folder, "own.c")
    with open(source, "w") as out:
        out.write(OWN)
    env = {**os.environ, "PKG_CONFIG_PATH": f"{prefix}/lib/pkgconfig",
           "LD_LIBRARY_PATH": f"{prefix}/lib"}
    told = answered(["pkg-config", "--modversion", "pafteis"], env=env)
    want(told == VERSION, f"pkg-config tells the version {told}")
    flags = answered(["pkg-config", "--cflags", "--libs", "pafteis"], env=env).split()
    ways = {"shared": ["cc", source, *flags], "C++": ["c++", "-x", "c++", source, *flags],
            "C++ header": ["c++", "-x", "c++", "-include", "pafteis.hpp", source, *flags],
            "static": ["cc", source, f"-I{prefix}/include", f"{prefix}/lib/libpafteis.a"]}
    for way, words in ways.items():
        told = answered([*words, "-Wall", "-o", f"{folder}/own"])
        told = told or answered([f"{folder}/own"], env=env)
        want(not told, f"{way}: {told}")

def try_install(given, folder):
    prefix = os.path.join(folder, "prefix")
    os.makedirs(os.path.join(prefix, "share"))
    done = tool("install", "--prefix", prefix, *given)
    want(done.returncode == 0, done.stderr)
    told = answered([f"{prefix}/bin/drvhost", "check", os.path.join(TOP, "examples/echo.drv")])
    want(told == "accepted\ndriver 0 routine 0 dispatch certificate 2", f"drvhost answers {told}")
    try_manuals(prefix)
    try_compiler(prefix, folder)
    want(tool("install", "--prefix", prefix, *given).returncode == 0, "not installed again")
    want(tool("install", "--prefix", prefix, "--uninstall").returncode == 0, "not uninstalled")
    want(os.listdir(prefix) == ["share"] and not below(prefix), f"left: {below(prefix)}")
    os.makedirs(f"{prefix}/bin")
    with open(f"{prefix}/bin/drvhost", "w") as out:
        out.write("another's")
    want(tool("install", "--prefix", prefix, *given).returncode != 0, "another's file is lost")
    want(below(prefix) == ["bin/drvhost"], f"put there: {below(prefix)}")

def files_of(root):
    """All files of a root but those in which dpkg and ldconfig keep books."""
    kept = "var/lib/dpkg/", "var/log/", "var/cache/", "etc/ld.so.cache"
    return [name for name in below(root) if not name.startswith(kept)]

def try_root(root, packages):
    """Installs packages into a clean root, tries them there, and purges them."""
    before = files_of(root)
    for path in packages:
        shutil.copy(path, f"{root}/tmp")
    inside = [f"/tmp/{os.path.basename(path)}" for path in packages]
    told = answered(["chroot", root, "dpkg", "-i", *inside])
    want(not told.endswith("failed"), told)
    shutil.copy(os.path.join(TOP, "examples/twice.drv"), f"{root}/tmp")
    told = answered(["chroot", root, "drvhost", "check", "/tmp/twice.drv"])
    want(told.startswith("refused V5 "), f"in a clean root drvhost answers {told}")
    told = answered(["chroot", root, "ldconfig", "-p"])
    want("libpafteis.so.1 " in told, "in a clean root the library isn't found")
    told = answered(["chroot", root, "dpkg", "-P", "libpafteis-dev", "libpafteis1", "pafteis"])
    want(not told.endswith("failed"), told)
    for path in [*inside, "/tmp/twice.drv"]:
        os.unlink(root + path)
    want(files_of(root) == before, "something is left in a clean root")

def try_packages(given, folder, clean):
    one, two = os.path.join(folder, "one"), os.path.join(folder, "two")
    for into in (one, two):
        done = tool("package", "--into", into, *given)
        want(done.returncode == 0, done.stderr)
    names = below(one)
    same, *_ = filecmp.cmpfiles(one, two, names, shallow=False)
    want(names == below(two) == sorted(same) and len(names) == 5, "packages differ")
    want(not answered(["sha256sum", "--quiet", "-c", "SHA256SUMS"], cwd=one), "a wrong checksum")
    packages = [os.path.join(one, name) for name in names if name.endswith(".deb")]
    told = answered(["lintian", "--allow-root", *packages])
    want(not told, f"lintian: {told}")
    root = os.path.join(folder, "root")
    os.makedirs(f"{root}/var/lib/dpkg/info")
    os.makedirs(f"{root}/var/lib/dpkg/updates")
    open(f"{root}/var/lib/dpkg/status", "w").close()
    words = ["dpkg", f"--root={root}", "--force-not-root", "--force-depends"]
    told = answered([*words, "-i", *packages])
    want(not told.endswith("failed"), told)
    want(not answered([*words, "--verify"]), "a package's file is another one")
    if clean:
        try_root(clean, packages)

def main():
    parser = packing.arguments(argparse.ArgumentParser(description=__doc__.split(":")[0]))
    parser.add_argument("--root", metavar="DIR", help="a root that debootstrap has made")
    asked = parser.parse_args()
    program, library = packing.built(asked)
    given = ["--program", os.path.abspath(program), "--library", os.path.abspath(library)]
    with tempfile.TemporaryDirectory() as folder:
        try_install(given, folder)
        try_packages(given, folder, asked.root)
    print(f"{len(faults)} faults")
    return int(bool(faults))

if __name__ == "__main__":
    sys.exit(main())
