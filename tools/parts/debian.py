"""Packages for Debian: what stands in their control files, and how they are built so that the same
tree gives the same bytes."""
import gzip, hashlib, os, re, shutil, subprocess, tempfile, time

from packing import DEVELOPMENT, PROGRAM, SHARED, Piece
from versions import MAJOR, TOP, VERSION

REVISION = VERSION + "-0pafteis1"
# The version that has had all calls of the header first.
FIRST = "1.0.0"
MAINTAINER = "Pafteis maintainers <maintainers@users.noreply.pafteis.example>"
ABOUT = """\
Description: %s
 Pafteis reads a set of drivers for the Windows Driver Model, written in a
 small bytecode of its own, and tells before any run whether it is sure to
 keep the rules of packets and spin locks. It runs, tells and draws any set,
 event by event.
 .
 %s
"""
TOLD = {
    PROGRAM: ("devel", "proved host for driver routines",
              "This package has the program drvhost, its documents and examples."),
    SHARED: ("libs", "proved host for driver routines - shared library",
             "This package has the shared library."),
    DEVELOPMENT: ("libdevel", "proved host for driver routines - development files",
                  "This package has the header and the static library."),
}
EXPAT = """\
 Permission is hereby granted, free of charge, to any person obtaining a copy
 of this software and associated documentation files (the "Software"), to deal
 in the Software without restriction, including without limitation the rights
 to use, copy, modify, merge, publish, distribute, sublicense, and/or sell
 copies of the Software, and to permit persons to whom the Software is
 furnished to do so, subject to the following conditions:
 .
 The above copyright notice and this permission notice shall be included in
 all copies or substantial portions of the Software.
 .
 THE SOFTWARE IS PROVIDED "AS IS", WITHOUT WARRANTY OF ANY KIND, EXPRESS OR
 IMPLIED, INCLUDING BUT NOT LIMITED TO THE WARRANTIES OF MERCHANTABILITY,
 FITNESS FOR A PARTICULAR PURPOSE AND NONINFRINGEMENT. IN NO EVENT SHALL THE
 AUTHORS OR COPYRIGHT HOLDERS BE LIABLE FOR ANY CLAIM, DAMAGES OR OTHER
 LIABILITY, WHETHER IN AN ACTION OF CONTRACT, TORT OR OTHERWISE, ARISING FROM,
 OUT OF OR IN CONNECTION WITH THE SOFTWARE OR THE USE OR OTHER DEALINGS IN THE
 SOFTWARE.
"""
COPYRIGHT = """\
Format: https://www.debian.org/doc/packaging-manuals/copyright-format/1.0/
Upstream-Name: Pafteis

Files: *
Copyright: %(year)s Pafteis maintainers
License: Expat or Apache-2.0

License: Expat
%(expat)s
License: Apache-2.0
 On Debian systems the text of the Apache License, Version 2.0, is in
 /usr/share/common-licenses/Apache-2.0.
"""

def squeezed(data):
    return gzip.compress(data, 9, mtime=0)

def debian_form(piece):
    """A file as Debian wants it: manuals compressed, the licence in `copyright` alone, and what was
    made by a linker without what is there for debuggers."""
    if piece.path.startswith("share/man/"):
        return Piece(piece.package, piece.path + ".gz", squeezed(piece.content))
    if piece.path.endswith(("doc/pafteis/CHANGELOG.md",)):
        return Piece(piece.package, "share/doc/pafteis/changelog.gz", squeezed(piece.content))
    if piece.path.startswith("bin/") or re.search(r"\.(a|so\.[0-9.]+)$", piece.path):
        return piece if piece.is_link() else stripped(piece)
    return piece

def stripped(piece):
    with tempfile.TemporaryDirectory() as folder:
        path = os.path.join(folder, os.path.basename(piece.path))
        with open(path, "wb") as out:
            out.write(piece.content)
        flags = ["--strip-debug", "-D"] if path.endswith(".a") else ["--strip-unneeded"]
        if piece.content[:4] == b"\x7fELF" or path.endswith(".a"):
            gone = ["--remove-section=.comment", "--remove-section=.note"]
            subprocess.run(["strip", *flags, *gone, path], check=True)
        with open(path, "rb") as file:
            return Piece(piece.package, piece.path, file.read(), piece.mode)

def history(date):
    """The changelog of the packages."""
    when = time.strftime("%a, %d %b %Y %H:%M:%S +0000", time.gmtime(date))
    text = (f"pafteis ({REVISION}) unstable; urgency=medium\n\n  * Version {VERSION}.\n\n"
            f" -- {MAINTAINER}  {when}\n")
    return squeezed(text.encode())

def needed(files):
    """The packages that programs and libraries need, as Debian's own tool finds them."""
    with tempfile.TemporaryDirectory() as folder:
        os.makedirs(os.path.join(folder, "debian"))
        with open(os.path.join(folder, "debian/control"), "w") as out:
            out.write("Source: pafteis\n\nPackage: pafteis\nArchitecture: amd64\n")
        words = [f"-e{os.path.abspath(file)}" for file in files]
        told = subprocess.run(["dpkg-shlibdeps", "-O", *words], cwd=folder, check=True,
                              capture_output=True, text=True).stdout
    return told.partition("shlibs:Depends=")[2].strip()

def fields(package, root, files):
    """The control file of a package."""
    section, short, more = TOLD[package]
    depends = f"{SHARED} (= {REVISION})" if package == DEVELOPMENT else needed(files)
    size = sum(os.lstat(os.path.join(where, name)).st_size
               for where, _, names in os.walk(root) for name in names)
    lines = [f"Package: {package}", "Source: pafteis", f"Version: {REVISION}",
             "Architecture: amd64", f"Maintainer: {MAINTAINER}",
             f"Installed-Size: {size // 1024 + 1}", f"Section: {section}", "Priority: optional"]
    lines += ["Multi-Arch: same"] if package != PROGRAM else []
    lines += [f"Depends: {depends}"] if depends else []
    return "\n".join(lines) + "\n" + ABOUT % (short, more)

def sums(root):
    """The checksums that dpkg keeps of each file."""
    lines = []
    for where, _, names in os.walk(root):
        for name in names:
            path = os.path.join(where, name)
            if not os.path.islink(path) and "/DEBIAN" not in where:
                with open(path, "rb") as file:
                    told = hashlib.md5(file.read()).hexdigest()
                lines.append(f"{told}  {os.path.relpath(path, root)}\n")
    return "".join(sorted(lines, key=lambda line: line[34:]))

def symbols():
    """The calls of the header, each since the first version."""
    with open(os.path.join(TOP, "include/pafteis.h"), encoding="utf-8") as file:
        names = sorted(re.findall(r"^uint32_t (pafteis_\w+)\(", file.read(), re.M))
    lines = "".join(f" {name}@Base {FIRST}\n" for name in names)
    return f"libpafteis.so.{MAJOR} {SHARED} (>= {FIRST})\n* Build-Depends-Package: {DEVELOPMENT}\n" + lines

def put_text(root, name, text):
    Piece("", f"DEBIAN/{name}", text.encode()).put(root)

def control(package, root, date):
    """Writes what stands beside the files of a package."""
    doc = f"usr/share/doc/{package}"
    year = time.strftime("%Y", time.gmtime(date))
    Piece(package, f"{doc}/copyright", (COPYRIGHT % {"year": year, "expat": EXPAT}).encode()).put(root)
    Piece(package, f"{doc}/changelog.Debian.gz", history(date)).put(root)
    files = [os.path.join(where, name) for where, _, names in os.walk(root) for name in names
             if name == "drvhost" and where.endswith("/bin") or ".so." in name]
    found = [file for file in files if not os.path.islink(file)]
    put_text(root, "md5sums", sums(root))
    put_text(root, "control", fields(package, root, found))
    if package == SHARED:
        put_text(root, "shlibs", f"libpafteis {MAJOR} {SHARED} (>= {VERSION})\n")
        put_text(root, "symbols", symbols())
        put_text(root, "triggers", "activate-noawait ldconfig\n")

def dated(root, date):
    """Gives all files and folders one date and plain modes, whatever the user's own are."""
    for where, folders, names in os.walk(root, topdown=False):
        for name in names:
            os.utime(os.path.join(where, name), (date, date), follow_symlinks=False)
        os.chmod(where, 0o755)
        os.utime(where, (date, date))

def build(package, pieces, into, date):
    """Writes a package, and answers its file's name."""
    name = f"{package}_{REVISION}_amd64.deb"
    with tempfile.TemporaryDirectory() as folder:
        root = os.path.join(folder, "root")
        own = [it for it in pieces if it.package == package and not it.path.endswith("/LICENSE")]
        for piece in map(debian_form, own):
            piece.put(os.path.join(root, "usr"))
        control(package, root, date)
        dated(root, date)
        words = ["dpkg-deb", "--root-owner-group", "-Zxz", "--build", root, os.path.join(into, name)]
        subprocess.run(words, check=True, stdout=subprocess.DEVNULL,
                       env={**os.environ, "SOURCE_DATE_EPOCH": str(date)})
    return name
