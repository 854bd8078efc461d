"""What an install or a package has: each file with its place below the prefix."""
import glob, os, subprocess, sys

import completions, man_pages
from versions import MAJOR, TOP, VERSION

PROGRAM, SHARED, DEVELOPMENT = "pafteis", "libpafteis" + MAJOR, "libpafteis-dev"
DOCUMENTS = ["README.md", "CHANGELOG.md", "LICENSE"]

class Piece:
    """A file: of which package, its place, its bytes (or where a link leads), and its mode."""
    def __init__(self, package, path, content, mode=0o644):
        self.package, self.path, self.content, self.mode = package, path, content, mode

    def is_link(self):
        return isinstance(self.content, str)

    def put(self, folder):
        """Writes it below a folder."""
        path = os.path.join(folder, self.path)
        os.makedirs(os.path.dirname(path), exist_ok=True)
        if os.path.lexists(path):
            os.unlink(path)
        if self.is_link():
            os.symlink(self.content, path)
            return
        with open(path, "wb") as out:
            out.write(self.content)
        os.chmod(path, self.mode)

class Places:
    """Where things of a kind go, below the prefix."""
    def __init__(self, libraries="lib", zsh="share/zsh/site-functions"):
        self.libraries, self.zsh = libraries, zsh

def read(path):
    with open(path, "rb") as file:
        return file.read()

def words(date, places):
    """Manuals and completions."""
    for name, text in man_pages.pages(date).items():
        package = DEVELOPMENT if name.endswith(".3") else PROGRAM
        yield Piece(package, f"share/man/man{name[-1]}/{name}", text.encode())
    bash = "share/bash-completion/completions/drvhost"
    yield Piece(PROGRAM, bash, completions.of_bash().encode())
    yield Piece(PROGRAM, f"{places.zsh}/_drvhost", completions.of_zsh().encode())
    fish = "share/fish/vendor_completions.d/drvhost.fish"
    yield Piece(PROGRAM, fish, completions.of_fish().encode())

def documents():
    """Documents and examples, as they lie in the tree."""
    names = DOCUMENTS + ["docs/*.md", "docs/pictures/*.svg", "examples/**"]
    for name in (it for glob_ in names for it in glob.glob(glob_, root_dir=TOP, recursive=True)):
        path = os.path.join(TOP, name)
        if os.path.isfile(path) and "__pycache__" not in name:
            yield Piece(PROGRAM, f"share/doc/pafteis/{name}", read(path))

def library(folder, prefix, places):
    """The library of a folder as tools/build_library.py makes it."""
    sys.path.insert(0, os.path.join(TOP, "tools"))
    import build_library
    shared = f"libpafteis.so.{VERSION}"
    lib = places.libraries
    yield Piece(SHARED, f"{lib}/{shared}", read(os.path.join(folder, "lib", shared)))
    yield Piece(SHARED, f"{lib}/{build_library.SONAME}", shared)
    yield Piece(DEVELOPMENT, f"{lib}/libpafteis.so", shared)
    archive = read(os.path.join(folder, "lib/libpafteis.a"))
    yield Piece(DEVELOPMENT, f"{lib}/libpafteis.a", archive)
    for header in ("include/pafteis.h", "include/pafteis.hpp"):
        yield Piece(DEVELOPMENT, header, read(os.path.join(folder, header)))
    text = build_library.pc_text(prefix, "${prefix}/" + lib)
    yield Piece(DEVELOPMENT, f"{lib}/pkgconfig/pafteis.pc", text.encode())

def pieces(program, folder, prefix, date, places=Places()):
    """All of it, in the order of their places."""
    found = [Piece(PROGRAM, "bin/drvhost", read(program), 0o755)]
    found += [*words(date, places), *documents(), *library(folder, prefix, places)]
    return sorted(found, key=lambda piece: piece.path)

def date_of_tree():
    """The second that what is made is dated by: SOURCE_DATE_EPOCH, or when the last commit was."""
    asked = os.environ.get("SOURCE_DATE_EPOCH")
    told = asked or subprocess.run(["git", "log", "-1", "--format=%ct"], cwd=TOP, check=True,
                                   capture_output=True, text=True).stdout
    return int(told)

def built(given):
    """The program and the folder of the library that are given, or those of the tree, proved."""
    program, folder = given.program, given.library
    if not program:
        program = os.path.join(TOP, "crates/drvhost/out/drvhost")
        prove(["rt", "run", "--", "version"], "crates/drvhost")
    if not folder:
        folder = os.path.join(TOP, "out")
        prove([sys.executable, os.path.join(TOP, "tools/build_library.py")], ".")
    return program, folder

def prove(command, folder):
    if subprocess.run(command, cwd=os.path.join(TOP, folder)).returncode:
        sys.exit(f"{os.path.basename(sys.argv[0])}: {' '.join(command)} failed")

def arguments(parser):
    """Adds the flags that say what was built elsewhere."""
    parser.add_argument("--program", metavar="FILE", help="a program that is built already")
    parser.add_argument("--library", metavar="DIR", help="a folder of tools/build_library.py")
    return parser
