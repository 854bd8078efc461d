#!/usr/bin/env python3
"""tools/try python [LIBRARY [COUNT]]: runs the tests of python/ over a shared library
(out/lib/libpafteis.so), so many random calls (20,000), has `mypy --strict` read the package, and
builds a wheel of it that is tried elsewhere.

What wants a program that isn't there (mypy, pip with setuptools) is told, and left out."""
import glob, os, shutil, subprocess, sys, tempfile

from versions import TOP, VERSION

PYTHON = os.path.join(TOP, "python")
USE = "import pafteis; assert pafteis.__version__ == %r; assert pafteis.check('driver d\\nendd\\ndevice v d 1\\n')"

def run(told, words, **more):
    """Whether a command ends well; what it says is told if it doesn't."""
    done = subprocess.run(words, capture_output=True, text=True, **more)
    if done.returncode:
        print("%s:\n%s%s" % (told, done.stdout, done.stderr))
    return done.returncode == 0

def read_types():
    if not shutil.which("mypy"):
        print("there is no mypy: left out")
        return True
    return run("mypy", ["mypy", "--strict", "--cache-dir", os.devnull, "pafteis"], cwd=PYTHON)

def use_wheel(env):
    """Whether a wheel can be built from a copy of the package, and used from where it is put."""
    with tempfile.TemporaryDirectory() as folder:
        source = os.path.join(folder, "source")
        shutil.copytree(PYTHON, source)
        words = [sys.executable, "-m", "pip", "wheel", "-q", "--no-deps", "--no-build-isolation", "-w", folder, source]
        if not run("a wheel", words):
            return False
        wheel, = glob.glob(os.path.join(folder, "*.whl"))
        shutil.unpack_archive(wheel, os.path.join(folder, "there"), "zip")
        env = {**env, "PYTHONPATH": os.path.join(folder, "there")}
        return run("the wheel's package", [sys.executable, "-c", USE % VERSION], cwd=folder, env=env)

def main():
    library = sys.argv[1] if len(sys.argv) > 1 else os.path.join(TOP, "out/lib/libpafteis.so")
    env = {**os.environ, "PAFTEIS_LIBRARY": os.path.abspath(library), "PYTHONDONTWRITEBYTECODE": "1"}
    tests = [sys.executable, "-m", "unittest", "discover", "-s", "tests", "-t", "."]
    count = sys.argv[2] if len(sys.argv) > 2 else "20000"
    calls = [sys.executable, os.path.join(TOP, "tools/parts/random_calls.py"), count]
    right = [run("tests", tests, cwd=PYTHON, env=env), read_types(),
             run("random calls", calls, env={**env, "PYTHONPATH": PYTHON})]
    if run("setuptools", [sys.executable, "-c", "import setuptools, wheel, pip"]):
        right.append(use_wheel(env))
    print("%d tried, %d wrong" % (len(right), right.count(False)))
    return int(False in right)

if __name__ == "__main__":
    sys.exit(main())
