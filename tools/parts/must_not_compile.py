#!/usr/bin/env python3
"""tools/try uncompiled [PROGRAM ..]: each program of tools/parts/must_not_compile.txt named, or each of all, has to be refused by the
compiler, with the message in its line `says`. It is made a crate over the crates in its line `crates`, in a copy of the
sources without what earlier checks kept: `rt check` then tells what needs no proof to find before it builds anything, in
some seconds. It prints each program that is taken, or that is refused otherwise."""
import os, re, shutil, subprocess, sys, tempfile

TOP = os.path.dirname(os.path.dirname(os.path.dirname(os.path.abspath(__file__))))
PROGRAMS = os.path.join(TOP, 'tools/parts/must_not_compile.txt')
# a program that is not refused would be proved, with all that it stands on
MOST_SECONDS = 120

def said(text, key):
    return re.search(r'^// %s: (.*)$' % key, text, re.M).group(1)

def listed():
    """The programs by their names: each stands behind a line `== NAME`."""
    with open(PROGRAMS) as programs:
        parts = re.split(r'^== (.*)\n', programs.read(), flags=re.M)
    return dict(zip(parts[1::2], (text.rstrip('\n') + '\n' for text in parts[2::2])))

def copy(folder):
    """The sources of all crates."""
    for name in 'crates.txt', 'HANDLES':
        shutil.copy(os.path.join(TOP, name), folder)
    shutil.copytree(os.path.join(TOP, 'crates'), os.path.join(folder, 'crates'), ignore=shutil.ignore_patterns('out', 'must-fail'))

def checked(folder, program):
    """What the compiler says of a program, and whether it ended with an error."""
    with open(os.path.join(TOP, 'crates.txt')) as crates, open(os.path.join(folder, 'crates.txt'), 'w') as out:
        out.write(crates.read() + 'refused: %s\n' % said(program, 'crates'))
    crate = os.path.join(folder, 'crates', 'refused')
    os.makedirs(os.path.join(crate, 'src'), exist_ok=True)
    with open(os.path.join(crate, 'src', 'lib.rt'), 'w') as source:
        source.write(program)
    done = subprocess.run(['timeout', str(MOST_SECONDS), 'rt', 'check'], cwd=crate, capture_output=True, text=True)
    return done.stdout + done.stderr, done.returncode

def refusal(folder, program):
    """Why a program isn't refused as it should be, or None."""
    found, status = checked(folder, program)
    errors = re.findall('.*error.*', found)
    if status == 0 or not errors:
        return 'it compiles'
    return None if said(program, 'says') in found else 'other words:\n' + '\n'.join(errors[:5])

def main():
    programs = listed()
    names = sys.argv[1:] or sorted(programs)
    unknown = [name for name in names if name not in programs]
    if unknown:
        sys.exit('no such program: ' + ' '.join(unknown))
    with tempfile.TemporaryDirectory() as folder:
        copy(folder)
        wrong = [(program, why) for program, why in ((it, refusal(folder, programs[it])) for it in names) if why]
    for program, why in wrong:
        print(program, 'is not refused as it should be:', why)
    print('%d programs, %d not refused' % (len(names), len(wrong)))
    sys.exit(1 if wrong else 0)

main()
