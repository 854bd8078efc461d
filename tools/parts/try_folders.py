#!/usr/bin/env python3
"""tools/try folders [PROGRAM]: runs the built program (crates/drvhost/out/drvhost, if none is named) on folders and on several
files, for what no contract says: which files of a real folder are found. There are links in a ring, names with spaces, quotes
and line feeds, and one that isn't UTF-8, a file that grows while it is read, a pipe that is filled bit by bit, an output that is
closed in the middle, and ten thousand files; and how far it has come is told at a terminal alone. It prints each case that is answered otherwise; the last line counts."""
import os, pty, subprocess, sys, tempfile, threading, time

TOP = os.path.dirname(os.path.dirname(os.path.dirname(os.path.abspath(__file__))))

GOOD = b'driver d\ndispatch READ f\nroutine f dispatch\ncomplete r0 SUCCESS\nret SUCCESS\nendr\nendd\ndevice v d 1\n'
TWICE = GOOD.replace(b'ret SUCCESS', b'complete r0 SUCCESS\nret SUCCESS')
OPEN = b'driver d\n'
IMAGE = bytes.fromhex('44564232 01010000 010000ff ffffffff 00000200 2200000000000000 2400000000000000 0001ff00')
ACCEPTED = (0, [b'accepted', b'driver 0 routine 0 dispatch certificate 2'], [])
REFUSED = (1, [b'refused V5 DoubleCompletion driver 0 routine 0 at 1'], [])
UNCLOSED = (2, [], [b'text fault 6 Unclosed line 2'])
UNREAD = (2, [], [b'read failed'])
ANSWERS = {GOOD: ACCEPTED, IMAGE: ACCEPTED, TWICE: REFUSED, OPEN: UNCLOSED}

TREE = {
    b'tree/a.drv': GOOD,
    b'tree/b/twice.drv': TWICE,
    b'tree/b/c/open.drv': OPEN,
    b'tree/b/c/good.image': IMAGE,
    b'tree/b/note.txt': b'none',
    b'tree/b/drv': b'none',
    b'tree/b/holds.scenario': b'threads 1\na = issue 0 v READ 1\nrun 0\nexpect a topped SUCCESS\nexpect clean\n',
    b'tree/b/c/faulty.scenario': b'threads 1\nstop 0\n',
    b'tree/fails.scenario': b'threads 1\nstep 0\n',
    b'tree/folder.drv/in.drv': GOOD,
    b'tree/sp ace.drv': GOOD,
    b'tree/quo\'te".drv': TWICE,
    b'tree/line\nfeed.drv': GOOD,
    b'tree/.hidden.drv': GOOD,
    b'bad/\xff.drv': GOOD,
    b'bad/good.drv': GOOD,
    b'one.drv': GOOD,
    b'two.drv': TWICE,
    b'three.drv': OPEN,
    b'none/note.txt': b'none',
}
LINKS = {b'tree/b/ring': b'..', b'tree/link.drv': b'a.drv', b'tree/gone.drv': b'nothing', b'linked': b'tree'}
MANY = 10_000

def grow(folder):
    for name, content in TREE.items():
        path = os.path.join(folder, name)
        os.makedirs(os.path.dirname(path), exist_ok=True)
        with open(path, 'wb') as out:
            out.write(content)
    for name, goal in LINKS.items():
        os.symlink(goal, os.path.join(folder, name))
    for number in range(MANY):
        path = os.path.join(folder, b'many/%02d/%05d.drv' % (number % 100, number))
        os.makedirs(os.path.dirname(path), exist_ok=True)
        with open(path, 'wb') as out:
            out.write(TWICE if number % 10 == 7 else GOOD)

def below(folder, path):
    """The files that a path stands for, by what is told of each."""
    at = os.path.join(folder, path)
    if not os.path.isdir(at):
        try:
            with open(at, 'rb') as file:
                return [(path, ANSWERS[file.read()])]
        except OSError:
            return [(path, UNREAD)]
    found, unread = [], []
    for inner, folders, names in os.walk(at):
        shown = path + inner[len(at):]
        for name in names:
            whole = os.path.join(inner, name)
            try:
                name.decode()
            except UnicodeDecodeError:
                unread.append((shown, UNREAD))
                continue
            if name.endswith((b'.drv', b'.image')) and not os.path.islink(whole):
                with open(whole, 'rb') as file:
                    found.append((os.path.join(shown, name), ANSWERS[file.read()]))
    return sorted(found) + sorted(unread)

def named(answers):
    """The answers for files, told with their names."""
    lines = lambda part: b''.join(name + b': ' + line + b'\n' for name, answer in answers for line in answer[part])
    return max([answer[0] for _, answer in answers], default=0), lines(1), lines(2)

def wanted(folder, paths):
    return named([answer for path in paths for answer in below(folder, path)])

def run(program, words, folder, out=subprocess.PIPE):
    done = subprocess.run([program, *words], cwd=folder, stdin=subprocess.DEVNULL, stdout=out, stderr=subprocess.PIPE)
    return done.returncode, done.stdout, done.stderr

CASES = [
    [b'tree'], [b'tree/'], [b'linked'], [b'tree/b/ring'], [b'tree/b', b'tree/a.drv'], [b'bad'], [b'none'], [b'many'],
    [b'one.drv', b'two.drv'], [b'two.drv', b'three.drv', b'one.drv'], [b'nothing.drv', b'one.drv'],
    [b'one.drv', b'one.drv'], [b'one.drv', b'none/note.txt/x', b'tree/b/ring/a.drv', b'two.drv'],
]

def growing(program, folder):
    """What is answered for a file that grows by whole lines until the answer is there: it is that of a beginning of it."""
    path = os.path.join(folder, b'grows.drv')
    with open(path, 'wb') as out:
        out.write(GOOD + b'; a comment\n' * 100_000)
    done = threading.Event()
    def grow_on():
        with open(path, 'ab', buffering=0) as out:
            for _ in range(20_000):
                if done.is_set():
                    break
                out.write(b'; a comment more\n' * 100)
    grower = threading.Thread(target=grow_on)
    grower.start()
    try:
        return run(program, [b'check', b'grows.drv', b'one.drv'], folder)
    finally:
        done.set()
        grower.join()

def piped(program, folder):
    """What is answered for a pipe as a file, which gives a set line by line."""
    path = os.path.join(folder, b'pipe.drv')
    os.mkfifo(path)
    def fill():
        with open(path, 'wb', buffering=0) as out:
            for line in TWICE.splitlines(keepends=True):
                out.write(line)
                time.sleep(0.01)
    filler = threading.Thread(target=fill)
    filler.start()
    try:
        return run(program, [b'check', b'one.drv', b'pipe.drv'], folder)
    finally:
        filler.join()

def told_at(program, folder, is_terminal):
    """What goes to standard error, a terminal or a pipe, where the first of three files takes more than a second."""
    path = os.path.join(folder, b'slow.drv')
    os.path.exists(path) or os.mkfifo(path)
    def fill():
        with open(path, 'wb', buffering=0) as out:
            time.sleep(1.5)
            out.write(GOOD)
    filler = threading.Thread(target=fill)
    filler.start()
    at, error = pty.openpty() if is_terminal else os.pipe()
    child = subprocess.Popen([program, 'check', '--jobs', '1', 'slow.drv', 'one.drv', 'one.drv'], cwd=folder,
                             stdin=subprocess.DEVNULL, stdout=subprocess.DEVNULL, stderr=error)
    os.close(error)
    told = b''
    try:
        while piece := os.read(at, 4096):
            told += piece
    except OSError:
        pass
    os.close(at)
    filler.join()
    return child.wait(), told

def answers(program, folder):
    for paths in CASES:
        yield 'check ' + b' '.join(paths).decode(), wanted(folder, paths), run(program, [b'check', *paths], folder)
    # an explanation stands below a line with the name, and is that of the file alone
    alone = [run(program, [b'explain', name], folder) for name in (b'two.drv', b'one.drv')]
    whole = b''.join(name + b':\n' + text[1] for name, text in zip((b'two.drv', b'one.drv'), alone))
    yield 'explain two.drv one.drv', (1, whole, b''), run(program, [b'explain', b'two.drv', b'one.drv'], folder)
    status, written, told = run(program, [b'explain', b'three.drv', b'one.drv'], folder)
    faulty = run(program, [b'explain', b'three.drv'], folder)
    yield 'explain three.drv one.drv', (2, b'one.drv:\n' + alone[1][1], b'three.drv:\n' + faulty[2]), (status, written, told)
    # a folder stands for the scenarios in and below it too
    names = sorted(name for name in TREE if name.startswith(b'tree/') and name.endswith(b'.scenario'))
    alone = [run(program, [b'test', b'one.drv', name], folder) for name in names]
    whole = max(one[0] for one in alone), b''.join(one[1] for one in alone), b''.join(one[2] for one in alone)
    yield 'test one.drv tree', whole, run(program, [b'test', b'one.drv', b'tree'], folder)
    yield 'test one.drv none', (0, b'', b''), run(program, [b'test', b'one.drv', b'none'], folder)
    yield 'check of a file that grows', named([(b'grows.drv', ACCEPTED), (b'one.drv', ACCEPTED)]), growing(program, folder)
    yield 'check of a pipe', named([(b'one.drv', ACCEPTED), (b'pipe.drv', REFUSED)]), piped(program, folder)
    status, told = told_at(program, folder, True)
    yield 'check of a slow file at a terminal', (0, True, True), (status, b'1 of 3' in told, told.endswith(b'\r\x1b[K'))
    yield 'check of a slow file, told to a pipe', (0, b''), told_at(program, folder, False)
    # a write that fails ends it
    with open('/dev/full', 'wb') as full:
        status, _, told = run(program, [b'check', b'three.drv', b'one.drv', b'three.drv'], folder, full)
    yield 'check .. > /dev/full', (2, b'', b'three.drv: text fault 6 Unclosed line 2\nwrite failed\n'), (status, b'', told)
    # so does an output that is closed in the middle
    process = subprocess.Popen([program, 'check', 'many'], cwd=folder, stdin=subprocess.DEVNULL, stdout=subprocess.PIPE,
                               stderr=subprocess.PIPE)
    first = process.stdout.readline()
    process.stdout.close()
    told = process.stderr.read()
    yield 'check many | head -1', (True, b'many/00/00000.drv: accepted\n', b'write failed\n'), \
        (process.wait() in (2, -13), first, told or b'write failed\n')

def main():
    program = os.path.abspath(sys.argv[1] if len(sys.argv) > 1 else os.path.join(TOP, 'crates/drvhost/out/drvhost'))
    tried = wrong = 0
    with tempfile.TemporaryDirectory() as folder:
        folder = os.fsencode(folder)
        grow(folder)
        for words, wished, found in answers(program, folder):
            tried += 1
            if tuple(wished) != tuple(found):
                wrong += 1
                print('drvhost %s: wanted %.2000r, found %.2000r' % (words, wished, found))
    print('%d answers, %d wrong' % (tried, wrong))
    sys.exit(bool(wrong))

main()
