#!/usr/bin/env python3
"""tools/try writes PROGRAM [TIMES [SEED]]: what is left of a file where each command that writes
one is ended at random, or can't write on.

These are `mend --apply` and `--nth`, `rewrite` over its own file and to another one, and `host
--history`, on files of one to eight pages with several permissions, some of them behind a link.
Each is called so often (1,000) in each of these ways:

    signal   SIGTERM, SIGINT, SIGHUP or SIGQUIT at a random moment
    kill     SIGKILL at a random moment
    limit    no file may be longer than a random length; SIGXFSZ ends the program, or is ignored
    full     a tmpfs with a random number of pages free, that another program may take meanwhile
    edit     the text is saved by an editor while `mend` waits to say what it found

A third of the moments are anywhere in the run, a third just after the files look otherwise, and a
third as one of the last system calls begins. Afterwards the old file has to stand there whole, or
the new one; with its permissions, and behind its link. Status 0 and `applied` go with the new one,
status 2 with the old one. A saved text stands, or what mends it. Nothing may be left beside it but
after SIGKILL, which no program can answer.

It prints the first of each kind that is otherwise, by its try and its seed (1), and then how often
each way came to which end, and how often each kind came; the last line counts. It needs `strace`,
and `unshare` of util-linux: the tmpfs is mounted in a namespace of the tool's own, which without
root is a user's. Where the system allows none, it says so, and that counts as wrong."""

import collections
import os
import random
import re
import resource
import shutil
import signal
import subprocess
import sys
import tempfile
import time

from versions import TOP

PAGE = os.sysconf("SC_PAGE_SIZE")
TIMES, CASES, PAGES, ROOM = 1000, 12, 8, 1 << 20
# So many system calls at the end of a run may be those at which it is ended.
LAST = 16
SIGNALS = [signal.SIGTERM, signal.SIGINT, signal.SIGHUP, signal.SIGQUIT]
MODES = [0o600, 0o640, 0o644, 0o755]
# Sets that `mend` has a sure mend of: longer, as long, and shorter than what it mends.
MENDED = ["forgets", "stuck", "released", "pending", "twice"]
# The mark of the call that has a namespace, and so may mount.
OWN = "PAFTEIS_OWN_NAMESPACE"
Ran = collections.namedtuple("Ran", "status out")


def example(name):
    """An example's bytes."""
    with open(os.path.join(TOP, "examples", name), "rb") as file:
        return file.read()


def padded(chance, text):
    """A text that ends shortly before a page does, by a comment in front of it."""
    wanted = chance.randint(1, PAGES) * PAGE - chance.randrange(40)
    return b";" + b"." * (wanted - len(text) - 2) + b"\n" + text


def large_set(chance):
    """A driver set whose image has some pages."""
    lines = ["driver d", "dispatch READ f0"]
    for number in range(chance.randint(2, 24)):
        lines += ["routine f%d dispatch" % number, *["const r1 1", "clear r1"] * 60]
        lines += ["complete r0 SUCCESS", "ret SUCCESS", "endr"]
    return "\n".join([*lines, "endd", "device v d 1", ""]).encode()


def script(chance):
    """A script of some hundred commands."""
    count = chance.randint(20, 600)
    return b"".join(b"request 0 READ %d\ninterrupt 0\n" % number for number in range(count))


class Case:
    """A call of the program: its words, the files before it, and of the one that it writes the
    name, what stands there before (None: nothing), its permissions, and whether it is a link."""

    def __init__(self, chance, words, files, target):
        self.words, self.files, self.target = words, dict(files), target
        self.before = self.files.pop(target, None)
        self.mode, self.is_link = chance.choice(MODES), chance.random() < 0.3
        self.after, self.usual, self.calls = None, 0.0, []

    def real(self, folder):
        """Where the file stands that is written."""
        return os.path.join(folder, "real" if self.is_link else "", self.target)

    def lay(self, folder):
        """Puts the files into a folder that may have those of another call."""
        for entry in os.scandir(folder):
            (shutil.rmtree if entry.is_dir(follow_symlinks=False) else os.unlink)(entry.path)
        os.mkdir(os.path.join(folder, "real"))
        for name, content in self.files.items():
            put(os.path.join(folder, name), content)
        if self.is_link:
            os.symlink(os.path.join("real", self.target), os.path.join(folder, self.target))
        if self.before is not None:
            put(self.real(folder), self.before)
            os.chmod(self.real(folder), self.mode)

    def names(self):
        """The names that may stand in the folder and below it, but for the file that is written."""
        return {"real", *self.files, *([self.target] if self.is_link else [])}

    def found(self, folder):
        """What stands where the file is written, or None."""
        try:
            with open(self.real(folder), "rb") as file:
                return file.read()
        except FileNotFoundError:
            return None

    def strays(self, folder):
        """What stands beside the file, and isn't from before."""
        below = os.path.relpath(self.real(folder), folder)
        found = {os.path.relpath(os.path.join(at, name), folder)
                 for at, folders, files in os.walk(folder) for name in folders + files}
        return sorted(found - self.names() - {below})

    def look(self, folder):
        """How the files look, as quickly as that can be told."""
        try:
            size = os.stat(self.real(folder)).st_size
        except OSError:
            size = None
        return size, len(os.listdir(os.path.dirname(self.real(folder))))


def put(path, content):
    """Writes a file."""
    with open(path, "wb") as file:
        file.write(content)


def mend(flags):
    """Makes calls of `mend` that write the text anew."""
    def case(chance):
        text = padded(chance, example(chance.choice(MENDED) + ".drv"))
        return Case(chance, ["mend", "set.drv", *flags], {"set.drv": text}, "set.drv")
    return case


def rewrite_itself(chance):
    """A text that becomes the image of its set."""
    files = {"set.drv": large_set(chance)}
    return Case(chance, ["rewrite", "set.drv", "set.drv"], files, "set.drv")


def other(chance, files, name):
    """The files, and perhaps what stands before where another one will be written."""
    content = chance.choice([None, b"", b"from before\n", b"." * chance.randrange(4 * PAGE)])
    return files if content is None else {**files, name: content}


def rewrite(chance):
    """The image of a set, to another file."""
    files = other(chance, {"set.drv": large_set(chance)}, "set.image")
    return Case(chance, ["rewrite", "set.drv", "set.image"], files, "set.image")


def history(chance):
    """What one worker did of a script, to a file of its own."""
    files = {"set.drv": example("cancel.drv"), "set.script": script(chance)}
    words = ["host", "set.drv", "set.script", "--workers", "1", "--history", "set.sched"]
    return Case(chance, words, other(chance, files, "set.sched"), "set.sched")


COMMANDS = {
    "mend --apply": mend(["--apply"]),
    "mend --nth": mend(["--nth", "1"]),
    "rewrite itself": rewrite_itself,
    "rewrite": rewrite,
    "host --history": history,
}


class Call:
    """A call that is under way, in its folder."""

    def __init__(self, words, case, folder, out=subprocess.PIPE, keeps_ignored=False):
        self.case, self.folder = case, folder
        self.process = subprocess.Popen(
            [*words, *case.words], cwd=folder, stdin=subprocess.DEVNULL, stdout=out,
            stderr=subprocess.DEVNULL, restore_signals=not keeps_ignored)

    def runs(self):
        """Whether it has not ended."""
        return self.process.poll() is None

    def end(self):
        """Its status and what it has said, once it has ended."""
        out = self.process.communicate(timeout=60)[0]
        return Ran(self.process.returncode, out or b"")

    def wait_for_change(self, first):
        """Waits until the files look otherwise than at first, or it has ended."""
        while self.case.look(self.folder) == first and self.runs():
            pass


class Sweep:
    """A program that is tried: what it did by way, and what of that is wrong."""

    def __init__(self, program, times, seed):
        self.program, self.times, self.seed = [os.path.abspath(program)], times, seed
        self.chance, self.cases = random.Random(seed), {}
        self.ends, self.wrong, self.killed = collections.Counter(), collections.Counter(), 0

    def learn(self, folder):
        """Makes the cases of each command, and what they write where nothing comes between."""
        for command, make in COMMANDS.items():
            cases = [make(self.chance) for _ in range(CASES)]
            times = sorted(self.learn_case(case, folder) for case in cases)
            for case in cases:
                case.usual = times[CASES // 2]
            self.cases[command] = cases

    def learn_case(self, case, folder):
        """Learns what a case writes and by which last system calls; answers how long it took."""
        trace = os.path.join(folder, "trace")
        case.lay(folder)
        since = time.monotonic()
        ran = Call(self.program, case, folder).end()
        took, case.after = time.monotonic() - since, case.found(folder)
        if ran.status != 0 or case.after in (None, case.before):
            sys.exit("drvhost %s: status %d, and nothing new" % (" ".join(case.words), ran.status))
        case.lay(folder)
        Call(["strace", "-o", trace, *self.program], case, folder).end()
        with open(trace, encoding="utf-8", errors="replace") as file:
            case.calls = numbered(re.findall(r"^(\w+)\(", file.read(), re.M))[-LAST:]
        return took

    def go_through(self, way, ended, folder, commands):
        """Tries commands so often in a way."""
        for command in commands:
            for number in range(self.times):
                case = self.chance.choice(self.cases[command])
                case.lay(folder)
                look = "%s: drvhost %s, try %d" % (way, command, number)
                self.judge(way, look, case, folder, ended(self, case, folder))

    def judge(self, way, look, case, folder, ran):
        """Looks at what a call has left."""
        self.ends[way, "ended by a signal" if ran.status < 0 else "status %d" % ran.status] += 1
        found = case.found(folder)
        if way == "edit":
            self.want(look, "an edit lost", found in case.edited)
        else:
            self.want(look, "a file lost (%s in place of %s or %s)" % tuple(
                map(length, (found, case.before, case.after))), found in (case.before, case.after))
            said_new = ran.status == 0 or b"\napplied" in ran.out
            self.want(look, "said to be written, and isn't", found == case.after or not said_new)
            self.want(look, "said to be left, and isn't", found == case.before or ran.status != 2)
        self.judge_place(way, look, case, folder)

    def judge_place(self, way, look, case, folder):
        """Looks at how the file stands there, and what stands beside it."""
        strays = case.strays(folder)
        if way == "kill":
            self.killed += bool(strays)
        else:
            self.want(look, "something left beside it (%s)" % ", ".join(strays), not strays)
        path = case.real(folder)
        if case.before is not None and os.path.exists(path):
            mode = os.stat(path).st_mode & 0o7777
            self.want(look, "other permissions (%o)" % mode, mode == case.mode)
        at = os.path.join(folder, case.target)
        self.want(look, "a link lost", os.path.islink(at) == case.is_link)

    def want(self, look, fault, is_right):
        """Counts a fault, and prints the first of its kind."""
        if is_right:
            return
        kind = look.partition(", try")[0], fault.partition(" (")[0]
        self.wrong[kind] += 1
        if self.wrong[kind] == 1:
            print("%s, seed %d: %s" % (look, self.seed, fault), flush=True)


def numbered(names):
    """Each name with how often it has come by then."""
    return [(name, names[:at + 1].count(name)) for at, name in enumerate(names)]


def length(content):
    """How much a file has, as it is told."""
    return "no file" if content is None else "%d bytes" % len(content)


def end_by(signals):
    """A way that ends a call by one of these signals at a random moment."""
    def ended(sweep, case, folder):
        name = sweep.chance.choice(signals)
        return sweep.chance.choice([end_anywhere, end_at_change, end_at_call])(
            sweep, case, folder, name)
    return ended


def end_anywhere(sweep, case, folder, name):
    """Sends a signal after a random time."""
    call = Call(sweep.program, case, folder)
    time.sleep(sweep.chance.uniform(0, 1.2 * case.usual))
    call.process.send_signal(name)
    return call.end()


def end_at_change(sweep, case, folder, name):
    """Sends a signal just after the files look otherwise."""
    first = case.look(folder)
    call = Call(sweep.program, case, folder)
    call.wait_for_change(first)
    until = time.perf_counter() + sweep.chance.choice([0, sweep.chance.uniform(0, 2e-4)])
    while time.perf_counter() < until:
        pass
    call.process.send_signal(name)
    return call.end()


def end_at_call(sweep, case, folder, name):
    """Sends a signal as one of the last system calls begins."""
    at = (*sweep.chance.choice(case.calls), name.name)
    tracer = ["strace", "-o", os.devnull, "-e", "trace=" + at[0],
              "-e", "inject=%s:when=%d:signal=%s" % at]
    return Call([*tracer, *sweep.program], case, folder).end()


def end_by_limit(sweep, case, folder):
    """No file may be longer than a random length, for a program that is ended then or told."""
    limit = sweep.chance.randrange(len(case.after) + PAGE)
    old = resource.getrlimit(resource.RLIMIT_FSIZE)
    resource.setrlimit(resource.RLIMIT_FSIZE, (limit, old[1]))
    try:
        call = Call(sweep.program, case, folder, keeps_ignored=sweep.chance.random() < 0.5)
    finally:
        resource.setrlimit(resource.RLIMIT_FSIZE, old)
    return call.end()


class Filler:
    """A file that takes what room there is, but for some pages."""

    def __init__(self, folder):
        self.file = open(os.path.join(folder, "filler"), "wb")
        self.folder, self.size = folder, 0

    def leave(self, pages):
        """Takes all room but so many pages."""
        seen = os.statvfs(self.folder)
        self.size = max(0, self.size + (seen.f_bavail - pages) * seen.f_frsize)
        os.ftruncate(self.file.fileno(), min(self.size, os.fstat(self.file.fileno()).st_size))
        if self.size:
            os.posix_fallocate(self.file.fileno(), 0, self.size)

    def give_back(self):
        """Takes no room."""
        self.size = 0
        os.ftruncate(self.file.fileno(), 0)


def end_by_full(filler):
    """A way that leaves a call a random number of pages; half of them another program takes."""
    def ended(sweep, case, folder):
        filler.leave(sweep.chance.randint(0, len(case.after) // PAGE + 2))
        first = case.look(folder)
        call = Call(sweep.program, case, folder)
        try:
            if sweep.chance.random() < 0.5:
                call.wait_for_change(first)
                take_all(filler)
            return call.end()
        finally:
            filler.give_back()
    return ended


def take_all(filler):
    """Takes what room there is; another may be quicker."""
    try:
        filler.leave(0)
    except OSError:
        filler.size = os.fstat(filler.file.fileno()).st_size


def end_by_edit(sweep, case, folder):
    """The text is saved while the answer waits for who reads it."""
    edit = b"; edited\n" + case.before
    case.edited = edit, b"; edited\n" + case.after
    given, taken = os.pipe()
    os.set_blocking(taken, False)
    fill(taken)
    os.set_blocking(taken, True)
    call = Call(sweep.program, case, folder, out=taken)
    os.close(taken)
    wait_until_blocked(call)
    save(sweep, case, folder, edit)
    with os.fdopen(given, "rb") as file:
        file.read()
    return call.end()


def fill(pipe):
    """Fills a pipe."""
    try:
        while os.write(pipe, b"\n" * PAGE):
            pass
    except BlockingIOError:
        pass


def wait_until_blocked(call):
    """Waits until a call sleeps in three looks one after another, or has ended."""
    asleep = 0
    while asleep < 3 and call.runs():
        time.sleep(0.001)
        with open("/proc/%d/stat" % call.process.pid, "rb") as file:
            asleep = asleep + 1 if file.read().rpartition(b") ")[2][:1] == b"S" else 0


def save(sweep, case, folder, content):
    """Saves a text as editors do: over the old one, or beside it and renamed."""
    path = case.real(folder)
    if sweep.chance.random() < 0.5:
        put(path, content)
        return
    put(path + "~", content)
    os.chmod(path + "~", case.mode)
    os.rename(path + "~", path)


def in_namespace():
    """Calls this tool once more in a namespace in which it may mount, and ends as that does."""
    rooted = [] if os.geteuid() == 0 else ["--user", "--map-root-user"]
    for words in ["unshare", "--mount"], ["unshare", "--mount", *rooted]:
        if subprocess.run([*words, "true"], stderr=subprocess.DEVNULL, check=False).returncode == 0:
            again = [*words, sys.executable, *sys.argv]
            sys.exit(subprocess.run(again, env={**os.environ, OWN: "1"}, check=False).returncode)


def mounted(folder):
    """Whether a folder has become a tmpfs of one MiB."""
    words = ["mount", "-t", "tmpfs", "-o", "size=%d" % ROOM, "none", folder]
    return OWN in os.environ and subprocess.run(words, check=False).returncode == 0


def go_on(sweep, folder):
    """All ways, one after another."""
    at = os.path.join(folder, "at")
    os.mkdir(at)
    sweep.learn(at)
    print("%d cases" % sum(map(len, sweep.cases.values())), flush=True)
    sweep.go_through("signal", end_by(SIGNALS), at, COMMANDS)
    sweep.go_through("kill", end_by([signal.SIGKILL]), at, COMMANDS)
    sweep.go_through("limit", end_by_limit, at, COMMANDS)
    sweep.go_through("edit", end_by_edit, at, [name for name in COMMANDS if name[:4] == "mend"])
    room = os.path.join(folder, "room")
    os.mkdir(room)
    if mounted(room):
        os.mkdir(os.path.join(room, "at"))
        sweep.go_through("full", end_by_full(Filler(room)), os.path.join(room, "at"), COMMANDS)
        subprocess.run(["umount", room], check=False)
    else:
        sweep.want("full", "not tried: no tmpfs can be mounted here", False)


def tell(sweep):
    """What came of the ways, and what was wrong."""
    for (way, end), count in sorted(sweep.ends.items()):
        print("%-8s %6d  %s" % (way, count, end))
    print("kill     %6d  with something left beside the file" % sweep.killed)
    for (look, fault), count in sorted(sweep.wrong.items()):
        print("%s: %s: %d" % (look, fault, count))
    print("%d calls, %d wrong" % (sum(sweep.ends.values()), sum(sweep.wrong.values())))


def main():
    if len(sys.argv) < 2 or sys.argv[1] == "--help":
        sys.exit(__doc__)
    if OWN not in os.environ and shutil.which("unshare"):
        in_namespace()
    numbers = [int(word) for word in sys.argv[2:]]
    times, seed = (numbers + [TIMES, 1][len(numbers):])[:2]
    if not shutil.which("strace"):
        sys.exit("strace isn't there")
    resource.setrlimit(resource.RLIMIT_CORE, (0, 0))
    sweep = Sweep(sys.argv[1], times, seed)
    with tempfile.TemporaryDirectory(prefix="writes-") as folder:
        go_on(sweep, folder)
    tell(sweep)
    sys.exit(1 if sweep.wrong else 0)


if __name__ == "__main__":
    main()
