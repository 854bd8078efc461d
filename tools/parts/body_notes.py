"""The sizes of the modules that a proof leaves of each function: read from folders, noted while they stand, kept in a file.

A check writes the flow graph of a function (`Lts`), its proof (`Proof`) and what ties both together (`Tie`) into modules
`Rattle-CRATE-proofs.MODULE.FUNCTION.KIND.oantt`. Those of `rt ci` stand in a folder of the temporary folder that is named by the
process of rattle which writes them, and go with it. So they are looked at every two seconds: what stands for less, at the end
of a crate, can be missed."""
import glob, json, os, re, signal, sys, tempfile, time

from processes import phase, processes, running_gates

KINDS = 'Lts', 'Proof', 'Tie'
MODULE = re.compile(r'Rattle-(\w+)-proofs\.(.+)\.(%s)\.oantt' % '|'.join(KINDS))
ANY_MODULE = re.compile(r'Rattle-(\w+)-proofs\.(.+)\.oantt')
BUILT = re.compile(r'rattle-logic-built-locked-(\d+)-\d+')
PAUSE, ROUNDS_TO_SAVE, ROUNDS_TO_END = 2, 15, 300

def modules(folder, pattern):
    """The files right below a folder whose names are as the pattern says, each with what the disk says of it; one that goes
    meanwhile is left out."""
    try:
        with os.scandir(folder) as entries:
            found = [(pattern.fullmatch(entry.name), entry) for entry in entries]
    except OSError:
        return
    for said, entry in found:
        try:
            if said:
                yield said, entry.stat()
        except OSError:
            pass

def kept(crate, top):
    """What a check in a crate's folder has kept: {function: {kind: [bytes, time]}}. Of two of rattle's builds the newer file counts."""
    functions = {}
    for folder in glob.glob(os.path.join(top, 'crates', crate, 'out/incremental/antt-checked-*')):
        for said, stat in modules(folder, MODULE):
            one = functions.setdefault(said[2], {})
            if said[1] == crate and stat.st_mtime > one.get(said[3], (0, 0))[1]:
                one[said[3]] = stat.st_size, stat.st_mtime
    return {name: one for name, one in functions.items() if one}

def seconds(crate, top, functions):
    """How long after the module before it each module of a function appeared, summed by functions."""
    folders = glob.glob(os.path.join(top, 'crates', crate, 'out/incremental/antt-checked-*'))
    found = sorted((stat.st_mtime, said[2]) for folder in folders for said, stat in modules(folder, ANY_MODULE) if said[1] == crate)
    sums, last = {}, None
    for when, name in found:
        while name and name not in functions:
            name = name.rpartition('.')[0]
        if last is not None:
            sums[name] = sums.get(name, 0) + when - last
        last = when
    return sums

class Notes:
    """The largest size that was seen of each module: {crate: {function: {kind: [bytes, time]}}}, of tests under `CRATE tests`."""

    def __init__(self, path=None, gate=None):
        """Begins with what a file has, where there is one, and looks at what one `rt` started, or each run of `rt ci`."""
        self.crates, self.folders, self.gate = {}, {}, gate
        if path and os.path.isfile(path):
            with open(path) as file:
                self.crates = json.load(file)

    def look(self):
        """Looks at each folder that a proof writes."""
        for name in os.listdir(tempfile.gettempdir()):
            said = BUILT.fullmatch(name)
            if not said:
                continue
            if name not in self.folders:
                self.begin(name, int(said[1]))
            if self.folders[name]:
                self.note(name, self.folders[name])

    def begin(self, name, pid):
        """Notes what a folder is of; a crate that is proved once more begins anew, and edits and other work count for nothing."""
        parents = {one: it[0] for one, it in processes().items()}
        gates = [self.gate] if self.gate else running_gates()
        done = phase(pid) if any(below(pid, gate, parents) for gate in gates) else None
        key = {'proof': '%s', 'tests': '%s tests'}.get(done and done[1])
        self.folders[name] = key and key % done[0]
        if key:
            self.crates[self.folders[name]] = {}

    def note(self, name, key):
        for said, stat in modules(os.path.join(tempfile.gettempdir(), name), MODULE):
            if said[1] == key.split()[0]:
                one = self.crates[key].setdefault(said[2], {})
                if stat.st_size > one.get(said[3], (0, 0))[0]:
                    one[said[3]] = stat.st_size, stat.st_mtime

    def save(self, path):
        os.makedirs(os.path.dirname(os.path.abspath(path)), exist_ok=True)
        with open(path + '.new', 'w') as out:
            json.dump(self.crates, out)
        os.replace(path + '.new', path)

def below(pid, root, parents):
    """Whether a process is one that another started, or that itself."""
    while pid in parents and pid != root:
        pid = parents[pid]
    return pid == root

def note_until_over(path):
    """Notes until no `rt ci` has run for ten minutes, or until it is ended, and saves every half minute. What the file has of
    crates that aren't proved meanwhile stays."""
    signal.signal(signal.SIGTERM, lambda *_: sys.exit(0))
    notes, gates, idle, turn = Notes(path), [], 0, 0
    try:
        while idle < ROUNDS_TO_END:
            if turn % ROUNDS_TO_SAVE == 0 or not gates:
                gates = running_gates()
                notes.save(path)
            idle, turn = 0 if gates else idle + 1, turn + 1
            notes.look()
            time.sleep(PAUSE)
    finally:
        notes.save(path)
