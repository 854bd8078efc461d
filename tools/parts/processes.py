"""The processes of this machine, and what those of rattle do."""
import os

TICKS = os.sysconf('SC_CLK_TCK')

def processes():
    """Of each process: its parent, its start, and the processor seconds of itself and of the children that it waited for."""
    found = {}
    for pid in filter(str.isdigit, os.listdir('/proc')):
        try:
            stat = open('/proc/%s/stat' % pid).read()
        except OSError:
            continue
        fields = stat[stat.rindex(')') + 2:].split()
        found[int(pid)] = int(fields[1]), fields[19], sum(map(int, fields[11:15])) / TICKS
    return found

def words_of(pid):
    """The words that a process was started with; none of one that is gone."""
    try:
        with open('/proc/%d/cmdline' % pid) as file:
            return file.read().split('\0')
    except OSError:
        return []

def phase(pid):
    """What a rattle process does, and of which crate; None of another process."""
    words = words_of(pid)
    try:
        folder = os.readlink('/proc/%d/cwd' % pid)
    except OSError:
        return None
    if os.path.basename((words or [''])[0]) != 'rattle' or '--crate-name' not in words:
        return None
    crate = words[words.index('--crate-name') + 1]
    if os.path.basename(folder).startswith('rt-edit-'):
        return crate, 'edits'
    return crate, 'tests' if '--test' in words else 'proof'

def running_gates():
    """The processes that are `rt ci`."""
    found = []
    for pid in map(int, filter(str.isdigit, os.listdir('/proc'))):
        words = words_of(pid)[:3]
        if any(os.path.basename(word) == 'rt' and words[at + 1:at + 2] == ['ci'] for at, word in enumerate(words)):
            found.append(pid)
    return found
