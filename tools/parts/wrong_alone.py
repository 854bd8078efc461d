"""Wrong bodies that are tried function by function, over libraries that a run has built: seconds
each, where a round of `rt must-fail` proves all crates below, and the crate twice."""
import os, re, shutil, subprocess, tempfile

FUNCTION = re.compile(r'^(\s*)(?:pub(?:\([a-z ]+\))? )?(?:const )?fn (\w+)', re.M)
IMPL = re.compile(r'^impl(?:<[^{]*?>)? (?:(\w+)(?:<[^{]*?>)? for )?\[?(\w+)', re.M)

class Tried:
    """The crate of a copy, what it stands on, and where its checks keep what they did."""

    def __init__(self, kit, crate, folder, libraries, kept):
        self.kit, self.crate, self.folder = kit, crate, folder
        self.libraries, self.kept = libraries, kept

    def check(self, functions):
        """The exit status and the output of a check of these functions alone."""
        built = self.libraries, os.path.join(self.kit, 'rlibs')
        words = [os.path.join(self.kit, 'bin/rattle'), 'check']
        words += ['--crate-name', self.crate, self.root()]
        words += self.externs(built)
        words += ['--antt-project', os.path.join(self.kit, 'rattle/logic/antt-project.json')]
        words += ['--logic-built', os.path.join(self.kit, 'logic_built')]
        words += ['--incremental', self.kept, '--empty-contracts']
        words += [word for name in functions for word in ('--only', name)]
        done = subprocess.run(words, cwd=self.folder, text=True, errors='replace',
                              stdout=subprocess.PIPE, stderr=subprocess.STDOUT)
        return done.returncode, done.stdout

    def root(self):
        program = os.path.isfile(os.path.join(self.folder, 'src/main.rt'))
        return 'src/main.rt' if program else 'src/lib.rt'

    def externs(self, built):
        """The words that name each library which it lists, and where those below them are."""
        for name in ('std', *self.below()):
            paths = (os.path.join(folder, name + '.rlib') for folder in built)
            found = [path for path in paths if os.path.isdir(path)]
            if not found:
                raise LookupError('there is no built library of ' + name)
            yield from ('--extern', '%s=%s' % (name, found[0]))
        for folder in built:
            yield from ('-L', 'dependency=' + folder)

    def below(self):
        with open(os.path.join(self.folder, '../crates.txt')) as file:
            for line in file:
                head, _, names = line.partition('#')[0].partition(':')
                if head.split()[:1] == [self.crate]:
                    return names.split()
        return []

def function_at(path, text, place):
    """What a check may call the function that stands at a place of a file: the likeliest first."""
    parts = os.path.relpath(path, 'src')[:-3].split('/')
    module = '::'.join(part for part in parts if part not in ('lib', 'main', 'mod'))
    before = [found for found in FUNCTION.finditer(text) if found.start() <= place]
    if not before:
        return []
    names, last = [], before[-1]
    owner = [found for found in IMPL.finditer(text) if found.start() <= last.start()]
    if last[1] and owner:
        trait, type_ = owner[-1].groups()
        names = ['%s::%s' % (type_ + (trait or ''), last[2])]
    own = names + [last[2]]
    whole = ['%s::%s' % (module, name) if module else name for name in own]
    return whole + names + [last[2], *([module] if module else [])]

def functions_of(folder, changes):
    """What the functions that an edit changes may be called; None where it changes no code."""
    found = []
    for name, old, _ in changes:
        if not name.startswith('src/'):
            return None
        with open(os.path.join(folder, name)) as file:
            text = file.read()
        found.append(function_at(name, text, text.find(old)))
    return found

def verdict(status, said):
    """What a check says of an edit: refused, let through, or why it says nothing."""
    if status == 0:
        return 'NOT REFUSED'
    if status == 1 and re.search(r'^fn [^:]+(?:::[^:]+)*: (not proved|no proof)\b', said, re.M):
        return 'refused'
    errors = re.findall(r'^.*\berror\b.*$', said, re.M)
    return 'BAD: ' + (errors or said.strip().splitlines() or ['nothing was said'])[0][:200]

def tried_alone(tried, functions):
    """The verdict on what stands in the copy, of functions that may be called so or so."""
    chosen = []
    for names in functions:
        for name in names:
            status, said = tried.check([name])
            if not re.search(r'has no function `|fits several', said):
                chosen.append(verdict(status, said))
                break
        else:
            return 'BAD: no function is called so: ' + ' '.join(names)
    return next((one for one in chosen if one == 'refused'), chosen[0])

def copy_of(top, crate, folder):
    """A copy of a crate below a folder, beside the list of crates."""
    shutil.copy(os.path.join(top, 'crates.txt'), folder)
    to = os.path.join(folder, crate)
    left_out = shutil.ignore_patterns('out', 'must-fail')
    shutil.copytree(os.path.join(top, 'crates', crate), to, ignore=left_out)
    return to
