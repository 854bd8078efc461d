"""A crate's functions checked over the sources of the crates below, whose contracts are taken for
granted: each proof there is a hole. So a crate can be worked on before anything below is proved."""
import os, re, subprocess

from wrong_alone import FUNCTION

TYPE = re.compile(r'^(?:pub(?:\([a-z ]+\))? )?(?:struct|enum) (\w+)', re.M)
IMPL = re.compile(r'^impl(?:<.*?>)? (?:(.+?) for )?(.+?) \{', re.M)
CYCLE = re.compile(r'#\[cycle\((\w+)\)\]\s*(?:#\[[^\]]*\]\s*)*$')
UNKNOWN = re.compile(r'^(.+)/Proof\.antt: error: .* (?:has no function|is in a cycle of calls)', re.M)
CITED = r'Rattle\.%s\.proofs\.([A-Z]\w*)'
HOLE = ('use Rattle.{crate}.proofs.{path}.{{statement}}\n\n'
        'pub {name}_spec : {{M : Type 1}} → statement M\n{name}_spec = ?\n')

def graph(top):
    """The crates of crates.txt, each with the libraries that it lists."""
    with open(os.path.join(top, 'crates.txt')) as file:
        lines = [line.partition('#')[0].partition(':') for line in file]
    return {head.split()[0]: names.split() for head, _, names in lines if head.split()}

def below(crate, crates):
    """All that a crate stands on, its own libraries first."""
    found = []
    for name in crates.get(crate, ()):
        found += [it for it in (name, *below(name, crates)) if it not in found]
    return found

def files_of(folder):
    """The sources and definitions of a crate, by their paths in it."""
    found = {}
    for part in 'src', 'specs':
        for place, _, names in os.walk(os.path.join(folder, part)):
            for name in names:
                path = os.path.join(place, name)
                found[os.path.relpath(path, folder)] = open(path, encoding='utf-8').read()
    return found

def module_of(path):
    parts = path[len('src/'):-len('.rt')].split('/')
    return [part for part in parts if part not in ('lib', 'main', 'mod')]

def bare(name):
    """A type's or a trait's name without its parameters."""
    return re.sub(r'<.*>', '', name).strip('[]&')

def with_types(trait):
    """A trait's name with the types that it is given, but for those that are any."""
    given = [it.strip() for it in re.sub(r'^[^<]*<?|>$', '', trait).split(',')]
    return bare(trait) + ''.join(bare(it) for it in given if not re.fullmatch(r"[A-Z]?|'\w+", it))

def owner_at(text, place, homes, module):
    """In which module the function at a place of a text is proved, and of which type."""
    found = [it for it in IMPL.finditer(text) if it.start() < place]
    if not found or re.search(r'^\}', text[found[-1].end():place], re.M):
        return None
    trait, owner = found[-1][1], bare(found[-1][2])
    return homes.get(owner, module) + [owner + with_types(trait or '')]

def proofs_of(crate, files):
    """The places of the proofs of a crate's functions, each with a hole."""
    sources = {path: text for path, text in files.items() if path.endswith('.rt')}
    homes = {name: module_of(path) for path, text in sources.items() for name in TYPE.findall(text)}
    found = {}
    for path, text in sources.items():
        for it in FUNCTION.finditer(text):
            module = module_of(path)
            owner = owner_at(text, it.start(), homes, module) if it[1] else module
            if owner is not None:
                add_hole(found, crate, owner, it[2], CYCLE.search(text[:it.start()][-200:]))
    return found

def add_hole(found, crate, owner, name, cycle):
    """Adds the proof of a function, or of the cycle of calls that it is in."""
    name = '+' + cycle[1] if cycle else name
    path = '/'.join([*owner, name])
    module = path.replace('/', '.') + ('' if cycle else '.Statement')
    found['proofs/%s/Proof.antt' % path] = HOLE.format(crate=crate, path=module, name=name)

def lemmas_of(crate, folder, texts):
    """The files of lemmas of a crate that texts cite, and those that these cite."""
    found, asked = {}, [name for text in texts for name in re.findall(CITED % crate, text)]
    while asked:
        path = 'proofs/%s.antt' % asked.pop()
        if path not in found and os.path.isfile(os.path.join(folder, path)):
            found[path] = open(os.path.join(folder, path), encoding='utf-8').read()
            asked += re.findall(CITED % crate, found[path])
    if found:
        names = [path[len('proofs/'):-len('.antt')] for path in sorted(found)]
        found['proofs/Lib.antt'] = ''.join('pub mod %s\n' % name for name in names)
    return found

def write(folder, files):
    """Makes a folder hold these files alone; one that is the same keeps its time."""
    for place, _, names in os.walk(folder):
        for name in names:
            path = os.path.join(place, name)
            if os.path.relpath(path, folder) not in files:
                os.remove(path)
    for name, text in files.items():
        path = os.path.join(folder, name)
        os.makedirs(os.path.dirname(path), exist_ok=True)
        if not os.path.isfile(path) or open(path, encoding='utf-8').read() != text:
            open(path, 'w', encoding='utf-8').write(text)

def lines_of(path):
    """The lines of a file, if there is one."""
    return open(path, encoding='utf-8').read().splitlines() if os.path.isfile(path) else []

class Granted:
    """A crate of a tree, what it stands on, and a folder for the sources with holes."""

    def __init__(self, top, kit, crate, folder):
        self.top, self.kit, self.crate, self.folder = top, kit, crate, folder
        self.crates, self.below = graph(top), below(crate, graph(top))
        self.noted = os.path.join(folder, 'unknown')
        self.unknown = set(lines_of(self.noted))

    def place(self, name):
        return os.path.join(self.folder, 'sources', name)

    def lay_out(self):
        """Writes the sources of the crates below, with holes in place of proofs."""
        own = os.path.join(self.top, 'crates', self.crate, 'proofs')
        texts = [open(os.path.join(place, name), encoding='utf-8').read()
                 for place, _, names in os.walk(own) for name in names]
        for name in self.below:
            if name in self.crates:
                write(self.place(name), self.laid_out(name, texts))

    def laid_out(self, name, texts):
        """The files of a crate below, with the lemmas that these texts cite."""
        folder = os.path.join(self.top, 'crates', name)
        files = files_of(folder)
        holes = {path: text for path, text in proofs_of(name, files).items()
                 if os.path.join(self.place(name), os.path.dirname(path)) not in self.unknown}
        return {**files, **holes, **lemmas_of(name, folder, texts)}

    def words(self, more):
        """The command that checks the crate."""
        main = os.path.join(self.top, 'crates', self.crate, 'src/main.rt')
        root = 'src/main.rt' if os.path.isfile(main) else 'src/lib.rt'
        words = [os.path.join(self.kit, 'bin/rattle'), 'check', '--crate-name', self.crate, root]
        for name in dict.fromkeys([*self.below, 'std']):
            words += self.library(name)
        for rlibs in self.built():
            words += ['-L', 'dependency=' + rlibs]
        words += ['--allow-holes']
        words += ['--antt-project', os.path.join(self.kit, 'rattle/logic/antt-project.json')]
        words += ['--logic-built', os.path.join(self.kit, 'logic_built')]
        return words + ['--incremental', os.path.join(self.folder, 'kept', self.crate), *more]

    def built(self):
        """The folders with libraries that are built: the kit's, and that of `GRANTED_RLIBS`."""
        own = os.environ.get('GRANTED_RLIBS')
        return [os.path.join(self.kit, 'rlibs'), *([own] if own else [])]

    def library(self, name):
        """The words for a library: as it was built, or by its source."""
        for folder in self.built():
            built = os.path.join(folder, name + '.rlib')
            if os.path.isdir(built):
                return ['--extern', '%s=%s' % (name, built)]
        if name not in self.crates:
            return []
        used = ','.join(dict.fromkeys([*self.crates[name], 'std']))
        return ['--lib', '%s:%s=%s/src/lib.rt' % (name, used, self.place(name))]

    def check(self, more):
        """What a check says; again without the proofs of what it knows by another name."""
        for _ in range(3):
            self.lay_out()
            done = subprocess.run(self.words(more), text=True, errors='replace',
                                  cwd=os.path.join(self.top, 'crates', self.crate),
                                  stdout=subprocess.PIPE, stderr=subprocess.STDOUT)
            unknown = set(UNKNOWN.findall(done.stdout)) - self.unknown
            if not unknown:
                break
            self.unknown |= unknown
            with open(self.noted, 'w', encoding='utf-8') as file:
                file.writelines('%s\n' % name for name in sorted(self.unknown))
        return done

def own_lines(crate, text):
    """What a check says of the crate's own functions, and the goals that are open there."""
    kept, shown = [], True
    for line in text.splitlines():
        if re.match(r'(fn|enum|struct|trait|impl) ', line):
            shown = line.split(' ')[1].startswith(crate + '::')
        elif re.match(r'\S+\.(antt|rt):\d+', line):
            shown = '/sources/' not in line.split(':')[0]
        elif re.match(r'(crate|statements|only=|holes=|rattle:)', line):
            shown = not line.startswith('statements')
        kept += [line] if shown else []
    return '\n'.join(kept)
