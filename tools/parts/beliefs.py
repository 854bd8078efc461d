#!/usr/bin/env python3
"""tools/keep definitions [--check | --write | --names] [CRATE ..]: the definitions that public contracts cite: what a reader has to believe.

A public contract is the clauses of a function that another crate can call (`pub fn` in a module that is public or that passes
the name on, a method of such a type, a call of such a trait), the type of which such a type's value is (`Value` of its
`impl Model`, a `pub ghost` field), and what members of a trait are (`ghost`). From the names in them, by the `ghost use` lines
round them, it goes on by the `use` lines of crates/CRATE/specs, from definition to definition, and so finds all that they stand
on. Types of the code (`declared`) and the toolchain's definitions aren't followed.

It prints, crate by crate and file by file, how many definitions of how many are cited, on which lines, and whether contracts
of outer crates cite them, or those of inner crates alone: of crates whose contracts only other crates use (INNER). With crates
named it starts from the contracts of these alone. With --names it prints each definition with its file and line, and who cites
it first. docs/DEFINITIONS.md has the files as a table ("By crate and file"), each with the first sentence of its comment and
the definitions that are cited: --write puts the rows there, and --check compares them, tells of each file that is missing
there, stands there and isn't cited, or is told otherwise, and ends with status 1 where there is one; the last line counts."""
import glob, os, re, sys

TOP = os.path.dirname(os.path.dirname(os.path.dirname(os.path.abspath(__file__))))
CRATES = os.path.join(TOP, 'crates')
TABLE = os.path.join(TOP, 'docs/DEFINITIONS.md')
HEADINGS = {'### Cited by contracts of outer crates': 'outer', '### Cited by contracts of inner crates alone': 'inner'}
# crates whose contracts are there for the proofs of other crates: nothing of them is called from outside
INNER = 'laws_slots machine_parts checked_parts irp devqueue iomgr irql_locks absstate asm_line text'.split()
TESTS = 'tests_core tests_machine tests_program'.split()
# what a type keeps for itself, which its callers can't see
PRIVATE = 'view invariant inverse also_owns'.split()
NAME = re.compile(r"(?<![\w'])[^\W\d][\w']*")

def read(path):
    return open(path, encoding='utf-8').read()

def without_comments(text, mark):
    """The text with its comments and string literals blanked, each line in its place."""
    text = re.sub(r'"(\\.|[^"\\\n])*"', lambda it: ' ' * len(it[0]), text) if mark == '//' else text
    return re.sub(re.escape(mark) + r'[^\n]*', '', text)

def listed():
    return [line.split(':')[0].split()[0] for line in open(os.path.join(TOP, 'crates.txt'))
            if line.strip() and not line.startswith('#')]

# the names that `use` lines bring in

USE = re.compile(r"^\s*(?:pub )?(?:ghost )?use (Rattle\.[\w'.]+?)(?:\.\{([^}]*)\})?(?: as ([\w']+))?;?\s*$", re.M)

def imports(text):
    """The names brought in by a text's lines: the word, to a module and the name there."""
    found = {}
    for module, names, alias in USE.findall(text):
        for it in names.split(','):
            if it.strip():
                there, _, here = it.strip().partition(' as ')
                found[here.strip() or there] = (module, there)
        if not names and alias:
            found[alias] = (module, None)
    return found

# definitions

class Definition:
    def __init__(self, crate, file, name, line, text):
        self.crate, self.file, self.name, self.line, self.text = crate, file, name, line, text

HEAD = re.compile(r"^(?:\s*(?:(?:abbrev|unfoldable) (?:pub )?|pub (?:data|record) )|(?:data|record|pub) )([^\s:({]+)")
OTHER = re.compile(r"^\s+(?:pub )?([^\s:]+)\s*:", re.M)

class File:
    """A file of specs: its definitions by name, also by the names of their constructors, and its imports."""

    def __init__(self, crate, path):
        self.crate, self.path = crate, os.path.relpath(path, TOP)
        text = without_comments(read(path), '--')
        self.imports = imports(text)
        self.passed_on = imports('\n'.join(re.findall(r'^pub use.*$', text, re.M)))
        self.all, self.by_name = [], {}
        parts, lines = [], text.split('\n')
        for number, line in enumerate(lines, 1):
            head = HEAD.match(line)
            if head and not line.startswith(('pub use ', 'pub mod ')):
                parts.append((head[1], number, [line]))
            elif parts and not line.startswith(('use ', 'pub use ', 'pub mod ')):
                parts[-1][2].append(line)
        for name, number, found in parts:
            it = Definition(crate, self.path, name, number, '\n'.join(found))
            self.all.append(it)
            self.by_name.setdefault(name, it)
            if re.match(r'\s*(pub )?data', found[0]):
                for other in OTHER.findall(it.text):
                    self.by_name.setdefault(other, it)

def files_of_specs():
    """Each file by the name of its module."""
    found = {}
    for crate in listed():
        for path in sorted(glob.glob(os.path.join(CRATES, crate, 'specs', '**', '*.antt'), recursive=True)):
            inside = os.path.relpath(path, os.path.join(CRATES, crate, 'specs'))[:-len('.antt')]
            if os.path.basename(inside) != 'Lib':
                found['Rattle.%s.specs.%s' % (crate, inside.replace('/', '.'))] = File(crate, path)
    return found

def looked_up(files, module, name):
    """The definition of a name in a module, which may pass it on; None where it is no definition of specs."""
    file = files.get(module)
    if file is None or name is None:
        return None
    if name in file.by_name:
        return file.by_name[name]
    return looked_up(files, *file.passed_on[name]) if name in file.passed_on else None

def cited(files, text, known, own=None):
    """The definitions that a text names."""
    found = []
    words = re.findall(r"(?<![\w'.])[^\W\d][\w']*", text)
    mixed = [it for it in [*known, *(own.by_name if own else [])]
             if '◌' in it and all(part in text for part in it.split('◌'))]
    for word in dict.fromkeys(words + mixed):
        it = own.by_name.get(word) if own and word in own.by_name else looked_up(files, *known[word]) if word in known else None
        if it:
            found.append(it)
    for word, name in re.findall(r"(?<![\w'.])([^\W\d][\w']*)\.([^\W\d][\w']*)", text):
        module, passed = known.get(word, (None, word))
        it = looked_up(files, module, name) if passed is None else None
        if it:
            found.append(it)
    return found

# public contracts

def block(text, start):
    """The place behind the brace that closes the one at a place."""
    depth = 0
    for at in range(start, len(text)):
        depth += {'{': 1, '}': -1}.get(text[at], 0)
        if depth == 0:
            return at + 1
    raise ValueError(text[start:start + 80])

CLAUSE = re.compile(r'\b(?:requires|ensures|decreases|measure)\s*(?:[\w]+\s*)?$')

def header(text, start):
    """The clauses of a function whose `fn` stands at a place, and the place behind its header."""
    clauses, at, since = [], start, start
    while at < len(text):
        if text[at] == ';' and text.count('[', since, at) == text.count(']', since, at):
            return clauses, at + 1
        if text[at] == '{':
            end = block(text, at)
            if not CLAUSE.search(text[since:at]):
                return clauses, end
            clauses.append(text[at + 1:end - 1])
            at = since = end
        else:
            at += 1
    return clauses, at

IMPL = re.compile(r'^impl(?:<[^{]*?>)?\s+(?:([\w:]+)(?:<[^{]*?>)?\s+for\s+)?&?(?:mut )?(?:[\w]+::)*([\w]+)', re.S)
ITEM = re.compile(r'^(pub(?:\(\w+\))? )?(?:unsafe |const |extern +)*(fn|impl|trait|struct|enum|mod|type)\b', re.M)
METHOD = re.compile(r'^    (pub(?:\(\w+\))? )?(?:unsafe |const )*fn\b', re.M)
MEMBER = re.compile(r'^    ghost (?!use\b)(\w+)\s*[:=]?\s*\{', re.M)
FIELD = re.compile(r'^    pub ghost \w+: \{(.*?)\},?$', re.M)

class Source:
    """A file of a crate's code: whether its module is public, and the names that are passed on from it."""

    def __init__(self, path, is_public, passed_on):
        self.path, self.is_public, self.passed_on = os.path.relpath(path, TOP), is_public, passed_on
        self.text = without_comments(read(path), '//')

    def shows(self, name):
        return self.is_public or name in self.passed_on or '*' in self.passed_on

def sources(crate):
    """The files of a crate's code, from its root on."""
    root = os.path.join(CRATES, crate, 'src')
    found = []

    def walk(path, folder, is_public, passed_on):
        it = Source(path, is_public, passed_on)
        found.append(it)
        passing = {}
        for module, names in re.findall(r'^pub use (?:crate::|self::)?([\w:]+)::(\{[^}]*\}|\w+|\*);', it.text, re.M):
            passing.setdefault(module.split('::')[0], set()).update(NAME.findall(names) + (['*'] if '*' in names else []))
        for public, name in re.findall(r'^(pub(?:\(\w+\))? )?mod (\w+);', it.text, re.M):
            below = os.path.join(folder, name)
            at = below + '.rt' if os.path.exists(below + '.rt') else os.path.join(below, 'mod.rt')
            if os.path.exists(at):
                walk(at, below, is_public and public == 'pub ', passing.get(name, set()))

    for name in 'lib', 'main':
        if os.path.exists(os.path.join(root, name + '.rt')):
            walk(os.path.join(root, name + '.rt'), root, name == 'lib', set())
    return found

def name_after(text, at):
    return NAME.search(text, at)[0]

def shown_types(all_sources):
    """The types and traits that another crate can name."""
    return {name_after(it.text, item.end()) for it in all_sources for item in ITEM.finditer(it.text)
            if item[1] == 'pub ' and item[2] in ('struct', 'enum', 'trait', 'type') and it.shows(name_after(it.text, item.end()))}

def type_of(text, item):
    """The name of the type that a block of functions is of, or of the trait that it is."""
    if item[2] == 'trait':
        return name_after(text, item.end())
    said = IMPL.match(text[item.end() - len('impl'):])
    return said[2] if said else None

def contracts(crate):
    """The texts of a crate's public contracts, each with the names that it may use and where it stands."""
    found, all_sources = [], sources(crate)
    types = shown_types(all_sources)
    for it in all_sources:
        outside = imports(it.text)
        for item in ITEM.finditer(it.text):
            rest = it.text[item.start():]
            if item[2] == 'fn' and item[1] == 'pub ' and it.shows(name_after(it.text, item.end())):
                for clause in header(it.text, item.end())[0]:
                    found.append((it.path, name_after(it.text, item.end()), clause, outside))
            if item[2] == 'struct' and name_after(it.text, item.end()) in types:
                name = name_after(it.text, item.end())
                found += [(it.path, name, field, outside) for field in FIELD.findall(rest[:rest.find('\n}')])]
            if item[2] in ('impl', 'trait'):
                found += [(it.path, *one) for one in of_block(it.text, item, types, outside)]
    return found

def of_block(text, item, types, outside):
    """The contracts of a block of functions: an `impl` of a public type or of a public trait, or a public trait."""
    opening = text.index('{', item.end())
    inner = text[opening + 1:block(text, opening) - 1]
    known = {**outside, **imports(inner)}
    if item[2] == 'trait':
        is_trait, trait, name = True, None, name_after(text, item.end())
        wanted = item[1] == 'pub ' and name in types
    else:
        said = IMPL.match(text[item.end() - len('impl'):opening])
        is_trait, trait, name = False, said and said[1], said and said[2]
        wanted = name in types or (trait and name in ('u8', 'u16', 'u32', 'u64', 'usize'))
    if not wanted:
        return
    for member in MEMBER.finditer(inner):
        if trait and trait.endswith('Model') and member[1] != 'Value' or member[1] in PRIVATE:
            continue
        yield name, inner[member.end():block(inner, member.end() - 1) - 1], known
    for method in METHOD.finditer(inner):
        if method[1] == 'pub ' or is_trait or (trait and not method[1]):
            for clause in header(inner, method.end())[0]:
                yield '%s::%s' % (name, name_after(inner, method.end())), clause, known

# what is reached

def reached(files, crates):
    """The definitions that contracts of these crates cite, by way of others too, each with who cites it first."""
    found, waiting = {}, []

    def add(it, why):
        if it not in found:
            found[it] = why
            waiting.append(it)

    for crate in crates:
        for path, name, clause, known in contracts(crate):
            for it in cited(files, clause, known):
                add(it, '%s, %s' % (path, name))
    by_path = {file.path: file for file in files.values()}
    while waiting:
        it = waiting.pop()
        file = by_path[it.file]
        for other in cited(files, it.text, file.imports, file):
            add(other, '%s, %s' % (it.file, it.name))
    return found

def believed(files, named=()):
    """The definitions that contracts of these crates cite, or else of outer crates, and those of all crates but of tests."""
    crates = named or [crate for crate in listed() if crate not in TESTS]
    outer = reached(files, [crate for crate in crates if named or crate not in INNER])
    return outer, {**reached(files, crates), **outer}

def by_file(found):
    """The reached definitions of each file, in the order of crates and lines."""
    order = {crate: number for number, crate in enumerate(listed())}
    rows = {}
    for it in sorted(found, key=lambda it: (order[it.crate], it.file, it.line)):
        rows.setdefault(it.file, []).append(it)
    return rows

def first_sentence(path):
    """What the comment at the top of a file says first."""
    said = []
    for line in open(os.path.join(TOP, path), encoding='utf-8'):
        if not line.startswith('--'):
            break
        said.append(line[2:].strip())
    return re.split(r'(?<=\.)\s+(?=[A-Z])', ' '.join(said).strip())[0].rstrip('.')

def of_them(cited, every):
    """Which of a file's definitions are cited, in a few words."""
    names = lambda them: ', '.join('`%s`' % it.name for it in them)
    left = [it for it in every if it not in cited]
    if not left:
        return 'all'
    return 'all but ' + names(left) if len(left) < len(cited) else names(cited)

def table_rows(files, outer, whole):
    """The rows of the document's table, by heading: of each file its line."""
    every = {file.path: file.all for file in files.values()}
    found = {'outer': {}, 'inner': {}}
    for path, them in by_file(whole).items():
        of_outer = [it for it in them if it in outer]
        crate, _, file = path[len('crates/'):-len('.antt')].partition('/specs/')
        found['outer' if of_outer else 'inner'][path] = '| `%s/%s` | %s | %s |' % (
            crate, file, first_sentence(path), of_them(of_outer or them, every[path]))
    return found

ROW = re.compile(r'^\| `(\w+)/([\w/]+)` \|.*\|$')

def listed_rows():
    """The rows that the document has, by heading, and paths that stand there twice."""
    found, twice, under = {'outer': {}, 'inner': {}}, [], None
    for line in read(TABLE).split('\n'):
        under = HEADINGS.get(line) if line.startswith('#') else under
        row = ROW.match(line)
        if under and row:
            path = 'crates/%s/specs/%s.antt' % row.groups()
            twice += [path] if any(path in rows for rows in found.values()) else []
            found[under][path] = line
    return found, twice

def check(wanted):
    """What the document says otherwise."""
    said, twice = listed_rows()
    wrong = ['%s stands there twice' % path for path in twice]
    for under, rows in wanted.items():
        other = 'inner' if under == 'outer' else 'outer'
        for path, row in rows.items():
            if path in said[other]:
                wrong.append('%s is cited by contracts of %s crates, and stands under the other heading' % (path, under))
            elif path not in said[under]:
                wrong.append('%s is cited, and the document leaves it out' % path)
            elif row != said[under][path]:
                wrong.append('%s\n  has the line  %s\n  and should have  %s' % (path, said[under][path], row))
        wrong += ['%s stands in the document, and no public contract cites it' % path
                  for path in said[under] if path not in rows and path not in wanted[other]]
    print('\n'.join([*wrong, '%d files, %d said otherwise' % (sum(map(len, wanted.values())), len(wrong))]))
    return 1 if wrong else 0

def write(wanted):
    """Puts the rows under their headings."""
    lines, under, written = [], None, read(TABLE).split('\n')
    for line in written:
        under = HEADINGS.get(line) if line.startswith('#') else under
        if under and ROW.match(line):
            continue
        lines.append(line)
        if under and re.match(r'^\|[-|]+\|$', line):
            lines += wanted[under].values()
    with open(TABLE, 'w', encoding='utf-8') as out:
        out.write('\n'.join(lines))
    return 0

def tell(files, whole, outer, names):
    """Prints the files, or the definitions one by one."""
    counts = {file.path: len(file.all) for file in files.values()}
    rows = by_file(whole)
    for path, found in rows.items():
        reaching = [it for it in found if it in outer]
        if names:
            for it in found:
                print('%s:%d %s (%s)' % (path, it.line, it.name, whole[it]))
        else:
            print('%-40s %s %3d of %3d, lines %s' % (
                path[len('crates/'):], 'outer' if reaching else 'inner', len(reaching or found), counts[path],
                ' '.join(str(it.line) for it in reaching or found)))
    print('no public contract cites: ' + ' '.join(path[len('crates/'):] for path in counts if path not in rows))
    print('%d definitions in %d files; contracts of outer crates cite %d in %d' % (
        len(whole), len(rows), len(outer), len({it.file for it in outer})))

def main():
    words = sys.argv[1:]
    named = [word for word in words if not word.startswith('--')]
    flags = [word for word in words if word.startswith('--')]
    unknown = [it for it in named if it not in listed()] + [it for it in flags if it not in ('--check', '--names', '--write')]
    if unknown:
        sys.exit('unknown: ' + ' '.join(unknown))
    files = files_of_specs()
    outer, whole = believed(files, named)
    if '--check' in flags:
        return check(table_rows(files, outer, whole))
    if '--write' in flags:
        return write(table_rows(files, outer, whole))
    tell(files, whole, outer, '--names' in flags)
    return 0

if __name__ == '__main__':
    sys.exit(main())
