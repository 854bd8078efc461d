#!/usr/bin/env python3
"""tools/keep arms [--check | --all] [CRATE ..]: arms of a `match` that take whatever isn't named of an enum of the model.

Such an arm is `_`, a name, or either inside a tuple or a variant, behind an arm that names a variant of the
enum at that place and meets the same values elsewhere. A variant that is added to the enum later falls into
it, and nothing tells. A test of some variants is an `if let`, a `let .. else` or a `matches!`: these say that
there are two ways.

An arm passes that is proved to be `unreachable!()`, and one in a function whose contract pins its answer, by
`result` or what is new beside `≡` or `↔`, with no premise, or by a relation named below, or proves each yes, by
`IsTrue result →`: there a definition decides, definitions list every case, and the check refuses what falls
elsewhere.

Of each crate named, or of all but those of tests, it prints where such arms stand, the function, and of which
enums; with --all also those that pass by a contract. The last line counts. With --check it ends with 1 if
there are any that don't pass."""
import glob, os, re, sys

from count_contracts import head_of

TOP = os.path.dirname(os.path.dirname(os.path.dirname(os.path.abspath(__file__))))
MODEL = 'model'
# Functions whose contract pins the answer by a relation, or is that of their trait's method.
BY_RELATION = {
    ('checked', 'leave'): 'LeavesOver',
    ('answer_runs', 'repeat'): 'Machine::repeat',
    ('hunt_worlds', 'same'): 'Same::same',
    ('tell_holders', 'of'): 'IsVerdict',
    ('verifier', 'arrive'): 'IsArrived',
    ('verifier_evidence', 'evidence_along'): 'Shows',
    ('verifier_evidence', 'evidence_at'): 'Shows',
    ('verifier_evidence', 'evidence_of'): 'IsEvidence',
}
FUNCTION = re.compile(r'^\s*(?:pub(?:\(crate\))? )?(?:const )?fn\b', re.M)
CLAUSE = re.compile(r'\bensures\b[^{]*\{(.*?)\}\s*(?=\bensures\b|\brequires\b|$)', re.S)
PINNED = re.compile(r'^\s*IsTrue result →|(?:\bresult\b|\.new\b)[^→]*[≡↔]|[≡↔][^→]*(?:\bresult\b|\.new\b)')
TOKEN = re.compile(r'''(?P<skip>\s+|//[^\n]*)|b?"(?:\\.|[^"\\])*"|b?'(?:\\x\w\w|\\.|[^'\\\n])'|'\w+|\w+|::|=>|\.\.=?|.''', re.S)
USE = re.compile(r'^\s*(?:pub(?:\(crate\))? )?use ([^;]+);', re.M)
DEFINED = re.compile(r'^\s*(?:pub(?:\(crate\))? )?(?:enum|struct|trait|type) (\w+)', re.M)
ENUM = re.compile(r'^\s*pub enum (\w+)', re.M)
IMPL = re.compile(r'^impl\b(?:[^{]*\bfor)?\s*(?:<[^>]*>\s*)?(\w+)', re.M)
OPENING, CLOSING = {'(': ')', '[': ']', '{': '}'}, ')]}'
BEHIND = '=>', 'if', '|', ',', ')', ']', '}'
WILD = ('wild',)

class Source:
    """A file: its text, its tokens with their places, and the enums of the model by the names that it uses."""

    def __init__(self, path, crate, own):
        self.path, self.crate, self.text = path, crate, open(path, encoding='utf-8').read()
        self.tokens = [(it[0], it.start()) for it in TOKEN.finditer(self.text) if it['skip'] is None]
        self.enums = enums_of(self.text, crate, own)

    def line(self, token):
        return self.text.count('\n', 0, self.tokens[token][1]) + 1

    def function(self, token):
        """The function that a token stands in: its name, and whether its contract pins its answer."""
        at = [it.end() for it in FUNCTION.finditer(self.text, 0, self.tokens[token][1])][-1]
        name = re.match(r'\s*(\w+)', self.text[at:])[1]
        clauses = CLAUSE.findall((head_of(self.text, at) or '').strip())
        return name, (self.crate, name) in BY_RELATION or any(PINNED.search(clause) for clause in clauses)

    def owner(self, token):
        """The type of the `impl` that a token stands in."""
        names = [it[1] for it in IMPL.finditer(self.text, 0, self.tokens[token][1])]
        return names[-1] if names else 'Self'

    def enum(self, path, token):
        """The enum of the model whose variant a path names, or None."""
        if len(path) < 2:
            return None
        return self.enums.get(self.owner(token) if path[-2] == 'Self' else path[-2])

def names_used(text):
    """What a file uses: the name there, and the path."""
    for it in USE.finditer(text):
        yield from spread(re.sub(r'\s+', ' ', it[1]).strip(), '')

def spread(tree, before):
    """The names and paths of the tree of a `use`."""
    head, brace, rest = tree.partition('{')
    if not brace:
        path, _, alias = (before + tree).partition(' as ')
        return [(alias or path.rpartition('::')[2], path)]
    depth, part, found = 0, '', []
    for letter in rest.rpartition('}')[0] + ',':
        depth += {'{': 1, '}': -1}.get(letter, 0)
        if letter == ',' and depth == 0:
            found += spread(part.strip(), before + head) if part.strip() else []
            part = ''
        else:
            part += letter
    return found

def enums_of(text, crate, own):
    """The enums of the model by the names that stand for them in a file of a crate."""
    defined = set(DEFINED.findall(text))
    found = {name: name for name in own[MODEL][1] & defined} if crate == MODEL else {}
    for name, path in names_used(text):
        root, last = path.partition('::')[0], path.rpartition('::')[2]
        root = crate if root in ('crate', 'self', 'super') else root
        if last in own[MODEL][1] and (root == MODEL or last not in own.get(root, (set(),))[0]):
            found[name] = last
    return found

def names_defined():
    """Of each crate the types that it defines, and the public enums among them."""
    found = {}
    for path in glob.glob(os.path.join(TOP, 'crates/*/src/**/*.rt'), recursive=True):
        types, enums = found.setdefault(os.path.relpath(path, TOP).split(os.sep)[1], (set(), set()))
        text = open(path, encoding='utf-8').read()
        types.update(DEFINED.findall(text))
        enums.update(ENUM.findall(text))
    return found

class Patterns:
    """Reads patterns, from a token on."""

    def __init__(self, source, at):
        self.source, self.at = source, at

    def next(self):
        return self.source.tokens[self.at][0]

    def take(self):
        self.at += 1
        return self.source.tokens[self.at - 1][0]

    def any(self):
        """A pattern, with its alternatives."""
        if self.next() == '|':
            self.take()
        found = [self.one()]
        while self.next() == '|':
            self.take()
            found.append(self.one())
        return found[0] if len(found) == 1 else ('or', found)

    def one(self):
        token = self.take()
        if token in ('&', 'ref', 'mut', 'box'):
            return self.one()
        if token in ('(', '['):
            parts = self.listed(OPENING[token])
            return parts[0] if token == '(' and len(parts) == 1 else ('of', token, None, dict(enumerate(parts)))
        if token == '..':
            return ('rest',)
        if re.match(r'[A-Za-z_]', token) and not token.startswith(('b"', "b'")) and token not in ('true', 'false'):
            return self.named(token)
        return self.literal(token)

    def literal(self, token):
        """A number, a letter, a text, a constant or a range of these."""
        while token[-1] == '-' or self.next() in ('..', '..=') or token[-2:] in ('..', '.=') and self.next() not in BEHIND:
            token += self.take()
        return ('literal', token)

    def named(self, token):
        """A name: `_` or a binding, or a path with what it holds."""
        start, path = self.at - 1, [token]
        while self.next() == '::':
            self.take()
            path.append(self.take())
        if len(path) == 1 and self.next() == '@':
            self.take()
            return self.one()
        enum, name = self.source.enum(path, start), '::'.join(path[-2:])
        if self.next() == '(':
            self.take()
            return ('of', name, enum, dict(enumerate(self.listed(')'))))
        if self.next() == '{':
            self.take()
            return ('of', name, enum, dict(self.fields()))
        if len(path) == 1 and not path[0][:1].isupper():
            return WILD
        if len(path) == 1 and path[0].isupper():
            return self.literal(token)
        return ('of', name, enum, {})

    def listed(self, closing):
        """The patterns up to a closing bracket; behind `..` nothing is known of places."""
        parts = []
        while self.next() != closing:
            parts.append(self.any())
            if self.next() == ',':
                self.take()
        self.take()
        return parts if ('rest',) not in parts else parts[:parts.index(('rest',))]

    def fields(self):
        while self.next() != '}':
            name = self.take()
            if name not in ('..', ',') and self.next() == ':':
                self.take()
                yield name, self.any()
        self.take()

def alternatives(pattern):
    """The patterns without alternatives that a pattern stands for."""
    if pattern[0] == 'or':
        return [each for part in pattern[1] for each in alternatives(part)]
    if pattern[0] != 'of':
        return [pattern]
    found = [{}]
    for place, part in pattern[3].items():
        found = [{**others, place: each} for others in found for each in alternatives(part)]
    return [(*pattern[:3], parts) for parts in found]

def meets(one, other):
    """Whether a value may fit two patterns without alternatives."""
    if one == WILD or other == WILD:
        return True
    if one[0] == 'literal' or other[0] == 'literal':
        return one == other or '..' in str(one[1]) + str(other[1])
    return one[1] == other[1] and all(meets(part, other[3].get(place, WILD)) for place, part in one[3].items())

def enums_in(pattern):
    """The enums of the model that a pattern without alternatives names."""
    if pattern[0] != 'of':
        return set()
    return {pattern[2]} - {None} | {each for part in pattern[3].values() for each in enums_in(part)}

def fallen(named, other):
    """The enums that one pattern names where the other takes whatever comes; both meet."""
    if other == WILD:
        return enums_in(named)
    if named[0] != 'of' or other[0] != 'of':
        return set()
    return {each for place, part in named[3].items() for each in fallen(part, other[3].get(place, WILD))}

def ends_at(source, at, stops):
    """The place of the next token of these outside brackets, from a place on."""
    depth = 0
    while depth or source.tokens[at][0] not in stops:
        token = source.tokens[at][0]
        depth += 1 if token in OPENING else -1 if token in CLOSING else 0
        at += 1
    return at

def arms(source, at):
    """The arms of the match at a place: where each begins, its pattern, and whether it is unreachable."""
    at = ends_at(source, at + 1, ('{',)) + 1
    while source.tokens[at][0] != '}':
        reading = Patterns(source, at)
        pattern = reading.any()
        body = ends_at(source, reading.at, ('=>',)) + 1
        end = ends_at(source, body, (',', '}'))
        if source.tokens[body][0] == '{':
            end = ends_at(source, body + 1, ('}',)) + 1
        yield at, pattern, source.tokens[body][0] == 'unreachable'
        at = end + (source.tokens[end][0] == ',')

def catch_alls(source):
    """The arms that take the rest of an enum of the model: where each begins, and the enums."""
    for at, (token, _) in enumerate(source.tokens):
        if token != 'match':
            continue
        before = []
        for start, pattern, is_unreachable in arms(source, at):
            own = alternatives(pattern)
            enums = {each for named in before for other in own if meets(named, other) for each in fallen(named, other)}
            if enums and not is_unreachable:
                yield start, enums
            before += own

def main():
    words = [word for word in sys.argv[1:] if not word.startswith('--')]
    defined, counts = names_defined(), [0, 0]
    for crate in words or sorted(name for name in defined if not name.startswith('tests_')):
        if crate not in defined:
            sys.exit('no such crate: ' + crate)
        for path in sorted(glob.glob(os.path.join(TOP, 'crates', crate, 'src/**/*.rt'), recursive=True)):
            source = Source(path, crate, defined)
            for start, enums in catch_alls(source):
                name, is_pinned = source.function(start)
                counts[is_pinned] += 1
                if not is_pinned or '--all' in sys.argv[1:]:
                    print('%s:%d: %s: %s%s' % (os.path.relpath(path, TOP), source.line(start), name, ', '.join(sorted(enums)),
                                               ', by contract' if is_pinned else ''))
    print('%d arms take what they don\'t name of an enum of the model; %d more stand in functions whose contract pins the answer' % tuple(counts))
    sys.exit('--check' in sys.argv[1:] and counts[0] > 0)

if __name__ == '__main__':
    main()
