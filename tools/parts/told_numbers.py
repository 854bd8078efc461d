#!/usr/bin/env python3
"""tools/keep numbers [--write]: whether the counts that the documents tell are those that the tools count.

Of contracts, definitions, crates, edits, stored runs, wrong drivers, bodies and the rules of the
model each place is listed in PLACES, by the words round it. It tells each that is otherwise, or
isn't there once, and ends with status 1 then; with --write it puts the numbers there. What was
measured on a day, as seconds, is no such count. It tells too which call that may wait
docs/PROVED.md doesn't name, where a file says another last rule than the model has (`V1 to V20`),
and which schema takes other rules. The last line counts."""
import glob, os, re, subprocess, sys

import count_contracts
import stored_runs
from beliefs import CRATES, TESTS, TOP, believed, files_of_specs, listed

GATE, PROVED = 'docs/GATE.md', 'docs/PROVED.md'
MODEL_RULES = 'crates/model/src/abs.rt'
# The schemas that name a rule by a pattern, which takes V1 to the last and no other.
SCHEMAS = 'docs/schemas/verdict.json', 'docs/schemas/explanation.json'
# What may tell of the last rule.
TOLD = '.rt', '.md', '.rs', '.py', '.h'
# A document, the words round a number, where `#` stands for it, and what it counts.
PLACES = (
    (PROVED, 'Of # functions', 'functions'),
    (PROVED, 'functions # say by', 'functions that say what they answer'),
    (PROVED, 'outer crates cite # definitions in', 'definitions of outer crates'),
    (PROVED, 'definitions in # files;', 'files of outer crates'),
    (PROVED, 'inner crates alone cite # more,', 'definitions of inner crates'),
    (PROVED, 'more, in # files', 'files of inner crates'),
    (GATE, 'of this tree N is #', 'crates and edits'),
    (GATE, 'all is well: # crates', 'crates'),
    (GATE, 'programs, and # edits', 'edits'),
    (GATE, '# edits stand in `must-fail`', 'edits'),
    (GATE, 'There are # cases', 'cases'),
    (GATE, 'cases in # groups', 'groups'),
    (GATE, 'groups, of # runs', 'runs'),
    (GATE, 'whether they still apply. There are #.', 'wrong bodies'),
    ('README.md', 'docs/GALLERY.md, # wrong drivers', 'wrong drivers'),
    ('docs/COMMANDS.md', 'has # wrong drivers', 'wrong drivers'),
    ('docs/GUIDE.md', 'lists # wrong drivers', 'wrong drivers'),
    ('docs/GALLERY.md', 'has # wrong drivers', 'wrong drivers'),
    ('docs/GALLERY.md', 'of the # wrong drivers', 'wrong drivers'),
    ('crates/pafteis/src/texts.rt', 'in words, by its number, 1 to #.', 'rules'),
    ('crates/pafteis_values/src/constants.rt', 'by its number, 1 to #, such', 'rules'),
    ('crates/pafteis_values/src/rule.rt', 'of a number, 1 to #.', 'rules'),
    ('include/pafteis.h', 'a rule in words, 1 to #.', 'rules'),
    ('python/pafteis/verdicts.py', 'A rule in words, 1 to # or', 'rules'),
    ('rust/pafteis/src/words.rs', 'A rule in words, 1 to #;', 'rules'),
)

def rules():
    """The number of the model's last rule."""
    with open(os.path.join(TOP, MODEL_RULES), encoding='utf-8') as file:
        body = re.search(r'pub enum Rule \{(.*?)\n\}', file.read(), re.DOTALL)[1]
    return max(int(number) for number in re.findall(r'= (\d+),', body))

def counts():
    """All that is counted, by what it is called."""
    groups = stored_runs.groups()
    crates, edits = len(listed()), len(glob.glob(os.path.join(CRATES, '*/must-fail/*.edit')))
    own = [it for crate in listed() if crate not in TESTS for it in count_contracts.functions(crate) if not it.is_asked]
    outer, whole = believed(files_of_specs())
    outer_files, whole_files = {it.file for it in outer}, {it.file for it in whole}
    wrong = [path for crate in listed() for path in glob.glob(os.path.join(CRATES, crate, 'wrong_bodies.txt'))]
    return {
        'functions': len(own),
        'functions that say what they answer': sum(it.says for it in own),
        'definitions of outer crates': len(outer),
        'files of outer crates': len(outer_files),
        'definitions of inner crates': len(whole) - len(outer),
        'files of inner crates': len(whole_files - outer_files),
        'crates': crates,
        'edits': edits,
        'crates and edits': crates + edits,
        'groups': len(groups),
        'cases': sum(len(group.cases) for group in groups),
        'runs': sum(len(group.runs) for group in groups),
        'wrong drivers': sum(len(group.cases) for group in groups if group.name == 'gallery'),
        'rules': rules(),
        'wrong bodies': sum(line.startswith('== ') for path in wrong for line in open(path)),
    }

def unnamed():
    """The calls with leave to wait that the document doesn't list."""
    with open(os.path.join(TOP, PROVED), encoding='utf-8') as file:
        part = file.read().partition('- **Functions with leave to wait**')[2].partition('\n- **')[0]
    waiting = [(crate, it.name) for crate in listed() if crate not in TESTS
               for it in count_contracts.functions(crate) if it.waits and it.is_shown]
    return ['%s::%s' % one for one in waiting if not re.search(r'`(\w+::)*%s`' % re.escape(one[1]), part)]

def other_last_rules():
    """Where a file says another last rule than the model has."""
    listing = subprocess.run(['git', 'ls-files', '-z'], cwd=TOP, capture_output=True, check=True)
    files = [os.path.join(TOP, name) for name in listing.stdout.decode().split('\0') if name.endswith(TOLD)]
    for path in filter(os.path.isfile, files):
        name = os.path.relpath(path, TOP)
        with open(path, encoding='utf-8') as file:
            for number in re.findall(r'\bV1`? to `?V(\d+)', file.read()):
                if int(number) != rules():
                    yield name, number

def other_patterns():
    """The schemas whose pattern of a rule takes another one than the model has, or not each of them."""
    for name in SCHEMAS:
        with open(os.path.join(TOP, name), encoding='utf-8') as file:
            patterns = re.findall(r'"pattern": "(\^V[^"]*)"', file.read())
        numbers = range(0, 2 * rules())
        taken = [number for number in numbers for pattern in patterns if re.search(pattern, 'V%d' % number)]
        if taken != list(range(1, rules() + 1)):
            yield name

def replaced(text, words, number):
    """The text with the number between the words, which stand there once; None where they don't."""
    before, behind = (r'\s+'.join(map(re.escape, part.split(' '))) for part in words.split('#'))
    pattern = re.compile('(%s)[0-9][0-9,]*(?=%s)' % (before, behind))
    if len(pattern.findall(text)) != 1:
        return None
    return pattern.sub(lambda found: found[1] + number, text)

def main():
    found, wrong = counts(), 0
    for document, words, what in PLACES:
        path = os.path.join(TOP, document)
        with open(path, encoding='utf-8') as file:
            text = file.read()
        number = '{:,}'.format(found[what])
        other = replaced(text, words, number)
        if other == text:
            continue
        wrong += 1
        print('%s: %r: %s' % (document, words, 'is not there once' if other is None else '%s are %s' % (what, number)))
        if other and '--write' in sys.argv[1:]:
            with open(path, 'w', encoding='utf-8') as file:
                file.write(other)
    missing = unnamed()
    print(end=''.join('%s: %s may wait, and is not named\n' % (PROVED, name) for name in missing))
    for name, number in other_last_rules():
        wrong += 1
        print('%s: the last rule is V%d, not V%s' % (name, found['rules'], number))
    for name in other_patterns():
        wrong += 1
        print('%s: its pattern of a rule takes other ones than V1 to V%d' % (name, found['rules']))
    print('%d numbers, %d told otherwise' % (len(PLACES), wrong))
    return 1 if wrong or missing else 0

if __name__ == '__main__':
    sys.exit(main())
