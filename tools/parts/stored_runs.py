#!/usr/bin/env python3
"""tools/keep runs [--check | --cases | --show GROUP | --unpack FOLDER | run [PROGRAM [FLAG] [GROUP ..]]]:
the groups of cases that the program of crates/tests_stored goes through.

A file of crates/tests_stored/data/runs is a group of cases. A case is a line `# NAME`, and behind it
texts and runs. A run is a line `$ WORDS`, what drvhost answers to these words, what the error writer
is told behind a line `told:`, and a line with the exit status, the number of files that are opened,
and of reads of them that fail. An answer that nobody reads is stored short, as a line `digest LINES
MD5` before the last one: of `trace` and `host` those of more than 60 lines. A text is a line `-- NAME`,
or `-- NAME of BASE`, and its lines:

    |LINE        a line
    !LINE        the last line, which no line feed ends
    xDIGITS      bytes, by two digits each: of an image, or of a line that has a control byte
    *COUNT LINE  a line so many times, with `#` in it for its number from 0
    =COUNT       so many lines of the base: of a text before it in the group, or, where that is `$`,
                 of the answer before it
    ~COUNT       so many lines of the base that are left out

An image may also be one that a run before writes. The texts of the group of examples are those of the
folder examples that runs name. The group of the rules' pages is made of
crates/verifier_names/src/pages.rt and, with what `check` says of a page's example, of docs/RULES.md.

Without a flag it writes these two groups, the list of the groups (data/groups.txt), each behind those
whose texts it names, and how many answers each has (stdout). With --check it writes nothing, and tells
what it would write otherwise; it also tells of a text that no run names, and of a run that names a text
which isn't there, where its answer doesn't say so. With --cases it prints the names of all cases, with
--show the cases of a group, each with its texts, and with --unpack it writes all texts into files below
a folder. The last line counts.

With `run` it tries the crate before any proof (`rt try`), and prints what it finds otherwise; with `run
PROGRAM` it gives each command line, or those of the groups named, to that program, as to `drvhost`, and
compares what goes out, what goes to standard error and the exit status. With --show it prints the lines
of an answer that is stored short and differs, and with --write the answers are stored anew, but for the
number of files that are opened."""
import difflib, hashlib, os, re, subprocess, sys, tempfile

from compare_pages import WARNING, pages, sections, titles

TOP = os.path.dirname(os.path.dirname(os.path.dirname(os.path.abspath(__file__))))
EXAMPLES = os.path.join(TOP, 'examples')
CRATE = os.path.join(TOP, 'crates/tests_stored')
DATA = os.path.join(CRATE, 'data')
RUNS = os.path.join(DATA, 'runs')
GROUPS, STDOUT = 'data/groups.txt', 'stdout'
# What stands before the name of a file in the last line of an explanation.
HUNT = 'show it: drvhost hunt '
END = re.compile(r'^status [0-9]+, opened [0-9]+(, failed reads [1-9][0-9]*)?$')
ENDLESS = 'did not end within the time limit'
TEXT = re.compile(r'\.(drv|image|sched|scenario|script)$')
# What stands before the digest of an answer, the commands whose long answers are stored so, and how
# many lines a short one has.
DIGEST, DIGESTED, LONGEST = 'digest ', ('trace', 'host'), 60
# How many like lines in a row are worth a count.
REPEATED = 4

def digest_of(lines):
    """The line that stands for these lines."""
    content = ''.join(line + '\n' for line in lines).encode(errors='surrogateescape')
    return '%s%d %s' % (DIGEST, len(lines), hashlib.md5(content).hexdigest())

class Run:
    """The words of a command line, and the lines of the answer."""

    def __init__(self, words, answer=()):
        self.words, self.answer = words, list(answer)

    def files(self):
        """The texts that the words name."""
        return [word for word in self.words if TEXT.search(word)]

    def is_short(self):
        return self.answer[0].startswith(DIGEST)

    def lines(self):
        return ['$ ' + ' '.join(self.words), *self.answer]

    def beside(self, lines):
        """An answer's lines, as they are stored where this one is."""
        is_long = self.words[0] in DIGESTED and len(lines) > LONGEST + 1
        return [digest_of(lines[:-1]), lines[-1]] if self.is_short() or is_long else lines

    def store(self, lines):
        """Stores another answer, but for the number of files that are opened."""
        _, comma, opened = self.answer[-1].partition(',')
        self.answer = self.beside([*lines[:-1], lines[-1] + comma + opened])

class Text:
    """A text that runs name: its lines as they are stored, and its content."""

    def __init__(self, name, base=None, of_base=''):
        self.name, self.base, self.content, self.stored = name, base, '', []
        self.left = of_base.splitlines(keepends=True)

    def add(self, line):
        """Adds a line of it, as it is stored."""
        self.stored.append(line)
        mark, rest = line[0], line[1:]
        if mark in '|!':
            self.content += rest + ('\n' if mark == '|' else '')
        elif mark == 'x':
            self.content += bytes.fromhex(rest).decode(errors='surrogateescape')
        elif mark == '*':
            count, _, rest = rest.partition(' ')
            numbers = range(int(count))
            self.content += ''.join(rest.replace('#', str(number), 1) + '\n' for number in numbers)
        else:
            taken, self.left = self.left[:int(rest)], self.left[int(rest):]
            self.content += ''.join(taken) if mark == '=' else ''

    def lines(self):
        return ['-- ' + self.name + (' of ' + self.base if self.base else ''), *self.stored]

def plain_lines(content):
    """The lines of a text without a base."""
    *whole, last = content.split('\n')
    at, lines = 0, []
    while at < len(whole):
        count = times(whole[at:])
        lines.append('*%d %s' % (count, numbered(whole[at], count)) if count >= REPEATED else spelled(whole[at], '\n'))
        at += count if count >= REPEATED else 1
    return lines + ([spelled(last, '')] if last else [])

def spelled(line, end):
    """A line as it is stored."""
    if all(it.isprintable() for it in line):
        return ('|' if end else '!') + line
    return 'x' + (line + end).encode(errors='surrogateescape').hex()

def numbered(line, count):
    """The form of a line that stands so many times."""
    return re.sub(r'(?<![0-9])0(?![0-9])', '#', line, count=1)

def times(lines):
    """How many lines in a row are the first, or the first with its number that grows."""
    form = numbered(lines[0], 2)
    wanted = (form.replace('#', str(number), 1) for number in range(len(lines)))
    return next((at for at, (line, other) in enumerate(zip(lines, wanted)) if line != other or '#' in line), len(lines))

def changed_lines(base, content):
    """The lines of a text that has lines of a base."""
    old, new = base.splitlines(), content.splitlines()
    found = []
    for kind, start, end, first, last in difflib.SequenceMatcher(None, old, new, autojunk=False).get_opcodes():
        found += ['=%d' % (end - start)] if kind == 'equal' else ['~%d' % (end - start)] if end > start else []
        found += ['|' + line for line in new[first:last]] if kind != 'equal' else []
    return found[:-1] if found and found[-1][0] == '~' else found

def text_of(name, content, bases=()):
    """A text with this content, as a change of that base of which it needs the fewest lines, or of none: bases are texts."""
    ways = [(plain_lines(content), None)]
    if content.endswith('\n'):
        ways += [(changed_lines(base.content, content), base) for base in bases if base.content.endswith('\n')]
    lines, base = min(ways, key=lambda way: len(way[0]) * (2 if way[1] else 1))
    text = Text(name, base and base.name, base.content if base else '')
    for line in lines:
        text.add(line)
    assert text.content == content, name
    return text

class Group:
    """Lines of its title, of the cases' names and of blanks, texts, and runs."""

    def __init__(self, name, parts):
        self.name, self.parts = name, parts
        self.runs = [part for part in parts if isinstance(part, Run)]
        self.texts = [part for part in parts if isinstance(part, Text)]
        self.cases = [part[2:] for part in parts if isinstance(part, str) and part.startswith('# ')]

    def lines(self):
        return [line for part in self.parts for line in ([part] if isinstance(part, str) else part.lines())]

    def file(self):
        """Its file in the crate, and the bytes of it."""
        return 'data/runs/%s.txt' % self.name, ('\n'.join(self.lines()) + '\n').encode()

def read(path):
    return open(path, 'rb').read()

def begun_text(line, texts, last):
    """The text of which a line is the first, behind these texts and the last run."""
    name, _, base = line[3:].partition(' of ')
    if base == '$':
        assert not last.is_short(), line
        return Text(name, base, ''.join(it + '\n' for it in last.answer[:-1]))
    return Text(name, base or None, texts[base].content if base else '')

def stored_group(file):
    """The group of a file of runs."""
    parts, run, texts, last = [], None, {}, None
    for line in open(os.path.join(RUNS, file), newline='\n').read().split('\n')[:-1]:
        if run:
            run.answer.append(line)
            run = None if END.match(line) else run
        elif line.startswith('$ '):
            run = last = Run(line[2:].split(' '))
            parts.append(run)
        elif line.startswith('-- '):
            parts.append(begun_text(line, texts, last))
            texts[parts[-1].name] = parts[-1]
        elif line[:1] in ('|', '!', 'x', '*', '=', '~'):
            parts[-1].add(line)
        else:
            assert not line or line[:2] in ('# ', '; '), (file, line)
            parts.append(line)
    assert not run, (file, 'the last answer has no end')
    return Group(file[:-len('.txt')], parts)

EXAMPLE = re.compile(r'^```drv\n(.*?)^```\n\n```output\n(.*?)^```$', re.M | re.S)

# What stands above the texts of an example: of a rule, and of the warning.
ABOVE = ('this is refused', 'this is accepted'), ('this is accepted, with a warning', 'this is accepted, without one')

def page_of(title, page):
    """What is told of a rule."""
    told = '%s\n%s\nsee: %s\n' % (title, page['says'], page['source'])
    if 'refused' in page:
        wrong, right = ABOVE[title == WARNING]
        told += '\n%s:\n\n%s\nmend it: %s\n%s:\n\n%s' % (wrong, page['refused'], page['mend'], right, page['mended'])
    if 'shown by' in page:
        told += '\n%s%s\n' % (HUNT, page['shown by'])
    return told.splitlines()

def answer_of_document(told, part):
    """What docs/RULES.md says of an example of a page, and the end of the answer."""
    lines = dict(EXAMPLE.findall(told))[part].splitlines()
    return lines + ['status %d, opened 1' % (lines[0] != 'accepted')]

def page_parts(number, title, page, told):
    """What is told of a rule, and, with the texts, what `check` says of its page's example."""
    yield Run(['explain', '--rule', number], page_of(title, page) + ['status 0, opened 0'])
    for kind in [it for it in ('refused', 'mended') if it in page]:
        name = 'pages/%s-%s.drv' % (number.lower(), kind)
        run = Run(['check', name], answer_of_document(told, page[kind]))
        refused = kind == 'refused' and title != WARNING
        assert run.answer[0].startswith('refused %s ' % title if refused else 'accepted'), title
        yield text_of(name, page[kind])
        yield run

def pages_group():
    parts = ['; The rules in words: the page of each, and verdicts on its example, refused and mended.']
    told, named = sections(), titles()
    for rule, page in pages().items():
        title = named[rule]
        parts += ['', '# ' + title, *page_parts(title.split()[0], title, page, told[title])]
    return Group('pages', parts)

def examples_group(stored, all_groups):
    """The stored group of the examples, with their texts."""
    title, *rest = [part for part in stored.parts if not isinstance(part, Text)]
    names = [name for name in sorted(named(all_groups)) if name.startswith('examples/')]
    copied = [text_of(name, read(os.path.join(TOP, name)).decode(errors='surrogateescape')) for name in names]
    return Group(stored.name, [title, *copied, *rest])

def groups():
    """The groups as they have to be."""
    stored = {file[:-len('.txt')]: stored_group(file) for file in sorted(os.listdir(RUNS))}
    stored['pages'] = pages_group()
    stored['examples'] = examples_group(stored['examples'], stored.values())
    return [stored[name] for name in sorted(stored)]

def ordered(all_groups):
    """The names of the groups, each behind those whose texts it names."""
    owners = {text.name: group.name for group in all_groups for text in group.texts}
    needs = {group.name: {owners[name] for name in named([group]) if name in owners} - {group.name} for group in all_groups}
    names = []
    while len(names) < len(needs):
        names.append(next(name for name in needs if name not in names and needs[name] <= set(names)))
    return names

def texts(all_groups):
    """All texts but those that are files below data."""
    return [text for group in all_groups for text in group.texts]

def unpacked(folder, all_groups=None):
    """A folder below this one with all texts, each in a file of its own."""
    data = os.path.join(folder, 'data')
    for group in all_groups or groups():
        os.makedirs(os.path.join(data, group.name), exist_ok=True)
        for text in group.texts:
            path = os.path.join(data, text.name)
            os.makedirs(os.path.dirname(path), exist_ok=True)
            open(path, 'wb').write(text.content.encode(errors='surrogateescape'))
    return data

def made(all_groups):
    """The files that are made, by their paths in the crate."""
    by_name = {group.name: group for group in all_groups}
    text = lambda lines: ''.join(line + '\n' for line in lines).encode()
    return {
        **dict(by_name[name].file() for name in ('examples', 'pages')),
        GROUPS: text(ordered(all_groups)),
        STDOUT: text('%s: %d answers' % (name, len(by_name[name].runs)) for name in ordered(all_groups)),
    }

def named(all_groups):
    """The texts that runs name."""
    return {name for group in all_groups for run in group.runs for name in run.files()}

def written(all_groups):
    """The images that runs write."""
    return {run.words[-1] for group in all_groups for run in group.runs
            if run.words[0] == 'rewrite' and run.answer[-1].startswith('status 0')}

def stray(all_groups):
    """What is wrong with the texts: those that no run names, and those that are named and missing."""
    there = {text.name for text in texts(all_groups)} | written(all_groups)
    folders = {word + '/' for group in all_groups for run in group.runs for word in run.words}
    unnamed = [name for name in sorted(there - named(all_groups)) if os.path.dirname(name) + '/' not in folders]
    told = ['%s: no run names it' % name for name in unnamed]
    for group in all_groups:
        for run in group.runs:
            missing = [name for name in run.files() if name not in there]
            if missing and '/' in missing[0]:
                told.append('%s: it is named and missing' % missing[0])
    return told

def show(group, all_groups):
    """Prints a group, with the texts before the answers that first need them."""
    seen, elsewhere = set(), {text.name: text for text in texts(all_groups)}
    for part in group.parts:
        if isinstance(part, Text):
            continue
        for name in part.files() if isinstance(part, Run) else ():
            if name not in seen and name in elsewhere:
                seen.add(name)
                print('\n'.join(['-- ' + name, *plain_lines(elsewhere[name].content)]))
        print(part if isinstance(part, str) else '\n'.join(part.lines()))

def tried(crate, seconds='600', endless=False):
    """What the program of the crate tests_stored writes before any proof, or None. Where it may be endless, that is what it
    writes up to then."""
    data = os.path.join(crate, 'data')
    names = [os.path.relpath(os.path.join(at, name), data) for at, _, files in os.walk(data) for name in files]
    words = [word for name in sorted(names) for word in ('--data', '%s=data/%s' % (name, name))]
    done = subprocess.run(['rt', 'try', '--seconds', seconds, *words], cwd=crate, stdin=subprocess.DEVNULL, capture_output=True,
                          text=True, errors='replace')
    if 'run=ended' not in done.stderr and not (endless and ENDLESS in done.stderr):
        print(done.stderr[-2000:])
        return None
    return done.stdout

def differing(wanted, written):
    """The groups of which the program found an answer otherwise, or to whose end it didn't come."""
    lines = set(written.splitlines())
    return {line.split(':')[0] for line in wanted.splitlines() if line not in lines} | set(re.findall(r'^differs: (\w+): ', written, re.M))

def answered(program, run, data):
    """What a program answers to a run's words over these texts, but for the files that are opened."""
    done = subprocess.run([os.path.abspath(program), *run.words], cwd=data, stdin=subprocess.DEVNULL, capture_output=True)
    lines = lambda written: written.decode(errors='surrogateescape').removesuffix('\n').split('\n') if written else []
    told = ['told:', *lines(done.stderr)] if done.stderr else []
    return [*lines(done.stdout), *told, 'status %d' % done.returncode]

def difference(run, found, shows):
    """The lines of the difference between a run's answer and another, but for the files that are opened."""
    stored = [*run.answer[:-1], run.answer[-1].partition(',')[0]]
    told = list(difflib.unified_diff(stored, run.beside(found), 'stored', 'answered', lineterm='', n=3))
    return told + (found if told and shows and run.is_short() else [])

def compare(all_groups, program, flags):
    """Prints where a program answers otherwise than it is stored, and how many answers these are; or stores its answers."""
    count, differ = 0, 0
    with tempfile.TemporaryDirectory() as folder:  # a copy, since a rewrite writes
        data = unpacked(folder)
        for run in [run for group in all_groups for run in group.runs]:
            found = answered(program, run, data)
            told = difference(run, found, '--show' in flags)
            count, differ = count + 1, differ + bool(told)
            if told:
                print('\n'.join([run.lines()[0], *told]))
            if '--write' in flags:
                run.store(found)
    if '--write' in flags:
        settle(dict(group.file() for group in all_groups), False)
    print('%d runs, %d answered otherwise' % (count, differ))
    return 1 if differ else 0

def compare_crate(all_groups):
    """Prints what the crate finds otherwise before any proof."""
    wrote, wanted = tried(CRATE), made(all_groups)[STDOUT].decode()
    if wrote is None:
        return 1
    print('\n'.join(line for line in wrote.splitlines() if line not in wanted.splitlines()))
    found = differing(wanted, wrote)
    print('%d groups, %d differ: %s' % (len(all_groups), len(found), ' '.join(sorted(found))))
    return 1 if found else 0

def settle(files, is_check):
    """Writes the files that differ, or tells which do."""
    told = []
    for name, content in files.items():
        path = os.path.join(CRATE, name)
        if os.path.exists(path) and read(path) == content:
            continue
        told.append('%s: %s' % (name, 'it differs' if is_check else 'it is written'))
        if not is_check:
            os.makedirs(os.path.dirname(path), exist_ok=True)
            open(path, 'wb').write(content)
    return told

def run_words(all_groups, words):
    """Compares the crate, or the program that is named first, in all groups or those that are named."""
    flags, names = [it for it in words if it.startswith('--')], [it for it in words if not it.startswith('--')]
    if not names:
        return compare_crate(all_groups)
    program, *wanted = names
    return compare([group for group in all_groups if not wanted or group.name in wanted], program, flags)

def main():
    all_groups = groups()
    if sys.argv[1:2] == ['run']:
        return run_words(all_groups, sys.argv[2:])
    if sys.argv[1:2] == ['--unpack']:
        print(unpacked(sys.argv[2], all_groups))
        return 0
    if '--show' in sys.argv:
        for group in all_groups:
            if group.name == sys.argv[-1]:
                show(group, all_groups)
        return 0
    if '--cases' in sys.argv:
        for group in all_groups:
            for case in group.cases:
                print('%s: %s' % (group.name, case))
    is_check = '--check' in sys.argv
    told = settle(made(all_groups), is_check)
    wrong = stray(all_groups)
    for line in told + wrong:
        print(line)
    count = lambda of: sum(len(of(group)) for group in all_groups)
    print('%d groups, %d cases, %d runs' % (len(all_groups), count(lambda g: g.cases), count(lambda g: g.runs)))
    return 1 if wrong or is_check and told else 0

if __name__ == '__main__':
    sys.exit(main())
