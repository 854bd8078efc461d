#!/usr/bin/env python3
"""tools/try documents [--write] [PROGRAM]: runs the program (crates/drvhost/out/drvhost) on every example of README.md and of the documents
of docs/ that have some, and tells where it says anything else than the document does. An example begins with a line of its own,

    <!-- example: COMMAND, status N -->

and ends with the next fenced block that is called `output`, which has all that the program writes, standard output first; a
single line `...` there stands for some text, whatever it is. COMMAND is `check`, `explain --all`, `trace`,
`trace --unchecked` or `host --workers N`, whose files are the blocks between, in their order: `drv`, `sched` and `script` are texts, and `image` has
the bytes of an image in hexadecimal, up to `;` in a line. Or COMMAND is `run`, and each line of the block `sh` between is a
command that starts where a copy of examples/ lies; a block `drv` there has to be the text of the file that ends the first of
them, a block `drv part` some of its lines. What is written to a file, behind `>`, has to be that file of the tree. A block behind a line
`<!-- file: NAME -->` has to be the text of that file. The last line counts. It tells too where another version stands than in the file VERSION. With --write the blocks called `output` and these files become what the program writes."""
import os, re, shlex, shutil, subprocess, sys, tempfile

from versions import TOP, stale

DOCUMENTS = ['README.md', 'docs/COMMANDS.md', 'docs/TEXTS.md', 'docs/RULES.md', 'docs/GUIDE.md', 'docs/EMBEDDING.md']
MARK = re.compile(r'<!-- example: (.+), status (\d+) -->$')
KINDS = ('drv', 'drv part', 'image', 'sched', 'script', 'sh', 'output')
FILES = ('drv', 'image', 'sched', 'script')

class Example:
    """Where an example begins, its command, the exit status that it names, and its blocks, each with its kind."""
    def __init__(self, line, command, status):
        self.line, self.command, self.status, self.blocks = line, command, int(status), []

    def is_whole(self):
        return bool(self.blocks) and self.blocks[-1][0] == 'output'

    def of_kinds(self, kinds):
        return [(kind, text) for kind, text in self.blocks if kind in kinds]

def blocks_and_marks(text):
    """The examples' first lines and the fenced blocks of a document, in their order: line, kind, content."""
    kind, content = None, []
    for number, line in enumerate(text.split('\n'), 1):
        if kind is None and line.startswith('```'):
            kind, content = line[3:], []
        elif kind is not None and line == '```':
            yield number, kind, '\n'.join(content + [''])
            kind = None
        elif kind is not None:
            content.append(line)
        elif MARK.match(line):
            yield number, None, MARK.match(line)

def examples(text):
    open_one = None
    for number, kind, content in blocks_and_marks(text):
        if kind is None:
            if open_one:
                yield open_one
            open_one = Example(number, *content.groups())
        elif open_one and kind in KINDS:
            open_one.blocks.append((kind, content))
            if kind == 'output':
                yield open_one
                open_one = None
    if open_one:
        yield open_one

def file_bytes(kind, text):
    if kind != 'image':
        return text.encode()
    return bytes.fromhex(''.join(line.split(';')[0] for line in text.split('\n')))

def answer(program, words, folder):
    done = subprocess.run([program, *words], cwd=folder, stdin=subprocess.DEVNULL, capture_output=True, timeout=60)
    return (done.stdout + done.stderr).decode('utf-8', 'replace'), done.returncode

def unlike(example):
    """What is said of a driver that isn't the text of the file that ends the first line, or of a part that it hasn't. It is never
    what the program answers, so --write doesn't put it there."""
    lines = lines_of(example)
    if not lines or not example.of_kinds(('drv', 'drv part')):
        return ''
    with open(os.path.join(TOP, lines[0].split()[-1]), newline='') as file:
        text = file.read()
    whole = ['the file has another text\n' for _, shown in example.of_kinds(('drv',)) if shown != text]
    parts = [shown for _, shown in example.of_kinds(('drv part',)) if '\n' + shown not in '\n' + text]
    return ''.join(whole + ['the file has no such lines:\n' + part for part in parts])

def lines_of(example):
    """The command lines of an example that is run as it stands."""
    return ''.join(text for _, text in example.of_kinds(('sh',))).splitlines() if example.command == 'run' else []

def written(path, told, write):
    """What is said of a file of the tree that has something else than a command wrote to it."""
    path = os.path.join(TOP, path)
    if write:
        with open(path, 'w', encoding='utf-8') as out:
            out.write(told)
    with open(path, encoding='utf-8') as file:
        return '' if file.read() == told else '%s has something else\n' % path

def run_lines(program, example, write):
    """The answers to the lines of a block, one after another, with the last exit status."""
    told, status = '', None
    with tempfile.TemporaryDirectory() as folder:
        shutil.copytree(os.path.join(TOP, 'examples'), os.path.join(folder, 'examples'))
        for line in lines_of(example):
            line, _, path = line.partition(' > ')
            more, status = answer(program, shlex.split(line)[1:], folder)
            told += written(path, more, write) if path else more
    return told, status

def run(program, example, write):
    """What the program writes for an example, with the exit status."""
    command, *options = example.command.split()
    if command == 'run':
        return run_lines(program, example, write)
    with tempfile.TemporaryDirectory() as folder:
        names = []
        for number, (kind, text) in enumerate(example.of_kinds(FILES)):
            names.append('%d.%s' % (number, kind))
            with open(os.path.join(folder, names[-1]), 'wb') as out:
                out.write(file_bytes(kind, text))
        told, status = answer(program, [command, *names, *options], folder)
        return told.replace('drvhost hunt 0.', 'drvhost hunt driver.'), status

def is_as(wanted, told):
    return bool(told) if wanted == '...\n' else wanted == told

def copies_differ(document, text):
    """Which blocks of a document aren't the files that they are copies of; how many such blocks there are."""
    copies = re.findall(r'^<!-- file: ([^\n]+) -->\n```\w*\n(.*?)^```$', text, re.M | re.S)
    differ = [name for name, shown in copies if open(os.path.join(TOP, name)).read() != shown]
    print(end=''.join('%s: the file %s has another text\n' % (document, name) for name in differ))
    return len(copies), len(differ)

def rewritten(lines, example, told):
    """Puts what the program writes into the lines of a document, in place of the block called `output`."""
    begin = lines.index('```output', example.line) + 1
    lines[begin:lines.index('```', begin)] = told.split('\n')[:-1]

def compared(program, document, write):
    """How many examples of a document there are, and how many are answered otherwise."""
    with open(os.path.join(TOP, document)) as source:
        text = source.read()
    found, lines = list(examples(text)), text.split('\n')
    copies, differ = copies_differ(document, text)
    for example in reversed(found):
        odd = unlike(example)
        differ += bool(odd)
        print(end=odd and '%s line %d: %s' % (document, example.line, odd))
        told, status = run(program, example, write) if example.is_whole() else ('no block output\n', None)
        if is_as(example.blocks[-1][1] if example.blocks else None, told) and status == example.status:
            continue
        differ += 1
        if write and example.is_whole():
            rewritten(lines, example, told)
        else:
            print('%s line %d: status %s\n%s' % (document, example.line, status, told), end='')
    if write:
        with open(os.path.join(TOP, document), 'w') as out:
            out.write('\n'.join(lines))
    return len(found) + copies, differ

def main():
    words = [word for word in sys.argv[1:] if word != '--write']
    program = os.path.abspath(words[0]) if words else os.path.join(TOP, 'crates/drvhost/out/drvhost')
    counts = [compared(program, document, '--write' in sys.argv) for document in DOCUMENTS]
    differ = sum(count for _, count in counts)
    for told in stale():
        differ += 1
        print(told)
    print('%d examples, %d differ' % (sum(count for count, _ in counts), differ))
    return 1 if differ else 0

if __name__ == '__main__':
    sys.exit(main())
