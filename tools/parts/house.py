#!/usr/bin/env python3
"""tools/measure house [--all]: how well the tree is kept: what is long, what is crowded, and what stands twice.

It prints how many functions have more than six parameters, how many have a body of over 40 lines, which crates have over 2,500
lines or 170 functions of source, how many runs of eight lines or more stand somewhere else too (comments, imports and empty
lines apart), in how many files of code, definitions and proofs `load` and `dequeue` are named (imports apart), how many lines are
over 100 columns, and how many files and lines there are. With --all each place is
printed too."""
import collections, glob, os, re, subprocess, sys

from beliefs import CRATES, ITEM, METHOD, TOP, block, header, listed, name_after, read, without_comments
from count_contracts import head_of

PARAMETERS, BODY, LINES, FUNCTIONS, RUN, COLUMNS = 6, 40, 2500, 170, 8, 100
INSTRUCTIONS = 'Load', 'Dequeue'

def files_of(crate, folder, ending):
    return sorted(glob.glob(os.path.join(CRATES, crate, folder, '**', '*' + ending), recursive=True))

def parameters(head):
    """How many parameters a function's header names."""
    opening = head.index('(', generics_end(head))
    depth, count, filled = 0, 0, False
    for at in range(opening, len(head)):
        if head[at] == '>' and head[at - 1] in '-=':
            continue
        depth += {'(': 1, '[': 1, '<': 1, '{': 1, ')': -1, ']': -1, '>': -1, '}': -1}.get(head[at], 0)
        if depth == 0:
            return count + filled
        if depth == 1 and head[at] == ',':
            count, filled = count + filled, False
        elif at > opening and not head[at].isspace():
            filled = True
    raise ValueError(head)

def generics_end(head):
    """The place behind a function's name and its type parameters."""
    at = re.search(r'\w+', head).end()
    if head[at] != '<':
        return at
    depth = 0
    for place in range(at, len(head)):
        if head[place] == '>' and head[place - 1] in '-=':
            continue
        depth += {'<': 1, '>': -1}.get(head[place], 0)
        if depth == 0:
            return place + 1
    raise ValueError(head)

def functions_of(path):
    """Each function of a file that has a body: its name, its line, its parameters, and the lines of its body."""
    text = without_comments(read(path), '//')
    places = [item.end() for item in ITEM.finditer(text) if item[2] == 'fn'] + [method.end() for method in METHOD.finditer(text)]
    for at in sorted(places):
        head = head_of(text, at)
        if head is not None:
            _, end = header(text, at)
            body = text[at + len(head):end].strip()
            yield name_after(text, at), text.count('\n', 0, at) + 1, parameters(head), max(body.count('\n') - 1, 0)

def plain_lines(path):
    """The lines of a file without comments, imports and empty ones, each with its number."""
    text = re.sub(r'^\s*(pub )?(ghost )?use [^;]*;', lambda it: '\n' * it[0].count('\n'), without_comments_alone(read(path)), flags=re.M)
    return [(number, line.strip()) for number, line in enumerate(text.split('\n'), 1) if line.strip()]

def without_comments_alone(text):
    return re.sub(r'^\s*//[^\n]*', '', text, flags=re.M)

def equal_runs(paths):
    """Each run of RUN lines or more that stood before too: the place, the place before, and how many lines."""
    lines = [(path, number, line) for path in paths for number, line in plain_lines(path)]
    first, found, at = {}, [], 0
    while at + RUN <= len(lines):
        window = lines[at:at + RUN]
        if window[0][0] != window[-1][0]:
            at += 1
            continue
        before = first.setdefault(tuple(line for _, _, line in window), at)
        if before + RUN > at:
            at += 1
            continue
        length = RUN
        while at + length < len(lines) and before + length < at and lines[at + length][2] == lines[before + length][2] \
                and lines[at + length][0] == lines[at][0] and lines[before + length][0] == lines[before][0]:
            length += 1
        found.append((lines[at], lines[before], length))
        at += length
    return found

def files_that_name(words):
    """In how many files of code, definitions and proofs each word stands, imports apart."""
    counts = collections.Counter()
    for crate in listed():
        for path in files_of(crate, 'src', '.rt') + files_of(crate, 'specs', '.antt') + files_of(crate, 'proofs', '.antt'):
            text = re.sub(r'^\s*(?:pub )?(?:ghost )?use [^\n]*$', '', read(path), flags=re.M)
            text = without_comments(text, '//' if path.endswith('.rt') else '--')
            counts.update(set(words) & set(re.findall(r'\w+', text)))
    return counts

def short(path):
    return os.path.relpath(path, CRATES)

def tell(head, found, is_whole):
    print(head)
    for line in found if is_whole else []:
        print('    ' + line)

def main():
    is_whole = '--all' in sys.argv[1:]
    wide, long, crowded, sources, counts = [], [], [], [], collections.Counter()
    for crate in listed():
        paths = files_of(crate, 'src', '.rt')
        sources += paths
        found = [(path, *it) for path in paths for it in functions_of(path)]
        lines = sum(read(path).count('\n') for path in paths)
        counts.update({'functions': len(found), 'source': lines})
        for folder in 'specs', 'proofs':
            counts[folder] += sum(read(path).count('\n') for path in files_of(crate, folder, '.antt'))
        for path, name, line, parameter_count, body in found:
            wide += ['%s:%d %s %d' % (short(path), line, name, parameter_count)] if parameter_count > PARAMETERS else []
            long += ['%s:%d %s %d' % (short(path), line, name, body)] if body > BODY else []
        if lines > LINES or len(found) > FUNCTIONS:
            crowded.append('%s: %d lines, %d functions' % (crate, lines, len(found)))
    runs = equal_runs(sources)
    cut = ['%s:%d' % (short(path), number) for path in sources
           for number, line in enumerate(read(path).split('\n'), 1) if len(line) > COLUMNS]
    named = files_that_name(INSTRUCTIONS)
    tree = subprocess.run(['git', 'ls-files'], cwd=TOP, capture_output=True, text=True, check=True).stdout.count('\n')
    tell('functions with more than %d parameters: %d' % (PARAMETERS, len(wide)), wide, is_whole)
    tell('bodies over %d lines: %d' % (BODY, len(long)), long, is_whole)
    tell('crates over %d lines or %d functions: %d' % (LINES, FUNCTIONS, len(crowded)), crowded, True)
    tell('runs of %d equal lines or more: %d, of %d lines' % (RUN, len(runs), sum(it[2] for it in runs)),
         ['%s:%d = %s:%d, %d lines' % (short(one[0]), one[1], short(other[0]), other[1], length) for one, other, length in runs], is_whole)
    print('files that name an instruction: ' + ', '.join('%s %d' % (word, named[word]) for word in INSTRUCTIONS))
    tell('lines over %d columns in source: %d' % (COLUMNS, len(cut)), cut, is_whole)
    print('%d crates, %d functions; %d lines of source, %d of definitions, %d of proofs; %d files in the tree' % (
        len(listed()), counts['functions'], counts['source'], counts['specs'], counts['proofs'], tree))

if __name__ == '__main__':
    main()
