#!/usr/bin/env python3
"""tools/keep words [--all]: the texts of verifier_words, tell_changes, tell_words, tell_names, draw_lanes and of faults that no stored answer has.

It reads the string literals of these crates' sources, but for comments and clauses, and looks for each in the answers of
the stored runs (crates/tests_stored/runs, and the groups that tools/keep runs makes) to the commands that tell it: the
constant parts of a form in their order, with anything of the same line between them (explain has `$R` and its kin there). What a longer text of the same crate
has in common with it doesn't count, nor do lines that are quoted from a set. A word of the language, which stands in a
table of its own, is looked for where a text asks whether it is meant. Literals without three letters in a row are left out.

Each text that is in no answer is printed with its place, and 1 is the exit status then; those that no set can give, or none
that is small, stand below with the reason. One that stands there and is told all the same is printed too. With --all it
prints of each text how often it is told."""
import os, re, sys

import stored_runs

TOP = stored_runs.TOP
CRATES = {
    'verifier_words verifier_warnings verifier_reasons verifier_names': ('explain',),
    'tell_changes tell_words tell_names': ('tell', 'draw'),
    'asm_faults text_faults': ('check', 'explain', 'trace', 'tell', 'draw', 'host', 'list'),
    'interleave_texts': ('tell', 'draw'),
    'draw_lanes': ('draw',),
}
TABLES = {'asm_faults/src/line_form.rt', 'asm_faults/src/operand.rt', 'interleave_texts/src/form.rt'}

# Texts that no stored run gives, and why not.
LEFT_OUT = {
    # Memory runs out in no stored run.
    'memory ran out before there was a verdict',
    'try again with more memory',
    # A lesson that names a register is given one; a lock that is released too early has a register that says why; a second
    # packet is taken while a register names the first; a packet is left behind in a register.
    'the register',
    'the lock is released while a register has a packet that it guards',
    'finish with the packet first',
    'the routine returns while the register still has a packet, which would be lost',
    'finish with that one before it',
    # What is used as the routine's own and isn't is a packet of a list.
    "the packet may still be cancelled, so it isn't the routine's own",
    '`disarm` and `unlink` it under the lock of its queue first',
    # The cancel routine of the device queue can't release the lock before it has dequeued its packet, nor return with it.
    '`dequeue $R` before `relc`, and `complete $R CANCELLED` before the return',
    # A register has a lower driver's status only from `pass` and `call` of the packet that was handed in, after which the
    # lower driver's status is owed; that a register hasn't it is told by another rule, which comes first.
    "a lower driver's status is returned for a packet that wasn't sent down",
    'return the status that the packet is completed with',
    # What a hold routine didn't mark stands in a register when it stops the completion, since it may not complete it or send
    # it down: that it would be lost comes first. In a `propagate` routine `ret stop` is of the wrong sort, which does too.
    "the routine keeps a packet that it didn't mark",
    '`mark` it before `ret stop`',
    # The devices that a run names are those of the set, each of which has a line in the set's text or listing.
    'device {device}',
    # A name is given twice only where an earlier line gave it, and that line is found.
    ', which was given to a {word} before\n',
    # It wants 4,096 live packets, of each of which a run tells two lines and its audit one: more than a megabyte.
    'there is no room for another packet',
}

LITERAL = re.compile(r'''(?P<byte>b)?"(?P<text>(?:[^"\\]|\\.)*)"|'(?:[^'\\]|\\.)'|//[^\n]*''', re.S)
ESCAPES = {'n': '\n', 't': '\t', 'r': '\r', '0': '\0', '"': '"', "'": "'", '\\': '\\'}
# Lines of a set that are quoted: those round a place, and the one behind the number of a position or of a device's line.
AROUND = re.compile(r'^  [> ] +[0-9]+  .*$', re.M)
BEHIND = re.compile(r'(at [0-9]+, line [0-9]+|^(?:the device|under it|the queue), line [0-9]+): .*$', re.M)

def plain(raw):
    """A literal without its escapes, and without line ends that are escaped."""
    raw = re.sub(r'\\\n\s*', '', raw)
    return re.sub(r'\\(.)', lambda found: ESCAPES[found.group(1)], raw)

class Text:
    """A literal: its place, and the constant parts of it."""

    def __init__(self, crate, path, line, literal):
        self.crate, self.path, self.line, self.literal = crate, path, line, literal
        self.is_word = path in TABLES and re.fullmatch(r'\w+', literal)
        unfolded = literal.replace('{{', '\1').replace('}}', '\2')
        self.parts = [part.replace('\1', '{').replace('\2', '}') for part in re.split(r'\{[^{}]*\}|\$[RQLAE]', unfolded)]
        self.longest = max(self.parts, key=len)

    def pattern(self):
        """What it looks like in an answer."""
        if self.is_word:
            return re.compile('did you mean: `%s`' % re.escape(self.literal))
        return re.compile('[^\n]*?'.join(re.escape(part) for part in self.parts))

    def is_text(self):
        return re.search('[A-Za-z]{3}', ''.join('\0' + part for part in self.parts))

    def place(self):
        return 'crates/%s:%d' % (self.path, self.line)

def without_clauses(source):
    """A source without its ghost clauses, which are replaced by blanks; lines stay."""
    return re.sub(r'^\s*(ghost use|requires|ensures|ghost)\b[^\n]*', '', source, flags=re.M)

def is_pattern(source, found):
    """Whether a literal is one that something is compared with."""
    before, behind = source[:found.start()], source[found.end():]
    return re.search(r'(\||==|matches!\(word,)\s*$', before[-40:]) or re.match(r'\s*(=>|\|[^|])', behind[:40])

def texts_of(crate):
    """The texts of a crate."""
    folder = os.path.join(TOP, 'crates', crate, 'src')
    for name in sorted(os.listdir(folder)):
        path = '%s/src/%s' % (crate, name)
        source = without_clauses(open(os.path.join(folder, name)).read())
        for found in LITERAL.finditer(source):
            if found.group('text') is None or found.group('byte') or is_pattern(source, found):
                continue
            text = Text(crate, path, source.count('\n', 0, found.start()) + 1, plain(found.group('text')))
            if text.is_text():
                yield text

def answers_to(groups, commands):
    """What is answered to these commands, without what is quoted of sets."""
    runs = [run for group in groups for run in group.runs if run.words[0] in commands]
    whole = '\n'.join('\n'.join(run.answer) for run in runs) + '\n'
    return BEHIND.sub(r'\1: ', AROUND.sub('', whole))

def is_within(part, longer):
    """Whether a longer part has the letters of another, and more letters."""
    before, _, behind = longer.partition(part)
    return part in longer and re.search('[A-Za-z]', before + behind)

def times_told(text, texts, answers):
    """How often a text stands in answers where no longer one has it."""
    longer = {part for other in texts for part in other.parts if is_within(text.longest, part)}
    for part in sorted(longer, key=len, reverse=True):
        answers = answers.replace(part, '\0')
    return len(text.pattern().findall(answers))

def counted(groups, crates):
    """The texts of crates, each with how often it is told."""
    texts, answers = [text for crate in crates.split() for text in texts_of(crate)], answers_to(groups, CRATES[crates])
    for text in texts:
        yield text, times_told(text, texts, answers)

def main():
    groups, count, unseen = stored_runs.groups(), 0, 0
    for crates in CRATES:
        for text, times in counted(groups, crates):
            count += 1
            missing = (times > 0) == (text.literal in LEFT_OUT)
            unseen += missing
            if missing or '--all' in sys.argv:
                print('%s: %d: %s' % (text.place(), times, text.literal.replace('\n', '\\n')))
    print('%d texts, %d in no stored answer or against what is said here, %d left out' % (count, unseen, len(LEFT_OUT)))
    return 1 if unseen else 0

if __name__ == '__main__':
    sys.exit(main())
