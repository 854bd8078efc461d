#!/usr/bin/env python3
"""tools/try pages: whether docs/RULES.md says of each rule what its page in crates/verifier_names/src/pages.rt says, which `drvhost
explain --rule` prints: what the rule says, what it goes with, the example, refused and mended, and the hunt that shows it; and likewise of the
warning on the order of locks. It tells each difference.
The last line counts."""
import os, re, sys

TOP = os.path.dirname(os.path.dirname(os.path.dirname(os.path.abspath(__file__))))
PAGES = 'crates/verifier_names/src/pages.rt'
NAMES = 'crates/model/src/words.rt'
DOCUMENT = 'docs/RULES.md'
WARNING = 'LockOrder'
PAGE = re.compile(r'^static (\w+): Page = Page \{\n(.*?)^\};', re.M | re.S)
TEXT = re.compile(r'\b(says|source|text|mend): "((?:[^"\\]|\\.)*)"', re.S)
SIDES = ('refused', '-', '+'), ('mended', '+', '-')
SHOWN = re.compile(r'\bshown_by: Some\((?:"(.*?)"|(FIRST_TEXT))\)')
FIRST = re.compile(r'^const FIRST_TEXT: &str = "(.*)";', re.M)

def read(name):
    with open(os.path.join(TOP, name)) as source:
        return source.read()

def meant(literal):
    """What a string of the source says: a backslash takes the end of its line and the blanks after it away."""
    return re.sub(r'\\\n\s*', '', literal).replace('\\"', '"').replace('\\n', '\n')

def side(text, own, other):
    """One of the two texts of an example, which has the lines behind one sign and not those behind the other."""
    lines = (line for line in text.splitlines() if not line.startswith(other))
    return ''.join(line.removeprefix(own) + '\n' for line in lines)

def fields(body):
    """The texts of a page, with those of its example apart."""
    found = {field: meant(text) for field, text in TEXT.findall(body)}
    text = found.pop('text', None)
    return {**found, **({} if text is None else {name: side(text, own, other) for name, own, other in SIDES})}

def pages():
    """The texts of each rule's page, by the name of the rule, and of the warning's."""
    source = read(PAGES)
    constants = {name: fields(body) for name, body in PAGE.findall(source)}
    for name, body in PAGE.findall(source):
        for other, first in SHOWN.findall(body):
            constants[name]['shown by'] = other or FIRST.search(source)[1]
    rules = {rule: constants[name] for rule, name in re.findall(r'Rule::(\w+) => &(\w+),', source)}
    return {**rules, WARNING: constants['LOCK_ORDER']}

def titles():
    """The number and the name of each rule, as `V1 Malformed`, and the warning's name."""
    return {**dict(re.findall(r'Rule::(\w+) => "(V\d+ \w+)"', read(NAMES))), WARNING: WARNING}

def sections():
    """The section of each rule in the document, by its title, as `V1 Malformed`."""
    parts = re.split(r'^###? (.*)\n', read(DOCUMENT), flags=re.M)
    return dict(zip(parts[1::2], parts[2::2]))

def joined(text):
    """A text without a thought to how its lines end."""
    return ' '.join(text.split())

def plain(section):
    """The paragraphs of a section before its first example, joined."""
    return [joined(paragraph) for paragraph in section.split('<!--')[0].split('\n\n') if paragraph.strip()]

def differences(page, section):
    """The parts of a page that a section hasn't got."""
    told = plain(section)
    drivers = re.findall(r'^```drv\n(.*?)^```$', section, re.M | re.S)
    if joined(page['says']) not in told[:1]:
        yield 'says'
    if 'Goes with: %s.' % joined(page['source']) not in told:
        yield 'source'
    if 'refused' in page and (page['refused'], page['mended']) not in zip(drivers, drivers[1:]):
        yield 'example'
    if 'shown by' in page and shown_by(page['shown by']) not in section.split('\n'):
        yield 'shown by'

def shown_by(hunted):
    """What the document says of the hunt that shows a rule."""
    file, _, how = hunted.partition(',')
    return 'Shown by: `drvhost hunt %s`%s.' % (file, how and ',' + how)

def main():
    told, named, differ = sections(), titles(), 0
    for rule, page in pages().items():
        for part in differences(page, told.get(named[rule], '')):
            differ += 1
            print('%s: %s: %s differs' % (DOCUMENT, named[rule], part))
    print('%d pages, %d differences' % (len(pages()), differ))
    return 1 if differ else 0

if __name__ == '__main__':
    sys.exit(main())
