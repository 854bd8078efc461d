#!/usr/bin/env python3
"""tools/keep contracts [--under N] [CRATE ..] | --waiting: how many functions say by a clause what they answer.

Of each crate named, or of all but those of tests, it prints how many functions it has with a body, how many of these have an
`ensures` of their own, and the same of those that another crate can call. A function without one is proved to be safe and to
end, and no more. Methods that a trait asks for are counted apart: what they answer the trait may say. With --under N only
crates are printed of which less than N percent of the functions say what they answer. The last line adds up.

With --waiting it prints the functions that have leave to wait (`Wait`), of which another crate can call: what is said of these
holds if they return, and that they end isn't proved."""
import re, sys

from beliefs import ITEM, METHOD, TESTS, block, header, listed, name_after, shown_types, sources, type_of

IMPL_FOR = re.compile(r'^impl\b[^{]*?\bfor\b', re.S)

class Function:
    """A function with a body: its name, whether another crate can call it, whether a trait asks for it, and its header."""

    def __init__(self, name, is_shown, is_asked, head):
        self.name, self.is_shown, self.is_asked = name, is_shown, is_asked
        self.says = bool(re.search(r'\bensures\b', head))
        self.waits = bool(re.search(r'\bWait\b', head))

def head_of(text, at):
    """The text of a function's header up to where its body opens; None where it has no body."""
    _, end = header(text, at)
    if text[end - 1] == ';':
        return None
    depth = 0
    for place in range(end - 1, at, -1):
        depth += {'}': 1, '{': -1}.get(text[place], 0)
        if depth == 0:
            return text[at:place]
    raise ValueError(text[at:at + 80])

def functions(crate):
    """The functions of a crate."""
    all_sources = sources(crate)
    shown = shown_types(all_sources)
    for it in all_sources:
        for item in ITEM.finditer(it.text):
            if item[2] == 'fn':
                head, name = head_of(it.text, item.end()), name_after(it.text, item.end())
                if head is not None:
                    yield Function(name, item[1] == 'pub ' and it.shows(name), False, head)
            if item[2] in ('impl', 'trait'):
                yield from methods(it.text, item, shown)

def methods(text, item, shown):
    """Those of a block of functions."""
    opening = text.index('{', item.end())
    inner = text[opening + 1:block(text, opening) - 1]
    asked = item[2] == 'trait' or bool(IMPL_FOR.match(text[item.start():opening + 1]))
    owner = type_of(text, item)
    for method in METHOD.finditer(inner):
        head = head_of(inner, method.end())
        if head is not None:
            name = '%s::%s' % (owner, name_after(inner, method.end()))
            yield Function(name, method[1] == 'pub ' and owner in shown, asked, head)

def tell_waiting(names):
    """Prints the functions with leave to wait that are called from outside."""
    for name in names:
        found = [it for it in functions(name) if it.waits]
        if found:
            print('%-16s %d functions may wait; called from outside: %s' % (
                name, len(found), ' '.join(it.name for it in found if it.is_shown) or 'none'))

def main():
    words = sys.argv[1:]
    under = int(words.pop(words.index('--under') + 1)) if '--under' in words else 101
    names = [word for word in words if not word.startswith('--')] or [crate for crate in listed() if crate not in TESTS]
    unknown = [name for name in names if name not in listed()]
    if unknown:
        sys.exit('no such crate: ' + ' '.join(unknown))
    if '--waiting' in words:
        return tell_waiting(names)
    whole = [0, 0, 0]
    for name in names:
        found = list(functions(name))
        own = [it for it in found if not it.is_asked]
        says = sum(it.says for it in own)
        shown = [it for it in own if it.is_shown]
        whole = [whole[0] + len(own), whole[1] + says, whole[2] + len(found) - len(own)]
        if own and 100 * says < under * len(own):
            print('%-16s %3d of %3d functions say what they answer; of those that are called from outside %3d of %3d' % (
                name, says, len(own), sum(it.says for it in shown), len(shown)))
    print('%d of %d functions say what they answer; %d more are asked for by traits' % (whole[1], whole[0], whole[2]))

if __name__ == '__main__':
    main()
