"""What the tools `try`, `measure` and `keep` have in common: a word says which part does the
work."""
import ast, os, runpy, sys, textwrap

PARTS = os.path.dirname(os.path.abspath(__file__))

def about(part):
    """What a part does: the beginning of its first sentence, without how it is called."""
    text = ast.get_docstring(ast.parse(open(os.path.join(PARTS, part + '.py')).read())) or ''
    head, _, rest = text.partition(': ')
    told = rest if head.startswith('tools/') else text
    return textwrap.shorten(told.partition('. ')[0], 100, placeholder=' ..')

def perform(told, parts):
    """Runs the part of the first word with the words behind it; without one it says what parts there are."""
    if len(sys.argv) < 2 or sys.argv[1] not in parts:
        print(told)
        for word, part in parts.items():
            print('  %-16s %s' % (word, about(part)))
        sys.exit(len(sys.argv) > 1)
    part = parts[sys.argv[1]]
    sys.argv = [os.path.join(PARTS, part + '.py')] + sys.argv[2:]
    runpy.run_path(sys.argv[0], run_name='__main__')
