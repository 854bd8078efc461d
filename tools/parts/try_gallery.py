#!/usr/bin/env python3
"""tools/try gallery [PROGRAM]: runs the program (crates/drvhost/out/drvhost) on each wrong driver of the gallery, and tells where it says
anything else than what is stored there. A mended driver has to be accepted, and its run to come to its end. The last line
counts, and lists the rules and bug checks shown."""
import os, re, sys

import gallery
from stored_runs import answered, difference

def main():
    program = os.path.abspath(sys.argv[1]) if len(sys.argv) > 1 else os.path.join(gallery.TOP, 'crates/drvhost/out/drvhost')
    wrong, rules, bugs = 0, set(), set()
    for run in gallery.GROUP.runs:
        told = answered(program, run, gallery.DATA)
        rules.update(re.findall(r'^refused (V\d+)', '\n'.join(told), re.M))
        bugs.update(re.findall(r'bug (0x\w+)', '\n'.join(told)))
        is_mended = any(name.endswith('/mended.drv') for name in run.files())
        if difference(run, told, False) or is_mended and told[-1] != 'status 0':
            wrong += 1
            print('%s differs' % run.lines()[0])
    by_number = sorted(rules, key=lambda rule: int(rule[1:]))
    print('%d answers, %d wrong; rules %s; bug checks %s' % (len(gallery.GROUP.runs), wrong, ' '.join(by_number), ' '.join(sorted(bugs))))
    return 1 if wrong else 0

sys.exit(main())
