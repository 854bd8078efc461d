#!/usr/bin/env python3
"""tools/try hunts [--states N] [PROGRAM]: has the program hunt in each wrong driver of the gallery, in each mended one and in each
example (at most N worlds, 20,000 if no number is given). What is found has to end as its first line tells, by `tell --unchecked`,
with exit status 1; where the run by hand shows that the driver is wrong, one has to be found, and with no more events. Where none
is found, and all worlds were seen, that run mustn't show it, and `--stuck` is asked for too: the audit of such a run has nothing
amiss, and names each packet that lives. With `--scenario` each find has to be a scenario under the same first line, which fails in
`test --unchecked` at its last line, where it expects a clean run, and of which `schedule` writes the find's events; one that is
stuck has none. The last lines count finds and events."""
import argparse, glob, os, re, subprocess, sys, tempfile

import finds
import gallery

FINDING = re.compile(r'^; (.*)$', re.M)
UNSHOWN = '; a run was found that no scenario shows: hunt without --scenario for its schedule\n'

def answer(program, *words):
    """What the program writes, and the exit status."""
    done = subprocess.run([program, *words], capture_output=True, text=True, timeout=600)
    return done.stdout, done.returncode

def events(told):
    """How many events a told run has."""
    numbers = re.findall(r'^(\d+) ', told.partition('\naudit\n')[0], re.M)
    return int(numbers[-1]) + 1 if numbers else 0

def lines(schedule):
    """The lines of a schedule, without what is said of them."""
    return list(filter(None, (line.partition(';')[0].strip() for line in schedule.splitlines())))

class Hunt:
    """What comes of a hunt in the set of a file, and with `--scenario`."""

    def __init__(self, program, path, states, *more):
        asked = ['hunt', '--states', str(states), *more, path]
        self.program, self.path, (self.text, self.status) = program, path, answer(program, *asked)
        self.scenario = answer(program, *asked, '--scenario')
        self.is_all = self.text.startswith('none: all ')
        self.told, self.told_status = None, None
        if self.status == 1:
            with tempfile.NamedTemporaryFile('w', suffix='.sched') as file:
                file.write(self.text)
                file.flush()
                self.told, self.told_status = answer(program, 'tell', '--unchecked', '--every', path, file.name)

    def is_stuck(self):
        """Whether a run was found that is stuck."""
        return self.status == 1 and self.text.startswith('; not at rest; ')

    def played(self):
        """What is wrong with the scenario of a find."""
        text, status = self.scenario
        if status != self.status:
            return ['with --scenario its exit status is %d' % status]
        if self.status == 0 or self.is_stuck():
            return [] if text == (UNSHOWN if self.status else self.text) else ['it has a scenario: ' + text]
        with tempfile.NamedTemporaryFile('w', suffix='.scenario') as file:
            file.write(text)
            file.flush()
            asked = ['--unchecked', self.path, file.name]
            (told, failed), (schedule, _) = answer(self.program, 'test', *asked), answer(self.program, 'schedule', *asked)
        wanted = 'failed %s line %d: expected clean, ' % (file.name, text.count('\n'))
        fails = failed == 1 and told.startswith(wanted) and FINDING.match(text)[0] == FINDING.match(self.text)[0]
        return [] if fails and lines(schedule) == lines(self.text) else ['its scenario does not fail by it: ' + text]

    def wrong(self):
        """What is wrong with a find."""
        return self.played() + self.ended()

    def ended(self):
        """What is wrong with its end."""
        if self.status not in (0, 1) or (self.status == 0) != self.text.startswith('none'):
            return ['exit status %d' % self.status]
        if self.status == 0:
            return []
        finding = FINDING.match(self.text).group(1)
        if self.is_stuck():
            audit = self.told.partition('\naudit\n')[2]
            packets = re.findall(r'; packet (\d+) is live', finding)
            shows = self.told_status == 0 and all(re.search(r'packet %s\b' % it, audit) for it in packets)
            return [] if shows else ['its run does not end as told: ' + finding]
        shows = self.told_status == 1 and finds.is_shown(finding, self.told)
        return [] if shows else ['its run does not end as told: ' + finding]

def by_hand(program, folder):
    """How many events the run by hand has, if it shows that the driver is wrong."""
    told, status = answer(program, *gallery.words(folder, gallery.TELL))
    return events(told) if status == 1 else None

def main():
    parser = argparse.ArgumentParser()
    parser.add_argument('--states', type=int, default=20000)
    parser.add_argument('program', nargs='?', default=os.path.join(gallery.TOP, 'crates/drvhost/out/drvhost'))
    asked = parser.parse_args()
    program, told, shown, found, hunted, hand, stuck = os.path.abspath(asked.program), [], 0, 0, 0, 0, []

    def look_on(hunt):
        """Looks for a run that is stuck, where none ends amiss."""
        if hunt.is_all:
            on = Hunt(program, hunt.path, asked.states, '--stuck')
            told.extend('%s: %s' % (on.path, it) for it in on.wrong())
            stuck.extend([os.path.relpath(on.path, gallery.TOP)] if on.is_stuck() else [])

    for folder in gallery.folders():
        hunt, wanted = Hunt(program, gallery.path(folder, 'driver.drv'), asked.states), by_hand(program, folder)
        told += ['%s: %s' % (folder, it) for it in hunt.wrong()]
        look_on(hunt)
        if wanted is None:
            continue
        shown += 1
        if hunt.status == 1:
            found, hunted, hand = found + 1, hunted + events(hunt.told), hand + wanted
        if hunt.is_all or hunt.status == 1 and events(hunt.told) > wanted:
            told.append('%s: by hand there is a run of %d events' % (folder, wanted))
    others = [gallery.path(it, 'mended.drv') for it in gallery.folders() if gallery.is_mended(it)]
    others += sorted(glob.glob(os.path.join(gallery.TOP, 'examples/*.drv')))
    for path in others:
        hunt = Hunt(program, path, asked.states)
        told += ['%s: %s' % (path, it) for it in hunt.wrong()]
        look_on(hunt)
    print('stuck: ' + ' '.join(stuck))
    print('\n'.join(told + ['%d of %d wrong drivers that a run shows were found, in %d events (%d by hand); %d wrong'
                            % (found, shown, hunted, hand, len(told))]))
    return 1 if told else 0

sys.exit(main())
