#!/usr/bin/env python3
"""tools/try scenarios [PROGRAM]: plays scenarios with the program (crates/drvhost/out/drvhost). Each scenario of an example
has to hold, as `test --unchecked` says. Of each schedule of the gallery a scenario is made that does the same and expects a clean
run at its end: a mended driver has to pass it, and a wrong one to fail it in the line in which its run stops, at the end where
the audit finds something amiss, and nowhere else. The schedule that `schedule` writes of each has to make the same events
and replies, but for those that do nothing. Reports of tests whose names attack have to be read as they are meant: TAP by `prove`
(on Debian in `perl`), JUnit by Python's parser, and by `xmllint` where it is there. The last line counts."""
import glob, os, re, subprocess, sys, tempfile

import gallery, reports

# Replies to events that change nothing.
NOTHING = 'refused', 'idle', 'waited'
STOPS = 'bug', 'wrong'

def answer(program, *words):
    """What the program writes, and its exit status."""
    done = subprocess.run([program, *words], capture_output=True, text=True, timeout=60)
    return done.stdout + done.stderr, done.returncode

def replies(program, driver, schedule):
    """The replies of a run, without their numbers."""
    return [line.split(' ', 1)[1] for line in answer(program, 'trace', '--unchecked', driver, schedule)[0].splitlines()]

def step_of(line, said):
    """A line of a schedule as a step of a scenario, by the replies to its events; None where it names no packet."""
    word, *operands = line.split()
    if word == 'cancel':
        operands[1] = 'p' + operands[1]
    if word == 'issue':
        started = re.match(r'started (\d+)', said[0])
        word = '%s = issue' % ('p' + started[1] if started else 'none')
    may = any(reply.startswith(NOTHING) for reply in said) and not said[-1].startswith(STOPS)
    return ' '.join(['may'] * may + [word] + operands)

def scenario_of(text, said):
    """A schedule as a scenario that expects a clean run, and the number of the line in which the run stops, or None."""
    steps, issued = [], set()
    for line in filter(None, (line.split(';')[0].strip() for line in text.splitlines())):
        word, *operands = line.split()
        if word == 'threads':
            steps.append(line)
            continue
        count = int(operands[1]) if word == 'step' and operands[1:] else 1
        here, said = said[:count], said[count:]
        if not here:
            break
        if word != 'cancel' or operands[1] in issued:
            steps.append(step_of(line, here))
        issued.update(re.findall(r'^started (\d+)', here[0]))
        if here[-1].startswith(STOPS):
            return steps + ['expect clean'], len(steps)
    return steps + ['expect clean'], None

def failing_line(told):
    """The number of the line that fails, as a test tells it; None where all holds."""
    failed = re.match(r'failed \S+ line (\d+):', told)
    return int(failed[1]) if failed else None

def is_played(program, driver, schedule, folder):
    """Whether the scenario of a schedule fails where the run does, and makes the same events."""
    said = replies(program, driver, schedule)
    steps, wanted = scenario_of(open(schedule).read(), said)
    if wanted is None and answer(program, 'tell', '--unchecked', driver, schedule)[1] == 1:
        wanted = len(steps)
    scenario, made = os.path.join(folder, 'a.scenario'), os.path.join(folder, 'a.sched')
    with open(scenario, 'w') as file:
        file.write('\n'.join(steps) + '\n')
    told, status = answer(program, 'test', '--unchecked', driver, scenario)
    with open(made, 'w') as file:
        file.write(answer(program, 'schedule', '--unchecked', driver, scenario)[0])
    doing = [reply for reply in said if not reply.startswith(NOTHING)]
    done = [reply for reply in replies(program, driver, made) if not reply.startswith(NOTHING)]
    return failing_line(told) == wanted and status == (wanted is not None) and doing == done

def driver_of(scenario):
    """The driver of an example's scenario: of its name, or of what stands in that before a dash."""
    name = scenario.removesuffix('.scenario')
    names = name, name.rpartition('-')[0]
    return next(it + '.drv' for it in names if os.path.isfile(it + '.drv'))

def main():
    program = os.path.abspath(sys.argv[1]) if len(sys.argv) > 1 else os.path.join(gallery.TOP, 'crates/drvhost/out/drvhost')
    tried, wrong = 0, []
    for scenario in sorted(glob.glob(os.path.join(gallery.TOP, 'examples/**/*.scenario'), recursive=True)):
        tried += 1
        wrong += [scenario] * (answer(program, 'test', '--unchecked', driver_of(scenario), scenario)[1] != 0)
    with tempfile.TemporaryDirectory() as folder:
        for name in gallery.folders():
            for driver in ['driver.drv'] + ['mended.drv'] * gallery.is_mended(name):
                tried += 1
                asked = [gallery.path(name, file) for file in (driver, 'events.sched')]
                wrong += [asked[0]] * (not is_played(program, *asked, folder))
    for path in wrong:
        print('%s: its scenario says something else' % os.path.relpath(path, gallery.TOP))
    with tempfile.TemporaryDirectory() as folder:
        faults = list(reports.faults_of(program, folder))
    for fault in faults:
        print('a report: %s' % fault)
    print('%d scenarios, %d wrong, %d faults of reports' % (tried, len(wrong), len(faults)))
    return 1 if wrong or faults else 0

sys.exit(main())
