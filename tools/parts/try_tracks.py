#!/usr/bin/env python3
"""Whether the trace events of drawn runs are such as Perfetto reads, and what `trace` shows.

    tools/try tracks PROGRAM [SET SCHEDULE]     these, or each example that has a schedule

Each trace is one value of JSON. Per track spans begin and end in order, one within the other, and all
end; a flow begins once, and goes on within spans (behind its end where a packet that topped out is
used); counters never fall
below zero; there is an instant for each packet that tops out, for a refused event and for a bug check;
and the last moment is the number of events."""
import glob, json, os, subprocess, sys

import gallery

TOP = os.path.dirname(os.path.dirname(os.path.dirname(os.path.abspath(__file__))))


def run(program, *words):
    return subprocess.run([program, *words], capture_output=True)


def span_faults(events):
    """What is wrong with the spans, and where each track has one."""
    open_spans, within = {}, {}
    for event in sorted((it for it in events if it['ph'] in 'BE'), key=lambda it: it['ts']):
        stack = open_spans.setdefault(event['tid'], [])
        if event['ph'] == 'B':
            stack.append(event['ts'])
        elif not stack:
            yield f"a span of track {event['tid']} ends at {event['ts']} that never began"
        else:
            within.setdefault(event['tid'], []).append((stack.pop(), event['ts']))
    for track, stack in open_spans.items():
        if stack:
            yield f'{len(stack)} spans of track {track} never end'
    for event in events:
        if event['ph'] in 'st' and not any(begin <= event['ts'] <= end
                                           for begin, end in within.get(event['tid'], [])):
            yield f"a part of flow {event['id']} at {event['ts']} is in no span"


def flow_faults(events):
    """What is wrong with the flows."""
    state = {}
    for event in events:
        if event['ph'] not in 'stf':
            continue
        before = state.get(event['id'])
        if (event['ph'] == 's') != (before is None):
            yield f"flow {event['id']} has {event['ph']} behind {before}"
        state[event['id']] = event['ph']


def count_faults(text, events):
    """Whether there are as many instants as the trace has lines of a kind."""
    lines = [line.split()[1] for line in text.splitlines() if line.strip()]
    for word, name in (('topped', 'tops out'), ('refused', 'refused')):
        wanted = lines.count(word)
        found = sum(it['ph'] == 'i' and it['name'] == name for it in events)
        if wanted != found:
            yield f'{found} instants "{name}", {wanted} lines {word}'
    last = max((it['ts'] for it in events), default=0)
    if last > len(lines):
        yield f'the last moment is {last}, the events are {len(lines)}'
    for event in events:
        if event['ph'] == 'C' and event['args']['packets'] < 0:
            yield 'a counter is below zero'


def faults_of(program, files):
    words = [*files, '--unchecked']
    drawn = run(program, 'draw', *words, '--format', 'perfetto')
    traced = run(program, 'trace', *words)
    if drawn.returncode != traced.returncode:
        yield f'exit status {drawn.returncode}, of the trace {traced.returncode}'
    events = json.loads(drawn.stdout)['traceEvents']
    for event in events:
        if missing := [it for it in ('ph', 'ts', 'pid', 'tid', 'name') if it not in event]:
            yield f'an event without {missing}'
    yield from span_faults(events)
    yield from flow_faults(events)
    yield from count_faults(traced.stdout.decode(), events)


def main():
    if len(sys.argv) not in (2, 4):
        sys.exit(__doc__)
    program = os.path.abspath(sys.argv[1])
    pairs = [tuple(sys.argv[2:])] if len(sys.argv) == 4 else [
        (set_, schedule) for set_ in sorted(glob.glob(f'{TOP}/examples/*.drv'))
        if os.path.exists(schedule := set_[:-4] + '.sched')]
    if len(sys.argv) == 2:
        pairs += [(gallery.path(name, 'driver.drv'), gallery.path(name, 'events.sched')) for name in gallery.folders()]
    wrong = 0
    for files in pairs:
        for fault in faults_of(program, files):
            wrong += 1
            print(f'{os.path.relpath(files[0], TOP)}: {fault}')
    print(f'{len(pairs)} traces, {wrong} faults')
    return wrong > 0


if __name__ == '__main__':
    sys.exit(main())
