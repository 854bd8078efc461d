#!/usr/bin/env python3
"""tools/measure program [--runs N] [--encoder ENCODER] PROGRAM OTHER ..: times programs that answer the same commands, on
inputs at the limits, each writing to /dev/null, in turn. Prints the least of N times of each (5 if left out), in
milliseconds, and its ratio to that of the first; at the end, how many times what `trace` takes for as many
events `host` takes with one worker, and how many times what `check` takes `explain` takes of each input that both get. All must answer the same bytes, but where several workers serve
commands in an order of their own: then as many lines, and histories that agree. The images are those that 'ENCODER
encode TEXT IMAGE' makes of texts; without an encoder the rows of images are left out. With --only WORD the rows whose
names have this word. Rows with more than 1,000 packets live, or with 64 threads or workers, are of the second limits."""
import argparse, os, subprocess, sys, tempfile, time

def routine(name, instructions):
    body = ['const r%d %d' % (1 + i % 15, i) for i in range(instructions - 2)]
    return ['routine %s dispatch' % name] + body + ['complete r0 SUCCESS', 'ret SUCCESS', 'endr']

def large_set(drivers, shape):
    """So many drivers of 32 routines of 1,024 instructions, 16 devices."""
    lines = []
    for d in range(drivers):
        lines += ['driver d%d' % d, 'dispatch READ f0']
        for r in range(32):
            lines += shape('f%d' % r, 1024)
        lines.append('endd')
    lines += ['device v%d d%d 16' % (i, i % drivers) for i in range(16)]
    return lines

def largest_set():
    return large_set(8, routine)

def branching(name, instructions):
    """A routine of loops, nested twice, tests and jumps over them, cells and locks."""
    body = ['const r1 0', 'const r2 1']
    block = ['loop 1', 'loop 1', 'add r1 r2', 'jz r1 %s', 'store c1 r1', '%s: end', 'end', 'jlt r1 r2 %s',
             'acquire l0', 'load r3 c1', 'release l0', 'clear r3', '%s: clear r4']
    for i in range((instructions - 4) // len(block)):
        a, b = 'a%d' % i, 'b%d' % i
        labels = iter([a, a, b, b])
        body += [line % next(labels) if '%s' in line else line for line in block]
    body += ['clear r5'] * (instructions - 2 - len(body))
    return ['routine %s dispatch' % name] + body + ['complete r0 SUCCESS', 'ret SUCCESS', 'endr']

def largest_branching_set():
    return large_set(8, branching)

def one_routine(body):
    return ['driver d', 'dispatch READ f', 'routine f dispatch'] + body + ['endr', 'endd', 'device v d 1']

def through_a_queue():
    """A driver that puts its packets into a queue, from which its DPC routine completes them: its text, the events of a
    request and those of a completion."""
    text = ['driver d', 'queue q l0', 'dispatch READ f', 'dpc g', 'routine f dispatch', 'mark r0', 'acquire l0', 'insert r0 q', 'release l0',
            'ret PENDING', 'endr', 'routine g dpc', 'acquire l0', 'remove r0 q none', 'release l0', 'complete r0 SUCCESS', 'ret void',
            'none: release l0', 'ret void', 'endr', 'endd', 'device v d 1']
    return text, ['issue 0 0 READ 0'] + ['step 0'] * 5, ['interrupt 0', 'dpc 1 0'] + ['step 1'] * 6

def through_startio():
    """The same of a driver that starts its packets one at a time."""
    text = ['driver d', 'dispatch READ f', 'startio s', 'dpc g', 'routine f dispatch', 'mark r0', 'start r0', 'ret PENDING', 'endr',
            'routine s startio', 'begin r0', 'ret void', 'endr', 'routine g dpc', 'take r0 none', 'next', 'complete r0 SUCCESS', 'ret void',
            'none: ret void', 'endr', 'endd', 'device v d 1']
    return text, ['issue 0 0 READ 0'] + ['step 0'] * 3, ['startio 1 0'] + ['step 1'] * 2 + ['interrupt 0', 'dpc 1 0'] + ['step 1'] * 5

def through_a_cancelable_queue():
    """A driver that puts its packets into a queue with a cancel routine, from which its DPC routine completes them: its text, the
    lines of a request, those of a completion, and those of a cancel after its first, which names the packet."""
    text = ['driver d', 'queue q l0 gone', 'dispatch READ f', 'dpc g', 'routine f dispatch', 'mark r0', 'acquire l0', 'insert r0 q', 'arm r0 q',
            'ifcancel r0 was', 'release l0', 'ret PENDING', 'was: disarm r0 lost', 'unlink r0 q', 'release l0', 'complete r0 CANCELLED',
            'ret PENDING', 'lost: release l0', 'ret PENDING', 'endr', 'routine g dpc', 'acquire l0', 'remove r0 q none', 'disarm r0 none',
            'release l0', 'complete r0 SUCCESS', 'ret void', 'none: release l0', 'ret void', 'endr', 'routine gone cancel', 'relc', 'acquire l0',
            'unlink r0 q', 'release l0', 'complete r0 CANCELLED', 'ret void', 'endr', 'endd', 'device v d 1']
    return text, ['issue 0 0 READ 0', 'step 0 7'], ['interrupt 0', 'dpc 1 0', 'step 1 7'], ['step 1 10']

def through_a_cancelable_device_queue():
    """The same of a driver that starts its packets one at a time, each of which can be cancelled while it waits."""
    text = ['driver d', 'dispatch READ f', 'startio s gone', 'dpc g', 'routine f dispatch', 'mark r0', 'acqc', 'ifcancel r0 was', 'start r0',
            'relc', 'ret PENDING', 'was: relc', 'complete r0 CANCELLED', 'ret PENDING', 'endr', 'routine s startio', 'begin r0', 'ret void',
            'endr', 'routine g dpc', 'take r0 none', 'acqc', 'next', 'relc', 'complete r0 SUCCESS', 'ret void', 'none: ret void', 'endr',
            'routine gone cancel', 'dequeue r0', 'relc', 'complete r0 CANCELLED', 'ret void', 'endr', 'endd', 'device v d 1']
    return text, ['issue 0 0 READ 0', 'step 0 6'], ['startio 1 0', 'step 1 2', 'interrupt 0', 'dpc 1 0', 'step 1 7'], ['step 1 8']

def cancelled_while_waiting(requests, waiting, request, completion, cancel):
    """Nearly so many requests: one is started and so many wait, every other one of these is cancelled and the rest are
    completed, again and again."""
    lines = ['threads 2']
    for first in range(0, requests - waiting, waiting + 1):
        lines += request * (waiting + 1)
        for number in range(first + 1, first + 1 + waiting, 2):
            lines += ['cancel 1 %d 0' % number] + cancel
        lines += completion * (1 + waiting // 2)
    return lines

def half_cancelled(requests, live, request, completion, cancel):
    """So many requests: so many are queued, every other one of them is cancelled and the rest are completed, again and again."""
    lines = ['threads 2']
    for first in range(0, requests, live):
        lines += request * live
        for number in range(first, first + live, 2):
            lines += ['cancel 1 %d 0' % number] + cancel
        lines += completion * (live // 2)
    return lines

def a_line_each(lines):
    """A schedule with a line for each event."""
    for line in lines:
        words = line.split()
        if words[0] == 'step' and len(words) == 3:
            yield from ['step ' + words[1]] * int(words[2])
        else:
            yield line

def events_with(live, request, completion):
    """300,000 events: so many packets are issued, and then the oldest is completed and another one issued, again and again."""
    turn = completion + request
    return ['threads 2'] + (request * live + turn * (300000 // len(turn) + 1))[:300000]

def cases():
    long_routine = one_routine(['const r1 %d' % i for i in range(1022)] + ['complete r0 SUCCESS', 'ret SUCCESS'])
    requests = ['threads 32']
    for i in range(970):
        requests += ['issue %d 0 READ %d' % (i % 32, i), 'step %d 1025' % (i % 32)]
    yield 'check of the largest set', 'check', largest_set(), None
    yield 'check of a half of it', 'check', large_set(4, routine), None
    yield 'check of a quarter of it', 'check', large_set(2, routine), None
    yield 'check of the largest set, with loops and jumps', 'check', largest_branching_set(), None
    yield 'check of a text of 4 MB, most of it comments', 'check', ['; ' + 'x' * 78] * 50000 + largest_set()[:1], None
    yield 'trace of 1,000,000 steps of an idle thread', 'trace', one_routine(['complete r0 SUCCESS', 'ret SUCCESS']), ['threads 1', 'step 0 1000000']
    yield 'trace of 970 requests, 1,025 steps each', 'trace', long_routine, requests
    for threads in 32, 64:
        yield 'trace of 300,000 steps on %d threads' % threads, 'trace', \
            one_routine(['mark r0', 'clear r1', 'complete r0 SUCCESS', 'ret PENDING']), ['threads %d' % threads] \
            + ['issue %d 0 READ 0' % t for t in range(threads)] + ['step %d' % (i % threads) for i in range(300000)]

    yield 'trace of 999,999 steps of loops', 'trace', \
        one_routine(['const r1 0', 'const r2 1', 'loop 1000', 'loop 498', 'add r1 r2', 'end', 'end', 'complete r0 SUCCESS', 'ret SUCCESS']), \
        ['threads 1', 'issue 0 0 READ 0', 'step 0 999999']
    yield 'trace of 300,000 steps round a lock', 'trace', \
        one_routine(['loop 100', 'loop 150', 'acquire l0', 'load r1 c0', 'store c0 r1', 'release l0', 'clear r1', 'end', 'end', 'complete r0 SUCCESS', 'ret SUCCESS']), \
        ['threads 4'] + ['issue %d 0 READ 0' % t for t in range(4)] + ['step %d' % (i % 4) for i in range(300000)]
    for way, (text, request, completion) in ('a queue', through_a_queue()), ('StartIo', through_startio()):
        for live in 1, 1000, 4000:
            yield 'trace of 300,000 events, %s, %s live' % (way, f'{live:,}'), 'trace', text, events_with(live, request, completion)
    text, request, completion, cancel = through_a_cancelable_queue()
    for live in 2, 1000, 4000:
        yield 'trace of 52,000 requests, half cancelled, %s live' % f'{live:,}', 'trace', text, \
            half_cancelled(52000, live, request, completion, cancel)
    text, request, completion, cancel = through_a_cancelable_device_queue()
    for waiting in 1, 1000, 4000:
        yield 'trace of 52,000 requests, StartIo, half cancelled while they wait, %s waiting' % f'{waiting:,}', 'trace', text, \
            cancelled_while_waiting(52013, waiting, request, completion, cancel)

def served_commands(commands):
    """Of so many commands each second is a request, and of the requests each second one is cancelled: the lines of a script."""
    lines = []
    for first in range(0, commands, 4):
        lines += ['request 0 READ 0', 'request 0 READ 0', 'cancel %d 0' % first, 'interrupt 0']
    return lines

def host_cases():
    """Of each run of `host` its name, its commands and its workers. `trace` has the same events as one worker."""
    for commands, workers in (16384, 1), (32768, 1), (65536, 1), (65536, 2), (65536, 4), (65536, 8), (65536, 32), (65536, 64):
        yield 'host of %s commands, %d worker%s' % (f'{commands:,}', workers, 's' if 1 < workers else ''), commands, workers

# The rows that a run of `host` is compared with, and that run.
TRACES = 'trace of the events of 65,536 commands, a line each', 'trace of the events of 65,536 commands'
HOST = 'host of 65,536 commands, 1 worker'

def print_ratios(taken):
    """Of each program, how many times what `trace` takes `host` takes for as many events."""
    for trace in TRACES:
        if HOST in taken and trace in taken:
            ratios = ', '.join('%.2f' % (host / plain) for host, plain in zip(taken[HOST], taken[trace]))
            print('%s, in times of the %s: %s' % (HOST, trace, ratios))

def image_cases():
    """Of each image its name, and the text of its set."""
    yield 'check of the image of the largest set', largest_set()
    yield 'check of the image of a half of it', large_set(4, routine)
    yield 'check of the image of a quarter of it', large_set(2, routine)
    yield 'check of the image, with loops and jumps', largest_branching_set()

def refused_at_its_end(lines):
    """The same set, but the last routine completes its packet twice."""
    last = len(lines) - 1 - lines[::-1].index('complete r0 SUCCESS')
    return lines[:last - 1] + [lines[last]] + lines[last:]

def commented(lines):
    """A text of 4 MB, most of it comments, with these lines behind them."""
    return ['; ' + 'x' * 78] * 50000 + lines

def explained_texts():
    """Of each text that `check` and `explain` get its name, and its lines."""
    small = one_routine(['const r1 0', 'complete r0 SUCCESS', 'ret SUCCESS'])
    yield 'the largest set', largest_set()
    yield 'the largest set, with loops and jumps', largest_branching_set()
    yield 'the largest set, refused at its end', refused_at_its_end(largest_set())
    yield 'the same with loops and jumps', refused_at_its_end(largest_branching_set())
    yield 'the largest set, faulty at its end', largest_set()[:-1] + ['device v nothing 1']
    yield 'comments and a small set', commented(small)
    yield 'the same, refused', commented(refused_at_its_end(small))
    yield 'the same, faulty at its end', commented(small[:-2])

def explained_images():
    """Of each image that both get its name, and the text of its set."""
    yield 'the image of the largest set', largest_set()
    yield 'the same, refused at its end', refused_at_its_end(largest_set())
    yield 'the image with loops and jumps', largest_branching_set()
    yield 'the same with them, refused at its end', refused_at_its_end(largest_branching_set())

def explained_rows(name, file):
    """The rows of a file that `check` and `explain` get, under this name."""
    for command in 'check', 'explain':
        yield '%s: %s' % (command, name), [command, file]

def print_explained(taken):
    """Of each program and input, how many times what `check` takes `explain` takes."""
    for name in taken:
        checked = name.replace('explain: ', 'check: ', 1)
        if checked != name:
            ratios = ', '.join('%.2f' % (explain / check) for explain, check in zip(taken[name], taken[checked]))
            print('explain of %s, in times of check: %s' % (name[len('explain: '):], ratios))

def spent(program, words):
    begin = time.perf_counter()
    subprocess.run([program] + words, stdin=subprocess.DEVNULL, stdout=subprocess.DEVNULL, stderr=subprocess.DEVNULL)
    return time.perf_counter() - begin

def answer(program, words):
    done = subprocess.run([program] + words, stdin=subprocess.DEVNULL, capture_output=True)
    return done.returncode, done.stdout, done.stderr

def likeness(words, answer):
    """What programs have to answer alike."""
    status, out, err = answer
    lines = out.splitlines()
    if words[0] == 'host' and words[-1] != '1' and lines:
        return status, len(lines), lines[-1].split()[-1], err
    return answer

def written(folder, name, lines):
    path = os.path.join(folder, name)
    with open(path, 'w') as file:
        file.write('\n'.join(lines) + '\n')
    return path

def rows(folder, encoder):
    """The name of each row, and the words of its command."""
    for name, command, text, schedule in cases():
        words = [command, written(folder, 'set', text)]
        if schedule is not None:
            words.append(written(folder, 'schedule', schedule))
        yield name, words
    text, request, completion, cancel = through_a_cancelable_queue()
    events = half_cancelled(32768, 2, request, completion, cancel)
    for name, lines in (TRACES[0], a_line_each(events)), (TRACES[1], events):
        yield name, ['trace', written(folder, 'set', text), written(folder, 'schedule', lines)]
    for name, commands, workers in host_cases():
        yield name, ['host', written(folder, 'set', text), written(folder, 'script', served_commands(commands)), '--workers', str(workers)]
    if encoder is not None:
        for name, text in image_cases():
            image = os.path.join(folder, 'image')
            subprocess.run([os.path.abspath(encoder), 'encode', written(folder, 'set', text), image], check=True)
            yield name, ['check', image]
    for name, text in explained_texts():
        yield from explained_rows(name, written(folder, 'set', text))
    if encoder is not None:
        for name, text in explained_images():
            image = os.path.join(folder, 'image')
            subprocess.run([os.path.abspath(encoder), 'encode', written(folder, 'set', text), image], check=True)
            yield from explained_rows(name, image)

def main():
    parser = argparse.ArgumentParser(description=__doc__)
    parser.add_argument('--runs', type=int, default=5)
    parser.add_argument('--encoder')
    parser.add_argument('--only', default='')
    parser.add_argument('programs', nargs='+')
    given = parser.parse_args()
    programs = [os.path.abspath(program) for program in given.programs]
    differ = False
    taken = {}
    with tempfile.TemporaryDirectory() as folder:
        for name, words in rows(folder, given.encoder):
            if given.only not in name:
                continue
            answers = [answer(program, words) for program in programs]
            times = [1000 * min(each) for each in zip(*([spent(program, words) for program in programs] for _ in range(given.runs)))]
            taken[name] = times
            others = ''.join('%9.1f (%5.2f)' % (one, one / times[0]) for one in times[1:])
            same = all(likeness(words, one) == likeness(words, answers[0]) for one in answers)
            differ = differ or not same
            print('%-54s %8.1f ms%s  %s' % (name, times[0], others, 'same answer' if same else 'ANSWERS DIFFER'), flush=True)
    print_ratios(taken)
    print_explained(taken)
    sys.exit(1 if differ else 0)

if __name__ == '__main__':
    main()
