#!/usr/bin/env python3
"""tools/try scripts [--scripts N] [--seed N] [--sets FOLDER] PROGRAM OTHER: random scripts, served by `host` on the accepted sets among examples, the mended
drivers of gallery and the sets `*.set` of folders. With one worker both programs have to write the same;
with 2, 4, 8 and 64 workers the program's own answer has to tell of each command once, in order, its history has to agree,
and `trace` of the history that it writes has to top out the same packets with the same status and information.
An accepted driver may take two locks in one order here and in the other there: then it is warned of a cycle, and where its
threads wait for each other, that is told of each and the exit status is 1. These runs are counted, and those that don't
end in two minutes are wrong. It prints what is otherwise; the last line counts."""
import argparse, concurrent.futures, glob, os, random, re, subprocess, tempfile, sys

from gallery import GALLERY

TOP = os.path.dirname(os.path.dirname(os.path.dirname(os.path.abspath(__file__))))

def run(words, seconds=120):
    """Exit status, output and error output; None where the run doesn't end in so many seconds."""
    try:
        ended = subprocess.run(words, capture_output=True, timeout=seconds)
    except subprocess.TimeoutExpired:
        return None
    return ended.returncode, ended.stdout, ended.stderr

def is_accepted(program, name):
    return run([program, 'check', name])[0] == 0

def devices_of(name):
    """How many devices a text has, as far as its lines tell."""
    with open(name, errors='replace') as text:
        return max(1, sum(line.split(';')[0].split()[:1] == ['device'] for line in text))

def script(devices, dice):
    """Up to 300 requests, cancels of them and interrupts."""
    lines, requests = [], []
    for number in range(dice.choice([1, 3, 20, 100, 300])):
        kind = dice.randrange(5)
        if kind < 2 or not requests and kind == 2:
            requests.append(number)
            lines.append('request %d %s %d' % (dice.randrange(devices), dice.choice(['READ', 'WRITE', 'CONTROL']), dice.choice([0, 1, 512, 2 ** 64 - 1])))
        elif kind == 2:
            lines.append('cancel %d %d' % (dice.choice(requests), dice.choice([0, 0, 2])))
        else:
            lines.append('interrupt %d' % dice.randrange(devices))
    return lines

CYCLE = re.compile(r'driver \w+ takes its locks in a cycle .*: workers may wait for each other for ever')
WAITING = re.compile(r'.*thread \d+ .*waits? .*')

def topped_out(text):
    """The packets that topped out by the lines of an answer, with status and information."""
    return sorted(re.findall(r'^\d+ topped (.*)$', text, re.MULTILINE))

def faults(given, name, answer, count, history):
    """What is wrong with the answer to so many commands, or None."""
    if answer is None:
        return 'it does not end'
    status, out, err = answer
    lines, told = out.decode().splitlines(), err.decode().splitlines()
    in_ring = [line for line in told if not CYCLE.fullmatch(line)]
    if status != bool(in_ring) or not all(WAITING.fullmatch(line) for line in in_ring):
        return 'status %d, %r' % (status, err)
    if not lines or not re.fullmatch(r'history \d+ agrees', lines[-1]):
        return 'no history that agrees'
    if [line.split()[0] for line in lines[:-1]] != [str(number) for number in range(count)]:
        return 'not a line for each command'
    played = run([given.program, 'trace', name, history])
    if played is None or topped_out(played[1].decode()) != topped_out(out.decode()):
        return 'its history tops out otherwise'
    return None

def try_set(given, name, number, folder):
    """How many runs of one script on one set were made and ended in a ring, and what was otherwise."""
    dice = random.Random('%d %d' % (given.seed, number))
    lines = script(devices_of(name), dice)
    path = os.path.join(folder, '%d.script' % number)
    with open(path, 'w') as out:
        out.write('\n'.join(lines) + '\n')
    words = ['host', name, path, '--workers']
    history = os.path.join(folder, '%d.sched' % number)
    wrong, runs, rings = [], 2, 0
    one, other = run([given.program] + words + ['1']), run([given.other] + words + ['1'])
    if one is None or one != other:
        wrong.append((name, 'one worker', lines, one, other))
    for workers in '2', '4', '8', '64':
        runs += 1
        answer = run([given.program] + words + [workers, '--history', history])
        rings += answer is not None and answer[0] == 1
        fault = faults(given, name, answer, len(lines), history)
        if fault:
            wrong.append((name, workers + ' workers', lines, fault))
    os.remove(path)
    return runs, rings, wrong

def main():
    parser = argparse.ArgumentParser(description=__doc__)
    parser.add_argument('program')
    parser.add_argument('other')
    parser.add_argument('--sets', action='append', default=[])
    parser.add_argument('--scripts', type=int, default=600)
    parser.add_argument('--seed', type=int, default=1)
    given = parser.parse_args()
    names = sorted(glob.glob(os.path.join(TOP, 'examples', '*.drv')) + glob.glob(os.path.join(GALLERY, '*/mended.drv'))
                   + [name for folder in given.sets for name in glob.glob(os.path.join(folder, '*.set'))])
    with tempfile.TemporaryDirectory() as folder, concurrent.futures.ThreadPoolExecutor(os.cpu_count()) as pool:
        kept = [name for name, good in zip(names, pool.map(lambda name: is_accepted(given.program, name), names)) if good]
        jobs = [(kept[number % len(kept)], number) for number in range(given.scripts)]
        runs, wrong, rings = 0, 0, 0
        for made, waiting, bad in pool.map(lambda job: try_set(given, job[0], job[1], folder), jobs):
            runs += made
            rings += waiting
            wrong += len(bad)
            for one in bad:
                print('otherwise:', *one, sep='\n')
    print('%d scripts on %d accepted sets, %d runs, %d of them ended in a ring, %d otherwise' % (given.scripts, len(kept), runs, rings, wrong))
    sys.exit(wrong > 0)

if __name__ == '__main__':
    main()
