#!/usr/bin/env python3
"""hunts.py CORPUS RESULTS: hunts in each driver set below a folder, by Dask (on Debian
`python3-distributed`).

Without `--scheduler` two workers of this machine do it; with its address, those of a cluster, which
have the program and read the sets by the same paths. Each hunt is a task of its own: by set and by
bounds, since one hunt can't be split. RESULTS gets the schedule of each run that was found. The exit
status is 1 where there is one."""
import argparse, itertools, pathlib, subprocess, sys

from distributed import Client, LocalCluster, as_completed


def hunt(program, name, threads, packets, states):
    """What comes of a hunt: the set, the bounds, the exit status, and what was told."""
    words = [program, 'hunt', name, '--threads', threads, '--packets', packets, '--states', states]
    done = subprocess.run([str(word) for word in words], capture_output=True, text=True)
    return name, threads, packets, done.returncode, done.stdout or done.stderr


def numbers(text):
    """Numbers with commas between them."""
    return [int(number) for number in text.split(',')]


def main():
    parser = argparse.ArgumentParser(description=__doc__.partition('\n\n')[0])
    parser.add_argument('corpus', type=pathlib.Path)
    parser.add_argument('results', type=pathlib.Path)
    parser.add_argument('--scheduler', help='as tcp://10.0.0.1:8786')
    parser.add_argument('--program', default='drvhost')
    parser.add_argument('--threads', type=numbers, default=[1, 2])
    parser.add_argument('--packets', type=numbers, default=[1, 2])
    parser.add_argument('--states', type=int, default=1_000_000)
    asked = parser.parse_args()
    sets = sorted(str(path) for path in asked.corpus.rglob('*') if path.suffix in ('.drv', '.image'))
    asked.results.mkdir(parents=True, exist_ok=True)
    found = False
    with Client(asked.scheduler or LocalCluster(n_workers=2, threads_per_worker=1)) as client:
        tasks = [
            client.submit(hunt, asked.program, *task, asked.states, pure=False)
            for task in itertools.product(sets, asked.threads, asked.packets)
        ]
        for task in as_completed(tasks):
            name, threads, packets, status, told = task.result()
            print('%s, %d threads, %d packets: %s' % (name, threads, packets, told.partition('\n')[0]))
            if status == 1:
                found = True
                stem = pathlib.Path(name).relative_to(asked.corpus).as_posix().replace('/', '-')
                path = asked.results / ('%s-%d-%d.sched' % (stem, threads, packets))
                path.write_text(told, encoding='ascii')
    return 1 if found else 0


if __name__ == '__main__':
    sys.exit(main())
