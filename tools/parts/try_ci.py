#!/usr/bin/env python3
"""tools/try ci [PROGRAM]: runs what stands in examples/ci with the program (crates/drvhost/out/drvhost, if none is named): the
commands of the jobs for GitHub and GitLab in a folder with an accepted set and in one with a refused set beside it, and the hook
for git at commits of both, of what is staged and stands there otherwise by then, with names that have spaces, dashes and more. It
prints each that does otherwise; the last line counts. It needs git and, on Debian, `python3-yaml`."""
import json, os, shutil, subprocess, sys, tempfile

import yaml

TOP = os.path.dirname(os.path.dirname(os.path.dirname(os.path.abspath(__file__))))
CI = os.path.join(TOP, 'examples/ci')

def commands():
    """The name of each file with a job, and its commands."""
    github = yaml.safe_load(open(os.path.join(CI, 'github.yml')))
    yield 'github.yml', [step['run'] for step in github['jobs']['check']['steps'] if 'run' in step]
    yield 'gitlab.yml', yaml.safe_load(open(os.path.join(CI, 'gitlab.yml')))['drivers']['script']

def run(words, folder, path):
    env = {**os.environ, 'PATH': path + ':' + os.environ['PATH'], 'GIT_CONFIG_GLOBAL': os.devnull}
    return subprocess.run(words, cwd=folder, env=env, stdout=subprocess.DEVNULL, stderr=subprocess.DEVNULL).returncode

def put(name, folder, *where):
    os.makedirs(os.path.join(folder, *where[:-1]), exist_ok=True)
    shutil.copy(os.path.join(TOP, 'examples', name), os.path.join(folder, *where))

def job_faults(lines, folder, path):
    """What a job does otherwise, in a folder with an accepted set, and then with a refused one."""
    put('echo.drv', folder, 'drivers', 'one more.drv')
    for name, status, count in ('echo.drv', 0, 0), ('twice.drv', 1, 1):
        put(name, folder, 'drivers', 'below', name)
        ended = next((it for it in (run(['sh', '-ec', line], folder, path) for line in lines) if it), 0)
        if ended != status:
            yield 'ends with %d with %s' % (ended, name)
        log = json.load(open(os.path.join(folder, 'drivers.sarif')))
        if len(log['runs'][0]['results']) != count:
            yield 'has another log with %s' % name

def commit(folder, path):
    """Whether git takes a commit, and what was said."""
    who = ['git', '-c', 'user.name=a', '-c', 'user.email=a@b', 'commit', '-qm', 'one']
    env = {**os.environ, 'PATH': path + ':' + os.environ['PATH'], 'GIT_CONFIG_GLOBAL': os.devnull}
    done = subprocess.run(who, cwd=folder, env=env, capture_output=True, text=True)
    return done.returncode == 0, done.stdout + done.stderr

def hook_faults(folder, path):
    """What the hook does otherwise: of each file what is staged, and what stands there by then."""
    run(['git', 'init', '-q'], folder, path)
    hook = os.path.join(folder, '.git/hooks/pre-commit')
    shutil.copy(os.path.join(CI, 'pre-commit'), hook)
    os.chmod(hook, 0o755)
    for staged, later, where, is_taken in (
            ('echo.drv', 'echo.drv', 'a set.drv', True), ('twice.drv', 'twice.drv', 'two sets.drv', False),
            ('twice.drv', 'echo.drv', 'mended since.drv', False), ('echo.drv', 'twice.drv', 'broken since.drv', True),
            ('twice.drv', 'twice.drv', '--pass.drv', False), ('twice.drv', 'twice.drv', 'below/$(id)\n.drv', False)):
        put(staged, folder, *where.split('/'))
        run(['git', 'add', '--', where], folder, path)
        put(later, folder, *where.split('/'))
        taken, said = commit(folder, path)
        if taken != is_taken or not (taken or where.split('\n')[0] in said):
            yield 'takes %r otherwise' % where
        if not taken:
            run(['git', 'rm', '-qf', '--cached', '--', where], folder, path)
    open(os.path.join(folder, 'note'), 'w').close()
    run(['git', 'add', 'note'], folder, path)
    if not commit(folder, path)[0]:
        yield 'takes no commit without a set'

def main():
    program = os.path.abspath(sys.argv[1] if len(sys.argv) > 1 else os.path.join(TOP, 'crates/drvhost/out/drvhost'))
    count = wrong = 0
    with tempfile.TemporaryDirectory() as at:
        path = os.path.join(at, 'bin')
        os.mkdir(path)
        os.symlink(program, os.path.join(path, 'drvhost'))
        tried = [(name, lambda folder, lines=lines: job_faults(lines, folder, path)) for name, lines in commands()]
        for name, faults in tried + [('pre-commit', lambda folder: hook_faults(folder, path))]:
            folder = os.path.join(at, name)
            os.mkdir(folder)
            count += 1
            for fault in faults(folder):
                wrong += 1
                print(name, fault)
    print('%d examples tried, %d wrong' % (count, wrong))
    sys.exit(wrong > 0)

if __name__ == '__main__':
    main()
