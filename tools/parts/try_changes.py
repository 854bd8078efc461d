#!/usr/bin/env python3
"""tools/try changes PROGRAM [OTHER [WORD..]]: hostile files. The built program PROGRAM, and another one that answers the same
command lines (OTHER, with the WORDs that come first), are run on all beginnings of two images, a driver text and a schedule,
and on both images with each byte replaced by each other value; where there is no OTHER, the built program alone. Each run has
to end within ten seconds with status 0, 1 or 2, and both have to write the same. 77,190 files, in several minutes. The
last line counts the files, the bytes changed, the sets found among them, and what was answered otherwise."""
import concurrent.futures, os, subprocess, sys, tempfile
from refuse_program import FILES, ONE_READ, QUEUES

QUEUES_IMAGE = bytes.fromhex(
    '4456423101010000030100ffffff0100000200000e0011000000000000001200000000000000160000000000000019000000000000001b00'
    '000007000000130000000000000024000100000000001a0000000c0000001800000000000000130000000000000022000600000000002400'
    '0100000000001300000000000000240001000000000002000800120000000000000017000000060000001a00000006000000130000000000'
    '0000220000000000000024040000000000001300000000000000240400000000000003000600150000000000000012000000000000001800'
    '0000000000001300000000000000220006000000000024040000000000000001ff00')
JOBS = 2

def beginnings(content):
    return [content[:length] for length in range(len(content) + 1)]

def changes(image):
    """The image with each byte replaced by each value."""
    return [image[:place] + bytes([value]) + image[place + 1:] for place in range(len(image)) for value in range(256)]

def answer(command, words):
    """The exit status and both outputs."""
    done = subprocess.run([*command, *words], stdin=subprocess.DEVNULL, capture_output=True, timeout=10)
    return done.returncode, done.stdout, done.stderr

def is_told(status, out, err):
    """Whether an answer is lines, if any, or one named fault."""
    return not err if status in (0, 1) else status == 2 and not out and b' fault ' in err

class Sweep:
    def __init__(self, commands, folder):
        self.commands, self.folder, self.files, self.sets, self.wrong = commands, folder, 0, 0, 0

    def one(self, number, content, words):
        """Whether a file names a set or is run, and whether all is as it has to be."""
        path = os.path.join(self.folder, 'f%d' % number)
        with open(path, 'wb') as out:
            out.write(content)
        try:
            answers = [answer(command, [path if word == 'FILE' else word for word in words]) for command in self.commands]
        except subprocess.TimeoutExpired:
            return content, False, False
        finally:
            os.remove(path)
        return content, answers[0][0] != 2, is_told(*answers[0]) and len(set(answers)) == 1

    def all(self, title, contents, words):
        sets = wrong = 0
        with concurrent.futures.ThreadPoolExecutor(JOBS) as pool:
            for content, is_set, is_good in pool.map(lambda item: self.one(*item, words), enumerate(contents)):
                sets += is_set
                if not is_good:
                    wrong += 1
                    print('%s: %s is answered otherwise' % (title, content.hex()))
        print('%-36s %6d files, %5d are answered as a set, %d otherwise' % (title, len(contents), sets, wrong), flush=True)
        self.files, self.sets, self.wrong = self.files + len(contents), self.sets + sets, self.wrong + wrong

def main():
    if len(sys.argv) < 2:
        sys.exit(__doc__)
    commands = [[os.path.abspath(sys.argv[1])]] + ([sys.argv[2:]] if len(sys.argv) > 2 else [])
    with tempfile.TemporaryDirectory() as folder:
        sweep = Sweep(commands, folder)
        queues = os.path.join(folder, 'queues.drv')
        with open(queues, 'w') as out:
            out.write(QUEUES)
        sweep.all('beginnings of a small image', beginnings(ONE_READ), ['check', 'FILE'])
        sweep.all('beginnings of an image', beginnings(QUEUES_IMAGE), ['check', 'FILE'])
        sweep.all('beginnings of a text', beginnings(QUEUES.encode()), ['check', 'FILE'])
        sweep.all('beginnings of a schedule', beginnings(FILES['schedule']), ['trace', queues, 'FILE'])
        sweep.all('bytes of a small image changed', changes(ONE_READ), ['check', 'FILE'])
        sweep.all('bytes of an image changed', changes(QUEUES_IMAGE), ['check', 'FILE'])
    print('%d files, %d bytes of images changed, %d sets or runs, %d otherwise'
          % (sweep.files, len(ONE_READ) + len(QUEUES_IMAGE), sweep.sets, sweep.wrong))
    return 1 if sweep.wrong else 0

sys.exit(main())
