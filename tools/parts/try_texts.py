#!/usr/bin/env python3
"""tools/try texts PROGRAM OTHER [COUNT [SEED]]: driver texts that were spoilt at random, each given to `check` of both programs,
which have to write the same and end with the same status. The texts are those of examples and gallery; each is changed in
one to six places: blanks, tabs and carriage returns, comments, labels, words left out, doubled, exchanged or cut, numbers at
their limits and past them, registers and locks past theirs, other bytes, lines left out, doubled or exchanged. It prints each
text on which they differ; the last line counts the texts, by what was said of them."""
import concurrent.futures, glob, os, random, subprocess, sys, tempfile

from gallery import GALLERY

TOP = os.path.dirname(os.path.dirname(os.path.dirname(os.path.abspath(__file__))))
NUMBERS = '0 1 00 01 7 8 9 15 16 17 31 32 33 63 64 65 255 256 999 1000 1001 1024 4294967295 4294967296 18446744073709551615 18446744073709551616 -1 0x1 1a'.split()
WORDS = ('r0 r15 r16 r016 r00 R0 r l0 l7 l8 c0 c15 c16 p0 p16 READ WRITE CONTROL SUCCESS PENDING CANCELLED STATUS_SUCCESS lower void '
         'continue stop MAJOR ARG INFO ret const mov add sub jz jlt jump loop end call pass complete mark driver endd routine endr '
         'queue device dispatch startio dpc propagate hold cancel a: a :a a:: ; ;;').split()

def spoil_line(line, dice):
    """A line changed in one place."""
    words = line.split(' ')
    place = dice.randrange(len(words))
    kind = dice.randrange(14)
    if kind == 0:
        words[place] = dice.choice(WORDS)
    elif kind == 1:
        words[place] = dice.choice(NUMBERS)
    elif kind == 2:
        del words[place]
    elif kind == 3:
        words.insert(place, dice.choice(WORDS + NUMBERS))
    elif kind == 4:
        words[place] = words[place][:dice.randrange(len(words[place]) + 1)]
    elif kind == 5:
        words[place] += dice.choice(['\t', '  ', ' \t ', '\r', ';', ':', ' ; a comment'])
    elif kind == 6:
        words.insert(0, dice.choice(['', '\t', ' ', 'a: ', 'a:', 'b:\t', ': ']))
    elif kind == 7:
        words.append(dice.choice(['; more', ';', '\t', ' ', '\r', 'x', '; \u00e9', '; \x00', '\x7f']))
    elif kind == 8:
        other = dice.randrange(len(words))
        words[place], words[other] = words[other], words[place]
    elif kind == 9:
        words[place] = words[place].swapcase()
    elif kind == 10:
        words[place] = words[place] * 2
    elif kind == 11:
        words[place] = 'n' * dice.choice([31, 32, 33, 64, 65])
    elif kind == 12:
        return '\t'.join(words)
    return ' '.join(words)

def spoil(text, dice):
    """A text changed in one to six places."""
    lines = text.split('\n')
    for _ in range(dice.choice([1, 1, 1, 1, 2, 3, 6])):
        place = dice.randrange(len(lines))
        kind = dice.randrange(12)
        if kind == 0:
            del lines[place]
            lines = lines or ['']
        elif kind == 1:
            lines.insert(place, dice.choice(lines))
        elif kind == 2:
            other = dice.randrange(len(lines))
            lines[place], lines[other] = lines[other], lines[place]
        elif kind == 3:
            lines[place:place] = [dice.choice(['', '; ' + 'x' * dice.choice([10, 80, 1000]), 'clear r3'])] * dice.choice([1, 3, 1100])
        else:
            lines[place] = spoil_line(lines[place], dice)
    return '\n'.join(lines)

def said(program, name):
    run = subprocess.run([program, 'check', name], capture_output=True)
    return run.returncode, run.stdout, run.stderr

def main():
    program, other = sys.argv[1:3]
    count = int(sys.argv[3]) if len(sys.argv) > 3 else 30_000
    dice = random.Random(int(sys.argv[4]) if len(sys.argv) > 4 else 1)
    names = sorted(glob.glob(os.path.join(TOP, 'examples', '*.drv')) + glob.glob(os.path.join(GALLERY, '*/*.drv')))
    sources = [open(name).read() for name in names]
    texts = [spoil(dice.choice(sources), dice) for _ in range(count)]
    with tempfile.TemporaryDirectory() as folder:
        def one(number):
            name = os.path.join(folder, '%d.drv' % number)
            with open(name, 'wb') as out:
                out.write(texts[number].encode('utf8'))
            answers = said(program, name), said(other, name)
            os.remove(name)
            return answers
        kinds, different = {}, 0
        with concurrent.futures.ThreadPoolExecutor(os.cpu_count()) as pool:
            for number, (ours, theirs) in enumerate(pool.map(one, range(count))):
                kind = {0: 'accepted', 1: 'refused', 2: 'faulty'}.get(ours[0], 'status %d' % ours[0])
                kinds[kind] = kinds.get(kind, 0) + 1
                if ours != theirs:
                    different += 1
                    print('they differ:', ours, theirs, texts[number], sep='\n')
    print('%d texts: %s; %d different' % (count, ', '.join('%d %s' % (kinds[kind], kind) for kind in sorted(kinds)), different))
    sys.exit(different > 0)

if __name__ == '__main__':
    main()
