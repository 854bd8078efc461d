#!/usr/bin/env python3
"""Whether stored pictures of runs can be read: an XML parser takes them, they have no script, and no
word lies over another one or runs out of the picture, by the widths of the letters.

    tools/try pictures [FILE ..]     these pictures, or those of docs/pictures
"""

import glob
import os
import re
import sys
import xml.etree.ElementTree as ElementTree

SPACE = "{http://www.w3.org/2000/svg}"
# A letter of a font of fixed width is so wide, and stands so far above and below its line.
WIDE, ABOVE, BELOW = 0.605, 0.76, 0.24
SIZES = {"title": 14, "packet": 8, "fold": 8}


def box_of(text):
    """Left, top, right and bottom of some words."""
    words, names = text.text, (text.get("class") or "").split()
    size = next((SIZES[name] for name in names if name in SIZES), 10)
    width = len(words) * size * WIDE
    turned = re.match(r"translate\((\d+) (\d+)\) rotate\(-90\)", text.get("transform") or "")
    if turned:
        x, y = int(turned[1]), int(turned[2])
        return x - size * ABOVE, y - width, x + size * BELOW, y
    x, y = int(text.get("x")), int(text.get("y"))
    if "end" in names or "fold" in names:
        x -= width
    return x, y - size * ABOVE, x + width, y + size * BELOW


def meet(one, other):
    """Whether two boxes have a place in common."""
    return all(one[side] < other[side + 2] - 0.1 and other[side] < one[side + 2] - 0.1
               for side in (0, 1))


def faults_of(path):
    """What is wrong with a picture."""
    root = ElementTree.parse(path).getroot()
    if any(element.tag == SPACE + "script" for element in root.iter()):
        yield "has a script"
    width, height = int(root.get("width")), int(root.get("height"))
    texts = [(box_of(text), text.text) for text in root.iter(SPACE + "text") if text.text]
    texts.sort(key=lambda text: text[0][1])
    for number, (box, words) in enumerate(texts):
        if box[0] < 0 or box[1] < 0 or box[2] > width or box[3] > height:
            yield f"runs out of the picture: {words}"
        for other, more in texts[number + 1:]:
            if other[1] >= box[3]:
                break
            if meet(box, other):
                yield f"lies over another: {words}: {more}"


def main():
    top = os.path.dirname(os.path.dirname(os.path.dirname(os.path.abspath(__file__))))
    paths = sys.argv[1:] or sorted(glob.glob(f"{top}/docs/pictures/*.svg"))
    found = 0
    for path in paths:
        for fault in faults_of(path):
            print(f"{os.path.basename(path)}: {fault}")
            found += 1
    print(f"{len(paths)} pictures, {found} faults")
    return 1 if found or not paths else 0


if __name__ == "__main__":
    sys.exit(main())
