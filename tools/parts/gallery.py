"""The wrong drivers of the gallery: the group `gallery` of the stored runs has a case for each. Its texts are driver.drv, which is
the wrong driver, events.sched, a schedule, and mended.drv, where there is one, the mended driver; its runs are what the program
answers. What needs the texts as files finds them in a folder that is made here, and goes when the tool ends."""
import os, re, tempfile

import stored_runs
from stored_runs import TOP

GROUP = stored_runs.stored_group('gallery.txt')
FOLDER = tempfile.TemporaryDirectory()
# Below this folder the command lines of the runs find their files.
DATA = stored_runs.unpacked(FOLDER.name, [GROUP])
GALLERY = os.path.join(DATA, GROUP.name)
# What tells a run of a wrong driver.
TELL = 'tell --unchecked --every driver.drv events.sched'

def folders():
    """The names of the wrong drivers, each that of a folder."""
    return sorted(GROUP.cases)

def path(folder, name):
    return os.path.join(GALLERY, folder, name)

def is_mended(folder):
    return os.path.exists(path(folder, 'mended.drv'))

def words(folder, line):
    """The words of a command line, with the paths of its files."""
    return [path(folder, word) if re.search(r'\.(drv|sched)$', word) else word for word in line.split()]
