"""The commands of the program, read from the table at the head of docs/COMMANDS.md: the one place
that lists them, of which completions are made."""
import os, re

from versions import TOP

TABLE = os.path.join(TOP, "docs/COMMANDS.md")
FLAG = re.compile(r"--[a-z-]+(?: [A-Z]+)?")

class Command:
    """A command: its word, its arguments by their capital names, its flags, and what it answers."""
    def __init__(self, word):
        self.word, self.arguments, self.flags, self.told = word, [], [], ""

    def add(self, usage, told):
        """Takes in a line of the table."""
        for flag in FLAG.findall(usage):
            if flag not in self.flags:
                self.flags.append(flag)
        self.arguments = self.arguments or re.findall(r"\b[A-Z]{3,}\b", FLAG.sub("", usage))
        self.told = self.told or told

def lines():
    """The lines of the table, each whole: its usage, and what it answers."""
    usage = None
    for line in open(TABLE, encoding="utf-8"):
        found = re.match(r"    (drvhost .+?)(?:  +(.*))?$", line.rstrip())
        if found:
            usage, told = found.groups()
            if told:
                yield usage, told
        elif usage and re.match(r" {20,}\S", line):
            yield usage, line.strip()
        elif usage:
            return

def commands():
    """All commands, in the order of the table."""
    found = {}
    for usage, told in lines():
        word = usage.split()[1]
        found.setdefault(word, Command(word)).add(" ".join(usage.split()[2:]), told)
    return list(found.values())

def bare(flags):
    """Flags without the value that they take."""
    return [flag.split()[0] for flag in flags]
