#!/usr/bin/env python3
"""tools/try completions: what bash, zsh and fish complete of the program's command lines, as
tools/install puts it there, asked of each shell: commands, the flags of each, and what may stand
behind a flag.

A shell that isn't there is told, and left out."""
import os, pty, re, select, shutil, subprocess, sys, tempfile, time

import completions
from commands import bare, commands

FILES = {"bash": ("drvhost", completions.of_bash), "zsh": ("_drvhost", completions.of_zsh),
         "fish": ("drvhost.fish", completions.of_fish)}

def cases():
    """Words in front of the place, those begun there, and all that may stand there."""
    listed = commands()
    words = [it.word for it in listed]
    yield [], "t", [word for word in words if word.startswith("t")]
    yield [], "h", [word for word in words if word.startswith("h")] + ["help"]
    yield [], "--", ["--help", "--version"]
    yield ["help"], "t", [word for word in words if word.startswith("t")]
    for command in listed:
        yield [command.word], "--", [*bare(command.flags), completions.HELP]
        for flag in command.flags:
            may = completions.values(command, flag)
            if may and not may[0].isdigit():
                yield [command.word, flag.split()[0]], "", may

def ask_bash(path, before, begun):
    words = " ".join(["drvhost", *before, begun or "''"])
    line = "COMP_WORDS=(%s); COMP_CWORD=%d; _drvhost; printf '%%s\n' \"${COMPREPLY[@]}\""
    return shell("bash", f". {path}; " + line % (words, len(before) + 1))

def ask_fish(path, before, begun):
    line = " ".join(["drvhost", *before, begun])
    told = shell("fish", f"source {path}; complete -C '{line}'")
    return [word.split("\t")[0] for word in told]

def shell(name, line):
    done = subprocess.run([name, "-c", line], capture_output=True, text=True)
    return [word for word in done.stdout.splitlines() if word]

class Zsh:
    """A zsh at a terminal, as a person has it: it lists what it completes on the screen."""

    def __init__(self, path):
        self.pid, self.terminal = pty.fork()
        if self.pid == 0:
            os.environ.update(TERM="dumb", COLUMNS="4000", LINES="200")
            os.execvp("zsh", ["zsh", "-f"])
        folder = os.path.dirname(path)
        self.take(f"stty cols 4000 rows 200; PS1='%%'; fpath=({folder} $fpath); "
                  "autoload -U compinit; compinit -u -D; setopt nobeep noautomenu; "
                  "LISTMAX=9999; bindkey '^X' list-choices\n", 3)

    def take(self, text, within):
        """What the screen shows after a text was typed, once nothing more comes."""
        os.write(self.terminal, text.encode())
        shown, until = b"", time.monotonic() + within
        while time.monotonic() < until and select.select([self.terminal], [], [], 0.7)[0]:
            shown += os.read(self.terminal, 65536)
        return re.sub(r"\x1b\[[0-9;?]*[a-zA-Z]|\r|\x08", "", shown.decode(errors="replace"))

    def ask(self, before, begun):
        line = " ".join(["drvhost", *before, begun])
        shown = self.take(line + "\x18", 5)
        self.take("\x15", 1)
        return shown.replace(line, " ", 1).split()

def wrong(name, path):
    """Each case in which a shell completes otherwise."""
    zsh = Zsh(path) if name == "zsh" else None
    ask = {"bash": ask_bash, "fish": ask_fish}.get(name, lambda _, *words: zsh.ask(*words))
    for before, begun, may in cases():
        told = set(ask(path, before, begun))
        # A screen shows words besides, such as what a command does.
        lacks = set(may) - told
        more = set() if zsh else told - set(may)
        if lacks or more:
            yield f"{name}: {' '.join(['drvhost', *before, begun])}: lacks {sorted(lacks)}, " \
                  f"has {sorted(more)}"

def main():
    count = faults = 0
    with tempfile.TemporaryDirectory() as folder:
        for name, (file, text) in FILES.items():
            if not shutil.which(name):
                print(f"there is no {name}: left out")
                continue
            path = os.path.join(folder, file)
            with open(path, "w", encoding="utf-8") as out:
                out.write(text())
            count += len(list(cases()))
            for told in wrong(name, path):
                faults += 1
                print(told)
    print(f"{count} places tried, {faults} wrong")
    sys.exit(faults > 0)

if __name__ == "__main__":
    main()
