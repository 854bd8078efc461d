"""What bash, zsh and fish complete of the program's command lines, made from its table of commands
and from the headings of the rules."""
import os, re

from commands import bare, commands
from versions import TOP

ENDINGS = {"PATH": "*.(drv|image)", "FILE": "*.(drv|image)", "SCHEDULE": "*.sched",
           "SCENARIO": "*.scenario", "SCRIPT": "*.script"}

def rules():
    """Numbers and names of the rules, and the warning's, by the headings of docs/RULES.md."""
    text = open(os.path.join(TOP, "docs/RULES.md"), encoding="utf-8").read()
    words = [word for pair in re.findall(r"^### (V\d+) (\w+)$", text, re.M) for word in pair]
    return words + re.findall(r"^### (LockOrder)$", text, re.M)

FORMATS = {"FORMAT": ["text", "json"], "FIGURE": ["svg", "perfetto"], "FORM": ["text", "tap", "tap14", "junit"]}

def values(command, flag):
    """What may stand behind a flag of a command; nothing where it takes no value, or any."""
    name, _, taken = flag.partition(" ")
    if name == "--format":
        # Logs of SARIF are of verdicts.
        return FORMATS[taken] + ["sarif"] * ("--pass" in command.flags)
    known = {"--rule": rules(), "--workers": [str(2 ** power) for power in range(7)],
             "--color": ["auto", "always", "never"]}
    return known.get(name, [])

# Each command takes it, and the program itself.
HELP = "--help"
# What stands in the place of a command besides.
OTHERS = ["help", HELP, "--version"]

BASH = """\
# Completion of drvhost for bash.
_drvhost() {
    local word=${COMP_WORDS[COMP_CWORD]} before=${COMP_WORDS[COMP_CWORD-1]} may=
    local commands="%(words)s"
    case $COMP_CWORD:${COMP_WORDS[1]}:$before in
        1:*) may="$commands %(others)s";;
        *:help:*) may=$commands;;
%(values)s
        *)
            if [[ $word != -* ]]; then
                COMPREPLY=($(compgen -f -- "$word"))
                return
            fi
            case ${COMP_WORDS[1]} in
%(flags)s
            esac;;
    esac
    COMPREPLY=($(compgen -W "$may" -- "$word"))
}
complete -o filenames -F _drvhost drvhost
"""

def bash_values(command):
    """What may stand behind the flags of a command that take a value."""
    for flag in command.flags:
        name, _, taken = flag.partition(" ")
        if taken and taken != "OUT":
            yield '        *:%s:%s) may="%s";;' % (command.word, name, " ".join(values(command, flag)))

def of_bash():
    listed = commands()
    return BASH % {
        "words": " ".join(it.word for it in listed), "others": " ".join(OTHERS),
        "values": "\n".join(line for it in listed for line in bash_values(it)),
        "flags": "\n".join('                %s) may="%s";;' % (it.word, " ".join([*bare(it.flags), HELP]))
                           for it in listed),
    }

ZSH = """\
#compdef drvhost
# Completion of drvhost for zsh.
local -a known
known=(
%(words)s
)
if (( CURRENT == 2 )); then
    known+=('help:how a command is used')
    _describe command known
    compadd -- --help --version
    return
fi
case ${words[2]} in
    help) _describe command known ;;
%(cases)s
esac
"""

def zsh_word(text):
    return text.replace("'", "'\\''").replace(":", "\\:")

def zsh_case(command):
    """The arguments of a command, for _arguments."""
    parts = ["'1: :'", "'%s'" % HELP]
    for flag in command.flags:
        name, _, taken = flag.partition(" ")
        may = "_files" if taken == "OUT" else "(%s)" % " ".join(values(command, flag))
        parts.append("'%s%s'" % (name, ":%s:%s" % (taken, may) if taken else ""))
    for name in command.arguments:
        glob = ' -g "%s"' % ENDINGS[name] if name in ENDINGS else ""
        parts.append("':%s:_files%s'" % (name, glob))
    return "    %s) _arguments %s ;;" % (command.word, " ".join(parts))

def of_zsh():
    listed = commands()
    return ZSH % {
        "words": "\n".join("    '%s:%s'" % (it.word, zsh_word(it.told)) for it in listed),
        "cases": "\n".join(map(zsh_case, listed)),
    }

def fish_lines(command):
    head = "complete -c drvhost"
    told = command.told.replace("'", "\\'")
    yield "%s -n __fish_use_subcommand -f -a %s -d '%s'" % (head, command.word, told)
    seen = "-n '__fish_seen_subcommand_from %s'" % command.word
    for flag in command.flags:
        name, _, taken = flag.partition(" ")
        given = " -r" if taken == "OUT" else " -x -a '%s'" % " ".join(values(command, flag))
        may = given if taken else ""
        yield "%s %s -l %s%s" % (head, seen, name[2:], may)
    yield "%s %s -l %s" % (head, seen, HELP[2:])
    if not command.arguments:
        yield "%s %s -f" % (head, seen)

def of_fish():
    lines = [line for it in commands() for line in fish_lines(it)]
    words = " ".join(it.word for it in commands())
    lines += ["complete -c drvhost -n __fish_use_subcommand -f -a help -d 'how a command is used'",
              "complete -c drvhost -n __fish_use_subcommand -l help",
              "complete -c drvhost -n __fish_use_subcommand -l version",
              "complete -c drvhost -n '__fish_seen_subcommand_from help' -f -a '%s'" % words]
    return "\n".join(["# Completion of drvhost for fish.", *lines, ""])
