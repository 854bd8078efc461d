#!/usr/bin/env python3
"""tools/keep man [FOLDER]: writes the pages for `man` into a folder (out/man), made from
docs/COMMANDS.md, docs/TEXTS.md, docs/EMBEDDING.md and include/pafteis.h."""
import os, re, sys, textwrap, time

from versions import TOP, VERSION

PAGES = "drvhost.1", "drvhost-texts.5", "pafteis.3"

def read(name):
    """A document, without what it says of the tool that tries it."""
    text = open(os.path.join(TOP, name), encoding="utf-8").read()
    return re.sub(r"\s+The\s+blocks\s+named\s+as\s+examples\s+[^.]*`tools/try\s+documents`\.", "", text)

def escaped(text):
    """Text with what roff would read otherwise."""
    text = text.replace("\\", "\\e").replace("-", "\\-").replace("·", "\\(bu").replace("–", "\\(en")
    assert text.isascii(), text
    return re.sub(r"^([.'])", r"\\&\1", text, flags=re.M)

def inline(text):
    """A paragraph's words, with code and emphasis in the fonts of manuals."""
    text = re.sub(r"!?\[([^\]]+)\]\([^)]+\)", r"\1", text)
    out = []
    for piece in re.split(r"(`[^`]+`|\*\*[^*]+\*\*|(?<![\w*])\*[^*\s][^*]*\*)", text):
        if piece.startswith("`"):
            out.append("\\fB%s\\fR" % escaped(piece[1:-1]))
        elif piece.startswith("**"):
            out.append("\\fB%s\\fR" % escaped(piece[2:-2]))
        elif piece.startswith("*") and len(piece) > 2:
            out.append("\\fI%s\\fR" % escaped(piece[1:-1]))
        else:
            out.append(escaped(piece))
    lines = textwrap.wrap("".join(out), 78, break_long_words=False, break_on_hyphens=False)
    return "\n".join(re.sub(r"^([.'])", r"\\&\1", line) for line in lines)

def literal(lines):
    """Lines as they are."""
    text = escaped("\n".join(lines))
    return ".PP\n.RS 4\n.EX\n%s\n.EE\n.RE\n" % text

def cells(row):
    return [cell.strip() for cell in row.strip().strip("|").replace("\\|", "\0").split("|")]

def table(rows):
    """A table as a list: the first cell of each row, and behind it the others by their heads."""
    heads, _line, *rest = [[cell.replace("\0", "|") for cell in cells(row)] for row in rows]
    if heads[0] == "No":
        heads, rest = heads[1:], [[f"{row[1]} ({row[0]})", *row[2:]] for row in rest]
    out = []
    for row in rest:
        others = list(zip(heads[1:], row[1:]))
        told = others[0][1] if len(others) == 1 else "; ".join(
            "%s: %s" % (head, cell) for head, cell in others if cell)
        out.append(".TP\n%s\n%s\n" % (inline(row[0]), inline(told)))
    return "".join(out)

def kind_of(line):
    if line.startswith("    "):
        return "code"
    return {"|": "table", "-": "item"}.get(line[:1] if line[:2] in ("- ", "| ", "|-") else "", "text")

def blocks(text):
    """The blocks of a document: kind and lines."""
    kind, lines, fence = None, [], None
    for line in [*text.split("\n"), ""]:
        if fence is not None:
            if line == "```":
                yield "code", fence
                fence = None
            else:
                fence.append(line)
            continue
        begins = kind_of(line) if line.strip() else None
        ends = not line.strip() or line.startswith(("#", "```", "<!--"))
        if lines and kind == "code" and line.startswith("    "):
            lines.append(line)
            continue
        if lines and (ends or begins == "item" or (begins != kind and kind in ("table", "code"))):
            yield kind, lines
            lines = []
        if line.startswith("```"):
            fence = []
        elif line.startswith("#"):
            yield "head", [line]
        elif begins and not line.startswith("<!--"):
            kind = kind if lines else begins
            lines.append(line)

def shown(kind, lines):
    """A block in the macros of manuals."""
    if kind == "head":
        depth, _, title = lines[0].partition(" ")
        name = escaped(title.upper() if len(depth) < 3 else title)
        return ".%s %s\n" % ("SH" if len(depth) < 3 else "SS", name)
    if kind == "code":
        whole = all(line.startswith("    ") or not line for line in lines)
        return literal([line[4:] if whole else line for line in lines])
    if kind == "table":
        return table(lines)
    words = " ".join(line.strip() for line in lines)
    if kind == "item":
        return ".IP \\(bu 2\n%s\n" % inline(words[2:])
    return ".PP\n%s\n" % inline(words)

def body(text):
    return "".join(shown(kind, lines) for kind, lines in blocks(text))

def part(text, title):
    """What stands below a head of the second depth, without it."""
    return re.search(r"^## %s\n(.*?)(?=^## |\Z)" % re.escape(title), text, re.M | re.S).group(1)

def without(text, title):
    return text.replace("## %s\n%s" % (title, part(text, title)), "")

def top(name, section, told, date):
    day = time.strftime("%Y-%m-%d", time.gmtime(date))
    return '.TH %s %s %s "Pafteis %s"\n.SH NAME\n%s \\- %s\n' % (
        name.upper(), section, day, VERSION, name, told)

def see(*names):
    refs = ",\n".join(".BR %s (%s)" % tuple(name.split(".")) for name in names)
    return ".SH SEE ALSO\n%s\n" % refs.replace("),\n", ") ,\n")

def drvhost(date):
    text = without(read("docs/COMMANDS.md").split("\n", 1)[1], "How to get it")
    usage = re.search(r"(?:^    .*\n|^ {20,}.*\n)+", text, re.M).group(0)
    synopsis = ".SH SYNOPSIS\n" + literal([line[4:] for line in usage.rstrip().split("\n")])
    return (top("drvhost", 1, "a proved host for driver routines", date) + synopsis
            + ".SH DESCRIPTION\n" + body("# \n" + text.replace(usage, "")).split("\n", 1)[1]
            + see("drvhost-texts.5", "pafteis.3"))

def texts(date):
    text = read("docs/TEXTS.md").split("\n", 1)[1]
    return (top("drvhost-texts", 5, "driver texts, images, schedules and scripts", date)
            + ".SH DESCRIPTION\n" + body(text) + see("drvhost.1", "pafteis.3"))

def header_parts(text):
    """The comments and the lines of C of the header, in turn."""
    text = text[:text.index("#ifndef")] + text[text.index("/* What a call answers"):]
    text = text[:text.index("#ifdef __cplusplus", 10)] if "#ifdef" in text else text
    for piece in re.split(r"(^/\*.*?\*/\n)", text, flags=re.M | re.S):
        if piece.strip():
            yield piece.strip("\n")

def comment(piece):
    """A comment of the header, as the text of a document."""
    lines = [re.sub(r"^(/\*| \*)? ?", "", line) for line in piece[:-2].rstrip().split("\n")]
    if lines[0].rstrip().endswith("---"):
        lines[0] = "### " + lines[0].rstrip("- ")
    return "\n".join(lines) + "\n"

def header():
    out = []
    for piece in header_parts(read("include/pafteis.h")):
        out.append(body(comment(piece)) if piece.startswith("/*") else literal(piece.split("\n")))
    return "".join(out)

def library(date):
    told = part(read("docs/EMBEDDING.md"), "From C, Rust or Python")
    synopsis = literal(["#include <pafteis.h>", "", "cc main.c $(pkg-config --cflags --libs pafteis)"])
    return (top("pafteis", 3, "verdicts, explanations and worlds of driver sets", date)
            + ".SH SYNOPSIS\n" + synopsis + ".SH DESCRIPTION\n" + body("# \n" + told).split("\n", 1)[1]
            + ".SH THE HEADER\n" + header() + see("drvhost.1", "drvhost-texts.5"))

def pages(date):
    """Each page by its name. `date` is the second that it is dated by. A paragraph right behind a
    head needs no macro."""
    made = [drvhost(date), texts(date), library(date)]
    return {name: re.sub(r"(\.S[HS] [^\n]+\n)\.PP\n", r"\1", text)
            for name, text in zip(PAGES, made)}

def main():
    folder = sys.argv[1] if len(sys.argv) > 1 else os.path.join(TOP, "out/man")
    os.makedirs(folder, exist_ok=True)
    for name, text in pages(int(os.environ.get("SOURCE_DATE_EPOCH", time.time()))).items():
        with open(os.path.join(folder, name), "w", encoding="ascii") as file:
            file.write(text)
    print("%d pages" % len(PAGES))

if __name__ == "__main__":
    main()
