#!/usr/bin/env python3
"""Breaks the lines of .antt files that the longer names of today's spelling made wider than 120 columns:
    python3 tools/port/narrow.py CRATE..
of these crates, or of all. Only blanks change. Imports stay, which rt fmt leaves on one line. Run `rt fmt` and check."""
import glob
import os
import re
import sys
import textwrap

WIDTH = 120
GENERATED = ("crates/smoother_table/specs/Recorded.antt",)
OPEN, CLOSE = "([{", ")]}"


def depths(line):
    """The depth of brackets before each character, and whether it stands in a string."""
    found, depth, quoted = [], 0, False
    for at, it in enumerate(line):
        if it == '"' and (at == 0 or line[at - 1] != "\\"):
            quoted = not quoted
        if not quoted and it in CLOSE:
            depth -= 1
        found.append((depth, quoted))
        if not quoted and it in OPEN:
            depth += 1
    return found


def broken(line, is_more):
    """The line as several. is_more: whether it goes on from a line above."""
    if len(line) <= WIDTH:
        return [line]
    indent = len(line) - len(line.lstrip())
    text = line.strip()
    if text.startswith("-- "):
        at = line.rfind(" ", indent + 4, WIDTH)
        return [line[:at], *broken(" " * indent + "-- " + line[at + 1 :], True)]
    depth = depths(line)
    blanks = [at for at in range(indent + 1, len(line)) if line[at] == " " and not depth[at][1]]
    deeper = indent + (8 if text.startswith("let ") else 4)
    flat = [at for at in blanks if depth[at][0] == 0]
    # a definition: its body on the next line; a let behind `in`
    equal = next((at for at in flat if line[at : at + 3] == " = "), None)
    colon = next((at for at in flat if line[at : at + 3] == " : "), None)
    if not is_more or text.startswith("let "):
        if equal is not None and (colon is None or equal < colon) and equal < WIDTH:
            return [line[: equal + 2], *broken(" " * deeper + line[equal + 3 :], True)]
    under = indent if is_more and not text.startswith("let ") else deeper
    ins = [at for at in flat if line[at : at + 4] == " in " and indent + 20 < at + 3 <= WIDTH]
    if ins:
        return [line[: ins[-1] + 3], *broken(" " * under + line[ins[-1] + 4 :], True)]
    if equal is not None and text.startswith("let ") and equal < WIDTH:
        return [line[: equal + 2], *broken(" " * deeper + line[equal + 3 :], True)]
    # before an arrow or an operator that stands outermost, else between arguments, as far out as can be
    lowest = None
    for at in blanks:
        if not indent + 40 <= at <= WIDTH:
            continue
        word = line[at + 1 : at + 3].strip()
        before = line[:at].rsplit(" ", 1)[-1]
        if before in ("=", ":", "→", "×", "∙", "∷", "≡", "λ", "let", "in", "←", "at", "with", "match", "+", "*", "-", "/", "^", "≤", "<", "||", "&&"):
            continue
        if word in ("=", ":") or before.endswith(("≡", "λ")):
            continue
        rank = (depth[at][0], {"→": 0, "×": 1, "∙": 1, "≡": 1, "∷": 2}.get(word, 3 if word not in ("+", "*", "-", "≤", "<", "^", "/", "+ℤ", "-ℤ", "||", "&&") else 4), -at)
        if lowest is None or rank < lowest[0]:
            lowest = (rank, at)
    if lowest is None:
        return [line]
    at = lowest[1]
    return [line[:at], *broken(" " * under + line[at + 1 :], True)]


def narrow(file):
    with open(file, encoding="utf-8") as it:
        was = it.read()
    # the names behind `unfolding` are filled anew
    names = re.compile(r"^( *)unfolding [\w' ]+(\n\1 +[\w' ]+(?=\n))*", re.M)
    fill = lambda it: "\n".join(textwrap.wrap(" ".join(it[0].split()), WIDTH, initial_indent=it[1], subsequent_indent=it[1] + "    "))
    text = names.sub(lambda it: fill(it) if max(map(len, it[0].split("\n"))) > WIDTH else it[0], was)
    lines, out = text.split("\n"), []
    for line in lines:
        if len(line) <= WIDTH or re.match(r" *(pub )?(ghost )?use ", line):
            out.append(line)
            continue
        indent = len(line) - len(line.lstrip())
        before = next((it for it in reversed(out) if it.strip()), "")
        starts = re.match(r" *(pub |abbrev |unfolding |let |module |record |[\w'.-]+ :|[^ (].* = )", line)
        up = len(before) - len(before.lstrip())
        is_more = up < indent and not before.rstrip().endswith(("where", "let")) and not (starts and re.match(r" *(pub |let |module |abbrev )", line))
        is_more = is_more or (indent > 0 and re.match(r" *[×∙→≡∷(]", line) is not None)
        out += broken(line, is_more)
    new = "\n".join(out)
    if new == was:
        return 0
    if re.sub(r"\s+|(?<=\s)--\s", "", new) != re.sub(r"\s+|(?<=\s)--\s", "", was):
        sys.exit(f"narrow: {file}: more than blanks would change")
    with open(file, "w", encoding="utf-8") as it:
        it.write(new)
    return 1


if __name__ == "__main__":
    names = sys.argv[1:] or sorted(os.listdir("crates"))
    for name in names:
        for file in sorted(glob.glob(f"crates/{name}/**/*.antt", recursive=True)):
            if "/out/" not in file and file not in GENERATED:
                if narrow(file):
                    print(file)
