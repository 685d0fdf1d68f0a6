#!/usr/bin/env python3
"""Brings the repository's own definitions and laws to the spelling of today's Rattle: words in snake case, types and modules in camel case.

usage: tools/port_names.py [FOLDER]     once, after port.py, at the top of the repository (or in FOLDER)

Turns every name of a lower-case first letter in .antt files, in clauses and ghost lines of .rt files, and in must-fail edits: `videoWords` is
`video_words`, `cells-of` is `cells_of`. Where a definition `likeThis` and a law `like-this` would fall together, the law gets `_holds` behind its name.
Functions of src/, exported names, strings, inputs and outputs have snake case already, and keep their names. Of a comment only names in camel case are
turned, and those between backticks. Names that Rattle makes (`tie.Need-..`) and those of its libraries
stay, and fields and labels, which stand behind a dot, get no `_holds`.
"""
import collections
import os
import re
import sys

NAME = re.compile(r"(?<![\w'\u25cc\u00b7\-])([a-z_][\w'\-]*)")
CAPITALS = re.compile(r"(?<![\w'\u25cc\u00b7\-])([A-Z]+(?:-[A-Z]+)+)(?![\w'\-])")
# Laws that port.py has in snake case already, since a library spells a name like theirs, beside a definition in camel case.
TURNED = {"copy_told", "load_told", "read_told", "number_by", "read_right", "left_by", "has_room"}


def snake(name):
    return re.sub(r"([a-z0-9])([A-Z])", r"\1_\2", name.replace("-", "_")).lower()


def files(top, endings):
    for folder, dirs, names in os.walk(os.path.join(top, "crates")):
        dirs[:] = sorted(d for d in dirs if d != "out")
        for name in sorted(names):
            if name.endswith(endings):
                yield os.path.join(folder, name)


def read(path):
    with open(path, encoding="utf-8") as f:
        return f.read()


# The spellings of one name in .antt files, comments aside.
def spellings(top):
    found = collections.defaultdict(set)
    for path in files(top, (".antt",)):
        for m in NAME.finditer(re.sub(r"--.*", "", read(path))):
            found[snake(m.group(1))].add(m.group(1))
    return found


# The names that files take from the libraries of the kit.
def taken(top):
    own = "|".join(sorted(os.listdir(os.path.join(top, "crates"))))
    found = set()
    for path in files(top, (".antt", ".rt")):
        for module, names in re.findall(r"^(?:ghost |pub )*use ([\w.\u00b7]+)\.\{([^}]*)\}", read(path), re.M):
            if not re.match(rf"Rattle\.(?:{own})\.", module):
                found |= {n.split(" as ")[0].strip() for n in names.split(",")}
    return found


# The fields of records that are declared in .antt files.
def fields(top):
    found = set()
    for path in files(top, (".antt",)):
        for m in re.finditer(r"^(?:pub )?record\b.*?where\n((?:  .*\n|\n)*)", re.sub(r"--.*", "", read(path)), re.M):
            found |= set(re.findall(r"^  (?:pub )?([a-z][\w'\-]*) :", m.group(1), re.M))
    return found


# The new name of each name that changes.
def turned(top):
    new, own, kit = {}, fields(top), taken(top)
    for name, ways in spellings(top).items():
        camel = any(re.search("[A-Z]", w) for w in ways)
        for way in ways:
            falls = camel and ("-" in way and not re.search("[A-Z]", way) or way in TURNED) and way not in own
            to = name + "_holds" if falls else name
            if to != way and way not in kit:
                new[way] = to
    return new


def turn(text, new):
    def one(m):
        before = text[max(0, m.start() - 4) : m.start()]
        if before == "tie.":
            return m.group(0)
        name = new.get(m.group(1), m.group(1))
        # behind a dot stands a field, or a label that Rattle makes
        return re.sub("_holds$", "", name) if before.endswith(".") else name

    return CAPITALS.sub(lambda m: m.group(1).replace("-", "_"), NAME.sub(one, text))


def turn_comment(text, new):
    camel = {a: b for a, b in new.items() if re.search("[a-z][A-Z]", a)}
    return re.sub(r"`[^`]*`", lambda m: turn(m.group(0), new), turn(text, camel))


def turn_line(line, new, mark):
    code, sign, comment = line.partition(mark)
    parts = re.split(r'("(?:[^"\\]|\\.)*")', code) if mark == "//" else [code]
    code = "".join(p if p.startswith('"') else turn(p, new) for p in parts)
    return code + sign + turn_comment(comment, new)


def turn_edit(line, new):
    key, sign, text = line.partition(": ")
    return key + sign + turn_line(text, new, "--" if "--" in text else "//") if key in ("old", "new") else line


def main():
    top = sys.argv[1] if len(sys.argv) > 1 else "."
    new = turned(top)
    count = 0
    for path in files(top, (".antt", ".rt", ".edit")):
        old = read(path)
        ways = {".antt": lambda s: turn_line(s, new, "--"), ".rt": lambda s: turn_line(s, new, "//"), ".edit": lambda s: turn_edit(s, new)}
        now = "\n".join(ways[os.path.splitext(path)[1]](s) for s in old.split("\n"))
        if now != old:
            count += 1
            with open(path, "w", encoding="utf-8") as f:
                f.write(now)
    print(f"{len(new)} names, {count} files")
    for a, b in sorted(new.items()):
        if b != snake(a):
            print(f"  {a} -> {b}")


if __name__ == "__main__":
    main()
