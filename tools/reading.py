"""How the tools read the crates' text: functions of Rattle with their clauses, which of them are public, and declarations of antt.
Comments count for nothing."""
import os, re, sys
from typing import NamedTuple

sys.dont_write_bytecode = True
PAIRS = {"(": ")", "[": "]", "{": "}"}


class Function(NamedTuple):
    owner: str  # the type that it is a method of, or nothing
    public: bool  # `pub`, as it says of itself
    exported: bool  # to C
    name: str
    names: list  # the parameters' names, in order
    parameters: list  # the types, in order; of `self` as it is written
    returns: str
    clauses: list  # kind and text, in order
    header: str  # from its name up to its body, in one line
    body: str  # as it is laid out by `rt fmt`, in one line


class Call(NamedTuple):
    name: str  # as a caller writes it, from the crate on
    path: str  # of its contract, as antt has it
    function: Function
    source: str  # the file that it stands in


def read(path):
    return open(path, encoding="utf-8").read() if os.path.exists(path) else ""


def rattle(text):
    return re.sub(r"//[^\n]*", "", text)


def antt(text):
    return re.sub(r"(?<!\S)--[^\n]*", "", re.sub(r"\{-.*?-\}", "", text, flags=re.S))


def line(text):
    """The text in one line, each gap one space."""
    return " ".join(text.split())


def closed(text, at):
    """Where the bracket at a place ends: the place after its other half."""
    open_, close, depth = text[at], PAIRS[text[at]], 0
    for end in range(at, len(text)):
        depth += (text[end] == open_) - (text[end] == close)
        if depth == 0:
            return end + 1
    raise ValueError("a bracket is left open: " + text[at:at + 60])


def listed(text):
    """What stands between the commas outside all brackets, those round types too."""
    parts, depth = [""], 0
    for part in re.findall(r"->|.", text, re.S):
        depth += (part in PAIRS or part == "<") - (part in PAIRS.values() or part == ">")
        if part == "," and depth == 0:
            parts.append("")
        else:
            parts[-1] += part
    return [line(part) for part in parts if part.strip()]


OWNER = re.compile(r"^impl(?:<[^{}]*?>)? (?:[\w:]+(?:<[^{}]*?>)? for )?(\w+)(?:<[^{}]*?>)? \{", re.M)
FUNCTION = re.compile(r"((?:#\[[^\]]*\]\s*)*)(\bpub )?(?:extern \"C\" )?\bfn (\w+)\s*(?:<(?:[^<>()]|->|<[^<>]*>)*>)?\(")


def functions(text):
    """Each function of a Rattle file."""
    text = rattle(text)
    owners = [(m.start(), closed(text, m.end() - 1), m.group(1)) for m in OWNER.finditer(text)]
    for found in FUNCTION.finditer(text):
        end = closed(text, found.end() - 1)
        owner = next((name for start, stop, name in owners if start < found.start() < stop), "")
        given = listed(text[found.end():end - 1])
        names, parameters = [part.split(":")[0] for part in given], [re.sub(r"^\w+: ", "", part) for part in given]
        returns = re.compile(r"\s*->\s*([^{]*?)\s*(?=\{|\b(?:ghost|requires|ensures)\b)").match(text, end)
        end = returns.end() if returns else end
        clauses = []
        while clause := re.compile(r"\s*(ghost|requires|ensures)\*?\s*(?:\w+:?\s*)?\{").match(text, end):
            end = closed(text, clause.end() - 1)
            clauses.append((clause.group(1), line(text[clause.end():end - 1])))
        header = line(text[found.start(3):end])
        answer = returns.group(1) if returns else ""
        indent = re.match(" *", text[text.rfind("\n", 0, found.start(3)) + 1:]).group()
        body = re.compile(rf"\s*\{{(.*?)^{indent}\}}", re.M | re.S).match(text, end)
        exported = "no_mangle" in found.group(1)
        yield Function(
            owner, bool(found.group(2)), exported, found.group(3), names, parameters, answer, clauses, header, line(body.group(1)) if body else ""
        )


def sources(crate):
    """The text of each source file of a crate in the working tree, by path."""
    return {path: read(path) for folder, _, names in os.walk(f"crates/{crate}/src") for path in (os.path.join(folder, name) for name in names)}


def module_of(path):
    names = path[:-3].split("/")[3:]
    return tuple(names[:-1] if names[-1] in ("lib", "main", "mod") else names)


def public(crate, texts=None):
    """The crate's public calls: `pub`, and in the crate's root, in `pub` modules all the way, or brought out by `pub use`; a `pub`
    method of a public type, in whatever module it stands; a function exported to C; a program's `main`. Its source files are the
    working tree's, or those given."""
    texts = sources(crate) if texts is None else texts
    paths = {module_of(path): path for path in texts}
    files = {module: rattle(texts[path]) for module, path in paths.items()}
    shown = {(*module, name) for module, text in files.items() for name in re.findall(r"\bpub mod (\w+)", text)}
    brought = {name for text in files.values() for use in re.findall(r"\bpub use ([^;]*);", text) for name in re.findall(r"\w+|\*", use)}
    types = {name: module for module, text in files.items() for name in re.findall(r"\b(?:struct|enum) (\w+)", text)}

    def seen(module, name):
        return all(module[:i + 1] in shown for i in range(len(module))) or brought & {name, "*"}

    for module, text in sorted(files.items()):
        for f in functions(text):
            home, named = (types[f.owner], f.owner) if f.owner else (module, f.name)
            if f.exported or f.public and seen(home, named) or not module and f.name == "main":
                own = (*home, f.owner, f.name) if f.owner else (*home, f.name)
                yield Call("::".join((crate, *own)), f"Rattle.{crate}.proofs." + ".".join(own), f, paths[module])


def edited(path):
    """The files that a must-fail edit changes, as it makes them, by their path. Each pair of texts goes by what those before it made."""
    crate, texts, file, old = os.path.dirname(os.path.dirname(path)), {}, "", ""
    for row in read(path).split("\n"):
        word, _, rest = row.partition(":")
        if word == "file":
            file = os.path.join(crate, rest.strip())
        elif word == "old":
            old = rest[1:]
        elif word == "new":
            texts[file] = texts.get(file, read(file)).replace(old, rest[1:], 1)
    return texts


def numbered(pairs):
    """By name: the second of one name is called `name (2)`, so that none is lost."""
    found = {}
    for name, body in pairs:
        count = 1
        while (key := name if count == 1 else f"{name} ({count})") in found:
            count += 1
        found[key] = body
    return found


DECLARED = re.compile(r"(?:abbrev |unfoldable )*(?:pub )?(?:(?:record|data) (\S+)|([^\s():{}→λ]+)(?: [({].*)? :(?= |$))")


def declarations(text):
    """Each declaration of an antt file by its name, a field or constructor as `Record.field`: its text up to the next one.

    What the modules around it take as given is part of it; what is declared inside a proof is part of the proof.
    """
    pairs, around = [], []  # around it: how far in each module or record stands, what it takes as given, the record's name
    for row in filter(str.strip, antt(text).split("\n")):
        depth, row = len(row) - len(row.lstrip()), row.strip()
        while around and depth <= around[-1][0]:
            around.pop()
        found = depth == (around[-1][0] + 2 if around else 0) and DECLARED.match(row)
        if around and around[-1][1] and not around[-1][1].endswith("where"):
            around[-1][1] += " " + row
        elif re.match(r"module\b", row):
            around.append([depth, row, ""])
        elif found:
            record, name = found.groups()
            owner = around[-1][2] if around else ""
            pairs.append((f"{owner}.{name}" if owner else record or name, line(" ".join(given for _, given, _ in around) + " " + row)))
            if record:
                around.append([depth, "", record])
        elif pairs and not re.match(r"(?:pub )?(?:use|mod)\b", row):
            pairs[-1] = (pairs[-1][0], pairs[-1][1] + " " + row)
    return numbered(pairs)
