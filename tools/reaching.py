"""How the tools follow names through all crates: from a text by the `use` lines of its file to definitions, and from these on."""
import os, re
from typing import NamedTuple

from reading import antt, declarations, line, public, rattle, read

MODULE = re.compile(r"Rattle\.(\w+)\.(specs|proofs)((?:\.[^.\s{}]+)*)")
USE = re.compile(r"^\s*(pub )?(?:ghost )?use ([^\s{};]+?)(?:\.\{([^}]*)\}| as (\S+?))?\s*;?$", re.M)
WORDS = re.compile(r"[\s(){},;]+")


def words_of(name):
    """The words that a name is written by: of an operator `◌+◌`, what stands between its places."""
    return [name, *filter(None, name.split("◌"))] if "◌" in name else [name]


class Name(NamedTuple):
    module: str  # `crate/specs/File`, as on the promises page
    name: str

    def __str__(self):
        return f"{self.module}:{self.name}"


def place(module):
    """A module of a crate as `crate/specs/File`; nothing for one of the kit. What is made of a function's contract stands with its proof."""
    found = MODULE.fullmatch(module)
    if not found or not os.path.isdir(f"crates/{found.group(1)}"):
        return None
    return "/".join((found.group(1), found.group(2), *found.group(3).split(".")[1:])).replace("/specs/contracts/", "/proofs/")


class File:
    """An antt file, or the `ghost use` lines of a Rattle file: what it declares, and what its names mean."""

    def __init__(self, module, text, declared):
        self.module, self.bodies, self.owners = module, {}, {}
        names = [re.sub(r" \(\d+\)$", "", key) for key in declared]
        for name, body in zip(names, declared.values()):
            owner = name.split(".")[0]
            self.bodies[owner] = f"{self.bodies.get(owner, '')} {body}"
        for name in sorted(names, key=lambda name: "." not in name):  # a definition's own name goes before a field's
            self.owners.update((word, name.split(".")[0]) for word in words_of(name.split(".")[-1]))
        self.brought, self.aliases, self.passed_on = {}, {}, {}
        for shown, used, names, alias in USE.findall(text):
            if alias or not names:
                self.aliases[alias or used.split(".")[-1]] = used
            for part in filter(None, (line(name) for name in names.split(","))):
                name, _, own = part.partition(" as ")
                self.brought.update((word, (used, name)) for word in words_of(own or name))
                if shown:
                    self.passed_on[own or name] = (used, name)

    def meant(self, word):
        """Where a word of this file is declared: a module and a name, or nothing where it is no definition of ours."""
        parts = word.split(".")
        for end in range(len(parts) - 1, 0, -1):  # `module.name`, and fields of it behind
            module = ".".join(parts[:end])
            if module in self.aliases or MODULE.fullmatch(module):
                return self.aliases.get(module, module), parts[end]
        if parts[0] in self.brought:
            return self.brought[parts[0]]
        return (self.module, self.owners[parts[0]]) if parts[0] in self.owners else None


class Specs:
    """The definitions of all crates, and what each reaches."""

    def __init__(self):
        self.files, self.wrong = {}, set()
        self.contracts = {}  # by a contract's module, the definitions that its call names; empty unless a tool follows contracts too

    def file(self, module):
        if module not in self.files:
            path = f"crates/{module}.antt"
            text = antt(read(path))
            self.files[module] = File(module, text, declarations(text)) if os.path.exists(path) else None
        return self.files[module]

    def found(self, module, name, by):
        """The definition that a use means, followed through what files pass on; nothing for the kit's and for types that the
        source declares. A contract has no file, and is its name alone."""
        own = module if "/" in module else place(module)
        if not own or "/specs/declared" in own:
            return None
        file = self.file(own)
        if file and name in file.passed_on:
            return self.found(*file.passed_on[name], by)
        if file and name in file.owners:
            return Name(own, file.owners[name])
        if "/specs/" in own + "/":
            self.wrong.add(f"{by}: {own} has no {name}")
        return Name(own, name)

    def reaches(self, file, text):
        """The definitions that a text of a file names."""
        meant = (file.meant(word) for word in WORDS.split(text))
        found = (self.found(*pair, file.module) for pair in meant if pair)
        return {name for name in found if name}

    def named(self, name):
        """The definitions that a definition names, or a contract."""
        file = self.file(name.module)
        return self.reaches(file, file.bodies.get(name.name, "")) if file else self.contracts.get(name.module.removesuffix("/Reads"), ())

    def way(self, starts):
        """Every definition that is reached from some, each with the one that it was first reached by."""
        came, waiting = {name: None for name in sorted(starts)}, sorted(starts)
        for name in waiting:
            for other in sorted(self.named(name)):
                if other not in came:
                    came[other] = name
                    waiting.append(other)
        return came


def promised(specs, crate):
    """Each public call of a crate that ensures something, with the definitions that it names."""
    for call in public(crate):
        clauses = [text for kind, text in call.function.clauses if kind != "requires"]
        if "ensures" in dict(call.function.clauses):
            yield call, specs.reaches(File(call.source, rattle(read(call.source)), {}), " ".join(clauses))


def statement(name, body):
    """Of a theorem what it says, without its proof; of a definition all of it."""
    if re.search(r"(?:^| )(?:abbrev|unfoldable|record|data) ", body):
        return body
    return re.split(rf" unfolding | {re.escape(name)} [^=:]*=", body)[0]


def theorems(specs):
    """Each public theorem of claims, with the definitions that it speaks of."""
    start = "crates/claims/proofs"
    for entry in sorted(name for name in os.listdir(start) if name.endswith(".antt")) if os.path.isdir(start) else []:
        file = specs.file(f"claims/proofs/{entry[:-5]}")
        for own, body in file.bodies.items():
            if re.search(r"(?:^| )pub ", body):
                name = Name(file.module, own)
                yield name, specs.reaches(file, statement(own, body)) - {name}
