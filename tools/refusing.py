"""What the prover's words about a wrong version show: whether it was refused at a fact of a promise, or for something else."""
import re

# Of any text that is not admitted, what its error says; of a function's own proof, by the name of what it lacks, or by what the check says
# that it is.
SAID = [("a name out of scope", "not in scope"), ("a goal, field or name that is no longer there", "has no (field )?`")]
NAMED = [
    ("a loop's end", r".*-smaller(-.*)?", "the loop ends"),
    (
        "the language's own safety",
        r"(overflow_\w+|nonzero_\w+|(offset_|slice_)?bounds|shape_of|enum_known|enum_told)(-.*)?",
        "the (index|array|part|value|float|sum|subtraction|negation|product|divisor|amount) |this is no NaN|the bytes of the |control never comes",
    ),
]
ASKED = r".*-requires(-.*)?", "what .* requires "
# What is no definition at all shows nothing of the laws about it.
ILL_FORMED = "a definition that is none"


def unproved(log):
    """What was not proved, in order: whose it is (of a function, of a definition, or neither), its name, and what was said. What only waits for
    something else is passed over."""
    for line in log.split("\n"):
        error = re.match(r"(\S+?):\d+:\d+: error: (?:`([^`]+)`: )?(.*)", line)
        open_ = re.match(r"note: \S+?:\d+:\d+: it is not proved that (.*)", line)
        if error and "was not admitted" not in line:
            own = re.search(r"(^|/)proofs/.+/(Answers|Invariants|Proof)\.antt$", error.group(1))
            yield "function" if own else "definition" if re.search(r"(^|/)specs/", error.group(1)) else "", error.group(2) or "", error.group(3)
        elif open_:
            name = re.search(r"\(`([^`]+)`\)", open_.group(1))
            yield "function", name.group(1) if name else "", open_.group(1)


def is_one(name, said, named, words):
    """Whether a goal is of a kind: by its name, and where that is not told, by what is said."""
    return re.fullmatch(named, name) if name else re.match(words, said)


def faults(log):
    """Of each thing that was not proved, calls' own `requires` aside, why it shows nothing, or nothing where it is a fact of a promise."""
    for owner, name, said in unproved(log):
        if owner == "function" and is_one(name, said, *ASKED):
            continue
        whys = [why for why, words in SAID if re.search(words, said)] + [ILL_FORMED] * (owner == "definition")
        whys += [why for why, *kind in NAMED if owner == "function" and is_one(name, said, *kind)]
        yield f"{whys[0]}, first: `{name}`: {said[:150]}" if whys else None


def fault(log):
    """Why a refusal shows nothing, or nothing where it is right: of all that a check said."""
    if not re.search(r"^logic=not-proved", log, re.M):
        return "it was not refused by the prover"
    return next(faults(log), "its log names nothing that is not proved but what a call asks")
