"""The wrong bodies of the crates: texts that each say which function becomes wrong, and how.

A crate has those that `rt ci` tries in must-fail/*.edit, and all others in must-fail/WRONG.md, a section each, named
crates/CRATE/must-fail/WRONG.md#NAME here:

    ## NAME

    Tried in each gate.
    System: a wrong system that it makes, as docs/made/REFUSED.md says it
    Refused by: the clause or law that refuses this system
    With: NAME, or CRATE#NAME: the section that says so for this one too

        file: src/acceptor.rt
        old: a text that occurs once in that file
        new: what stands there then

Each line of these may be absent but for those of the changes; other lines say what the change does."""
import functools
import os
import re
from typing import NamedTuple, Optional


class WrongBody(NamedTuple):
    """A section of a WRONG.md, or an edit."""

    name: str
    changes: list
    in_each_gate: bool = False
    system: Optional[str] = None
    refused_by: Optional[str] = None
    joined: Optional[str] = None


def body_of(name, lines):
    """The wrong body that these lines say."""
    changes, said, file, old = [], {}, None, None
    for line in lines:
        kind, _, text = line.removeprefix("    ").partition(": ")
        if kind == "file":
            file = text
        elif kind == "old":
            old = text
        elif kind in ("new", "new:"):
            changes.append((file, old, text))
        else:
            said[kind] = text
    return WrongBody(name, changes, "Tried in each gate." in said, said.get("System"), said.get("Refused by"), said.get("With"))


@functools.cache
def sections(path):
    """The sections of a WRONG.md by name."""
    found = {}
    with open(path) as file:
        for section in re.split(r"(?m)^## ", file.read())[1:]:
            name, *lines = section.rstrip("\n").split("\n")
            found[name] = body_of(name, lines)
    return found


def wrong_body(path):
    """The wrong body of this path."""
    file, _, name = path.partition("#")
    if name:
        return sections(file)[name]
    with open(file) as its:
        return body_of(os.path.basename(file), its.read().split("\n"))


def wrong_bodies_of(word):
    """The wrong bodies of a crate, or the one of CRATE#NAME or of a path, each with its crate."""
    crate, _, name = word.partition("#")
    folder = f"crates/{crate}/must-fail"
    if crate.startswith("crates/"):
        return [(crate.split("/")[1], word)]
    if name:
        return [(crate, f"{folder}/WRONG.md#{name}")]
    edits = [it for it in sorted(os.listdir(folder)) if it.endswith(".edit")] if os.path.isdir(folder) else []
    named = sections(f"{folder}/WRONG.md") if os.path.exists(f"{folder}/WRONG.md") else []
    return [*((crate, f"{folder}/WRONG.md#{it}") for it in named), *((crate, f"{folder}/{it}") for it in edits)]


def is_in_each_gate(path):
    """Whether each gate tries the wrong body."""
    return wrong_body(path).in_each_gate


def changes(path):
    """The changes of a wrong body: file, old text and new text."""
    return wrong_body(path).changes


def make(folder, found):
    """Makes the changes in a crate's folder, and returns the texts of before by path, and what cannot be made, or ''."""
    before = {}
    if not found:
        return before, "holds no change"
    for file, old, new in found:
        at = f"{folder}/{file}"
        with open(at) as its:
            text = its.read()
        before.setdefault(at, text)
        if text.count(old) != 1:
            return before, f"{old!r} occurs {text.count(old)} times in {file}"
        with open(at, "w") as its:
            its.write(text.replace(old, new))
    return before, ""


def put_back(before):
    """Puts back the texts of before."""
    for at, text in before.items():
        with open(at, "w") as its:
            its.write(text)


def spans(folder, found):
    """The places that changes replace, as file, first and last index; None where one of them is not there once, in the code as it is."""
    places = []
    for file, old, _ in found:
        with open(f"{folder}/{file}") as its:
            text = its.read()
        if text.count(old) != 1:
            return None
        places.append((file, text.index(old), text.index(old) + len(old)))
    return places


def together(folder, named):
    """Sorts wrong bodies, each a name with its changes, into groups that can be made at once: no two replace one place."""
    groups = []
    for name, found in named:
        places = spans(folder, found)
        fits = lambda taken: all(file != other or last <= first or end <= start
                                 for file, start, last in places for other, first, end in taken)
        group = next((it for it in groups if places is not None and it[1] is not None and fits(it[1])), None)
        if group:
            group[0].append((name, found))
            group[1].extend(places)
        else:
            groups.append(([(name, found)], places))
    return [it[0] for it in groups]


# A text that the compiler refuses, and a function of which it can make no proof whatever its body does.
REFUSED = r"(?m)^.*(?:error\[[\w-]+\]|(?:\./)?src/\S+?:\d+:\d+: error).*$"
NOT_COVERED = r"(?m)^(?:ahead of the check: )?(\S+): the borrow checker does not cover this function yet.*$"
