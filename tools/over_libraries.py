"""Calls the toolchain over the libraries that `rt ci` leaves in crates/*/out/rlib, or makes there."""
import os
import re
import subprocess

HOME = os.path.dirname(os.path.dirname(os.path.abspath(__file__)))
# Another checkout whose libraries are used, for a trial of the tools.
LIBRARIES = os.environ.get("LIBRARIES", HOME)


def stands_on():
    """What crates.txt says: the kind of each crate, or '', and the names of its libraries."""
    found = {}
    with open(f"{HOME}/crates.txt") as file:
        for line in file:
            head, _, named = line.partition("#")[0].partition(":")
            if head.strip():
                name, _, kind = head.strip().partition(" ")
                found[name] = kind.strip(), named.split()
    return found


def below(name, crates):
    """The crates of this repository that the crate depends on, at any depth."""
    found, todo = set(), [*crates[name][1]]
    while todo:
        it = todo.pop()
        if it in crates and it not in found:
            found.add(it)
            todo += crates[it][1]
    return sorted(found)


def kit():
    """The folder of the kit."""
    page = subprocess.run(["rt", "doc"], capture_output=True, text=True, check=True).stdout.split()[-1]
    return os.path.dirname(page)


class Libraries:
    """The libraries that `rt ci` left."""

    def __init__(self):
        self.crates = stands_on()

    def at(self, name):
        """Where the library of a crate is."""
        return f"{LIBRARIES}/crates/{name}/out/rlib/{name}.rlib"

    def is_there(self, name):
        """Whether the library of a crate is there, whole."""
        return os.path.exists(f"{self.at(name)}/format")

    def is_over(self):
        """Whether no more libraries will come."""
        return True

    def absent(self, name):
        """The libraries below a crate that are not there."""
        return [it for it in below(name, self.crates) if not self.is_there(it)]

    def words(self, name, kit):
        """The words of the toolchain's command on a crate, in its folder: the crate, its libraries, and the logic."""
        kind, named = self.crates[name]
        is_program = os.path.exists(f"{HOME}/crates/{name}/src/main.rt")
        given = ["--crate-name", name, "src/main.rt" if is_program else "src/lib.rt"]
        if kind:
            given += ["--crate-type", kind, "--links", f"{name}="]
        for it in ["std", *named]:
            given += ["--extern", f"{it}={self.at(it) if it in self.crates else f'{kit}/rlibs/{it}.rlib'}"]
        given += ["-L", f"dependency={kit}/rlibs"]
        for it in below(name, self.crates):
            given += ["-L", f"dependency={os.path.dirname(self.at(it))}"]
        return given + ["--antt-project", f"{kit}/rattle/logic/antt-project.json", "--logic-built", f"{kit}/logic_built"]


class ComingLibraries(Libraries):
    """The libraries of an `rt ci` that runs beside: each is whole once the file that holds what `rt ci` prints says so. The
    file ends in the line `ended` once no more will come."""

    def __init__(self, said):
        super().__init__()
        self.said = said
        self.whole = set()

    def is_over(self):
        with open(self.said, errors="replace") as file:
            text = file.read()
        self.whole.update(re.findall(r"(?m)^rt: (\w+) (?:proved|is kept: .*)\n", text))
        return text.endswith("\nended\n")

    def is_there(self, name):
        return name in self.whole and super().is_there(name)
