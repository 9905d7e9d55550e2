"""The definitions of the crates as texts: in which file each stands, and what the file imports."""
import os
import re
from functools import lru_cache

from .code_texts import CRATES, crates

BEGINS = re.compile(r"(?:pub )?(?:abbrev|unfoldable|record|data)(?: pub)? (\S+)")
IMPORT = re.compile(r"^(pub )?use Rattle\.([\w.]+?)(?:\.\{(.*)\})?(?: as (\S+))?$")
CLAUSE_USE = re.compile(r"^ghost use Rattle\.([\w.]+)\.\{(.*)\}(?: as (\S+))?;$")


class Definition:
    """A definition: its file, the number of its first line, and its lines."""

    def __init__(self, name, path, number):
        self.name, self.path, self.number, self.text = name, path, number, []


class File:
    """A file of definitions: what it imports, by the local name, what it hands on, and what it defines."""

    def __init__(self, module, path):
        self.module, self.path = module, path
        self.imports, self.definitions, self.passed_on, self.handed_on = {}, {}, [], {}
        current = None
        with open(path) as file:
            lines = file.read().split("\n")
        at = 0
        while at < len(lines):
            line = lines[at]
            at += 1
            while line.startswith(("use ", "pub use ")) and line.count("{") > line.count("}"):
                line += " " + lines[at].strip()
                at += 1
            if line.startswith(("use ", "pub use ")):
                self.read_import(line)
                current = None
                continue
            if not line.strip() or line.lstrip().startswith("--"):
                continue
            begins = BEGINS.match(line)
            if begins:
                current = Definition(begins.group(1), path, at)
                self.definitions[current.name] = current
            if current is not None:
                current.text.append(line.split(" -- ")[0])

    def read_import(self, line):
        found = IMPORT.match(line.strip())
        if not found:
            return
        passes_on, module, names, renamed = found.groups()
        if names is None:
            self.imports[renamed or module.split(".")[-1]] = (module, None)
            if passes_on:
                self.passed_on.append(module)
            return
        for item in names.split(","):
            name, _, other = item.strip().partition(" as ")
            if name:
                self.imports[other or name] = (module, name)
                if passes_on:
                    self.handed_on[other or name] = (module, name)


@lru_cache(None)
def files():
    """Each file of definitions of the repository, by its module."""
    found = {}
    for crate in crates():
        room = os.path.join(CRATES, crate, "specs")
        for folder, _, names in os.walk(room):
            for name in sorted(names):
                if name.endswith(".antt") and name != "Lib.antt":
                    path = os.path.join(folder, name)
                    inner = os.path.relpath(path, room)[:-5].replace(os.sep, ".")
                    module = "%s.specs.%s" % (crate, inner)
                    found[module] = File(module, path)
    return found
