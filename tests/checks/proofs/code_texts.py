"""The code of the crates as texts: their files, and the public functions in them."""
import os
import re

from checks.judging import TOP, content

CRATES = os.path.join(TOP, "crates")

# A public function: what its lines begin with, its name, what stands before its body, and the body.
FUNCTION = re.compile(r"^( *)pub (?:const )?(?:extern \"C\" )?fn (\w+)\b(.*?)^\1(?:\{\n(.*?)^\1\}|\{\}$)", re.M | re.S)


def crates():
    """The names of the crates."""
    return sorted(os.listdir(CRATES))


def files_of(crate):
    """Each file of a crate's code, those in folders too: its path below crates/, and its text."""
    for folder, _, names in sorted(os.walk(os.path.join(CRATES, crate, "src"))):
        for name in sorted(names):
            yield os.path.relpath(os.path.join(folder, name), CRATES), content(folder, name)


def files():
    """The same of all crates."""
    for crate in crates():
        yield from files_of(crate)
