"""What the kit's own commands are told of the crates here."""

import os
import re
import subprocess

ROOT = os.path.dirname(os.path.dirname(os.path.realpath(__file__)))
KIT = os.path.dirname(subprocess.run(["rt", "doc"], stdout=subprocess.PIPE, text=True, check=True).stdout.strip())


def read(path):
    with open(path, encoding="utf-8") as file:
        return file.read()


# Of each crate the libraries that its line in crates.txt names.
BELOW = {name: libraries.split() for name, libraries in re.findall(r"(?m)^([a-z]\w*)(?: [^:\n]*)?:(.*)$", read(f"{ROOT}/crates.txt"))}


def libraries_of(crate):
    """Returns the libraries of the repository that a crate stands on, lowest first."""
    found = [it for low in BELOW[crate] if low in BELOW for it in [*libraries_of(low), low]]
    return list(dict.fromkeys(found))
