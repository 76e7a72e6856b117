"""The crates of the tree, by crates.txt."""
import functools
import os
import re

TOP = os.path.dirname(os.path.dirname(os.path.abspath(__file__)))


def uses():
    """The crates, the lower ones first: for each those that it uses, also those of the toolchain."""
    with open(f"{TOP}/crates.txt") as file:
        lines = [line.partition(":") for line in file if re.match(r"\w+:", line)]
    return {name: used.split() for name, _, used in lines}


USES = uses()


@functools.lru_cache(maxsize=None)
def crates_below(crate):
    """The crates of this tree that the crate reaches, the lower ones first."""
    found = {}
    for used in USES[crate]:
        if used in USES:
            found.update(dict.fromkeys([*crates_below(used), used]))
    return list(found)
