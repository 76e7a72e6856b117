"""What edits.txt has of the must-fail edits that name a function. Of each a line

    SUM CRATE/EDIT FUNCTION CLAUSE

with the function and the clause that refused it, and the SHA-256 of all that this stands on: the edit with its control,
the sources, specs and proofs of its crate and of those below, their lines of crates.txt, and the prover's logic. The
sum is the same on each machine, and a document, a case or a script doesn't change it. scripts/edits reads and writes
these lines.
"""
import functools
import glob
import hashlib
import os
import re
import subprocess
import sys

from crate_list import TOP, USES, crates_below

RECORDS = f"{TOP}/edits.txt"
HEAD = """\
# The must-fail edits that name a function. For each: the SHA-256 of what it stands on (scripts/edit_records.py), the
# edit, and the function and the clause that refused it there. `scripts/edits --record` writes this.
"""
LINE = re.compile(r"([0-9a-f]{64}) (\w+/\w+) (\S+) (.+)\n")
PARTS = ["src", "specs", "proofs"]


def edits_of(crate):
    """The edits of the crate that name a function, as CRATE/EDIT."""
    found = []
    for path in sorted(glob.glob(f"{TOP}/crates/{crate}/must-fail/*.md")):
        with open(path) as file:
            if any(line.startswith("function: ") for line in file):
                found.append(f"{crate}/{os.path.basename(path).removesuffix('.md')}")
    return found


def path_of(edit):
    crate, name = edit.split("/")
    return f"{TOP}/crates/{crate}/must-fail/{name}.md"


# Sums.


def sources_of(crate):
    """The paths of the crate's sources, specs and proofs."""
    for part in PARTS:
        for folder, _, names in os.walk(f"{TOP}/crates/{crate}/{part}"):
            yield from (f"{folder}/{name}" for name in names if name.endswith((".rt", ".antt")))


def sum_of_file(path):
    with open(path, "rb") as file:
        return hashlib.sha256(file.read()).hexdigest()


@functools.lru_cache(maxsize=None)
def list_of(crate):
    """The crate's line of crates.txt, and the sums and paths of its files, the paths as they are in the tree."""
    files = sorted((os.path.relpath(path, TOP), path) for path in sources_of(crate))
    lines = [f"{sum_of_file(path)}  {name}" for name, path in files]
    return "\n".join([f"{crate}: {' '.join(USES[crate])}", *lines])


@functools.lru_cache(maxsize=None)
def logic():
    """The prover's logic, which `rt version` prints after the kit's name. Kits of one logic refuse the same edits."""
    version = subprocess.run(["rt", "version"], stdout=subprocess.PIPE, text=True, check=True).stdout.strip()
    return version.partition(" logic ")[2] or version


def sums_of(edits):
    """For each of these edits the SHA-256 of all that its refusal stands on, by the files as they are now."""
    list_of.cache_clear()
    return {edit: sum_of(edit) for edit in edits}


def sum_of(edit):
    crate = edit.split("/")[0]
    lists = [list_of(it) for it in [*crates_below(crate), crate]]
    return hashlib.sha256("\n".join([logic(), sum_of_file(path_of(edit)), *lists]).encode()).hexdigest()


# Lines.


def read_records():
    """The lines of edits.txt, if it is there: for each edit the sum, the function and the clause."""
    records = {}
    with open(RECORDS if os.path.exists(RECORDS) else os.devnull) as file:
        for line in file:
            found = LINE.fullmatch(line)
            if found and found[2] not in records:
                records[found[2]] = found[1], found[3], found[4]
            elif not line.startswith("#"):
                sys.exit(f"edits: this is no line of edits.txt, or its second one of an edit: {line}")
    return records


def write_records(records):
    """Writes these lines, in the order of crates.txt."""
    edits = [edit for crate in USES for edit in edits_of(crate) if edit in records]
    with open(f"{RECORDS}.new", "w") as file:
        file.writelines([HEAD, *(" ".join([records[edit][0], edit, *records[edit][1:]]) + "\n" for edit in edits)])
    os.replace(f"{RECORDS}.new", RECORDS)


# What refused an edit.

PLACE = re.compile(r"(?:note: )?(?:\./)?((?:src|proofs)/\S+?):(\d+):\d+: (.*)")
# What the prover writes of a proof that names what is gone with the edit. It shows nothing of a clause.
GONE = re.compile(r"has no field|is not in scope|has no `|was not admitted")


def function_at(path, number, text):
    """The function that has the line of a source, or that a proof file is of; with its type, if it is a method."""
    names = path.split("/")
    if names[0] == "proofs":
        if names[-1] not in ("Answers.antt", "Invariants.antt"):
            return path
        names = [name for name in names[1:-1] if name[0].isupper()] + [names[-2]]
        return "::".join(names[-2:])
    lines = text.splitlines()
    end = int(number)
    while lines[end - 1].lstrip().startswith("#["):
        end += 1
    function = ""
    for line in reversed(lines[:end]):
        if found := re.match(r"( *)(?:pub(?:\(\w+\))? )?(?:const )?fn (\w+)", line):
            function = function or found[2]
            if not found[1]:
                break
        elif found := re.match(r"impl\b(?:<[^{]*?>)? (?:.* for )?(\w+)", line):
            return f"{found[1]}::{function}"
    return function


def clause_of(text):
    """The clause that a goal is of: its name, or `ensures` where it has none, or is the only one and the goal doesn't say
    its name. Another goal is of no clause."""
    goal = re.search(r"`([\w.-]+)`", text)
    goal = goal[1] if goal else ""
    named = re.search(r"-clause-(\w+)$", goal)
    if callee := re.match(r"(\w+)-requires\b", goal):
        return f"{named[1]} of {callee[1]}, which it calls" if named else f"what {callee[1]} requires"
    if named:
        return named[1]
    if re.match(r"returns\b", goal):
        return "ensures"
    if "`loop-" in text:
        return "the invariant of the loop"
    # An operation isn't safe.
    return "no clause: " + re.sub(r".*it is not proved that | \(.*", "", text)


def open_goals(lines, text_of):
    """The function and the clause of each goal that the prover lists as not proved, in its order, each once. `text_of`
    gives the text of a file that was checked."""
    found = []
    for place in map(PLACE.match, lines):
        if place and (place[3].startswith("error: ") or "it is not proved that" in place[3]) and not GONE.search(place[3]):
            found.append((function_at(place[1], place[2], text_of(place[1])), clause_of(place[3])))
    return list(dict.fromkeys(found))
