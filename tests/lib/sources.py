"""The sources of the crates: the words of their code, their comments, and what a text cites as a crate's."""
import bisect, glob, os, re
from collections import defaultdict

from documents import TOP

# What a line of code may have: a text, a character, a comment, or a word.
RATTLE = re.compile(r'"(?:\\.|[^"\\])*"|\'(?:\\.|[^\'\\])\'|(?P<comment>//.*)|\w+')
ANTT = re.compile(r'"(?:\\.|[^"\\])*"|(?P<comment>--.*)|[\w-]+')
# The names that a line or more of code take from a crate.
IMPORT = re.compile(r"\buse (?:Rattle\.)?(\w+)[\w.:]*?(?:\.|::)(\{[^}]*\}|\w+)")
# A name that code defines.
DEFINITION = re.compile(r"\b(?=(?:fn|struct|enum|trait|const|type|record|data|pub) (\w+))")


class Passage:
    """Lines of text, each with its number, as one text with a space between two, in which an empty line gives two."""

    def __init__(self, lines):
        self.lines = [(number, line.strip()) for number, line in lines]
        self.text = " ".join(line for _, line in self.lines)
        self.begins = [0]
        for _, line in self.lines:
            self.begins.append(self.begins[-1] + len(line) + 1)

    def parts(self):
        """The passages that begin with a heading, and the one before the first."""
        heads = [at for at, (_, line) in enumerate(self.lines) if line.startswith("#")]
        ends = zip([0, *heads], [*heads, len(self.lines)])
        return [Passage(self.lines[first:end]) for first, end in ends if first < end]

    def line_at(self, offset):
        """The number of the line that has the offset."""
        return self.lines[bisect.bisect(self.begins, offset) - 1][0]


class Source:
    """A source: its path from the top, its crate and the folder there, its code with the words in it, and its comments.

    A comment is a passage: lines that have nothing else and follow one another, or what comes after a line's code.
    """

    def __init__(self, path):
        self.path = path
        _, self.crate, self.folder, *_ = path.split("/")
        form, mark = (ANTT, "--") if path.endswith(".antt") else (RATTLE, "//")
        with open(os.path.join(TOP, path), errors="replace") as file:
            lines = file.read().splitlines()
        code, comments, last = [], [], None
        for number, line in enumerate(lines, 1):
            pieces = form.finditer(line) if mark in line else []
            comment = next((piece for piece in pieces if piece["comment"]), None)
            code.append(line[: comment.start()] if comment else line)
            if comment:
                alone = not code[-1].strip()
                if not alone or last != number - 1:
                    comments.append([])
                comments[-1].append((number, comment[0].lstrip("/-!")))
                last = number if alone else None
        self.code = "\n".join(code)
        self.words = set(re.findall(r"\w+", self.code))
        self.comments = list(map(Passage, comments))


def crates_of_list():
    """The crates of crates.txt, in order, each with those that it uses, of the tree and of the toolchain."""
    with open(f"{TOP}/crates.txt") as file:
        lines = [line.split(":") for line in file if re.match("[a-z]", line)]
    return {crate: used.split() for crate, used in lines}


class Crates:
    """The crates of the tree: what each uses, its sources, and the words of their code."""

    def __init__(self):
        self.used = crates_of_list()
        found = (glob.glob(f"{TOP}/crates/*/{folder}/**/*", recursive=True) for folder in ("src", "specs", "proofs"))
        paths = sorted(os.path.relpath(path, TOP) for paths in found for path in paths)
        self.sources = [Source(path) for path in paths if path.endswith((".rt", ".antt"))]
        # The words of each crate's code; those of its proofs, with the names of all its files; and those of its code
        # that it takes from another crate of the tree, and doesn't define.
        self.words, self.proofs, self.taken = defaultdict(set), defaultdict(set), defaultdict(set)
        defined = defaultdict(set)
        for source in self.sources:
            self.proofs[source.crate].add(os.path.basename(source.path).split(".")[0])
            if source.folder == "proofs":
                self.proofs[source.crate] |= source.words
                continue
            self.words[source.crate] |= source.words
            defined[source.crate].update(DEFINITION.findall(source.code))
            for crate, names in IMPORT.findall(source.code):
                if crate in self.used and crate != source.crate:
                    self.taken[source.crate].update(re.findall(r"\w+", names))
        for crate, names in self.taken.items():
            names -= defined[crate]

    def all_words(self):
        """The words of the code of all crates, without proofs."""
        return set().union(*self.words.values())

    def clauses(self):
        """The names of the clauses of each function, also of one that has the same name in another crate."""
        found = defaultdict(set)
        for source in self.sources:
            for function in re.split(r"\bfn (?=\w)", source.code)[1:] if source.path.endswith(".rt") else []:
                found[re.match(r"\w+", function)[0]].update(re.findall(r"\b(?:ensures|requires) (\w+) \{", function))
        return found

    def fields(self):
        """The names that records and modules of `specs` have."""
        codes = (source.code for source in self.sources if source.folder == "specs")
        return {name for code in codes for name in re.findall(r"\bpub (\w+) :", code)}

    def crates_used(self):
        """The crates of the tree, and those of the toolchain that they use."""
        return set(self.used).union(*self.used.values())

    def has_file(self, crate, name):
        """Whether the crate has the file or folder, written from the crate's folder or from one inside."""
        places = (f"{TOP}/crates/{crate}/{below}{name}" for below in ("", "*/", "proofs/**/"))
        return any(glob.glob(place, recursive=True) for place in places)

    def has(self, place, name):
        """Whether a crate, or a source, has what is cited as its: a file, or words of its code. `..` in a name is any
        letters. What a crate takes from another one isn't its own, if it has a capital or an underscore.
        """
        if "/" in name or name.endswith((".rt", ".antt")):
            return self.has_file(place, name)
        taken = set()
        if place in self.used:
            words, taken = self.words[place] | self.proofs[place], self.taken[place]
        else:
            words = set().union(*(source.words for source in self.sources if source.path.endswith(f"/{place}")))
        if ".." in name:
            return any(map(re.compile(name.replace("..", r"\w+")).fullmatch, words))
        named = set(re.findall(r"\w+", name))
        return named <= words and not any(re.search("[A-Z_]", word) for word in named & taken)

    def citations(self, text):
        """What a text cites as a crate's, or as a source's: offset, crate or source, name."""
        for form in CITATIONS:
            for found in form.finditer(text):
                place, name = found["place"], found["name"]
                if (place in self.used or place.endswith((".rt", ".antt"))) and name not in self.used:
                    yield found.start("name"), place, name


# The ways in which a name is cited as a crate's or a source's.
CITATIONS = [
    re.compile(form)
    for form in (
        r"`?\b(?P<place>\w+)`?'s \[?`(?P<name>[\w:./]+)`",
        r"`(?P<name>[\w:./]+)`\]? (?:of|in) (?:the crate )?`(?P<place>\w+)`",
        r"`(?P<name>[\w:./]+)`\]? of the (?P<place>\w+)\b",
        r"`(?P<place>\w+)` \(\[?`(?P<name>[\w:./]+)`",
        r"`(?P<name>[\w:./]+)`\]? \(`(?P<place>\w+)`\)",
        r"- `(?P<place>\w+)`, `(?P<name>[\w:./]+)`",
        r"`(?P<name>[\w:]+)`(?:,| of| in|,? defined in) `(?P<place>[\w/]+\.(?:rt|antt))`",
    )
]
