"""The documents of the tree: their lines, and the commands that they show with what each writes."""
import os, re

TOP = os.path.dirname(os.path.dirname(os.path.dirname(os.path.abspath(__file__))))

# Folders without documents: what is built, and the crates, whose files .md are edits.
WITHOUT = {"out", "crates", "dist", ".git"}


def documents():
    """The path of each document in the tree, in order."""
    found = []
    for folder, below, names in os.walk(TOP):
        below[:] = sorted(set(below) - WITHOUT)
        found += [os.path.relpath(os.path.join(folder, name), TOP) for name in names if name.endswith(".md")]
    return sorted(found)


def lines_of(path):
    """The lines of a document, each with its number."""
    with open(os.path.join(TOP, path)) as file:
        return list(enumerate(file.read().splitlines(), 1))


def text_lines(path):
    """The lines that are text: those of blocks, which are indented by four spaces after an empty line, are left out."""
    found, in_block, after_empty = [], False, True
    for number, line in lines_of(path):
        in_block = line.startswith("    ") and (in_block or after_empty)
        after_empty = not line
        if not in_block:
            found.append((number, line))
    return found


class Command:
    """A command that a document shows: the number of its line, its text, and what is shown below it."""

    def __init__(self, number, text):
        self.number, self.text, self.shown = number, text, []

    def is_whole(self):
        """Whether no quote of the command is open, and no line follows."""
        return self.text.count("'") % 2 == 0 and not self.text.endswith("\\")


def shown_commands(path):
    """The commands of a document, in order: the lines of its blocks that begin with `$ `."""
    commands, last = [], None
    for number, line in lines_of(path):
        if line.startswith("    $ "):
            last = Command(number, line[6:])
            commands.append(last)
        elif not line.startswith("    "):
            last = None
        elif last and not last.is_whole():
            last.text += "\n" + line[4:]
        elif last:
            last.shown.append(line[4:])
    return commands


def shows(shown, written):
    """Whether the lines shown are those written. A line `..` is any lines, and one that ends with ` ..` is any line that
    begins as it does.
    """
    if not shown:
        return not written
    if shown[0] == "..":
        return any(shows(shown[1:], written[at:]) for at in range(len(written) + 1))
    if not written:
        return False
    if shown[0].endswith(" .."):
        first = written[0].startswith(shown[0].removesuffix(".."))
    else:
        first = written[0] == shown[0]
    return first and shows(shown[1:], written[1:])


def anchors_of(path):
    """The anchors of a document's headings, as they are made from their texts."""
    found = set()
    for _, line in text_lines(path):
        if heading := re.match(r"#+ (.*)", line):
            kept = re.sub(r"[^\w\- ]", "", heading[1].lower())
            found.add(kept.replace(" ", "-"))
    return found
