"""What is in the must-fail edits, the files crates/NAME/must-fail/*.md."""
import typing


class BadEdit(Exception):
    """Why an edit can't be tried."""


class Change(typing.NamedTuple):
    """What stands once in a file, and what an edit puts in its place: the wrong text, and the right one of its control."""

    file: str
    old: str
    new: str
    control: typing.Optional[str]


class Edit(typing.NamedTuple):
    """The function that must be refused, the clause that must refuse it, and the changes. An edit that is asleep names
    no function."""

    function: typing.Optional[str]
    clause: typing.Optional[str]
    changes: list

    def wrong(self):
        """What the edit replaces, in order: the file, the text that is there, and the wrong one."""
        return [(change.file, change.old, change.new) for change in self.changes]

    def control(self):
        """The same with the right texts. None where a change has no such text, or none differs from what was there."""
        changes = [(change.file, change.old, change.control) for change in self.changes]
        if any(right is None for _, _, right in changes) or all(old == right for _, old, right in changes):
            return None
        return changes


def keys_and_texts(path):
    """The lines of the file. Where the texts `old`, `new` and `control` have several lines, each begins with the key."""
    found = []
    with open(path) as lines:
        for line in lines:
            key, _, text = line.rstrip("\n").partition(":")
            text = text.removeprefix(" ")
            if found and key == found[-1][0] and key in ("old", "new", "control"):
                found[-1] = key, f"{found[-1][1]}\n{text}"
            else:
                found.append((key, text))
    return found


def read_edit(path):
    """The edit of a file. Raises BadEdit where a text stands where none is wanted."""
    said, old, changes = {}, None, []
    for key, text in keys_and_texts(path):
        if key == "old":
            old = text
        elif key == "new":
            if not old or "file" not in said:
                raise BadEdit("a line `new:` stands before the lines `file:` and `old:`")
            changes.append(Change(said["file"], old, text, None))
            old = None
        elif key == "control":
            if old or not changes or changes[-1].control is not None:
                raise BadEdit("a line `control:` doesn't stand after the line `new:`")
            changes[-1] = changes[-1]._replace(control=text)
        else:
            said[key] = text
    return Edit(said.get("function"), said.get("clause"), changes)


def texts_with(changes, text_of):
    """The texts of the files that these changes leave, each made in what the earlier ones left; `text_of` gives a file's
    text. Raises BadEdit where what is to be replaced doesn't stand there once."""
    texts = {}
    for file, old, new in changes:
        text = texts[file] if file in texts else text_of(file)
        if text.count(old) != 1:
            raise BadEdit(f"what it replaces is not once in {file}")
        texts[file] = text.replace(old, new)
    return texts
