"""What `compare` prints of two sheets, worked out from their canonical texts, for cases that compare the program's texts
with it. Texts are bytes.

    python3 compare_model.py OLD NEW

prints the lines of two files with canonical texts, and answers 1 where they differ.
"""
import sys
from collections import namedtuple as record

from looks_model import NO_IDENT, Reader, TEXT, counts, ident_columns, mark, partners, positions, sheet_read, word, words

Sheet = record("Sheet", "version comment nodes tables messages")
NO_SHEET = Sheet(b"", b"", [], [], [])

# The fields in the order of their lines; a receiver of the old message goes by those that begin with `!`, but for what is
# `unseen` of a signal.
SHEET_FIELDS = ["version", "comment"]
NODE_FIELDS = ["comment"]
TABLE_FIELDS = ["values"]
MESSAGE_FIELDS = ["!renumbered", "renamed", "!length", "transmitter", "comment"]
SIGNAL_FIELDS = [
    "!start", "!size", "!order", "!signed", "!type", "!mux", "!factor", "!offset", "minimum", "maximum", "unit", "spn",
    "receivers", "values", "comment"]


# ---- reading

def whole_sheet_read(body):
    """The sheet of a canonical text, with the version, the comment and the value tables, which no look shows."""
    text, version, comment, tables = Reader(body), b"", b"", []
    while text.here()[0]:
        statement = text.next()
        if statement == b"VERSION":
            version = text.next()
        elif statement == b"VAL_TABLE_":
            name = text.next()
            tables.append((name, text.values()))
        elif statement == b"CM_" and text.here()[0] == TEXT:
            comment = text.next()
    shown = sheet_read(body)
    return Sheet(version, comment, shown.nodes, tables, shown.messages)


# ---- what fields have, as words

def entries(values):
    return ",".join(f"{value.decode()}:{word(text)}" for value, text in values) or "-"


def message_words(it):
    return [str(it.number), word(it.name), str(it.length), word(it.sender), word(it.comment)]


def signal_words(it):
    decimals = [value.decode() for value in (it.factor, it.offset, it.least, it.most)]
    return [
        str(it.start), str(it.size), ("intel", "motorola")[it.motorola], ("false", "true")[it.signed],
        ("integer", "float", "double")[it.kind], mark(it), *decimals, word(it.unit), str(it.spn or "-"), words(it.receivers),
        entries(it.values), word(it.comment)]


# ---- what a receiver doesn't see

def bits(signal):
    """The positions of its bits, the least significant first."""
    return positions(signal)[::-1 if signal.motorola else 1]


def unseen(old, new):
    """The fields of a signal whose change alters nothing that is read: where the bits are the same from the least significant
    on, and of a float, which has a sign of its own."""
    return ["!start", "!size", "!order"] * (bits(old) == bits(new)) + ["!signed"] * bool(old.kind and new.kind)


# ---- differences: whether one breaks a receiver, the name that its line has, and what has become of it

def changes(fields, old, new, without=()):
    return [(field.startswith("!") and field not in without, f"{field.strip('!')} {before} -> {now}")
            for field, before, now in zip(fields, old, new, strict=True) if before != now]


def roster(fields, old, new, removal_breaks=False, without=None):
    """The differences of things, which are dictionaries from names to the words of their fields; the one of their order has
    no name. `without` has the fields by name that break nothing of those that have the name."""
    found = []
    for name, now in new.items():
        parts = changes(fields, old[name], now, without[name] if without else ()) if name in old else [(False, "added")]
        found += [(name, *it) for it in parts]
    found += [(name, removal_breaks, "removed") for name in old if name not in new]
    if [it for it in old if it in new] != [it for it in new if it in old]:
        found.append((None, False, "reordered"))
    return found


def pair(old, new):
    """The differences of a message and its partner, each with the kind of its line."""
    found = [("message", None, *it) for it in changes(MESSAGE_FIELDS, message_words(old), message_words(new))]
    signals = [{it.name: signal_words(it) for it in message.signals} for message in (old, new)]
    before = {it.name: it for it in old.signals}
    without = {it.name: unseen(before[it.name], it) for it in new.signals if it.name in before}
    return found + [("signal" if it[0] else "message", *it) for it in roster(SIGNAL_FIELDS, *signals, True, without)]


def message_differences(old, new):
    """The messages whose number and name lines have, each with its differences, by number; of two of one number the one of
    the new sheet is first."""
    found = [(it, pair(partner, it) if partner else [("message", None, False, "added")])
             for it, partner in zip(new, partners(old, new))]
    found += [(it, [("message", None, True, "removed")]) for it, partner in zip(old, partners(new, old)) if not partner]
    return sorted(found, key=lambda it: it[0].number)


# ---- lines

def line(kind, columns, name, breaks, change):
    return f"{'!' if breaks else '.'} {kind:7} {columns} {name} {change}"


def lines(old, new):
    found = [line("sheet", NO_IDENT, "-", *it) for it in changes(SHEET_FIELDS, *[[word(it.version), word(it.comment)] for it in (old, new)])]
    nodes = [{name: [word(comment)] for name, comment in it.nodes} for it in (old, new)]
    tables = [{name: [entries(values)] for name, values in it.tables} for it in (old, new)]
    for kind, things in (("node", roster(NODE_FIELDS, *nodes)), ("table", roster(TABLE_FIELDS, *tables))):
        found += [line(kind, NO_IDENT, name.decode() if name else "-", *it) for name, *it in things]
    for message, differences in message_differences(old.messages, new.messages):
        for kind, signal, *it in differences:
            name = message.name + (b"." + signal if signal else b"")
            found.append(line(kind, ident_columns(message.number), name.decode(), *it))
    breaking = sum(it.startswith("!") for it in found)
    added, removed, changed = counts(old.messages, new.messages)
    return found + [f"differences {len(found)} breaking {breaking} added {added} removed {removed} changed {changed}"]


def text(old, new):
    """What a run of the program prints of two sheets, and its status."""
    found = lines(old, new)
    return "".join(f"{it}\n" for it in found), int(len(found) > 1)


if __name__ == "__main__":
    printed, status = text(*[whole_sheet_read(open(path, "rb").read()) for path in sys.argv[1:3]])
    print(printed, end="")
    sys.exit(status)
