"""Pairs of sheets that a generator draws, the same ones for the same seed, with their DBC texts, for cases that compare what
`compare` prints with `compare_model`. The second sheet of a pair is mostly the first one with a few edits. Signals may
overlap, and a multiplexor may be missing, since a sheet need not be clear.
"""
import random

from compare_model import Sheet
from looks_model import EXTENDED, Message, Signal, mark

NAMES = [b"A", b"B", b"Engine", b"EngineSpeed", b"_x", b"N" * 100]
TEXTS = [b"", b"", b"-", b"--", b"50 %", b"a, b", b"%2d", b"two\nlines", b"\xc2\xb0C", b"\xff\x00", b'a \\"quoted\\" word', b"1:On"]
DECIMALS = [b"0", b"1", b"-1", b"0.5", b"-0.125", b"100", b"8031.875", b"1E30", b"-1E-25", b"123456789012345678"]
NUMBERS = [0, 1, 256, 257, 2047, EXTENDED, EXTENDED + 1, EXTENDED + 0x18FF0000, EXTENDED + 0x18EF0B17, EXTENDED + 0x1FFFFFFF]
SPNS = [0, 0, 1, 91, 190, 524287]


class Drawn:
    def __init__(self, seed):
        self.drawn = random.Random(seed)

    # ---- a sheet

    def some(self, things, most):
        return self.drawn.sample(things, self.drawn.randrange(most + 1))

    def text(self):
        return self.drawn.choice(TEXTS)

    def values(self):
        return [(self.drawn.choice(DECIMALS), self.text()) for _ in range(self.drawn.choice([0, 0, 1, 3]))]

    def receivers(self):
        return [self.drawn.choice(NAMES) for _ in range(self.drawn.choice([0, 1, 1, 2]))]

    def signal(self, name):
        choice, decimals = self.drawn.choice, self.drawn.choices(DECIMALS, k=4)
        return Signal(
            name, choice([0, 7, 8, 65535]), choice([1, 8, 64]), choice([0, 1]), choice([0, 1]), choice([-2, -2, 0, 3, 4294967295]),
            *decimals, self.text(), self.text(), choice(SPNS), choice([0, 0, 1, 2]), self.receivers(), self.values())

    def signals(self):
        found = [self.signal(name) for name in self.some(NAMES, 4)]
        if found and self.drawn.random() < 0.3:
            found[0] = found[0]._replace(mux=-1)
        return found

    def message(self, number, name):
        choice = self.drawn.choice
        return Message(number, name, choice([0, 8, 64]), choice([b"", *NAMES]), self.text(), self.signals())

    def sheet(self):
        numbers, names = sorted(self.some(NUMBERS, 5)), self.drawn.sample(NAMES, len(NAMES))
        return Sheet(
            self.text(), self.text(), [(name, self.text()) for name in self.some(NAMES, 4)],
            [(name, self.values()) for name in self.some(NAMES, 3)], [self.message(*it) for it in zip(numbers, names)])

    # ---- an edit of one

    def with_one_else(self, things, edit):
        """The things with one left out, edited, or before another one."""
        found = list(things)
        if found:
            at = self.drawn.randrange(len(found))
            it, what = found.pop(at), self.drawn.randrange(4)
            if what == 1:
                found.insert(self.drawn.randrange(len(found) + 1), it)
            elif what > 1:
                found.insert(at, edit(it))
        return found

    def other_signal(self, it):
        """The signal with one field of another; there is no second multiplexor."""
        field = self.drawn.choice(Signal._fields[1:])
        value = getattr(self.signal(it.name), field)
        return it if field == "mux" and it.mux == -1 else it._replace(**{field: value})

    def other_message(self, it):
        field = self.drawn.choice(["length", "sender", "comment", "signals", "signals", "signals"])
        if field == "signals":
            return it._replace(signals=self.with_one_else(it.signals, self.other_signal))
        return it._replace(**{field: getattr(self.message(it.number, it.name), field)})

    def other_numbers(self, messages):
        """The messages with other numbers, or with the names of others, or one with another name."""
        numbers = sorted(self.drawn.sample(NUMBERS, len(messages)))
        names = [it.name for it in messages]
        what, free = self.drawn.randrange(3), [name for name in NAMES if name not in names]
        if what == 0:
            return [it._replace(number=number) for it, number in zip(messages, numbers)]
        if what == 1 or not messages:
            return [it._replace(name=name) for it, name in zip(messages, names[1:] + names[:1])]
        at = self.drawn.randrange(len(messages))
        return [*messages[:at], messages[at]._replace(name=self.drawn.choice(free)), *messages[at + 1:]]

    def edited(self, sheet):
        what = self.drawn.randrange(7)
        if what == 0:
            return sheet._replace(**{self.drawn.choice(["version", "comment"]): self.text()})
        if what == 1:
            return sheet._replace(nodes=self.with_one_else(sheet.nodes, lambda it: (it[0], self.text())))
        if what == 2:
            return sheet._replace(tables=self.with_one_else(sheet.tables, lambda it: (it[0], self.values())))
        if what == 3:
            return sheet._replace(messages=self.other_numbers(sheet.messages))
        messages = self.with_one_else(sheet.messages, self.other_message)
        return sheet._replace(messages=sorted(messages, key=lambda it: it.number))

    def pair(self):
        old = self.sheet()
        new = self.sheet() if self.drawn.random() < 0.2 else old
        for _ in range(self.drawn.randrange(4)):
            new = self.edited(new)
        return old, new


# ---- the text of a sheet

def values_text(values):
    return b"".join(b'%s "%s" ' % it for it in values) + b";\n"


def signal_text(it):
    indicator = b"" if it.mux == -2 else mark(it).encode() + b" "
    layout = b"%d|%d@%d%s" % (it.start, it.size, 1 - it.motorola, b"+-"[it.signed:it.signed + 1])
    return b' SG_ %s %s: %s (%s,%s) [%s|%s] "%s" %s\n' % (
        it.name, indicator, layout, it.factor, it.offset, it.least, it.most, it.unit, b",".join(it.receivers) or b"Vector__XXX")


def statements_about(message, signal):
    key = b"%d %s" % (message.number, signal.name)
    if signal.comment:
        yield b'CM_ SG_ %s "%s";\n' % (key, signal.comment)
    if signal.spn:
        yield b'BA_ "SPN" SG_ %s %d;\n' % (key, signal.spn)
    if signal.values:
        yield b"VAL_ %s " % key + values_text(signal.values)
    if signal.kind:
        yield b"SIG_VALTYPE_ %s : %d;\n" % (key, signal.kind)


def dbc_text(sheet):
    """A DBC text that reads as the sheet, and isn't canonical."""
    lines = [b'VERSION "%s"\n' % sheet.version, b"NS_ :\nBS_:\n", b" ".join([b"BU_:", *[name for name, _ in sheet.nodes]]) + b"\n"]
    lines += [b"VAL_TABLE_ %s " % name + values_text(values) for name, values in sheet.tables]
    for it in sheet.messages:
        lines.append(b"BO_ %d %s: %d %s\n" % (it.number, it.name, it.length, it.sender or b"Vector__XXX"))
        lines += map(signal_text, it.signals)
    lines += [b'CM_ "%s";\n' % sheet.comment] if sheet.comment else []
    lines += [b'CM_ BU_ %s "%s";\n' % it for it in sheet.nodes if it[1]]
    lines += [b'CM_ BO_ %d "%s";\n' % (it.number, it.comment) for it in sheet.messages if it.comment]
    lines += [b'BA_DEF_ SG_ "SPN" INT 0 524287;\nBA_DEF_DEF_ "SPN" 0;\n']
    return b"".join(lines + [it for message in sheet.messages for signal in message.signals for it in statements_about(message, signal)])
