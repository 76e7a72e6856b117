"""The remarks on a DBC file that reads, worked out here from the rules of docs/use/RULES.md ("Remarks") with Python's
fractions, for cases that compare the program's lines with them. Texts are bytes.

    remarks_model.py FILE [NAME,..]     prints the lines
"""
import re
import sys
from collections import namedtuple as record
from fractions import Fraction

EXTENDED = 1 << 31
INDEPENDENT = 3221225472
NULL_ADDRESS = 254
KINDS = dict(zip(
    "LongName ZeroFactor RangeInverted RangeOutside FloatSize MuxOutside MuxUnused SpnTwice ValueOutside ValueTwice "
    "UnknownNode LongFrame AddressTwice IdleNode".split(), range(80, 94)))
KEYWORDS = set(
    b"VERSION NS_ BS_ BU_ VAL_TABLE_ BO_ SG_ CM_ VAL_ SIG_VALTYPE_ BA_ BO_TX_BU_ EV_ ENVVAR_DATA_ EV_DATA_ SGTYPE_ "
    b"SGTYPE_VAL_ SIG_GROUP_ SIG_TYPE_REF_ SIGTYPE_VALTYPE_ CAT_ CAT_DEF_ FILTER NS_DESC_ BA_DEF_ BA_DEF_DEF_ "
    b"BA_DEF_REL_ BA_REL_ BA_DEF_DEF_REL_ BA_DEF_SGTYPE_ BA_SGTYPE_ BU_SG_REL_ BU_EV_REL_ BU_BO_REL_ "
    b"SG_MUL_VAL_".split())
TOKEN = re.compile(
    rb'[ \t\n\v\f\r]*(?:("(?:[^"\\]|\\.)*")|([A-Za-z_]\w*)|([0-9]+(?:\.[0-9]*)?(?:[Ee][+-]?[0-9]+)?)|([:;,|@()\[\]+-]))',
    re.S | re.A)
TEXT, WORD, NUMBER, MARK = 1, 2, 3, 4
NOBODY = b"Vector__XXX"

Token = record("Token", "kind text at")
# mux: None, "M" or a number; kind: 0 integer, 1 float, 2 double
Signal = record("Signal", "name at mux size signed factor offset least most receivers")
Message = record("Message", "number name at length sender signals")


class File:
    """What the statements of a file define and attach."""

    def __init__(self, text):
        self.text, self.tokens, at = text, [], 0
        while text[at:at + 200].strip(b" \t\n\v\f\r") or text[at:].strip(b" \t\n\v\f\r"):
            found = TOKEN.match(text, at)
            self.tokens.append(Token(found.lastindex, found.group(found.lastindex), found.start(found.lastindex)))
            at = found.end()
        self.at = 0
        # in the order of the file: ("node", name, at), ("table", name, at, values) and ("message", Message)
        self.defined = []
        self.values, self.kinds, self.spns = {}, {}, {}
        while self.at < len(self.tokens):
            self.statement()
        self.nodes = [found[1] for found in self.defined if found[0] == "node"]
        self.messages = sorted((found[1] for found in self.defined if found[0] == "message"), key=lambda m: m.number)

    def here(self):
        return self.tokens[self.at] if self.at < len(self.tokens) else Token(0, b"", len(self.text))

    def next(self):
        self.at += 1
        return self.tokens[self.at - 1]

    def passed(self, text):
        """Whether the next token is this one, which is passed over then."""
        found = self.here().text == text
        self.at += found
        return found

    def skip(self):
        while self.next().text != b";":
            pass

    def begins_next(self):
        """Whether a statement begins here, or the file ends."""
        here = self.here()
        return not here.kind or here.kind == WORD and here.text in KEYWORDS and here.text != b"SG_"

    def statement(self):
        keyword = self.next()
        read = {b"VERSION": self.next, b"NS_": self.symbols, b"BS_": self.timing, b"BU_": self.node_list,
                b"VAL_": self.value_texts, b"SIG_VALTYPE_": self.value_type, b"BA_": self.attribute}
        if keyword.text == b"VAL_TABLE_":
            name = self.next().text
            self.defined.append(("table", name, keyword.at, self.entries()))
        elif keyword.text == b"BO_":
            self.message(keyword.at)
        elif keyword.text in read:
            read[keyword.text]()
        else:
            self.skip()

    def symbols(self):
        while self.here().kind and self.here().text not in (b"BS_", b"BU_"):
            self.next()

    def timing(self):
        while not self.begins_next():
            self.next()

    def node_list(self):
        self.next()
        while not self.begins_next():
            name = self.next()
            if name.kind == WORD and name.text != NOBODY:
                self.defined.append(("node", name.text, name.at))

    def decimal(self):
        sign = -1 if self.passed(b"-") else (self.passed(b"+"), 1)[1]
        return sign * fraction(self.next().text)

    def decimals(self):
        """Two decimals with a mark before, between and after them."""
        self.next()
        first = self.decimal()
        self.next()
        second = self.decimal()
        self.next()
        return first, second

    def entries(self):
        found = []
        while not self.passed(b";"):
            found.append(self.decimal())
            self.next()
        return found

    def message(self, at):
        number = int(self.next().text)
        if number == INDEPENDENT:
            while not self.begins_next():
                self.next()
            return
        name = self.next().text
        self.next()
        length, sender, signals = int(fraction(self.next().text)), self.next().text, []
        while self.passed(b"SG_"):
            signals.append(self.signal())
        self.defined.append(("message", Message(number, name, at, length, None if sender == NOBODY else sender, signals)))

    def signal(self):
        name, mux = self.next(), None
        if not self.passed(b":"):
            word = self.next().text
            mux = "M" if word == b"M" else int(word[1:])
            self.next()
        self.next(), self.next()
        size = int(fraction(self.next().text))
        self.next(), self.next()
        signed = self.next().text == b"-"
        factor, offset = self.decimals()
        least, most = self.decimals()
        self.next()
        receivers = []
        while not self.begins_next() and self.here().text != b"SG_":
            word = self.next()
            if word.kind == WORD and word.text != NOBODY:
                receivers.append(word.text)
        return Signal(name.text, name.at, mux, size, signed, factor, offset, least, most, receivers)

    def cited(self):
        number, name = self.next().text, self.next().text
        return int(number), name

    def value_texts(self):
        if self.here().kind != NUMBER:
            return self.skip()
        key = self.cited()
        self.values[key] = self.entries()

    def value_type(self):
        key = self.cited()
        self.passed(b":")
        self.kinds[key] = int(self.next().text)
        self.next()

    def attribute(self):
        begin = self.at
        while self.next().text != b";":
            pass
        words = self.tokens[begin:self.at]
        if (len(words) == 6 and words[0].text == b'"SPN"' and words[1].text == b"SG_" and words[2].text.isdigit()
                and words[3].kind == WORD and words[4].text.isdigit() and int(words[4].text) <= 524287):
            self.spns[int(words[2].text), words[3].text] = int(words[4].text)


def fraction(digits):
    whole, _, power = digits.lower().partition(b"e")
    return Fraction((whole + b"0" if whole.endswith(b".") else whole).decode()) * Fraction(10) ** int(power or 0)


def stripped(number):
    """The mantissa, which is no multiple of ten, and the exponent."""
    if not number:
        return 0, 0
    mantissa, exponent = number, 0
    while mantissa.denominator > 1:
        mantissa, exponent = mantissa * 10, exponent - 1
    mantissa = int(mantissa)
    while mantissa % 10 == 0:
        mantissa, exponent = mantissa // 10, exponent + 1
    return mantissa, exponent


def decimal_text(number):
    mantissa, exponent = stripped(number)
    sign, digits = "-" * (mantissa < 0), str(abs(mantissa))
    if not -20 <= exponent <= 20:
        return f"{sign}{digits}E{exponent}".encode()
    if exponent >= 0:
        return (sign + digits + "0" * exponent).encode()
    digits = digits.zfill(1 - exponent)
    return f"{sign}{digits[:exponent]}.{digits[exponent:]}".encode()


def raw_values(signal):
    """The least and the greatest that the bits hold."""
    return (-(1 << signal.size - 1), (1 << signal.size - 1) - 1) if signal.signed else (0, (1 << signal.size) - 1)


def range_is_outside(signal):
    numbers = signal.factor, signal.offset, signal.least, signal.most
    unit = Fraction(10) ** min(stripped(number)[1] for number in numbers)
    products = [raw * signal.factor for raw in raw_values(signal)]
    if any(abs(number / unit) >= 10 ** 36 for number in (*numbers, *products)):
        return False
    ends = sorted(product + signal.offset for product in products)
    return not all(ends[0] <= number <= ends[1] for number in (signal.least, signal.most))


def spn_of(file, message, signal):
    return file.spns.get((message.number, signal.name), 0)


def parameter_group(message):
    """Its PGN (SAE J1939-21), and none for 11 bits."""
    if message.number < EXTENDED:
        return None
    group, specific = message.number >> 16 & 0x3FF, message.number >> 8 & 0xFF
    return group << 8 | (specific if group & 0xFF >= 240 else 0)


def earlier_with_spn(file, message, signal):
    """The message and the signal that had the SPN of the signal before: the first one of the same message, or else the
    first one of the file where it is of another parameter group. None if there is none."""
    spn = spn_of(file, message, signal)
    if not spn:
        return None
    first = next(other for other in message.signals if spn_of(file, message, other) == spn)
    if first is not signal:
        return message, first
    there, first = next((each, other) for each in file.messages for other in each.signals
                        if spn_of(file, each, other) == spn)
    is_one_group = parameter_group(there) is not None and parameter_group(there) == parameter_group(message)
    return None if there is message or is_one_group else (there, first)


def of_signal(file, message, signal):
    key = message.number, signal.name
    kind, values = file.kinds.get(key, 0), file.values.get(key, [])
    multiplexor = next((other for other in message.signals if other.mux == "M"), None)
    words = message.name + b" " + signal.name
    least, most = raw_values(signal)
    tests = {
        "LongName": len(signal.name) > 32,
        "ZeroFactor": signal.factor == 0,
        "RangeInverted": signal.least > signal.most,
        "RangeOutside": not kind and (signal.least or signal.most) and range_is_outside(signal),
        "FloatSize": kind and signal.size != 32 * kind,
        "MuxOutside": multiplexor and isinstance(signal.mux, int) and signal.mux >> multiplexor.size,
        "MuxUnused": signal.mux == "M" and not any(isinstance(other.mux, int) for other in message.signals),
    }
    yield from ((name, words) for name, holds in tests.items() if holds)
    earlier = earlier_with_spn(file, message, signal)
    if earlier:
        yield "SpnTwice", b" ".join([words, earlier[0].name, earlier[1].name])
    for value in values:
        if not kind and not (value.denominator == 1 and least <= value <= most):
            yield "ValueOutside", words + b" " + decimal_text(value)
    yield from twice(words, values)
    for receiver in signal.receivers:
        if receiver not in file.nodes:
            yield "UnknownNode", words + b" " + receiver


def twice(words, values):
    seen = set()
    for value in values:
        if value in seen:
            yield "ValueTwice", words + b" " + decimal_text(value)
        seen.add(value)


def of_message(file, message):
    if len(message.name) > 32:
        yield "LongName", message.name
    if message.sender and message.sender not in file.nodes:
        yield "UnknownNode", message.name + b" " + message.sender
    if message.number < EXTENDED and [m.length > 8 for m in file.messages if m is message or m.length > 8] == [True]:
        yield "LongFrame", message.name
    if message.sender and message.number >= EXTENDED and message.number & 255 != NULL_ADDRESS:
        first = next(m.sender for m in file.messages
                     if m.sender and m.number >= EXTENDED and m.number & 255 == message.number & 255)
        if first != message.sender:
            yield "AddressTwice", message.name + b" " + first


def of_node(file, name):
    if len(name) > 32:
        yield "LongName", name
    if not any(name == m.sender or any(name in s.receivers for s in m.signals) for m in file.messages):
        yield "IdleNode", name


def remarks(text):
    """The remarks, each with its offset, its kind's name and its words."""
    file = File(text)
    for what, *found in file.defined:
        if what == "node":
            yield from ((found[1], *remark) for remark in of_node(file, found[0]))
        elif what == "table":
            if len(found[0]) > 32:
                yield found[1], "LongName", found[0]
            yield from ((found[1], *remark) for remark in twice(found[0], found[2]))
        else:
            message = found[0]
            yield from ((message.at, *remark) for remark in of_message(file, message))
            for signal in message.signals:
                yield from ((signal.at, *remark) for remark in of_signal(file, message, signal))


def remark_lines(text, chosen=tuple(KINDS)):
    """The lines of the remarks of the chosen kinds."""
    lines = []
    for at, name, words in remarks(text):
        if name in chosen:
            line, column = text.count(b"\n", 0, at) + 1, at - text.rfind(b"\n", 0, at)
            lines.append(f"remark {line}:{column} {name} ".encode() + words + b"\n")
    return b"".join(lines)


if __name__ == "__main__":
    with open(sys.argv[1], "rb") as file:
        sys.stdout.buffer.write(remark_lines(file.read(), *(names.split(",") for names in sys.argv[2:3])))
