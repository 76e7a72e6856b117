"""What an office shows after requests that it has answered, for cases that look at one. It is worked out here from
the requests, their replies and the rules: the replies say which numbers and starts were given out, and what was
refused. Texts are kept as bytes, decoded so that each byte stays.
"""
import dataclasses, decimal, re, urllib.parse

EXTENDED = 1 << 31
NOBODY = "Vector__XXX"


def text_of(content):
    return content.decode(errors="surrogateescape")


def bytes_of(text):
    return text.encode(errors="surrogateescape")


def decimal_text(text):
    """The decimal as it is written in a canonical text: plain digits for powers of ten from -20 to 20."""
    with decimal.localcontext() as context:
        context.prec, context.Emax, context.Emin = 40, 10**6, -10**6
        sign, digits, power = context.create_decimal(text).normalize().as_tuple()
    mantissa = "".join(map(str, digits))
    if mantissa == "0":
        return "0"
    if not -20 <= power <= 20:
        number = f"{mantissa}E{power}"
    elif power >= 0:
        number = mantissa + "0" * power
    else:
        mantissa = mantissa.rjust(1 - power, "0")
        number = f"{mantissa[:power]}.{mantissa[power:]}"
    return "-" * sign + number


@dataclasses.dataclass
class Signal:
    name: str
    start: int
    size: int
    order: int
    sign: str
    numbers: list
    unit: str = ""
    mark: str = ""
    receivers: list = dataclasses.field(default_factory=list)
    values: list = dataclasses.field(default_factory=list)
    comment: str = ""
    spn: int = 0

    def place(self):
        return f"{self.start}|{self.size}@{self.order}"

    def line(self):
        factor, offset, least, most = map(decimal_text, self.numbers)
        mark = f" {self.mark}" if self.mark else ""
        receivers = ",".join(self.receivers) or NOBODY
        return (f" SG_ {self.name}{mark} : {self.place()}{self.sign} ({factor},{offset}) [{least}|{most}] "
                f'"{self.unit}" {receivers}\n')

    def bits(self):
        """The bits as (byte, bit), from the start on: of Motorola down to bit 0, and then on in the next byte."""
        for step in range(self.size):
            if self.order:
                yield divmod(self.start + step, 8)
            else:
                byte, bit = divmod(self.start, 8)
                yield byte + (7 - bit + step) // 8, 7 - (7 - bit + step) % 8


@dataclasses.dataclass
class Message:
    number: int
    name: str
    length: int
    sender: str
    signals: list = dataclasses.field(default_factory=list)
    comment: str = ""

    def signal(self, name):
        return next(signal for signal in self.signals if signal.name == name)

    def row(self):
        """Its line in the table."""
        form, pgn, identifier = "std", "-", self.number
        if self.number >= EXTENDED:
            form, identifier = "ext", self.number - EXTENDED
            pgn = identifier >> 8 & 0x3FFFF
            pgn = pgn & 0x3FF00 if (pgn >> 8 & 0xFF) < 240 else pgn
        sender = "-" if self.sender == NOBODY else self.sender
        return (f"{self.number:10} {form} {identifier:08x} {pgn:>6} {self.length:4} {len(self.signals):4} "
                f"{sender} {self.name}\n")

    def chart(self):
        """Which signal has which bit. Live messages are clear."""
        letters = [chr(ord("A") + index) if index < 26 else "+" for index in range(len(self.signals))]
        cells = {}
        for letter, signal in zip(letters, self.signals):
            for bit in signal.bits():
                cells[bit] = "#" if bit in cells else letter
        rows = [f"{byte:4} " + " ".join(cells.get((byte, bit), ".") for bit in range(7, -1, -1))
                for byte in range(self.length)]
        for letter, signal in zip(letters, self.signals):
            rows.append(f"{letter} {signal.name} {signal.place()}" + (f" {signal.mark}" if signal.mark else ""))
        return "".join(row + "\n" for row in rows + ["clear"])


class Network:
    def __init__(self, kind):
        self.kind, self.phase = kind, "draft"
        self.nodes, self.messages, self.releases = [], {}, []

    def message(self, name):
        return next(message for message in self.messages.values() if message.name == name)

    def sorted_messages(self):
        return [self.messages[number] for number in sorted(self.messages)]

    def sheet(self):
        """The canonical text of the live sheet."""
        messages = self.sorted_messages()
        pairs = [(message, signal) for message in messages for signal in message.signals]
        lines = ['VERSION ""\nNS_ :\nBS_:\n', "BU_:" + "".join(f" {node}" for node in self.nodes) + "\n"]
        for message in messages:
            lines.append(f"BO_ {message.number} {message.name}: {message.length} {message.sender}\n")
            lines += [signal.line() for signal in message.signals]
        for message, signal in pairs:
            if signal.comment:
                lines.append(f'CM_ SG_ {message.number} {signal.name} "{signal.comment}";\n')
        if any(signal.spn for _, signal in pairs):
            lines.append('BA_DEF_ SG_ "SPN" INT 0 524287;\nBA_DEF_DEF_ "SPN" 0;\n')
        for message, signal in pairs:
            if signal.spn:
                lines.append(f'BA_ "SPN" SG_ {message.number} {signal.name} {signal.spn};\n')
        for message, signal in pairs:
            if signal.values:
                texts = "".join(f' {decimal_text(value)} "{text}"' for value, text in signal.values)
                lines.append(f"VAL_ {message.number} {signal.name}{texts} ;\n")
        return "".join(lines)

    def table(self):
        messages = self.sorted_messages()
        count = sum(len(message.signals) for message in messages)
        return "".join(message.row() for message in messages) + f"messages {len(messages)} signals {count}\n"


# The statements of the files that the cases import, each on a line.
NUMBER = r"([-+0-9.E]+)"
STATEMENTS = {
    "nodes": r"BU_:(.*)",
    "message": r"BO_ ([0-9]+) ([A-Za-z0-9_]+): ([0-9]+) ([A-Za-z0-9_]+)",
    "signal": r" SG_ (\w+)( M| m\d+)? : (\d+)\|(\d+)@([01])([-+])"
    rf' \({NUMBER},{NUMBER}\) \[{NUMBER}\|{NUMBER}\] "(.*)" +(.*)',
    "comment": r'CM_ SG_ ([0-9]+) (\w+) "(.*)";',
    "spn": r'BA_ "SPN" SG_ ([0-9]+) (\w+) ([0-9]+);',
    "nothing": r'VERSION ""|NS_ :|\t\w+|BS_:|BA_DEF_ .*;|BA_DEF_DEF_ .*;|',
}


def read_file(content):
    """The nodes and the messages of a file."""
    nodes, messages, message = [], {}, None
    for line in text_of(content).split("\n"):
        kind, words = next(
            (kind, found.groups()) for kind, form in STATEMENTS.items() if (found := re.fullmatch(form, line)))
        if kind == "nodes":
            nodes += words[0].split()
        elif kind == "message":
            message = Message(int(words[0]), words[1], int(words[2]), words[3])
            # The message of this number holds signals of none.
            if message.number != 3221225472:
                messages[message.number] = message
        elif kind == "signal":
            receivers = [name for name in words[11].replace(",", " ").split() if name != NOBODY]
            message.signals.append(Signal(
                words[0], int(words[2]), int(words[3]), int(words[4]), words[5], list(words[6:10]), words[10],
                (words[1] or "").strip(), receivers))
        elif kind == "comment":
            messages[int(words[0])].signal(words[1]).comment = words[2]
        elif kind == "spn":
            messages[int(words[0])].signal(words[1]).spn = int(words[2])
    return nodes, messages


class Office:
    """Its networks, after the requests and replies that it was given."""

    def __init__(self):
        self.networks, self.answered = {}, set()

    def add(self, team, key, command, fields, reply, content=b""):
        """A request, whose fields are lists of texts, with its reply and the bytes of its file."""
        if (team, key) in self.answered:
            return
        self.answered.add((team, key))
        if command == "bundle" and reply.startswith("bundle "):
            for (part, part_fields), part_reply in zip(parts_of(content), reply.removeprefix("bundle ").split("; ")):
                self.carry_out(part, part_fields | {"net": fields["net"]}, part_reply.split(" "))
        elif not reply.startswith("refused "):
            self.carry_out(command, fields, reply.split(" "), content)

    def carry_out(self, command, fields, reply, content=b""):
        name = fields["net"][0]
        if command == "open_net":
            self.networks[name] = Network(fields["kind"][0])
        else:
            getattr(self, command)(self.networks[name], fields, reply, content)

    def grant(self, network, fields, reply, content):
        """What it shows isn't changed."""

    approve = grant

    def add_node(self, network, fields, reply, content):
        network.nodes.append(fields["name"][0])

    def add_message(self, network, number, fields):
        sender = fields.get("node", [NOBODY])[0]
        network.messages[number] = Message(number, fields["name"][0], int(fields["length"][0]), sender)

    def take_ident(self, network, fields, reply, content):
        self.add_message(network, int(reply[1]) + (EXTENDED if fields["form"] == ["ext"] else 0), fields)

    def take_pgn(self, network, fields, reply, content):
        identifier = int(fields["priority"][0]) << 26 | int(reply[1]) << 8 | int(fields["source"][0])
        if fields["pdu"] == ["addressed"]:
            identifier |= int(fields.get("destination", ["255"])[0]) << 8
        self.add_message(network, identifier + EXTENDED, fields)

    def take_bits(self, network, fields, reply, content):
        numbers = [fields[name][0] for name in ("factor", "offset", "minimum", "maximum")]
        network.message(fields["message"][0]).signals.append(Signal(
            fields["signal"][0], int(reply[1]), int(fields["size"][0]), int(fields["order"] == ["intel"]),
            "-" if fields["signed"] == ["true"] else "+", numbers, fields["unit"][0],
            re.sub("^m0+(?=.)", "m", fields.get("mux", [""])[0]), fields.get("receiver", [])))

    def signal_of(self, network, fields):
        return network.message(fields["message"][0]).signal(fields["signal"][0])

    def take_spn(self, network, fields, reply, content):
        self.signal_of(network, fields).spn = int(reply[1])

    def set_values(self, network, fields, reply, content):
        self.signal_of(network, fields).values = [value.split(":", 1) for value in fields.get("value", [])]

    def remove_signal(self, network, fields, reply, content):
        network.message(fields["message"][0]).signals.remove(self.signal_of(network, fields))

    def retire(self, network, fields, reply, content):
        del network.messages[network.message(fields["message"][0]).number]

    def import_file(self, network, fields, reply, content):
        nodes, messages = read_file(content)
        network.nodes += [node for node in nodes if node not in network.nodes]
        network.messages = messages | network.messages

    def submit(self, network, fields, reply, content):
        network.phase = "review"

    def reject(self, network, fields, reply, content):
        network.phase = "draft"

    def release(self, network, fields, reply, content):
        network.phase = "draft"
        network.releases.append(network.sheet())

    def list_of_networks(self):
        return "".join(f"{name} {network.kind} {network.phase} {len(network.releases)}\n"
                       for name, network in sorted(self.networks.items()))


setattr(Office, "import", Office.import_file)


def fields_of(words):
    """The values of each field, with their bytes decoded."""
    fields = {}
    for word in words:
        name, _, value = word.partition("=")
        fields.setdefault(name, []).append(urllib.parse.unquote(value, "latin-1"))
    return fields


def parts_of(content):
    """The commands of a bundle's file, with their fields."""
    lines = [line.split(" ") for line in text_of(content).splitlines() if line and not line.startswith("#")]
    return [(words[0], fields_of(words[1:])) for words in lines]
