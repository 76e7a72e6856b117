"""What the scripts of examples/truck make of an empty office, worked out here from the scripts and the rules alone, for
the cases that compare what canoffice makes of them: the reply to each line, and the canonical text of each release.
`office_model` holds the networks; this adds which number and which bits are given out: the least that are free.
"""
import glob, os, subprocess, sys

sys.path.insert(0, os.environ["TESTS"] + "/lib")
from office_model import EXTENDED, NOBODY, Office, bytes_of, fields_of, parts_of, text_of

TOP = os.path.dirname(os.environ["TESTS"])
LARGEST = {"std": 2047, "ext": 536870911}


def copy_scripts():
    """Puts the example into the case's folder, under the paths that its scripts name, and gives the scripts' own."""
    os.makedirs("examples", exist_ok=True)
    if not os.path.exists("examples/truck"):
        os.symlink(f"{TOP}/examples/truck", "examples/truck")
    return sorted(glob.glob("examples/truck/[0-9]*.txt"))


class Truck(Office):
    """An office that finds its own replies."""

    def __init__(self):
        super().__init__()
        self.blocks, self.used, self.held = [], set(), set()

    def arrive(self, line):
        """The reply to a line of a script."""
        key, team, command, *words = line.split(" ")
        fields = fields_of(words)
        if command == "bundle":
            with open(fields["file"][0], "rb") as file:
                parts = parts_of(file.read())
            return "bundle " + "; ".join(self.step(team, part, more | {"net": fields["net"]}) for part, more in parts)
        return self.step(team, command, fields)

    def step(self, team, command, fields):
        reply = self.reply(team, command, fields)
        self.carry_out(command, fields, reply.split(" "))
        return reply

    def reply(self, team, command, fields):
        network = self.networks.get(fields["net"][0])
        if command == "grant":
            form, first, last = (fields[name][0] for name in ("form", "first", "last"))
            self.blocks.append((form, fields["team"][0], int(first), int(last)))
        if command in ("take_ident", "take_pgn", "take_spn"):
            return f"number {getattr(self, 'number_of_' + command)(network, team, fields)}"
        if command == "take_bits":
            return f"start {self.start(network, fields)}"
        if command == "release":
            return f"release {len(network.releases) + 1}"
        return "done"

    def least(self, form, team, is_free):
        """The least number of the team's blocks of the form that is free."""
        return min(number for kind, owner, first, last in self.blocks if (kind, owner) == (form, team)
                   for number in range(first, last + 1) if is_free(number))

    def number_of_take_ident(self, network, team, fields):
        form = fields["form"][0]
        offset = EXTENDED if form == "ext" else 0
        taken = set(network.messages) | self.held
        if "want" in fields:
            wanted = int(fields["want"][0])
            assert wanted <= LARGEST[form] and wanted + offset not in taken
            return self.least(form, team, lambda number: number == wanted)
        return self.least(form, team, lambda number: number + offset not in taken)

    def number_of_take_pgn(self, network, team, fields):
        taken = {pgn_of(number) for number in set(network.messages) | self.held if number >= EXTENDED}
        addressed = fields["pdu"] == ["addressed"]

        def is_free(pgn):
            is_addressed = pgn >> 8 & 0xFF < 240
            return is_addressed == addressed and not (addressed and pgn & 0xFF) and pgn not in taken

        return self.least("pgn", team, is_free)

    def number_of_take_spn(self, network, team, fields):
        if "same" in fields:
            number = int(fields["same"][0])
            assert number in self.used
        else:
            number = self.least("spn", team, lambda number: number not in self.used)
        self.used.add(number)
        return number

    def start(self, network, fields):
        """The least start whose bits are in the payload, and that no signal has which may be there at the same time."""
        if "start" in fields:
            return int(fields["start"][0])
        message = network.message(fields["message"][0])
        mark = fields.get("mux", [""])[0]
        busy = {bit for signal in message.signals if not is_apart(signal.mark, mark) for bit in signal.bits()}
        self.take_bits(network, fields, ["start", "0"], b"")
        signal = message.signals.pop()
        for signal.start in range(8 * message.length):
            bits = set(signal.bits())
            if max(bits)[0] < message.length and not bits & busy:
                return signal.start
        raise AssertionError(f"no room for {signal.name}")

    def retire(self, network, fields, reply, content):
        number = network.message(fields["message"][0]).number
        if any(f"\nBO_ {number} " in release for release in network.releases):
            self.held.add(number)
        super().retire(network, fields, reply, content)


def pgn_of(number):
    pgn = number >> 8 & 0x3FFFF
    return pgn if pgn >> 8 & 0xFF >= 240 else pgn & 0x3FF00


def is_apart(one, other):
    """Whether signals with these indicators are never there together: they are for two values of the multiplexor."""
    return one != other and one[:1] == other[:1] == "m"


def model():
    """The network after all scripts, and the replies to each of them."""
    office, replies = Truck(), {}
    for path in copy_scripts():
        with open(path) as script:
            lines = [line.rstrip("\n") for line in script]
        replies[path] = "".join(office.arrive(line) + "\n" for line in lines if line and not line.startswith("#"))
    return office.networks["truck"], replies


def apply(path):
    """What canoffice answers to a script, on the database `truck.db`."""
    words = [os.environ["CANOFFICE"], "apply", "--db", "truck.db", path]
    return subprocess.run(words, capture_output=True, text=True, check=True).stdout
