"""The rows of a database, worked out from the lines of a script, their replies and docs/use/TABLES.md, for cases that
compare each row of each table.
"""
import os, re, sqlite3, subprocess, sys

from desk_script import read
from office_model import NOBODY, Office, bytes_of, decimal_text, fields_of, text_of

FORMS = ["std", "ext", "pgn", "spn"]
WORDS = ["done", "number", "start", "counts", "release", "refused"]
REFUSALS_WITH_A_PLACE = {"58", "62"}


def row_of_reply(reply):
    """The columns `kind`, `a`, `b` and `c`."""
    if reply.startswith("bundle "):
        return 6, reply.count("; ") + 1, 0, 0
    word, *numbers = reply.split(" ")
    if word == "refused":
        code, _, *place = numbers
        return 5, int(code), *(map(int, place) if code in REFUSALS_WITH_A_PLACE else (0, 0))
    return WORDS.index(word), *[int(number) for number in [*numbers, "0", "0", "0"][:3]]


class Tables(Office):
    """An office with all that its tables have."""

    def __init__(self):
        super().__init__()
        self.team = ""
        self.blocks, self.held, self.spns, self.replies, self.parts = set(), set(), set(), set(), set()

    def add_line(self, line, reply, content=b""):
        """A line of a script that has a key, its reply, and the bytes of the file that it names."""
        key, team, command, *words = line.split(" ")
        self.team = team
        if (team, key) not in self.answered:
            self.add_reply(team, key, " ".join([command, *words]), reply, content)
        fields = {name: [text_of(value.encode("latin-1")) for value in values]
                  for name, values in fields_of(words).items()}
        self.add(team, key, command, fields, reply, content)

    def add_reply(self, team, key, asked, reply, content):
        has_file = asked.startswith(("import ", "bundle "))
        asked = bytes_of(asked) + (b"\n" + content if has_file else b"")
        self.replies.add((team, key, asked, *row_of_reply(reply)))
        parts = reply.removeprefix("bundle ").split("; ") if reply.startswith("bundle ") else []
        self.parts |= {(team, key, place, *row_of_reply(part)[:2], 0) for place, part in enumerate(parts, 1)}

    def carry_out(self, command, fields, reply, content=b""):
        super().carry_out(command, fields, reply, content)
        network = self.networks[fields["net"][0]]
        if command == "open_net":
            network.name, network.reviews = fields["net"][0], int(fields["reviews"][0])
            network.submitter, network.approvals = "", set()
        elif command == "grant":
            first, last = int(fields["first"][0]), int(fields["last"][0])
            self.blocks.add((network.name, FORMS.index(fields["form"][0]), first, last, fields["team"][0]))

    def add_message(self, network, number, fields):
        super().add_message(network, number, fields)
        network.messages[number].owner = self.team

    def take_bits(self, network, fields, reply, content):
        super().take_bits(network, fields, reply, content)
        *earlier, signal = network.message(fields["message"][0]).signals
        signal.row = max((it.row for it in earlier), default=-1) + 1

    def take_spn(self, network, fields, reply, content):
        super().take_spn(network, fields, reply, content)
        self.spns.add((int(reply[1]),))

    def import_file(self, network, fields, reply, content):
        before = set(network.messages)
        super().import_file(network, fields, reply, content)
        for number in set(network.messages) - before:
            message = network.messages[number]
            message.owner = self.team
            for place, signal in enumerate(message.signals):
                signal.row = place
                self.spns |= {(signal.spn,)} if signal.spn else set()

    def retire(self, network, fields, reply, content):
        number = network.message(fields["message"][0]).number
        super().retire(network, fields, reply, content)
        if any(re.search(f"^BO_ {number} ", text, re.M) for text in network.releases):
            self.held.add((network.name, number))

    def submit(self, network, fields, reply, content):
        super().submit(network, fields, reply, content)
        network.submitter = self.team

    def approve(self, network, fields, reply, content):
        network.approvals.add(self.team)

    def reject(self, network, fields, reply, content):
        super().reject(network, fields, reply, content)
        network.submitter, network.approvals = "", set()

    def release(self, network, fields, reply, content):
        super().release(network, fields, reply, content)
        network.submitter, network.approvals = "", set()

    def rows(self):
        """The rows of each table, in no order."""
        nets = self.networks.values()
        messages = [(net.name, message) for net in nets for message in net.messages.values()]
        signals = [((name, message.number, signal.row), signal) for name, message in messages for signal in message.signals]
        return {
            "profile": {(1, 2), (2, 2)},
            "net": {row_of_net(net) for net in nets},
            "message": set(),
            "block": self.blocks,
            "held": self.held,
            "spn": self.spns,
            "approval": {(net.name, team) for net in nets for team in net.approvals},
            "frozen": {(net.name, number, bytes_of(text)) for net in nets for number, text in enumerate(net.releases, 1)},
            "reply": self.replies,
            "msg": {
                (name, it.number, it.name, it.owner, it.length, "" if it.sender == NOBODY else it.sender, bytes_of(it.comment))
                for name, it in messages},
            "sig": {(*place, *columns_of(signal)) for place, signal in signals},
            "receiver": {(*place, seat, name) for place, it in signals for seat, name in enumerate(it.receivers)},
            "sigvalue": {
                (*place, seat, decimal_text(value), bytes_of(words))
                for place, it in signals for seat, (value, words) in enumerate(it.values)},
            "part": self.parts,
        }


setattr(Tables, "import", Tables.import_file)


def row_of_net(net):
    frame = 'VERSION ""\nNS_ :\nBS_:\nBU_:' + "".join(f" {node}" for node in net.nodes) + "\n"
    return net.name, int(net.kind == "j1939"), net.reviews, int(net.phase == "review"), net.submitter, bytes_of(frame)


def columns_of(signal):
    """What a row of a signal has after its place."""
    mux = {"": -2, "M": -1}.get(signal.mark)
    mux = int(signal.mark[1:]) if mux is None else mux
    return (signal.name, signal.start, signal.size, 1 - signal.order, int(signal.sign == "-"), mux,
            *map(decimal_text, signal.numbers), bytes_of(signal.unit), bytes_of(signal.comment), signal.spn, 0)


def tables_after(folder):
    """The tables after the script of the folder, each line of which has a key; its replies are in `stdout`."""
    tables = Tables()
    lines = [line for line in text_of(read(f"{folder}/script.txt")).splitlines() if line and not line.startswith("#")]
    for line, reply in zip(lines, text_of(read(f"{folder}/stdout")).splitlines(), strict=True):
        files = [word.removeprefix("file=") for word in line.split(" ")[3:] if word.startswith("file=")]
        tables.add_line(line, reply, read(f"{folder}/{files[0]}") if files else b"")
    return tables


def apply_and_compare(folder):
    """Applies the script of the folder to a new database there, office.db, and ends the case if a reply isn't that of
    `stdout`, or a row isn't due."""
    words = [os.environ["CANOFFICE"], "apply", "--db", "office.db", "script.txt"]
    ran = subprocess.run(words, cwd=folder, capture_output=True)
    if (ran.stdout, ran.stderr, ran.returncode) != (read(f"{folder}/stdout"), b"", 0):
        sys.exit(f"apply --db gives {ran}")
    if wrong := differences(f"{folder}/office.db", tables_after(folder).rows()):
        sys.exit("\n".join(wrong[:20]))


def differences(path, wanted):
    """A line for each row of the database that isn't wanted, and each that lacks."""
    database = sqlite3.connect(path)
    integrity = database.execute("PRAGMA integrity_check").fetchall()
    found = {name: database.execute(f"SELECT * FROM {name}").fetchall()
             for name, in database.execute("SELECT name FROM sqlite_master WHERE type = 'table'").fetchall()}
    database.close()
    lines = [] if integrity == [("ok",)] else [f"integrity: {integrity}"]
    if list(found) != list(wanted):
        return [*lines, f"the tables are {list(found)}"]
    for name, rows in found.items():
        lines += [f"{name} has {row}, which isn't due" for row in rows if row not in wanted[name]]
        lines += [f"{name} lacks {row}" for row in wanted[name] if row not in rows]
        lines += [f"{name} has a row twice"] if len(rows) != len(set(rows)) else []
    return lines
