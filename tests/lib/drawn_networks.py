"""Small networks that a generator draws, the same ones for the same seed: scripts with the files that they import, and
requests over HTTP. Many requests are refused. They are for cases that look at what the office has then.
"""
import json, random

EXTENDED = 1 << 31
TEAMS = ["engine", "brakes", "-", "a-team-whose-name-has-32-letters"]
TEXTS = [
    b"Off", b"Not available, or an error", b"50 %", b"", b"-", b"--", b"\xc2\xb0C", b"\xff\x80\x00", b"a\tb", b"two\nlines",
    b'a \\"quoted\\" word', b"\\\\", b",", b" ", b"%2d", b"Gr\xc3\xb6\xc3\x9fe, in m", b"~!", b"x" * 60]
DECIMALS = [b"0", b"1", b"-1", b"0.5", b"1E-3", b"-40", b"100", b"0.00000000125", b"8031.875", b"1E30", b"-1E-25", b"123456789012345678"]
# Blocks that no two teams have a number of: form, first, last. The last of a PGN block is beyond the first page.
BLOCKS = {
    "engine": [("std", 256, 259), ("ext", 0x0CF00400, 0x0CF00403), ("pgn", 61000, 61445), ("pgn", 0, 1023)],
    "brakes": [("std", 0, 1), ("std", 300, 319), ("ext", 0, 0), ("pgn", 65280, 65289), ("pgn", 2048, 2048)],
    "-": [("std", 2040, 2047), ("ext", 536870900, 536870911), ("pgn", 126970, 131071)],
    TEAMS[3]: [("pgn", 4096, 32000), ("ext", 1000, 100000)],
}


def escaped(text):
    """The bytes as a value of a script."""
    return "".join(chr(it) if 33 <= it <= 126 and it != 37 else f"%{it:02x}" for it in text)


class Network:
    """A network, drawn into the lines of a script and the files that it names."""

    def __init__(self, drawn, at, name, files):
        self.drawn, self.at, self.name, self.files, self.lines = drawn, at, name, files, []
        self.spns = range(1000 + 50 * at, 1040 + 50 * at)
        self.kind = drawn.choice(["can", "j1939", "j1939", "j1939"])
        self.reviews = drawn.choice([0, 0, 1, 2])
        self.granted = {team: [] for team in TEAMS}
        self.nodes, self.names, self.owned, self.keys = [], [], {team: [] for team in [*TEAMS, "office"]}, 0

    # ---- pieces

    def is_so(self, percent):
        return self.drawn.random() * 100 < percent

    def key(self):
        self.keys += 1
        return self.drawn.choice(["", "50%", "a,b", "~" * 50]) + f"{self.at}.{self.keys}"

    def new_name(self, team):
        name = self.drawn.choice(["M", "EngineSpeed", "_", "N" * 100]) + str(len(self.names))
        self.names.append(name)
        self.owned[team].append(name)
        return name

    def name_of_one(self, team):
        """The name of a message of the team's, or at times of any other one."""
        return self.drawn.choice(self.is_so(90) and self.owned[team] or self.names or ["None"])

    def numbers_for(self, team):
        """DBC numbers of the team's blocks, or of one of them; for the office any ones."""
        blocks = self.granted.get(team) or [("std", 0, 2047), ("ext", 0, 536870911)]
        blocks = [self.drawn.choice(blocks)] if self.is_so(40) else blocks
        return {self.number_in(*self.drawn.choice(blocks)) for _ in range(self.drawn.randrange(1, 8))}

    def number_in(self, form, first, last):
        number = self.drawn.randint(first, last)
        if form == "std":
            return number
        if form == "pgn":
            low = self.drawn.choice([number, number & ~255 | 7, number & ~255])
            number = self.drawn.randrange(8) << 26 | (low if low >= first else number) << 8 | self.drawn.choice([0, 3, 238])
        return EXTENDED + number

    def spn(self):
        """Of the team `engine` here, of nobody, or of a neighbour's block."""
        return self.drawn.choice([self.spns[self.drawn.randrange(23)], self.spns[39], self.spns[0] + 50 + self.drawn.randrange(12)])

    def fields_of_bits(self, message, signal, mark=""):
        factor, offset, least, most = (self.drawn.choice(DECIMALS).decode() for _ in range(4))
        receivers = "".join(f" receiver={it}" for it in self.nodes[:self.drawn.randrange(3)])
        return (f"message={message} signal={signal} size={self.drawn.choice([1, 2, 8, 12])} order={self.drawn.choice(['intel', 'motorola'])} "
                f"signed={self.drawn.choice(['true', 'false'])}{mark} factor={factor} offset={offset} minimum={least} maximum={most} "
                f"unit={escaped(self.drawn.choice(TEXTS))}{receivers}")

    # ---- a file

    def signals(self, length):
        """Signals that fit together: name, start, size, order, mark, value type."""
        order, at, found, marks = self.drawn.randrange(2), 0, [], [""] * 4
        if self.is_so(30):
            marks = [" M", " m0", " m1", " m70000", "", ""]
        base = None
        for index, mark in enumerate(marks[:self.drawn.randrange(len(marks) + 1)]):
            kind = self.drawn.choice([0, 0, 0, 0, 1, 2])
            size = {0: self.drawn.randrange(1, 13), 1: 32, 2: 64}[kind] if mark in ("", " m0") else 4
            if mark.startswith(" m"):
                base = at if base is None else base
                at, end = base, max(base + size, at)
            else:
                end = at + size
            if max(end, at + size) > 8 * length:
                break
            start = at if order else 8 * (at // 8) + 7 - at % 8
            found.append((f"S{index}", start, size, order, mark, kind))
            at = max(end, base + 64 if base is not None and mark else 0)
        return found

    def file(self, team):
        """A DBC file with a few messages, all that a sheet can have among them."""
        about, lines = [], [b'VERSION "%d"\n' % self.drawn.randrange(2), b"NS_ :\nBS_:\nBU_:"]
        nodes = ["Engine", "Dash", "Gateway", "Node_" + "x" * 20][:self.drawn.randrange(5)]
        self.nodes += [it for it in nodes if it not in self.nodes]
        lines += [b" " + it.encode() for it in nodes] + [b"\n"]
        if self.is_so(30):
            lines.append(b'VAL_TABLE_ T%d 0 "Off" 1 "On" ;\n' % self.drawn.randrange(3))
        about += [b'CM_ BU_ %s "%s";\n' % (it.encode(), self.drawn.choice(TEXTS)) for it in nodes if self.is_so(50)]
        for number in self.numbers_for(team):
            length = self.drawn.choice([0, 1, 2, 8, 8, 8, 8, 16, 64, 200 if self.is_so(20) else 8])
            sender = self.drawn.choice(nodes or ["Vector__XXX"])
            lines.append(b"BO_ %d %s: %d %s\n" % (number, self.new_name(team).encode(), length, sender.encode()))
            if self.is_so(50):
                about.append(b'CM_ BO_ %d "%s";\n' % (number, self.drawn.choice(TEXTS)))
            for signal in self.signals(length):
                line, more = self.signal_lines(number, signal, nodes)
                lines.append(line)
                about += more
        return b"".join(lines + about)

    def signal_lines(self, number, signal, nodes):
        """The line of a signal, and the statements about it."""
        name, start, size, order, mark, kind = signal
        of_it, about = (number, name.encode()), []
        decimals = tuple(self.drawn.choice(DECIMALS) for _ in range(4))
        receivers = ",".join(self.drawn.sample(nodes, self.drawn.randrange(len(nodes) + 1))) or "Vector__XXX"
        line = b' SG_ %s%s : %d|%d@%d%s (%s,%s) [%s|%s] "%s" %s\n' % (
            name.encode(), mark.encode(), start, size, order, self.drawn.choice([b"+", b"-"]), *decimals,
            self.drawn.choice(TEXTS), receivers.encode())
        if self.is_so(30):
            about.append(b'CM_ SG_ %d %s "%s";\n' % (*of_it, self.drawn.choice(TEXTS)))
        if self.is_so(40):
            about.append(b'BA_ "SPN" SG_ %d %s %d;\n' % (*of_it, self.spn()))
        if self.is_so(40):
            texts = b"".join(b' %s "%s"' % it for it in zip(self.drawn.sample(DECIMALS, 3), self.drawn.sample(TEXTS, 3)))
            about.append(b"VAL_ %d %s%s ;\n" % (*of_it, texts))
        if kind:
            about.append(b"SIG_VALTYPE_ %d %s : %d;\n" % (*of_it, kind))
        return line, about

    # ---- requests

    def add(self, team, command, fields=""):
        self.lines.append(f"{self.key()} {team} {command} net={self.name} {fields}".rstrip())

    def import_for(self, team):
        path = f"{len(self.files)}.dbc"
        self.files[path] = self.file(team)
        self.add(team, "import", f"file={path}")

    def grants(self):
        spns = [("engine", "spn", self.spns[0], self.spns[19]), ("brakes", "spn", self.spns[20], self.spns[22])]
        for team, form, first, last in [(team, *it) for team, those in BLOCKS.items() for it in those] + spns:
            is_possible = form != "pgn" or self.kind == "j1939"
            if form == "spn" or self.is_so(70 if is_possible else 5):
                self.add("office", "grant", f"team={team} form={form} first={first} last={last}")
                self.granted[team] += [(form, first, last)] * (form != "spn" and is_possible)

    def head(self, team, name):
        """The command that takes a message."""
        node = f" node={self.drawn.choice(self.nodes)}" if self.nodes and self.is_so(60) else ""
        form = self.drawn.choice([form for form, *_ in self.granted[team]] or ["std"])
        if form == "pgn":
            pdu = self.drawn.choice(["broadcast", "addressed", "addressed destination=7"])
            return f"take_pgn name={name} length=8{node} pdu={pdu} priority={self.drawn.randrange(8)} source={self.drawn.randrange(3)}"
        return f"take_ident form={form} name={name} length={self.drawn.choice([8, 8, 2])}{node}"

    def change(self, team):
        """A command on a message, with its fields but the network."""
        message, signal = self.name_of_one(team), f"S{self.drawn.randrange(4)}"
        of_signal = f"message={message} signal={signal}"
        mark = self.drawn.choice(["", "", "", " mux=M", " mux=m3"])
        texts = "".join(f" value={it}:{escaped(self.drawn.choice(TEXTS))}" for it in range(self.drawn.randrange(4)))
        change = self.drawn.choice([
            f"take_bits {self.fields_of_bits(message, signal, mark)}",
            f"take_spn {of_signal}" + self.drawn.choice(["", "", f" same={self.spn()}"]),
            f"set_values {of_signal}{texts}", f"remove_signal {of_signal}", f"retire message={message}",
            f"add_node name=N{self.drawn.randrange(4)}", self.head(team, self.new_name(team))])
        if change.startswith("retire") and message in self.owned[team]:
            self.owned[team].remove(message)
        return change

    def message_parts(self, team):
        """The commands that take a message with its signals."""
        name, signals = self.new_name(team), [f"S{it}" for it in range(self.drawn.randrange(4))]
        bits = [f"take_bits {self.fields_of_bits(name, it)}" for it in signals]
        spns = [f"take_spn message={name} signal={it}" for it in signals if self.is_so(40)]
        values = [f"set_values message={name} signal={it} value=1:{escaped(self.drawn.choice(TEXTS))}" for it in signals[1:]]
        return [self.head(team, name), *bits, *spns, *values]

    def bundle(self, team):
        path = f"{len(self.files)}.txt"
        parts = self.message_parts(team) if self.is_so(70) else [self.change(team) for _ in range(self.drawn.randrange(1, 4))]
        self.files[path] = "".join(f"{it}\n" for it in parts).encode()
        self.add(team, "bundle", f"file={path}")

    def changes(self):
        for _ in range(self.drawn.randrange(2, 7)):
            team = self.drawn.choice(TEAMS[:2])
            if self.is_so(40):
                self.bundle(team)
            else:
                command, _, fields = self.change(team).partition(" ")
                self.add(team, command, fields)
        if self.is_so(60):
            # A message with a new number: its partner has its name.
            name = self.name_of_one("engine")
            self.add("engine", "retire", f"message={name}")
            command, _, fields = self.head("engine", name).partition(" ")
            self.add("engine", command, fields)

    def review(self, is_to_end):
        self.add(self.drawn.choice(TEAMS), "submit")
        for team in self.drawn.sample(TEAMS, self.reviews + 1 if is_to_end else self.drawn.randrange(3)):
            self.add(team, "approve")
        if is_to_end:
            self.add("office", "release")

    def draw(self):
        self.add("office", "open_net", f"kind={self.kind} reviews={self.reviews}")
        self.grants()
        for team in self.drawn.sample(["engine", "brakes", "-", "office"], 2):
            self.import_for(team)
        self.bundle("engine")
        for _ in range(self.drawn.choice([0, 1, 1, 2, 2, 3])):
            self.review(is_to_end=True)
            self.changes()
        if self.is_so(30):
            self.import_for("office")
        if self.is_so(30):
            self.review(is_to_end=False)
        return self.lines


def networks_drawn(seed, count):
    """The lines of a script that makes so many networks, with the files that it names."""
    drawn, files, lines = random.Random(seed), {}, []
    names = ["-", "network-whose-name-has-32-letters"[:32], *[f"net-{it}" for it in range(count)]][:count]
    for at, name in enumerate(names):
        lines += Network(drawn, at, name, files).draw()
    return lines, files


def request(target, team, key, body):
    head = f"POST {target} HTTP/1.1\r\nTeam: {team}\r\nRequest-Key: {key}\r\nContent-Length: {len(body)}\r\n\r\n"
    return head.encode() + body


def requests_drawn(net):
    """Requests over HTTP on a network whose contents are long, or of several lines, or aren't ASCII, most of them refused."""
    fields = {"net": net, "form": "std", "name": "FromTheDesk", "length": 8}
    one_line, lines = json.dumps(fields), json.dumps(fields, indent=1)
    for size in (510, 511, 512, 513, 514, 1000):
        padded = one_line[:-1].ljust(size - len("/do/take_ident ") - 1) + "}"
        yield request("/do/take_ident", "engine", f"long-{size}", padded.encode())
        yield request("/do/take_ident", "engine", f"long-line-{size}", f"{padded}\n".encode())
    for key, body in (("lines", lines), ("line-end", f"{one_line}\n"), ("first-line-end", f"\n{one_line}"), ("crlf", lines.replace("\n", "\r\n"))):
        yield request("/do/take_ident", "engine", key, body.encode())
    texts = [["1", "\u00b0C, or 50 %"], ["2", "-"], ["3", "\t"]]
    values = json.dumps({"net": net, "message": "M0", "signal": "S0", "values": texts}, ensure_ascii=False)
    yield request("/do/set_values", "engine", "umlaut", values.encode())
    parts = {"commands": [{"command": "add_node", "name": f"Node{it}"} for it in range(30)]}
    yield request(f"/bundle/{net}", "brakes", "nodes", json.dumps(parts, indent=1).encode())
    yield request(f"/bundle/{net}", "brakes", "no-nodes", json.dumps(parts).encode())
    yield request(f"/import/{net}", "brakes", "file", b'VERSION "\xff"\nBU_:\n')
    yield request(f"/import/{net}", "brakes", "no-file", b'BU_: "' + b"%" * 600)
    yield request("/do/submit", "engine", "no-net", b'{"net":"no-such-net"}')
