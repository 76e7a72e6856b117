"""What looks show of an office, worked out from its tables with Python's sqlite3 (docs/use/TABLES.md), for cases that
compare the program's texts with it. Texts are bytes.
"""
import re
import sqlite3
from collections import namedtuple as record

EXTENDED = 1 << 31
FORMS = ("std", "ext", "pgn", "spn")
STD, EXT, PGN, SPN = range(4)
REFUSALS = dict(zip([*range(20, 27), *range(40, 63)], (
    "DoubleNumber DoubleName OutsidePayload Clash NoMultiplexor TwoMultiplexors TooMany NoNet NetThere NotOffice NoNode "
    "NoMessage NoSignal BlockTaken NoBlock BlockFull OutsideBlock NameTaken IdentTaken Held NotOwner InReview NotInReview "
    "OwnReview NeedsMore FileFault NoSpn NoRoom NotJ1939 BundleRefused").split()))

# mux: -2 has no indicator, -1 is the multiplexor, else the value; kind: 0 integer, 1 float, 2 double; decimals are texts
Signal = record("Signal", "name start size motorola signed mux factor offset least most unit comment spn kind receivers values")
Message = record("Message", "number name length sender comment signals")
Sheet = record("Sheet", "nodes messages")
Block = record("Block", "form first last team")
Net = record("Net", "name kind reviews submitter nodes live owners blocks held approvals releases used")
NO_SHEET = Sheet([], [])


# ---- reading

TOKEN = re.compile(rb'\s*(?:"((?:[^"\\]|\\.)*)"|([A-Za-z_]\w*)|([0-9]+(?:\.[0-9]*)?(?:[Ee][+-]?[0-9]+)?)|([:;,|@()\[\]+-]))', re.S)
TEXT, WORD, NUMBER, MARK = 1, 2, 3, 4


class Reader:
    """The tokens of a canonical text, one after the other."""

    def __init__(self, text):
        self.tokens, at = [], 0
        while text[at:].strip():
            found = TOKEN.match(text, at)
            self.tokens.append((found.lastindex, found.group(found.lastindex)))
            at = found.end()
        self.at = 0

    def here(self):
        return self.tokens[self.at] if self.at < len(self.tokens) else (0, b"")

    def next(self):
        self.at += 1
        return self.tokens[self.at - 1][1]

    def passed(self, mark):
        """Whether the next token is the mark, which is passed over then."""
        found = self.here() == (MARK, mark)
        self.at += found
        return found

    def decimal(self):
        return b"-" * self.passed(b"-") + self.next()

    def decimals(self):
        """Two decimals with a mark before, between and after them."""
        self.next()
        first = self.decimal()
        self.next()
        second = self.decimal()
        self.next()
        return first, second

    def rest(self):
        """The tokens up to the semicolon."""
        found = []
        while not self.passed(b";"):
            found.append(self.next())
        return found

    def values(self):
        """Values with their texts, up to the semicolon."""
        found = []
        while not self.passed(b";"):
            value = self.decimal()
            found.append((value, self.next()))
        return found


def signal_read(text):
    name, mux = text.next(), -2
    if text.here()[0] == WORD:
        mark = text.next()
        mux = -1 if mark == b"M" else int(mark[1:])
    text.next()
    start = int(text.next())
    text.next()
    size = int(text.next())
    text.next()
    order, sign = int(text.next()), text.next()
    factor, offset = text.decimals()
    least, most = text.decimals()
    unit, receivers = text.next(), [text.next()]
    while text.passed(b","):
        receivers.append(text.next())
    receivers = [] if receivers == [b"Vector__XXX"] else receivers
    return Signal(name, start, size, 1 - order, int(sign == b"-"), mux, factor, offset, least, most, unit, b"", 0, 0, receivers, [])


def message_read(text):
    number, name = int(text.next()), text.next()
    text.next()
    length, sender, signals = int(text.next()), text.next(), []
    while text.here() == (WORD, b"SG_"):
        text.next()
        signals.append(signal_read(text))
    return Message(number, name, length, b"" if sender == b"Vector__XXX" else sender, b"", signals)


def nodes_read(text):
    """The nodes of `BU_:`; the statements after it begin with keywords, which aren't names."""
    nodes = []
    while text.here()[0] == WORD and text.here()[1] not in (b"BO_", b"VAL_TABLE_", b"CM_", b"BA_DEF_", b"BA_", b"VAL_"):
        nodes.append(text.next())
    return nodes


def sheet_read(body):
    """The sheet of a canonical text, as far as looks show it."""
    text, nodes, messages, comments, spns, values, kinds = Reader(body), [], [], {}, {}, {}, {}
    while text.here()[0]:
        word = text.next()
        if word == b"VERSION":
            text.next()
        elif word in (b"NS_", b"BS_"):
            text.next()
        elif word == b"BU_":
            text.next()
            nodes = nodes_read(text)
        elif word == b"BO_":
            messages.append(message_read(text))
        elif word == b"CM_":
            *about, comment = text.rest()
            comments[tuple(about)] = comment
        elif word == b"VAL_":
            key = text.next(), text.next()
            values[key] = text.values()
        elif word == b"VAL_TABLE_":
            text.next()
            text.values()
        elif word == b"BA_":
            _, _, number, signal, spn = text.rest()
            spns[number, signal] = int(spn)
        elif word == b"SIG_VALTYPE_":
            number, signal, *_, kind = text.rest()
            kinds[number, signal] = int(kind)
        else:
            text.rest()

    def signal_of(number, signal):
        return signal._replace(comment=comments.get((b"SG_", number, signal.name), b""), spn=spns.get((number, signal.name), 0),
                               kind=kinds.get((number, signal.name), 0), values=values.get((number, signal.name), []))

    def message_of(message):
        number = b"%d" % message.number
        return message._replace(comment=comments.get((b"BO_", number), b""), signals=[signal_of(number, it) for it in message.signals])

    return Sheet([(it, comments.get((b"BU_", it), b"")) for it in nodes], [message_of(it) for it in messages])


def grouped(rows):
    """The last values of rows by the first two."""
    found = {}
    for number, place, *values in rows:
        found.setdefault((number, place), []).append(tuple(values))
    return found


def net_in(rows, name):
    """The network of the name, `None` where it isn't there."""
    heads = rows("SELECT kind,reviews,submitter,frame FROM net WHERE name=CAST(? AS TEXT)", name)
    if not heads:
        return None
    kind, reviews, submitter, frame = heads[0]
    receivers = grouped(rows("SELECT number,place,name FROM receiver WHERE net=? ORDER BY number,place,seat", name))
    values = grouped(rows("SELECT number,place,value,words FROM sigvalue WHERE net=? ORDER BY number,place,seat", name))
    signals = {}
    for number, place, *fields in rows("SELECT number,place,name,start,size,motorola,signed,mux,factor,shift,least,most,unit,comment,spn,"
                                       "label FROM sig WHERE net=? ORDER BY number,place", name):
        key = number, place
        signals.setdefault(number, []).append(Signal(*fields, [it for it, in receivers.get(key, [])], values.get(key, [])))
    live = rows("SELECT number,name,length,sender,comment,owner FROM msg WHERE net=? ORDER BY number", name)
    return Net(
        name.encode(), kind, reviews, submitter, sheet_read(frame).nodes,
        [Message(*it[:5], signals.get(it[0], [])) for it in live], [it[5] for it in live],
        [Block(*it) for it in rows("SELECT form,first,last,team FROM block WHERE net=? ORDER BY form,first", name)],
        [it for it, in rows("SELECT number FROM held WHERE net=? ORDER BY number", name)],
        [it for it, in rows("SELECT team FROM approval WHERE net=? ORDER BY team", name)],
        [sheet_read(it) for it, in rows("SELECT body FROM frozen WHERE net=? ORDER BY number", name)],
        [it for it, in rows("SELECT number FROM spn ORDER BY number")])


# ---- pieces

def shown(text, *escaped):
    """The bytes but those outside of visible ASCII, spaces apart, percent signs and those that are named; none is `-`."""
    if text in (b"", b"-"):
        return "%2d" if text else "-"
    return "".join("%%%02x" % it if it < 32 or it > 126 or it == 37 or chr(it) in escaped else chr(it) for it in text)


def word(text):
    return shown(text, " ", ",")


def words(texts):
    return ",".join(map(word, texts)) or "-"


def runs(numbers, step=1):
    """Ascending numbers as pairs of a first and a last, neighbours a step apart."""
    found = []
    for number in numbers:
        if found and found[-1][1] + step == number:
            found[-1] = found[-1][0], number
        else:
            found.append((number, number))
    return found


def runs_text(pairs):
    return ",".join(f"{first}" if first == last else f"{first}-{last}" for first, last in pairs) or "-"


def ident(number):
    return number % EXTENDED


def group(number):
    """The parameter group of the 29-bit identifier of a DBC number."""
    pgn = ident(number) // 256 % 262144
    return pgn if is_broadcast(pgn) else pgn // 256 * 256


def is_broadcast(pgn):
    return pgn // 256 % 256 >= 240


def ident_columns(number):
    is_extended = number >= EXTENDED
    return f"{number:10} {'ext' if is_extended else 'std'} {ident(number):08x} {group(number) if is_extended else '-':>6}"


NO_IDENT = f"{'-':>10} {'-':3} {'-':8} {'-':>6}"


def fact(key, value):
    return f"{key:11} {value}"


# ---- releases

def partners(before, now):
    """For each message its partner among those before: the one of its name; else of its number, where neither name is there."""
    by_name, names = {it.name: it for it in before}, {it.name for it in now}
    by_number = {it.number: it for it in before if it.name not in names}
    return [by_name.get(it.name) or by_number.get(it.number) for it in now]


def counts(before, now):
    pairs = partners(before, now)
    there = [it for it in pairs if it]
    return len(pairs) - len(there), len(before) - len(there), sum(old is not None and old != new for old, new in zip(pairs, now))


def last_release(net):
    return net.releases[-1] if net.releases else NO_SHEET


def releases_with(net, number):
    return runs_text(runs([at for at, sheet in enumerate(net.releases, 1) if any(it.number == number for it in sheet.messages)]))


def since(partner, message):
    return "new" if partner is None else "changed" if partner != message else "-"


# ---- blocks

def numbers_of(form, numbers):
    """The numbers of the form that these DBC numbers have."""
    if form == STD:
        return {it for it in numbers if it < EXTENDED}
    return {(ident if form == EXT else group)(it) for it in numbers if it >= EXTENDED}


def live_numbers(net, form):
    if form == SPN:
        return {signal.spn for it in net.live for signal in it.signals} - {0}
    return numbers_of(form, [it.number for it in net.live])


def taken_numbers(net, form):
    return set(net.used) if form == SPN else live_numbers(net, form) | numbers_of(form, net.held)


def free_runs(block, taken):
    """The free numbers as runs; of parameter groups first those with a destination address."""
    if block.form == PGN:
        free = [it for it in range(block.first, block.last + 1) if it not in taken]
        return runs([it for it in free if not is_broadcast(it) and it % 256 == 0], 256) + runs([it for it in free if is_broadcast(it)])
    found, first = [], block.first
    for number in sorted(it for it in taken if block.first <= it <= block.last):
        if first < number:
            found.append((first, number - 1))
        first = number + 1
    return found + [(first, block.last)] * (first <= block.last)


def free_count(block, pairs):
    return sum((last - first) // (256 if block.form == PGN and not is_broadcast(first) else 1) + 1 for first, last in pairs)


class Blocks:
    """The blocks of a network, with the numbers of each form that are live and that are taken."""

    def __init__(self, net):
        self.live = [live_numbers(net, form) for form in range(4)]
        self.taken = [taken_numbers(net, form) for form in range(4)]

    def free(self, block):
        return free_runs(block, self.taken[block.form])

    def line(self, block):
        inside = lambda numbers: {it for it in numbers if block.first <= it <= block.last}
        live, taken, pairs = inside(self.live[block.form]), inside(self.taken[block.form]), self.free(block)
        more = ",.." if len(pairs) > 4 else ""
        return (f"{FORMS[block.form]} {block.first:9} {block.last:9} {word(block.team):12} live {len(live):4} held {len(taken - live):3} "
                f"free {free_count(block, pairs):5} {runs_text(pairs[:4])}{more}")


def team_at(net, form, number):
    return next((it.team for it in net.blocks if it.form == form and it.first <= number <= it.last), None)


def team_of(net, number):
    if number < EXTENDED:
        return team_at(net, STD, number) or b""
    return team_at(net, PGN, group(number)) or team_at(net, EXT, ident(number)) or b""


# ---- looks

def state(net):
    added, removed, changed = counts(last_release(net).messages, net.live)
    facts = [
        ("network", word(net.name)), ("kind", ("can", "j1939")[net.kind]), ("phase", "review" if net.submitter else "draft"),
        ("submitted", word(net.submitter)), ("approved", words(net.approvals)),
        ("lacking", f"{max(0, net.reviews - len(net.approvals))} of {net.reviews}"), ("releases", len(net.releases)),
        ("added", added), ("removed", removed), ("changed", changed), ("held", len(net.held)), ("blocks", len(net.blocks)),
        ("nodes", len(net.nodes)), ("messages", len(net.live)), ("signals", sum(len(it.signals) for it in net.live))]
    return [fact(*it) for it in facts]


def blocks(net, team=None):
    known, mine = Blocks(net), [it for it in net.blocks if team is None or it.team == team]
    free = [sum(free_count(it, known.free(it)) for it in mine if it.form == form) for form in range(4)]
    left = " ".join(f"{name} {count}" for name, count in zip(FORMS, free))
    return [known.line(it) for it in mine] + [f"blocks {len(mine)} free {left}"]


def message_lines(net, is_wanted):
    lines = []
    for message, owner, partner in zip(net.live, net.owners, partners(last_release(net).messages, net.live)):
        if is_wanted(message, owner):
            lines.append(f"{ident_columns(message.number)} {message.length:4} {len(message.signals):4} {word(owner):12} "
                         f"{releases_with(net, message.number):>5} {since(partner, message):7} {word(message.sender)} {word(message.name)}")
    return lines


def messages(net, team=None):
    mine = [it for it, owner in zip(net.live, net.owners) if team is None or owner == team]
    signals = sum(len(it.signals) for it in mine)
    return message_lines(net, lambda _, owner: team is None or owner == team) + [f"messages {len(mine)} signals {signals}"]


def mark(signal):
    return {-2: "-", -1: "M"}.get(signal.mux, f"m{signal.mux}")


def place(signal):
    return f"{signal.start}|{signal.size}@{1 - signal.motorola}"


def positions(signal):
    at, found = signal.start, []
    for _ in range(signal.size):
        found.append(at)
        at = at + 1 if not signal.motorola else at - 1 if at % 8 else at + 15
    return found


def chart(message):
    """The chart of a message whose signals fit together, as those of live ones do."""
    owners = {}
    for index, signal in enumerate(message.signals):
        for at in positions(signal):
            owners.setdefault(at, []).append(chr(65 + index) if index < 26 else "+")
    cell = lambda at: "." if at not in owners else owners[at][0] if len(owners[at]) == 1 else "#"
    lines = [f"{byte:4}" + "".join(f" {cell(8 * byte + bit)}" for bit in range(7, -1, -1)) for byte in range(message.length)]
    for index, signal in enumerate(message.signals):
        lines.append(f"{chr(65 + index) if index < 26 else '+'} {word(signal.name)} {place(signal)}" + ("" if signal.mux == -2 else f" {mark(signal)}"))
    return lines + ["clear"]


def signal_line(signal):
    factor, offset, least, most = (it.decode() for it in (signal.factor, signal.offset, signal.least, signal.most))
    values = f"{f'({factor},{offset})':14} {f'[{least}|{most}]':14}"
    return fact("signal", f"{place(signal) + '+-'[signal.signed]:>10} {mark(signal):4} {signal.spn or '-':>6} {word(signal.name):22} "
                          f"{values} {word(signal.unit):6} {words(signal.receivers)}")


def message(net, name):
    at = next((at for at, it in enumerate(net.live) if it.name == name), None)
    if at is None:
        return None
    it, owner, partner = net.live[at], net.owners[at], partners(last_release(net).messages, net.live)[at]
    number, is_extended = ident(it.number), it.number >= EXTENDED
    of_29 = lambda value: value if is_extended else "-"
    facts = [
        ("message", word(it.name)), ("number", it.number), ("identifier", f"{'ext' if is_extended else 'std'} {number:08x}"),
        ("pgn", of_29(group(it.number))), ("priority", of_29(number >> 26)), ("source", of_29(number % 256)),
        ("destination", of_29("-" if is_broadcast(number >> 8) else number >> 8 & 255)), ("length", it.length),
        ("transmitter", word(it.sender)), ("owner", word(owner)), ("releases", releases_with(net, it.number)),
        ("since", since(partner, it)), ("comment", shown(it.comment))]
    lines = [fact(*pair) for pair in facts] + [signal_line(signal) for signal in it.signals]
    lines += [fact("type", f"{word(signal.name)} {('', 'float', 'double')[signal.kind]}") for signal in it.signals if signal.kind]
    lines += [fact("value", f"{word(signal.name):22} {value.decode():>6} {shown(text)}") for signal in it.signals for value, text in signal.values]
    lines += [fact("note", f"{word(signal.name):22} {shown(signal.comment)}") for signal in it.signals if signal.comment]
    return lines + chart(it)


def last_name(net, number):
    names = [it.name for sheet in net.releases for it in sheet.messages if it.number == number]
    return names[-1] if names else b""


def held_line(net, number):
    return f"{ident_columns(number)} {word(team_of(net, number)):12} {releases_with(net, number):>5} {word(last_name(net, number))}"


def held(net):
    return [held_line(net, it) for it in net.held] + [f"held {len(net.held)}"]


def releases(net):
    lines = []
    for number, (before, sheet) in enumerate(zip([NO_SHEET, *net.releases], net.releases), 1):
        added, removed, changed = counts(before.messages, sheet.messages)
        signals = sum(len(it.signals) for it in sheet.messages)
        lines.append(f"{number:5} messages {len(sheet.messages):5} signals {signals:5} added {added:4} removed {removed:4} changed {changed:4}")
    return lines + [f"releases {len(net.releases)}"]


def received(message, node):
    return sum(node in it.receivers for it in message.signals)


def nodes(net, node=None):
    sent = lambda name: [it for it in net.live if it.sender == name]
    taken = lambda name: [it for it in net.live if received(it, name)]
    if node is None:
        lines = [f"sends {len(sent(name)):4} receives {len(taken(name)):4} {word(name):12} {shown(comment)}" for name, comment in net.nodes]
        return lines + [f"nodes {len(net.nodes)}"]
    if node not in [name for name, _ in net.nodes]:
        return None
    line = lambda verb, it, count: f"{verb:8} {ident_columns(it.number)} {count:4} {word(it.name)}"
    lines = [line("sends", it, len(it.signals)) for it in sent(node)] + [line("receives", it, received(it, node)) for it in taken(node)]
    return lines + [f"sends {len(sent(node))} receives {len(taken(node))}"]


def spn_places(messages):
    found = {}
    for message in messages:
        for signal in message.signals:
            if signal.spn:
                found.setdefault(signal.spn, []).append((message, signal))
    return found


def spn_uses(net):
    """For each suspect parameter number that is shown: what has become of it, and its lines."""
    live, past, uses = spn_places(net.live), [spn_places(it.messages) for it in net.releases], []
    for number in net.used:
        frozen = [at for at, places in enumerate(past, 1) if number in places]
        if number in live:
            use, places = "live", live[number]
        elif frozen:
            use, places = "gone", past[frozen[-1] - 1][number]
        elif team_at(net, SPN, number):
            use, places = "used", []
        else:
            continue
        head = f"{number:6} {use:4} {runs_text(runs(frozen)):>5}"
        lines = [f"{head} {ident_columns(it.number)} {word(it.name)} {word(signal.name)}" for it, signal in places]
        uses.append((number, use, lines or [f"{head} {NO_IDENT} - -"]))
    return uses


def spns(net):
    uses = spn_uses(net)
    by_use = " ".join(f"{name} {sum(use == name for _, use, _ in uses)}" for name in ("live", "gone", "used"))
    return [line for _, _, lines in uses for line in lines] + [f"spns {len(uses)} {by_use}"]


def is_identifier(number):
    return number < 2048 or EXTENDED <= number < EXTENDED + (1 << 29)


def forms_of(number):
    return [(STD, number)] if number < EXTENDED else [(EXT, ident(number)), (PGN, group(number))]


def sought(text):
    """Which messages are looked for, by number and name, and which numbers of which forms."""
    if re.fullmatch(r"(pgn|spn)=[0-9]{1,6}", text):
        number = int(text[4:])
        is_group = text.startswith("pgn")
        return lambda it, _: is_group and it >= EXTENDED and group(it) == number, [(PGN if is_group else SPN, number)]
    if re.fullmatch(r"0x[0-9A-Fa-f]{1,8}", text):
        number = int(text, 16)
        known = [it for it in (number, number + EXTENDED) if is_identifier(it)]
        return lambda it, _: number in (it, ident(it)), [form for it in known for form in forms_of(it)]
    if re.fullmatch(r"[0-9]{1,10}", text):
        number = int(text)
        known = [(form, number) for form in range(4)] if number < EXTENDED else forms_of(number) if is_identifier(number) else []
        return lambda it, _: number in (it, ident(it)) or it >= EXTENDED and group(it) == number, known
    return lambda _, name: name == text.encode(), []


def is_number_of(form, number):
    return form != PGN or number < 1 << 18 and (is_broadcast(number) or number % 256 == 0)


def who(net, text):
    is_sought, numbers = sought(text)
    found = [it for it in net.live if is_sought(it.number, it.name)]
    gone = [it for it in net.held if is_sought(it, last_name(net, it))]
    wanted = numbers + [form for it in [message.number for message in found] + gone for form in forms_of(it)]
    inside = [it for it in net.blocks if any(it.form == form and is_number_of(form, number) and it.first <= number <= it.last
                                             for form, number in wanted)]
    known = Blocks(net)
    parts = [("live", message_lines(net, lambda it, _: it in found)), ("held", [held_line(net, it) for it in gone]),
             ("spn", [line for number, _, lines in spn_uses(net) if (SPN, number) in numbers for line in lines]),
             ("block", [known.line(it) for it in inside])]
    lines = [f"{tag:5} {line}" for tag, those in parts for line in those]
    if not lines:
        return None
    return lines + ["live %d held %d spns %d blocks %d" % tuple(len(those) for _, those in parts)]


# ---- requests

def reply(kind, a, b, c):
    if kind == 5:
        return f"refused {a} {REFUSALS[a]}" + (f" {b} {c}" if a in (58, 62) else "")
    return ("done", f"number {a}", f"start {a}", f"counts {a} {b}", f"release {a}", "", f"bundle {a}")[kind]


def first_line(content):
    front = content.split(b"\n")[0][:512]
    return shown(front) + " .." * (len(front) < len(content))


def requests(replies, parts, team):
    """The answered requests of the team, of the whole office."""
    lines, refused, mine = [], 0, [it[1:] for it in replies if it[0] == team]
    line = lambda key, answer, what: f"{word(key):24} {answer:24} <- {what}"
    for key, content, *numbers in mine:
        lines.append(line(key, reply(*numbers), first_line(content)))
        answers = [reply(kind, a, 0, 0) for kind, a in parts.get((team, key), [])]
        lines += [line(key, it, f"command {at}") for at, it in enumerate(answers, 1)]
        refused += numbers[0] == 5
    return lines + [f"requests {len(mine)} refused {refused}"]


# ---- the office

class Office:
    """The office of a database, which is read once."""

    def __init__(self, path):
        tables = sqlite3.connect(f"file:{path}?mode=ro", uri=True)
        tables.text_factory = bytes
        rows = lambda query, *values: tables.execute(query, values).fetchall()
        self.heads = rows("SELECT name,kind,phase,(SELECT count(*) FROM frozen WHERE net=name) FROM net ORDER BY name")
        self.nets = {it[0].decode(): net_in(rows, it[0].decode()) for it in self.heads}
        self.replies = rows("SELECT team,key,content,kind,a,b,c FROM reply ORDER BY team,key")
        self.parts = grouped(rows("SELECT team,key,kind,a FROM part ORDER BY team,key,place"))
        # While this connection has the file open the program can't open it.
        tables.close()

    def list_of_nets(self):
        return [f"{name.decode()} {('can', 'j1939')[kind]} {('draft', 'review')[phase]} {count}" for name, kind, phase, count in self.heads]

    def lines(self, subcommand, *words):
        if subcommand == "requests":
            return requests(self.replies, self.parts, words[0].encode())
        if not words:
            return self.list_of_nets()
        net, what, *name = *words, *["state"][len(words) - 1:]
        if net not in self.nets:
            return None
        if what == "who":
            return who(self.nets[net], *name)
        looks = {"state": state, "blocks": blocks, "messages": messages, "message": message, "held": held,
                 "releases": releases, "nodes": nodes, "spns": spns}
        return looks[what](self.nets[net], *[it.encode() for it in name])

    def text(self, *words):
        """What a run of the program with these words prints: `show` and what follows it, or `requests` and a team. `None`
        where nothing is found."""
        lines = self.lines(*words)
        return None if lines is None else "".join(f"{it}\n" for it in lines)
