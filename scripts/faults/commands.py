"""The commands that each_fault tries: their words and files, what the rules say that they answer, and what may come
of a run in which a call fails."""
import base64, gzip, socket
from faults import LOST, TABLES, TOP, Answer, remove_database, run, tables_of


def content_of(path):
    """The bytes of a file of the tree."""
    with open(f"{TOP}/{path}", "rb") as file:
        return file.read()


def unpacked(path):
    """A database that a case has packed."""
    return gzip.decompress(base64.b64decode(content_of(path)))


class Printing:
    """A command that only prints: its answer, or what is shown of a lost run, alone. Where the rules leave the text
    open, as of what clap prints, or another case compares it, as of a page, there is no answer here, and that of an
    undisturbed run counts."""

    def __init__(self, words, files=None, answer=None):
        self.words, self.files, self.answer = words, files or {}, answer

    def begin(self, program, room):
        """An undisturbed run, which must give the answer."""
        self.program, self.room = program, room
        self.prepare()
        answer = self.run_again()
        if self.answer is None:
            self.answer = answer
        if answer != self.answer:
            raise SystemExit(f"an undisturbed {self.words} gives {answer}, and not {self.answer}")

    def prepare(self):
        """Makes the files that a run finds."""
        for name, content in self.files.items():
            with open(f"{self.room}/{name}", "wb") as file:
                file.write(content)

    def run_again(self, words=None):
        return run(self.program, words or self.words, self.room)

    def is_beginning(self, output):
        """Whether a lost run may print this."""
        return output == b""

    def kind_of(self, answer, fault):
        """What came of the run; None if no rule allows it."""
        if answer == self.answer:
            return "whole"
        if fault.call == "write" and answer.status == LOST:
            is_part = self.answer.output.startswith(answer.output) and self.answer.errors.startswith(answer.errors)
            # What goes to standard error comes after the whole output.
            is_in_order = not answer.errors or answer.output == self.answer.output
            return "not written" if is_part and is_in_order else None
        if answer in [Answer(b"", f"cannot read {name}\n".encode(), LOST) for name in self.files]:
            return "not read"
        if not self.is_beginning(answer.output):
            return None
        if fault.is_stop:
            return "stopped" if (answer.errors, answer.status) == (b"", -9) else None
        # Where memory is gone for long the database may lack what it needs to take a request back, or to close.
        lost_lines = {fault.lost_line} if fault.reach in {"one", "two"} else {fault.lost_line, b"lost 72\n"}
        if answer.status == LOST and answer.errors in lost_lines:
            return answer.errors.decode().strip()
        return None

    def wrong_after(self, kind, answer, fault):
        """What is wrong with what the run left, if anything is; the command must then give its answer."""
        again = self.run_again()
        return None if again == self.answer else f"the same again: {again}"


class Script:
    """Lines of a script, each with the reply that the rules give, after an arrow."""

    def __init__(self, text, files=None):
        rows = [line.split(" -> ") for line in text.strip().splitlines()]
        self.lines = [f"{line}\n".encode() for line, _ in rows]
        self.replies = [f"{reply}\n".encode() for _, reply in rows]
        self.files = files or {}


class Applying(Printing):
    """A script on an office in memory: a lost run has the answers of its first lines."""

    def __init__(self, script, words=("apply", "script.txt")):
        files = script.files | {"script.txt": b"".join(script.lines)}
        super().__init__(list(words), files, Answer(b"".join(script.replies)))
        self.script = script

    def is_beginning(self, output):
        lines = output.splitlines(keepends=True)
        return lines == self.script.replies[:len(lines)]


class Explaining(Applying):
    """A script on an office in memory with --explain: what is reported of its refusals may be left out."""

    def __init__(self, script, reasons):
        super().__init__(script, ["apply", "--explain", "script.txt"])
        self.plain, self.reasons = self.answer, reasons
        self.answer = Answer(self.plain.output, b"".join(reasons))

    def kind_of(self, answer, fault):
        lines = answer.errors.splitlines(keepends=True)
        shown = [line for line in lines if line in self.reasons]
        if shown != [reason for reason in self.reasons if reason in shown]:
            return None
        without = Answer(answer.output, b"".join(line for line in lines if line not in shown), answer.status)
        if without == self.plain:
            return "whole" if shown == self.reasons else "left out"
        return super().kind_of(without, fault)


class Keeping(Applying):
    """A script on an office in a database, which has answered so many of its lines before."""

    def __init__(self, script, had=0):
        super().__init__(script, ["apply", "--db", "office.db", "script.txt"])
        self.had, self.begun = had, None

    def prepare(self):
        super().prepare()
        remove_database(self.room)
        if self.begun is not None:
            with open(f"{self.room}/office.db", "wb") as file:
                file.write(self.begun)

    def begin(self, program, room):
        self.program, self.room = program, room
        self.tables = [self.tables_after(count) for count in range(len(self.script.lines) + 1)]
        for tables in self.tables[1:]:
            if list(tables) != TABLES:
                raise SystemExit(f"the tables are {list(tables)}")
        if self.had:
            self.tables_after(self.had)
            with open(f"{self.room}/office.db", "rb") as file:
                self.begun = file.read()
        super().begin(program, room)

    def tables_after(self, count):
        """The tables that so many lines leave in a new database."""
        self.prepare()
        with open(f"{self.room}/script.txt", "wb") as file:
            file.write(b"".join(self.script.lines[:count]))
        self.run_again()
        return tables_of(self.room)

    def kept_lines(self):
        """The counts of lines that leave the tables which there are; an error where there are other ones. The next
        run takes up what a stopped one left in the log, so one that only looks comes first."""
        looked = self.run_again(["export", "--db", "office.db", "nonet", "0"])
        if looked != Answer(b"", b"not found\n", 1):
            raise ValueError(f"a look at what it left: {looked}")
        # A look makes no tables: where there are none, no line was carried out.
        tables = tables_of(self.room)
        kept = [0] if tables is None else [count for count, those in enumerate(self.tables) if those == tables]
        if not kept:
            raise ValueError("the tables are those of no beginning of the script")
        return kept

    def wrong_after(self, kind, answer, fault):
        printed = max(len(answer.output.splitlines()), self.had)
        least = len(self.script.lines) if kind == "whole" else printed
        try:
            kept = self.kept_lines()
        except ValueError as wrong:
            return str(wrong)
        if max(kept) < least:
            return f"LOST: {printed} answers are printed, and the tables are those of {kept} lines"
        # Where memory ran out the lost request counts as not sent; where the disk failed it may have been carried out.
        if kind in {"lost 71", "lost 72"} and min(kept) > printed + (not fault.is_of_memory):
            return f"{kind} after {printed} answers, and the tables are those of {kept} lines"
        wrong = super().wrong_after(kind, answer, fault)
        if wrong is None and tables_of(self.room) != self.tables[-1]:
            wrong = "the tables of the same again are others"
        return wrong


class Looking(Keeping):
    """A look at an office that has answered a script: it changes nothing."""

    def __init__(self, script, words, answer):
        super().__init__(script, had=len(script.lines))
        self.look, self.shown = words, answer

    def begin(self, program, room):
        super().begin(program, room)
        self.words, self.answer = self.look, self.shown
        Printing.begin(self, program, room)

    def is_beginning(self, output):
        return output == b""

    def wrong_after(self, kind, answer, fault):
        wrong = Printing.wrong_after(self, kind, answer, fault)
        if wrong is None and tables_of(self.room) != self.tables[-1]:
            wrong = "the tables are others"
        return wrong


class InNewDatabase(Printing):
    """A command that prints, after it has made a database."""

    def prepare(self):
        remove_database(self.room)


class Migrating(Printing):
    """A database of an earlier version: a lost run leaves its tables or the new ones. Its script comes after the new
    ones are there, and each key gets the reply that it got."""

    def __init__(self, database, script, replies, files=None):
        super().__init__(["migrate", "--db", "office.db"], files, Answer(b"profile 2\n"))
        self.older = unpacked(database)
        self.files["script.txt"] = content_of(script)
        self.replies = content_of(replies)

    def prepare(self):
        super().prepare()
        remove_database(self.room)
        with open(f"{self.room}/office.db", "wb") as file:
            file.write(self.older)

    def begin(self, program, room):
        self.program, self.room = program, room
        self.prepare()
        self.older_tables = tables_of(room)
        super().begin(program, room)
        self.newer_tables = tables_of(room)
        if list(self.newer_tables) != TABLES:
            raise SystemExit(f"the tables are {list(self.newer_tables)}")
        replies = self.run_again(["apply", "--db", "office.db", "script.txt"])
        if replies != Answer(self.replies):
            raise SystemExit(f"after migrate the script gives {replies}")

    def wrong_after(self, kind, answer, fault):
        looked = self.run_again(["export", "--db", "office.db", "nonet", "0"])
        tables = tables_of(self.room)
        is_older = looked == Answer(b"", b"lost 74\n", LOST) and tables == self.older_tables
        is_newer = looked == Answer(b"", b"not found\n", 1) and tables == self.newer_tables
        if not is_newer and (not is_older or kind == "whole"):
            return f"a look at what it left: {looked}, and the tables are not the older ones, nor all of the newer"
        wrong = super().wrong_after(kind, answer, fault)
        if wrong is None and tables_of(self.room) != self.newer_tables:
            wrong = "the tables of the same again are others"
        return wrong


# Identifiers that are taken, freed and held, and an import that is refused.
FREED_AND_HELD = Script("""
c1 office open_net net=truck kind=can reviews=0 -> done
c2 office grant net=truck team=engine form=std first=256 last=258 -> done
c3 engine take_ident net=truck form=std name=E1 length=8 -> number 256
c4 engine take_ident net=truck form=std name=E2 length=8 -> number 257
c5 engine retire net=truck message=E1 -> done
c6 engine import net=truck file=three.dbc -> refused 51 IdentTaken
c7 engine take_ident net=truck form=std name=E3 length=8 -> number 256
c8 engine submit net=truck -> done
c9 office release net=truck -> release 1
c10 engine retire net=truck message=E2 -> done
c11 engine take_ident net=truck form=std name=E4 length=8 -> number 258
""", {"three.dbc": content_of("tests/database_export/three.dbc")})

# The same with the keys that stand for the lines' numbers.
UNDER_LINES = Script("\n".join(
    f"- {line.decode().strip().partition(' ')[2]} -> {reply.decode().strip()}"
    for line, reply in zip(FREED_AND_HELD.lines, FREED_AND_HELD.replies)), FREED_AND_HELD.files)

# An import that comes twice under a key, and a key that is used again.
REPEATS = Script("""
o1 office open_net net=truck kind=can reviews=0 -> done
o2 office grant net=truck team=engine form=std first=256 last=258 -> done
i1 engine import net=truck file=three.dbc -> counts 3 0
i2 engine import net=truck file=three.dbc -> counts 0 3
i1 engine import net=truck file=three.dbc -> counts 3 0
a1 engine take_ident net=truck form=std name=E1 length=8 -> refused 48 BlockFull
a1 engine take_ident net=truck form=std name=E2 length=8 -> refused 70 KeyReused
""", FREED_AND_HELD.files)

# Two bundles, and a review that doesn't end. It leaves rows in each table but that of messages of earlier versions.
EVERY_TABLE = Script("""
o1 office open_net net=truck kind=j1939 reviews=1 -> done
o2 office grant net=truck team=engine form=pgn first=61440 last=65535 -> done
o3 office grant net=truck team=engine form=spn first=500 last=509 -> done
o4 office grant net=truck team=engine form=std first=256 last=257 -> done
a1 engine add_node net=truck name=Engine -> done
a2 engine bundle net=truck file=state.txt -> bundle number 61440; start 0; start 16; number 500; number 501
a3 engine bundle net=truck file=lamps.txt -> bundle number 256; start 0; done
a4 engine bundle net=truck file=taken.txt -> refused 62 BundleRefused 50 2
a2 engine bundle net=truck file=state.txt -> bundle number 61440; start 0; start 16; number 500; number 501
a5 engine take_ident net=truck form=std name=Doors length=1 -> number 257
r1 engine submit net=truck -> done
r2 brake approve net=truck -> done
r3 office release net=truck -> release 1
a6 engine remove_signal net=truck message=EngineState signal=Torque -> done
a7 engine retire net=truck message=Doors -> done
r4 engine submit net=truck -> done
r5 brake approve net=truck -> done
a8 engine retire net=truck message=Lamps -> refused 54 InReview
""", {
    "state.txt": content_of("examples/engine_state.txt"),
    "lamps.txt": b"take_ident form=std name=Lamps length=2 node=Engine\n"
    b"take_bits message=Lamps signal=Warning size=1 order=intel signed=false factor=1 offset=0 minimum=0 maximum=1 "
    b"unit= receiver=Engine\nset_values message=Lamps signal=Warning value=0:Off value=1:On\n",
    "taken.txt": b"take_ident form=std name=Doors length=1\ntake_ident form=std name=Doors length=1\n",
})

EVERY_TABLE_ROWS = {
    "profile": 2, "net": 1, "message": 0, "block": 3, "held": 1, "spn": 2, "approval": 1, "frozen": 1, "reply": 17,
    "msg": 2, "sig": 2, "receiver": 1, "sigvalue": 2, "part": 8,
}

# What is shown of that office.
STATE = b"""network     truck
kind        j1939
phase       review
submitted   engine
approved    brake
lacking     0 of 1
releases    1
added       0
removed     1
changed     1
held        1
blocks      3
nodes       1
messages    2
signals     2
"""
MESSAGES = b"""       256 std 00000100      -    2    1 engine           1 -       Engine Lamps
2364538880 ext 0cf00000  61440    8    1 engine           1 changed Engine EngineState
messages 2 signals 2
"""
REQUESTS = b"""a1                       done                     <- add_node net=truck name=Engine
a2                       bundle 5                 <- bundle net=truck file=state.txt ..
a2                       number 61440             <- command 1
a2                       start 0                  <- command 2
a2                       start 16                 <- command 3
a2                       number 500               <- command 4
a2                       number 501               <- command 5
a3                       bundle 3                 <- bundle net=truck file=lamps.txt ..
a3                       number 256               <- command 1
a3                       start 0                  <- command 2
a3                       done                     <- command 3
a4                       refused 62 BundleRefused 50 2 <- bundle net=truck file=taken.txt ..
a5                       number 257               <- take_ident net=truck form=std name=Doors length=1
a6                       done                     <- remove_signal net=truck message=EngineState signal=Torque
a7                       done                     <- retire net=truck message=Doors
a8                       refused 54 InReview      <- retire net=truck message=Lamps
r1                       done                     <- submit net=truck
r4                       done                     <- submit net=truck
requests 10 refused 2
"""

RELEASED = b'VERSION ""\nNS_ :\nBS_:\nBU_:\nBO_ 256 E3: 8 Vector__XXX\nBO_ 257 E2: 8 Vector__XXX\n'
LIVE = RELEASED.replace(b"257 E2", b"258 E4")

# A port at which nothing listens, as far as a moment ago; and one that is taken, so that `serve` ends where it would begin to listen.
with socket.create_server(("127.0.0.1", 0)) as listener:
    FREE = listener.getsockname()[1]
TAKEN = socket.create_server(("127.0.0.1", 0))
SERVE = ["serve", "--db", "office.db", "--port", str(TAKEN.getsockname()[1])]

WHOLE = {"net.dbc": content_of("tests/whole_file/net.dbc")}
CUT = {"net.dbc": content_of("tests/cut_file/net.dbc")}
MIXED = {"mixed.dbc": content_of("tests/keep_each_keyword/mixed.dbc")}
CLASH = {"clash.dbc": b'BU_:\nBO_ 257 Clash: 2 Vector__XXX\n SG_ Big : 7|16@0+ (1,0) [0|0] "" Vector__XXX\n'
         b' SG_ Little : 0|16@1+ (1,0) [0|0] "" Vector__XXX\n'}
LINT = {"lint.dbc": b'BU_: A\nBO_ 256 M: 8 A\n SG_ S : 0|8@1+ (0,0) [0|0] "" A\n'}
CLASHES = b"clash.dbc:4:6: 23 Clash: signals Big and Little share bit 0 in message Clash (0x101)\n"
WRONG = {"wrong.txt": b"- engine take_ident net=truck form=std name=EngineSpeed length=1786\n"}
COMPARED = {
    "three.dbc": content_of("tests/database_export/three.dbc"),
    "four.dbc": content_of("tests/database_export/three.dbc").replace(b"B: 8", b"B: 4") + b"BO_ 259 D: 8 Vector__XXX\n"}
DIFFERENCES = b"""! message        257 std 00000101      - B length 8 -> 4
. message        259 std 00000103      - D added
differences 2 breaking 1 added 1 removed 0 changed 1
"""
EQUAL = b"differences 0 breaking 0 added 0 removed 0 changed 0\n"
SENT = {"sent.txt": b"a1 engine take_ident net=truck form=std name=EngineSpeed length=8\n"}
REFUSED = Script("""
- office open_net net=truck kind=can reviews=0 -> done
- office grant net=truck team=engine form=std first=256 last=258 -> done
- engine take_ident net=truck form=std name=EngineSpeed length=8 -> number 256
- brake take_ident net=truck form=std name=BrakeState length=8 -> refused 47 NoBlock
- engine take_ident net=truck form=std name=EngineSpeed length=8 -> refused 50 NameTaken
""")
REASONS = [
    b"script.txt:4:1: refused 47 NoBlock: team brake has no std block on truck; there are 256 to 258 of engine\n",
    b"script.txt:5:1: refused 50 NameTaken: truck has a live message EngineSpeed already: std 256 (0x100) of team engine\n"]
TOO_LONG = b"wrong.txt:1:57: bad line: found 'length=1786', but length is a whole number from 0 to 1785\n"
CHART = b"""   0 # # # # # # # #
   1 # # # # # # # #
A Big 7|16@0
B Little 0|16@1
23 Clash Big Little
"""

COMMANDS = {
    "check": Printing(["check", "net.dbc"], WHOLE, Answer(content_of("tests/whole_file/check"))),
    "format": Printing(["format", "net.dbc"], WHOLE, Answer(content_of("tests/whole_file/format"))),
    "table": Printing(["table", "net.dbc"], WHOLE, Answer(content_of("tests/whole_file/table"))),
    "format_keep": Printing(
        ["format", "--keep", "mixed.dbc"], MIXED, Answer(content_of("tests/keep_each_keyword/kept.dbc"))),
    "check_cut": Printing(["check", "net.dbc"], CUT, Answer(b"fault 30 UnclosedText 565\n", b"", 1)),
    "format_cut": Printing(["format", "net.dbc"], CUT, Answer(b"", b"fault 30 UnclosedText 565\n", 1)),
    "check_missing": Printing(["check", "none.dbc"], {}, Answer(b"", b"cannot read none.dbc\n", 3)),
    "check_explain": Printing(
        ["check", "--explain", "clash.dbc"], CLASH, Answer(b"unclear 23 Clash 257\n", CLASHES, 1)),
    "check_lint": Printing(
        ["check", "--lint", "lint.dbc"], LINT, Answer(b"ok 1 1\nremark 3:6 ZeroFactor M S\n", b"", 1)),
    "apply_wrong": Printing(["apply", "wrong.txt"], WRONG, Answer(b"", b"bad line 1\n", 2)),
    "apply_explain": Printing(["apply", "--explain", "wrong.txt"], WRONG, Answer(b"", b"bad line 1\n" + TOO_LONG, 2)),
    "chart": Printing(["chart", "2", "Big=7|16@0", "Little=0|16@1"], {}, Answer(CHART, b"", 1)),
    "chart_wrong": Printing(["chart", "2", "Big=7|x"], {}, Answer(b"", b"bad word Big=7|x\n", 2)),
    "help": Printing(["--help"]),
    "help_apply": Printing(["apply", "--help"]),
    "version": Printing(["--version"], {}, Answer(b"canoffice 0.7.0\n")),
    "usage": Printing(["fly"]),
    "apply": Applying(FREED_AND_HELD),
    "apply_lines": Applying(UNDER_LINES),
    "apply_bundles": Applying(EVERY_TABLE),
    "apply_refused": Explaining(REFUSED, REASONS),
    "apply_db": Keeping(FREED_AND_HELD),
    "apply_db_begun": Keeping(FREED_AND_HELD, had=6),
    "apply_db_repeated": Keeping(FREED_AND_HELD, had=11),
    "apply_db_repeats": Keeping(REPEATS),
    "apply_db_bundles": Keeping(EVERY_TABLE),
    "apply_db_bundles_begun": Keeping(EVERY_TABLE, had=5),
    "compare": Printing(["compare", "three.dbc", "four.dbc"], COMPARED, Answer(DIFFERENCES, b"", 1)),
    "compare_db": Looking(FREED_AND_HELD, ["compare", "--db", "office.db", "truck", "1", "1"], Answer(EQUAL)),
    "export_live": Looking(FREED_AND_HELD, ["export", "--db", "office.db", "truck", "0"], Answer(LIVE)),
    "export_release": Looking(FREED_AND_HELD, ["export", "--db", "office.db", "truck", "1"], Answer(RELEASED)),
    "export_new": InNewDatabase(["export", "--db", "office.db", "truck", "0"], {}, Answer(b"", b"not found\n", 1)),
    "show_new": InNewDatabase(["show", "--db", "office.db"], {}, Answer(b"", b"not found\n", 1)),
    "show_state": Looking(EVERY_TABLE, ["show", "--db", "office.db", "truck"], Answer(STATE)),
    "show_messages": Looking(EVERY_TABLE, ["show", "--db", "office.db", "truck", "messages"], Answer(MESSAGES)),
    "show_who": Looking(
        EVERY_TABLE, ["show", "--db", "office.db", "truck", "who", "Nobody"], Answer(b"", b"not found\n", 1)),
    "show_no_desk": Printing(
        ["show", "--port", str(FREE)], {}, Answer(b"", f"no desk answers on port {FREE}\n".encode(), 3)),
    "send_no_desk": Printing(
        ["send", "--port", str(FREE), "--tries", "1", "sent.txt"], SENT, Answer(b"", b"lost 72\n", 3)),
    "page": Printing(["page", "lint.dbc"], LINT),
    "page_db": Looking(EVERY_TABLE, ["page", "--db", "office.db", "truck"], None),
    "page_release": Looking(EVERY_TABLE, ["page", "--db", "office.db", "truck", "1"], None),
    "requests": Looking(EVERY_TABLE, ["requests", "--db", "office.db", "engine"], Answer(REQUESTS)),
    "serve_taken": InNewDatabase(SERVE, {}, Answer(b"", b"cannot listen\n", 3)),
    "migrate": Migrating(
        "tests/database_before_signal_rows/older.base64", "tests/database_before_signal_rows/script.txt",
        "tests/database_before_signal_rows/runs/5/stdout",
        {"long.dbc": content_of("tests/database_before_signal_rows/long.dbc")}),
    "migrate_rows": Migrating(
        "tests/database_of_first_rows/first.base64", "tests/database_of_first_rows/script.txt",
        "tests/database_of_first_rows/runs/4/stdout",
        {"parts.txt": content_of("tests/database_of_first_rows/parts.txt")}),
}
