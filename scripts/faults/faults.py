"""What each_fault, each_fault_serve and kill_serve share: calls of the system that fail in a run of the program, and
the tables of a database."""
import dataclasses, errno, os, sqlite3, struct, subprocess, tempfile

HERE = os.path.dirname(os.path.abspath(__file__))
TOP = os.path.dirname(os.path.dirname(HERE))

# The tables of an office, in the order in which they are made.
TABLES = ["profile", "net", "message", "block", "held", "spn", "approval", "frozen", "reply", "msg", "sig", "receiver",
          "sigvalue", "part"]

# A database, its log, and the journal that SQLite would have.
DATABASE_FILES = ["office.db", "office.db-wal", "office.db-journal"]

# What the program says of a lost request: memory ran out, or the database failed.
LOST = 3


@dataclasses.dataclass
class Fault:
    """Calls of one name, and what happens to those that fail.

    The effect is the name of an error (`EIO`, `ENOSPC`, ..), `short`, `empty` or `half`, or a stop: `stop-before` or
    `stop-after`, and with `-lost` or `-torn` what becomes of the bytes that aren't synced. The reach is `one`, `two`
    (the call and the next), `later` (the call and all later ones) or `every` and a number. With a piece no call of the
    name moves more bytes. The head of failing_calls.c shows what they do."""

    call: str
    effect: str
    reach: str = "one"
    seed: int = 1
    piece: int | None = None

    @property
    def is_stop(self):
        return self.effect.startswith("stop-")

    @property
    def is_of_memory(self):
        return self.call == "alloc"

    @property
    def lost_line(self):
        """What standard error has where a request is lost."""
        return b"lost 71\n" if self.is_of_memory else b"lost 72\n"

    def variables(self, at, counts, armed=None):
        """The environment of a run in which the call of this number is the first that fails."""
        effect, unsynced = self.effect, "kept"
        if self.is_stop and effect.count("-") == 2:
            effect, _, unsynced = effect.rpartition("-")
        found = {"LD_PRELOAD": failing_calls(), "FAULT_CALL": self.call, "FAULT_AT": str(at), "FAULT_COUNT": counts,
                 "FAULT_SEED": str(self.seed), "FAULT_UNSYNCED": unsynced}
        if effect.startswith("E"):
            found |= {"FAULT_EFFECT": "error", "FAULT_ERROR": str(getattr(errno, effect))}
        else:
            found["FAULT_EFFECT"] = effect
        if self.reach != "one":
            found["FAULT_LAST"] = str(at + 1) if self.reach == "two" else "0"
        if self.reach.startswith("every"):
            found["FAULT_EVERY"] = self.reach.removeprefix("every")
        if self.piece:
            found["FAULT_PIECE"] = str(self.piece)
        if armed:
            found["FAULT_ARMED"] = armed
        if "FAULT_IDLE_SYNC" in os.environ:
            found["FAULT_IDLE_SYNC"] = "1"
        return found

    def __str__(self):
        return f"{self.call} {self.effect} {self.reach}"


def program_of_tree():
    """The program that `tests/run` tries, or else that of this tree's sources."""
    if "CANOFFICE" in os.environ:
        return os.environ["CANOFFICE"]
    found = 'top=$1; . "$top/scripts/program"; program_path'
    path = subprocess.run(["sh", "-c", found, "sh", TOP], capture_output=True, text=True).stdout.strip()
    if not path:
        raise SystemExit("there is no program of this tree's sources: ./canoffice --build builds it")
    return path


def memory_folder():
    """A folder whose files are in memory, where there is one."""
    return "/dev/shm" if os.path.isdir("/dev/shm") else None


built = None


def failing_calls():
    """The path of the library that has calls fail, which is built once for each process."""
    global built
    if built is None:
        built = tempfile.TemporaryDirectory()
        library = f"{built.name}/failing_calls.so"
        subprocess.run(
            ["cc", "-O2", "-shared", "-fPIC", "-o", library, f"{HERE}/failing_calls.c", "-ldl"], check=True)
    return f"{built.name}/failing_calls.so"


def counts_of(path):
    """How many calls of the name there were, and how many of them failed."""
    with open(path, "rb") as file:
        return struct.unpack("<QQ", file.read(16))


@dataclasses.dataclass
class Answer:
    """What a run writes, and its status: -9 if it was killed."""

    output: bytes = b""
    errors: bytes = b""
    status: int = 0

    def __str__(self):
        return f"status {self.status}, output ..{self.output[-80:]!r}, errors ..{self.errors[-200:]!r}"


def run(program, words, room, variables=None):
    """What a run of the program in this folder writes. It has no environment but these variables."""
    done = subprocess.run(
        [program, *words], cwd=room, env=variables or {}, stdin=subprocess.DEVNULL, capture_output=True, timeout=60)
    return Answer(done.stdout, done.stderr, done.returncode)


def remove_database(room):
    for name in DATABASE_FILES:
        if os.path.exists(f"{room}/{name}"):
            os.remove(f"{room}/{name}")


def tables_of(room):
    """The rows of all tables of room/office.db, by their names; None where there is no table. The program has opened
    the file before, so that nothing of it is in the log alone. SQLite gets a copy: it changes nothing of what the
    program finds."""
    if not os.path.exists(f"{room}/office.db"):
        return None
    with open(f"{room}/office.db", "rb") as file:
        content = file.read()
    if not content:
        return None
    copied = f"{room}/copied.db"
    with open(copied, "wb") as file:
        # Bytes 18 and 19 say that there is a log; the copy has none.
        file.write(content[:18] + b"\1\1" + content[20:])
    database = sqlite3.connect(copied)
    try:
        names = [name for name, in database.execute("SELECT name FROM sqlite_master WHERE type = 'table'")]
        return {name: sorted(database.execute(f"SELECT * FROM {name}"), key=repr) for name in names} or None
    except sqlite3.DatabaseError as wrong:
        return {"none that can be read": [str(wrong)]}
    finally:
        database.close()
        os.remove(copied)
