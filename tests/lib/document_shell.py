"""Runs the commands that a document shows, those over HTTP too."""
import re, shutil, subprocess
from pathlib import Path

from desk_clients import Serve
from documents import shows

SHOWN_PORT = "127.0.0.1:8089"
SENDS = "./canoffice send "
START = re.compile(r"\./canoffice serve --db (\S+) --count ([0-9]+)(?: --explain 2>(\S+))? &")


class Shell:
    """Runs the commands of a document, one after the other, in the current folder. What isn't as it is shown goes to
    `report`, with the number of its line.
    """

    def __init__(self, report):
        self.report, self.serve, self.log = report, None, None
        self.has_tables = shutil.which("sqlite3")

    def run(self, command):
        """Runs a command, and compares what it writes with what is shown."""
        word = command.text.split()[0]
        if word not in ("./canoffice", "cat", "curl", "for", "grep", "sqlite3", "wait"):
            self.report(command.number, f"there is no rule for running {word}")
        elif start := START.fullmatch(command.text):
            self.end_serve()
            written = self.start_serve(start[1], int(start[2]), start[3])
            self.compare(command, written)
        elif word == "wait":
            self.end_serve()
        elif word != "sqlite3" or self.has_tables:
            if word != "curl" and not command.text.startswith(SENDS):
                self.end_serve()
            self.compare(command, self.written_by(command.text))

    def start_serve(self, database, count, log):
        self.serve, self.log = Serve(count, database=database, options=["--explain"] if log else []), log
        return "" if log else f"listening on {SHOWN_PORT}"

    def end_serve(self):
        """`serve` has answered as many connections as were shown, so it has ended."""
        serve, self.serve = self.serve, None
        if serve:
            try:
                if self.log:
                    serve.process.wait(60)
                    Path(self.log).write_text(f"listening on {SHOWN_PORT}\n{serve.process.stderr.read()}")
                else:
                    serve.end(0, "")
            except subprocess.TimeoutExpired:
                self.report(0, "`serve` waits for more connections than are shown")

    def written_by(self, text):
        if self.serve:
            text = text.replace("curl ", "curl -s ", 1).replace(SHOWN_PORT, f"127.0.0.1:{self.serve.port}")
            text = text.replace(SENDS, f"{SENDS}--port {self.serve.port} ")
        ran = subprocess.run(["sh", "-c", text], capture_output=True, text=True, stdin=subprocess.DEVNULL)
        # An answer over HTTP doesn't end its line.
        return ran.stdout.removesuffix("\n") + "\n" * bool(ran.stdout and ran.stderr) + ran.stderr.removesuffix("\n")

    def compare(self, command, written):
        if not shows(command.shown, written.splitlines()):
            self.report(command.number, f"{command.text!r} writes {written!r}")
