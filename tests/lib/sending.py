"""Runs of `canoffice send`, for the cases whose `prepare` compares what they print."""
import subprocess, sys

from desk_clients import PROGRAM


def send(port, *words):
    """The status of a run, and what it writes to its two streams."""
    ran = subprocess.run([PROGRAM, "send", "--port", str(port), *words], capture_output=True, stdin=subprocess.DEVNULL)
    return ran.returncode, ran.stdout.decode(errors="surrogateescape"), ran.stderr.decode(errors="surrogateescape")


def expect(got, wanted, what):
    """Ends the case if this isn't what it has to be."""
    if got != wanted:
        sys.exit(f"{what} gives {got!r}, and not {wanted!r}")
