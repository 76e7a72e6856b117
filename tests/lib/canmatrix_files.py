"""canmatrix, where it is installed, and the DBC file of SAE J1939 that its package has."""
import os, re, subprocess, sys

SIGNAL = re.compile(rb" SG_ (\w+) .*?: *\d+\|(\d+)@")


def with_canmatrix():
    """A Python that has canmatrix, if there is one."""
    for python in (sys.executable, "/usr/bin/python3"):
        if os.path.exists(python) and not subprocess.run([python, "-c", "import canmatrix"], capture_output=True).returncode:
            return python


def j1939_file(python):
    """The lines of that file without what canoffice refuses: signals of more than 64 bits, and of signals of one name in a
    message all but the first. None where the package has no such file."""
    found = subprocess.run([python, "-c", "import canmatrix; print(canmatrix.__path__[0])"], stdout=subprocess.PIPE,
                           stderr=subprocess.DEVNULL, check=True)
    path = os.path.join(found.stdout.splitlines()[-1].decode(), "j1939.dbc")
    if not os.path.exists(path):
        return None
    lines, names = [], set()
    with open(path, "rb") as file:
        for line in file.read().splitlines(keepends=True):
            if line.startswith(b"BO_ "):
                names = set()
            signal = SIGNAL.match(line)
            if signal and (signal[1] in names or int(signal[2]) > 64):
                continue
            if signal:
                names.add(signal[1])
            lines.append(line)
    return lines
