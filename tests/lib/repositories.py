"""Repositories of git with DBC files, for the cases that run what docs/use/REPOSITORY.md and docs/use/CI.md show. Names
are relative to the repository, and the program is `canoffice` on the path.
"""
import os, shutil, subprocess, sys

HEAD = 'VERSION ""\nNS_ :\nBS_:\nBU_: Dash Engine\n'
LAMPS = HEAD + 'BO_ 257 Lamps: 2 Dash\n SG_ Warning : 0|2@1+ (1,0) [0|3] "" Engine\n'
OIL = HEAD + 'BO_ 258 Oil: 2 Engine\n SG_ Pressure : 0|8@1+ (4,0) [0|1000] "kPa" Dash\n'
# Two signals that share a bit.
CLASH = LAMPS + ' SG_ Level : 1|8@1+ (0.4,0) [0|100] "%" Engine\n'


def leave_without(case, *names):
    """Ends the case, with a line that says so, where the machine lacks one of these programs."""
    if missing := [name for name in names if not shutil.which(name)]:
        print(f"skipped, of {case}: this machine has no {', '.join(missing)}")
        sys.exit()


def expect(what, got, wanted):
    if got != wanted:
        sys.exit(f"{what} is\n{got}\nand should be\n{wanted}")


class Repository:
    """One in a folder, which is made unless it is there as a clone."""

    def __init__(self, folder="repository"):
        self.folder = os.path.abspath(folder)
        bin = os.path.abspath("bin")
        if not os.path.exists(bin):
            os.mkdir(bin)
            os.symlink(os.environ["CANOFFICE"], f"{bin}/canoffice")
        self.environment = os.environ | {
            "PATH": f"{bin}:{os.environ['PATH']}", "HOME": os.path.abspath("home"), "GIT_CONFIG_NOSYSTEM": "1",
            "LC_ALL": "C", "GIT_AUTHOR_NAME": "A", "GIT_AUTHOR_EMAIL": "a@localhost", "GIT_COMMITTER_NAME": "A",
            "GIT_COMMITTER_EMAIL": "a@localhost"}
        if not os.path.exists(self.folder):
            os.mkdir(self.folder)
            self.git("init", "-q", "-b", "main")

    def run(self, *words, **environment):
        """The status of a command, and all that it prints."""
        done = subprocess.run(words, cwd=self.folder, env=self.environment | environment, stdin=subprocess.DEVNULL,
                              stdout=subprocess.PIPE, stderr=subprocess.STDOUT, text=True, errors="replace", timeout=60)
        return done.returncode, done.stdout

    def git(self, *words):
        status, printed = self.run("git", *words)
        if status:
            sys.exit(f"git {' '.join(words)}: {printed}")
        return printed

    def write(self, name, text):
        path = os.path.join(self.folder, name)
        os.makedirs(os.path.dirname(path), exist_ok=True)
        with open(path, "w", newline="") as file:
            file.write(text)

    def read(self, name):
        with open(os.path.join(self.folder, name), errors="replace", newline="") as file:
            return file.read()

    def commit(self, message="A change"):
        self.git("add", "-A")
        self.git("commit", "-qm", message)

    def files(self):
        """What git doesn't have, and hasn't been told to leave out."""
        return self.git("ls-files", "--others", "--exclude-standard")

    def without_program(self, name):
        """The path variable of a folder with all programs but this one."""
        room = os.path.abspath(f"without {name}")
        os.makedirs(room, exist_ok=True)
        for folder in reversed(self.environment["PATH"].split(":")):
            for entry in os.listdir(folder) if os.path.isdir(folder) else []:
                if entry != name:
                    if os.path.lexists(f"{room}/{entry}"):
                        os.unlink(f"{room}/{entry}")
                    os.symlink(f"{folder}/{entry}", f"{room}/{entry}")
        return room

    def with_false(self, name, text):
        """The path variable with another program of this name, a script. The right one is `$RIGHT` there."""
        room = os.path.abspath(f"false {name} {len(os.listdir())}")
        os.mkdir(room)
        right = shutil.which(name, path=self.environment["PATH"])
        with open(f"{room}/{name}", "w") as file:
            file.write(f"#!/bin/sh\nRIGHT='{right}'\n{text}\n")
        os.chmod(f"{room}/{name}", 0o755)
        return f"{room}:{self.environment['PATH']}"
