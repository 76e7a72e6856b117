"""A root (clean_root.py) in which systemd boots, in a container, and carries out what a case tells it."""
import fcntl, glob, os, shutil, subprocess

from clean_root import Root, expect

FOLDER = "/lib/systemd"
PLAYED = """[Unit]
Wants={wanted}
After={wanted}
SuccessAction=poweroff-force
FailureAction=poweroff-force
[Service]
Type=oneshot
ExecStart=/bin/sh /steps
"""


class BootedRoot(Root):
    """The folder of a root with systemd and these programs."""

    def __init__(self, folder, programs):
        super().__init__(folder, (*programs, "sh", "systemctl"), [])
        shutil.copytree(FOLDER, self.path("usr/lib/systemd"), symlinks=True)
        for name in "systemd", "systemd-journald":
            self.add_program(f"{FOLDER}/{name}")
        for name in "run", "sys", "tmp":
            os.makedirs(self.path(name))
        os.symlink(f"{FOLDER}/systemd", self.path("sbin/init"))
        shutil.copy("/etc/os-release", self.path("usr/lib/os-release"))

    def play(self, steps, wanted=""):
        """Boots with the wanted units, and runs the steps, each of which is a command and what it prints. Gives what is
        said if no container can be started, and ends the case where another thing is printed.
        """
        numbered = [(f"printed.{number}", *step) for number, step in enumerate(steps)]
        self.write("steps", "".join(f"{{ {step}\n}} >/{name} 2>&1\n" for name, step, _ in numbered))
        self.write("usr/lib/systemd/system/steps.service", PLAYED.format(wanted=wanted))
        # One container at a time: where no systemd of the machine keeps them apart they share control groups, and kill
        # the processes in them.
        fcntl.flock(os.open(FOLDER, os.O_RDONLY), fcntl.LOCK_EX)
        words = ["systemd-nspawn", "-q", "-D", self.folder, "--register=no", "--keep-unit", "--private-network",
                 "--console=pipe", "-b", "systemd.unit=steps.service"]
        ran = subprocess.run(words, stdin=subprocess.DEVNULL, stdout=subprocess.PIPE, stderr=subprocess.STDOUT,
                             text=True, errors="replace", timeout=200)
        if not glob.glob(self.path("printed.*")):
            return f"no container can be started: {ran.stdout}"
        for name, step, printed in numbered:
            with open(self.path(name)) as file:
                expect(f"what {step!r} prints", file.read(), printed)
        return None
