"""A folder as the root of a machine, with nothing of this tree in it: the programs and libraries of this machine that
it needs, the package, and users. `Machine` is one that runs in it, with processes and a network of its own.
"""
import atexit, glob, os, re, shutil, subprocess, sys, time

TOP = os.path.dirname(os.environ["TESTS"])
# What makes such a root, and enters it.
TOOLS = ("dpkg", "dpkg-deb", "ip", "ldd", "mount", "nsenter", "objcopy", "unshare")
PATH = "/usr/local/bin:/usr/sbin:/usr/bin:/sbin:/bin"


def expect(what, got, wanted):
    """Ends the case if this isn't what it has to be."""
    if got != wanted:
        sys.exit(f"{what} is\n{got}\nand not\n{wanted}")


def output_of(words, **more):
    done = subprocess.run(words, capture_output=True, text=True, **more)
    if done.returncode:
        sys.exit(f"{words} ends with {done.returncode}: {done.stdout}{done.stderr}")
    return done.stdout


def read(path):
    with open(path) as file:
        return file.read()


def missing(*others):
    """What this machine lacks for a clean root, or of these other tools, if there is something."""
    tools = [name for name in (*TOOLS, *others) if not shutil.which(name, path=PATH)]
    if tools:
        return f"this machine has no {', '.join(tools)}"
    if os.geteuid():
        return "only root can enter a root of its own"
    trial = ["unshare", "-m", "-p", "-n", "-f", "mount", "-t", "proc", "proc", "/proc"]
    if subprocess.run(trial, stderr=subprocess.DEVNULL).returncode:
        return "this machine gives no processes and no network of their own"
    return None


class Root:
    """The folder of a root, with these programs and users."""

    def __init__(self, folder, programs, users):
        self.folder = os.path.abspath(folder)
        self.users = {"root": 0, **{name: 1000 + at for at, name in enumerate(users)}}
        for name in "bin", "sbin", "lib", "lib64":
            os.makedirs(self.path(f"usr/{name}"))
            os.symlink(f"usr/{name}", self.path(name))
        for name in "dev", "etc", "proc", "usr/local/bin", "var/lib/dpkg/updates", "var/lib/dpkg/info", "var/log":
            os.makedirs(self.path(name))
        self.write("dev/null", "")
        numbers = self.users.items()
        self.write("etc/passwd", "".join(f"{name}:x:{at}:{at}::/home/{name}:/bin/sh\n" for name, at in numbers))
        self.write("etc/group", "".join(f"{name}:x:{at}:\n" for name, at in numbers))
        for name in programs:
            self.add_program(shutil.which(name, path=PATH))
        for name in self.users:
            self.add_folder(f"home/{name}", name)

    def path(self, name):
        return os.path.join(self.folder, name)

    def write(self, name, text):
        with open(self.path(name), "w") as file:
            file.write(text)

    def copy(self, path):
        """Copies a file of this machine."""
        os.makedirs(os.path.dirname(self.folder + path), exist_ok=True)
        shutil.copy(path, self.folder + path)

    def add_program(self, program):
        """Copies a program of this machine, and the libraries that it loads, of which a script has none."""
        loaded = subprocess.run(["ldd", program], capture_output=True, text=True).stdout
        for path in {program, *re.findall(r"(/\S+) \(0x", loaded)}:
            self.copy(path)

    def add_package(self, name):
        """Copies the files of a package of this machine."""
        for path in filter(os.path.isfile, output_of(["dpkg", "--listfiles", name]).splitlines()):
            if os.access(path, os.X_OK):
                self.add_program(path)
            else:
                self.copy(path)

    def add_folder(self, name, user):
        os.makedirs(self.path(name))
        self.give(name, user)

    def give(self, name, user):
        """Makes a file or a folder, with all that is in it, the user's alone."""
        for folder, _, files in os.walk(self.path(name)):
            for path in [folder, *(os.path.join(folder, file) for file in files)]:
                os.chown(path, self.users[user], self.users[user])
        os.chmod(self.path(name), 0o700)

    def make_package(self):
        """Makes the package of the program that is tried, and gives its path. For dpkg nothing but the C library is
        installed.
        """
        output_of([f"{TOP}/scripts/package", "made", os.environ["CANOFFICE"]],
                  env={"SOURCE_DATE_EPOCH": "1767225600", **os.environ})
        self.write("var/lib/dpkg/status", output_of(["dpkg", "--status", "libc6"]))
        return glob.glob("made/*.deb")[0]

    def install(self):
        """Makes the package, and installs it as dpkg does."""
        output_of(["dpkg", f"--root={self.folder}", "--install", self.make_package()])

    def remove(self, name):
        """Removes a package that was installed."""
        output_of(["dpkg", f"--root={self.folder}", "--purge", name])

    def run(self, user, *words):
        """Runs a command in this root, while no machine does, and gives what it prints."""
        return output_of(["chroot", f"--userspec={user}:{user}", self.folder, "env", "-i", f"PATH={PATH}", *words])


class Machine:
    """A machine that runs the script `/boot` of a root, until it is killed."""

    def __init__(self, root):
        mounts = "mount -t proc proc proc && mount --bind /dev/null dev/null"
        begin = f"ip link set lo up && {mounts} && exec chroot . sh /boot"
        with open("machine.log", "ab") as log:
            self.process = subprocess.Popen(
                ["unshare", "-m", "-p", "-n", "-f", "--kill-child", "sh", "-c", begin], cwd=root.folder,
                env={"PATH": PATH}, stdin=subprocess.DEVNULL, stdout=log, stderr=log)
        atexit.register(self.kill)
        self.root, children = root, f"/proc/{self.process.pid}/task/{self.process.pid}/children"
        while not (found := read(children).split()) or os.readlink(f"/proc/{found[0]}/root") != root.folder:
            time.sleep(0.01)
        self.first = int(found[0])

    def kill(self):
        """Ends all processes of the machine at once, as if it lost its power."""
        if self.process.poll() is None:
            os.kill(self.first, 9)
            self.process.wait()

    def start(self, user, command):
        """Begins a command of the shell, as this user on this machine."""
        enter = ["nsenter", "-t", str(self.first), "-m", "-p", "-n", "-r", "-w"]
        words = ["chroot", f"--userspec={user}:{user}", "/", "env", "-i", f"PATH={PATH}", "sh", "-c", command]
        return subprocess.Popen([*enter, *words], stdin=subprocess.DEVNULL, stdout=subprocess.PIPE,
                                stderr=subprocess.PIPE, text=True)

    def run(self, user, command):
        """The status of a command, and what it prints on its two streams."""
        process = self.start(user, command)
        printed, errors = process.communicate(timeout=200)
        return process.returncode, printed, errors
