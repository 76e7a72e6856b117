"""A running `canoffice serve`, and clients of it, for the cases whose `prepare` needs more than `serve_client` does."""
import atexit, os, resource, signal, socket, subprocess, sys, time
from pathlib import Path

PROGRAM = os.environ["CANOFFICE"]

# A case that hangs ends after five minutes.
signal.signal(signal.SIGALRM, lambda *_: sys.exit("it takes too long"))
signal.alarm(300)


def free_port():
    """A port at which nothing listens."""
    with socket.socket() as free:
        free.bind(("127.0.0.1", 0))
        return free.getsockname()[1]


class Serve:
    """`canoffice serve` on a database and a free port, or on this one, from when it listens. If a file size is given, no file
    may grow beyond it: a write there fails, as on a disk that is full. If a count of files is given, no more may be open.
    Variables are added to its environment."""

    def __init__(self, count, file_size=None, database="office.db", files=None, port=None, options=(), variables=None):
        self.port = port or free_port()

        def limit():
            if file_size is not None:
                signal.signal(signal.SIGXFSZ, signal.SIG_IGN)
                resource.setrlimit(resource.RLIMIT_FSIZE, (file_size, file_size))
            if files is not None:
                resource.setrlimit(resource.RLIMIT_NOFILE, (files, files))

        words = [PROGRAM, "serve", "--db", database, "--port", str(self.port), "--count", str(count), *options]
        self.process = subprocess.Popen(
            words, stdin=subprocess.DEVNULL, stdout=subprocess.PIPE, stderr=subprocess.PIPE, text=True, preexec_fn=limit,
            env=os.environ | (variables or {}))
        atexit.register(self.process.kill)
        self.expect(self.process.stderr.readline(), f"listening on 127.0.0.1:{self.port}\n", "the first line")

    def expect(self, got, wanted, what):
        """Ends the case if this isn't what it has to be."""
        if got != wanted:
            sys.exit(f"{what} is {got!r}, and not {wanted!r}")

    def within(self, seconds, began, what):
        """Ends the case if more time has passed."""
        taken = time.monotonic() - began
        self.expect(taken < seconds, True, f"{what} took {taken:.1f} s, less than {seconds} s")

    def connect(self):
        client = socket.create_connection(("127.0.0.1", self.port))
        client.settimeout(60)
        return client

    def answer_to(self, request):
        """The status and the body of the response to the request."""
        with self.connect() as client:
            client.sendall(request)
            return rest_of(client)

    def is_in(self, state):
        """Waits until the process is in this state: S where it waits itself, T where it is stopped."""
        while Path(f"/proc/{self.process.pid}/stat").read_text().rpartition(") ")[2][0] != state:
            self.expect(self.process.poll(), None, "the exit status")
            time.sleep(0.01)

    def stop(self, seconds):
        """Stops the process where it waits, as `kill -STOP` does, and has it go on afterwards, as `kill -CONT` does."""
        time.sleep(0.2)
        self.is_in("S")
        self.process.send_signal(signal.SIGSTOP)
        self.is_in("T")
        time.sleep(seconds)
        self.process.send_signal(signal.SIGCONT)

    def import_large(self):
        """The text of a file of 3.9 MB, which is imported into a new network `truck`. It is that of the live sheet then, and
        more than the two ends of a connection keep."""
        grant = '{"net":"truck","team":"engine","form":"ext","first":0,"last":20000}'
        for key, command, body in (("o1", "open_net", '{"net":"truck","kind":"can","reviews":0}'), ("o2", "grant", grant)):
            self.expect(self.answer_to(post(command, "office", key, body)), (200, '{"done":true}'), f"the answer to {command}")
        text = 'VERSION ""\nNS_ :\nBS_:\nBU_:\n'
        text += "".join(f"BO_ {2**31 + number} M{number}: 8 Vector__XXX\n" for number in range(14000))
        text += "".join(f'CM_ BO_ {2**31 + number} "{"x" * 210}";\n' for number in range(14000))
        head = f"POST /import/truck HTTP/1.1\r\nTeam: engine\r\nRequest-Key: i1\r\nContent-Length: {len(text)}\r\n\r\n"
        self.expect(self.answer_to(head.encode() + text.encode()), (200, '{"new":14000,"same":0}'), "the answer to the import")
        return text

    def end(self, status, errors):
        """It has served all its connections, and ends so."""
        self.expect(self.process.wait(60), status, "the exit status")
        self.expect(self.process.stderr.read(), errors, "standard error")
        self.expect(self.process.stdout.read(), "", "standard output")


def rest_of(client):
    """The status and the body of a response."""
    text = b""
    while more := client.recv(65536):
        text += more
    head, _, body = text.partition(b"\r\n\r\n")
    if not head:
        sys.exit("the connection was closed without a response")
    return int(head.split(b" ")[1]), body.decode(errors="surrogateescape")


def get(target):
    return f"GET {target} HTTP/1.1\r\n\r\n".encode()


def post(command, team, key, body):
    head = f"POST /do/{command} HTTP/1.1\r\nTeam: {team}\r\nRequest-Key: {key}\r\nContent-Length: {len(body)}\r\n\r\n"
    return (head + body).encode()
