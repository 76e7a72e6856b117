"""A running `canoffice serve`, and requests to it, for each_fault_serve and kill_serve."""
import re, socket, subprocess


def post(target, team, key, body):
    """The bytes of a request with this body, a text or bytes."""
    body = body if isinstance(body, bytes) else body.encode()
    head = f"POST {target} HTTP/1.1\r\nTeam: {team}\r\nRequest-Key: {key}\r\nContent-Length: {len(body)}\r\n\r\n"
    return head.encode() + body


def get(target):
    return f"GET {target} HTTP/1.1\r\n\r\n".encode()


def free_port():
    with socket.socket() as free:
        free.bind(("127.0.0.1", 0))
        return free.getsockname()[1]


class Serve:
    """`canoffice serve` on office.db in a folder and on a free port, from when it listens, or has ended before."""

    def __init__(self, program, room, count=None, variables=None):
        while True:
            self.port = free_port()
            words = [program, "serve", "--db", "office.db", "--port", str(self.port)]
            words += ["--count", str(count)] if count else []
            self.process = subprocess.Popen(
                words, cwd=room, env=variables or {},
                stdin=subprocess.DEVNULL, stdout=subprocess.PIPE, stderr=subprocess.PIPE)
            self.first_line = self.process.stderr.readline()
            # Another program may have taken the port by now.
            if self.first_line != b"cannot listen\n":
                break
            self.process.communicate()
        self.is_listening = self.first_line == f"listening on 127.0.0.1:{self.port}\n".encode()

    def answer_to(self, request):
        """The status and the body of the response; None if no whole response came."""
        text = b""
        try:
            with socket.create_connection(("127.0.0.1", self.port), timeout=20) as client:
                client.sendall(request)
                client.shutdown(socket.SHUT_WR)
                while more := client.recv(65536):
                    text += more
        except OSError:
            return None
        head, end, body = text.partition(b"\r\n\r\n")
        length = re.search(rb"Content-Length: ([0-9]+)", head)
        if not end or not length or len(body) != int(length[1]):
            return None
        return int(head.split(b" ")[1]), body

    def kill(self):
        self.process.kill()
        self.process.communicate()

    def end(self):
        """What it writes to standard error after its first line, and its status, once all its connections are served;
        None for the status if it doesn't end."""
        try:
            _, errors = self.process.communicate(timeout=10)
            return errors, self.process.returncode
        except subprocess.TimeoutExpired:
            self.process.kill()
            _, errors = self.process.communicate()
            return errors, None
