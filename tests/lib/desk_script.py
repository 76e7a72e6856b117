"""The script of a case as requests to the desk, with JSON bodies, and the answers that are due: those that the case expects
of its lines, and those to each look, as `office_model` works them out. An answer is a status and a body.
"""
import glob, json, os

from office_model import Office, fields_of, parts_of, text_of

NUMBERS = {"reviews", "first", "last", "length", "want", "priority", "source", "destination", "size", "start", "same"}
SEVERAL = {"take_bits": "receiver", "set_values": "value"}
NOT_FOUND = (404, '{"error":"not found"}')


def read(path):
    with open(path, "rb") as file:
        return file.read()


def json_fields(command, fields):
    """The members of a command's JSON."""
    several = SEVERAL.get(command)
    members = {f"{several}s": []} if several else {}
    for name, values in fields.items():
        if name == several:
            members[f"{name}s"] = [value.split(":", 1) for value in values] if name == "value" else values
        elif name in NUMBERS:
            members[name] = int(values[0])
        else:
            members[name] = values[0] == "true" if name == "signed" else values[0]
    return members


def target_and_body(command, fields, content):
    net = fields["net"][0]
    if command == "import":
        return f"/import/{net}", content
    if command == "bundle":
        parts = [{"command": part} | json_fields(part, part_fields) for part, part_fields in parts_of(content)]
        return f"/bundle/{net}", json.dumps({"commands": parts}).encode()
    return f"/do/{command}", json.dumps(json_fields(command, fields)).encode()


def head_of(target, team, key, length):
    """The lines of a request's head."""
    return [f"POST {target} HTTP/1.1", f"Team: {team}", f"Request-Key: {key}", f"Content-Length: {length}", ""]


def json_reply(reply):
    """A reply as JSON."""
    if reply.startswith("bundle "):
        return {"bundle": [json_reply(part) for part in reply.removeprefix("bundle ").split("; ")]}
    word, *numbers = reply.split(" ")
    if word == "refused":
        where = {"at": int(numbers[3]), "fault": int(numbers[2])} if numbers[0] in ("58", "62") else {}
        return where | {"name": numbers[1], "refused": int(numbers[0])}
    if word == "counts":
        return {"new": int(numbers[0]), "same": int(numbers[1])}
    return {"done": True} if word == "done" else {word: int(numbers[0])}


def answer_of(reply):
    status = {"refused 40": 404}.get(reply[:10], 409 if reply.startswith("refused") else 200)
    return status, json.dumps(json_reply(reply), separators=(",", ":"))


class DeskScript:
    """The requests of a case's script as heads and bodies, each with the answer that is due, and the office that they
    leave, with the names of the networks that they mention."""

    def __init__(self, case):
        script = text_of(read(f"{case}/script.txt")).splitlines()
        lines = [line.split(" ") for line in script if line and not line.startswith("#")]
        answers = glob.glob(f"{case}/stdout") or [f"{case}/runs/1/stdout"]
        replies = text_of(read(answers[0])).splitlines()
        self.office, self.names, self.requests = Office(), [], []
        for number, (line, reply) in enumerate(zip(lines, replies, strict=True), 1):
            self.add(case, number, line, reply)

    def add(self, case, number, line, reply):
        key, team, command, *words = line
        key = f"line-{number}" if key == "-" else key
        fields = fields_of(words)
        content = read(f"{case}/{fields['file'][0]}") if "file" in fields else b""
        target, body = target_and_body(command, fields, content)
        self.requests.append((head_of(target, team, key, len(body)), body, answer_of(reply)))
        # JSON has no bytes, only characters, which come as UTF-8.
        shown = {name: [text_of(value.encode()) for value in values] for name, values in fields.items()}
        self.office.add(team, key, command, shown, reply, content)
        if fields["net"][0] not in self.names:
            self.names.append(fields["net"][0])

    def looks(self):
        """Each target to look at, and the answer: the list of networks, and of each network its table, its live sheet,
        its releases and the chart of each live message, and some that aren't there."""
        yield "/nets", (200, self.office.list_of_networks())
        for name in self.names:
            network = self.office.networks.get(name)
            target = f"/nets/{name}"
            count = len(network.releases) if network else 0
            yield target, (200, network.table()) if network else NOT_FOUND
            yield f"{target}/live", (200, network.sheet()) if network else NOT_FOUND
            yield f"{target}/releases/{count + 1}", NOT_FOUND
            yield f"{target}/messages/NoMessageOfThisName", NOT_FOUND
            for number in range(count):
                yield f"{target}/releases/{number + 1}", (200, network.releases[number])
            for message in network.messages.values() if network else []:
                yield f"{target}/messages/{message.name}", (200, message.chart())
