"""The looks of the program, each compared with what `looks_model` works out: from a database (`--db`), of a running desk
(`--port`), and of it by HTTP. A look is the words of a run: `show` with a network, what is shown and a name, as far as
they are there, `requests` and a team, or `page` with a network and the number of a release, if there is one.
"""
import socket, subprocess, sys, time

from desk_clients import PROGRAM, Serve, get
from looks_model import EXTENDED, FORMS, Office, group, ident, last_name, spn_uses

ABSENT_NAME, ABSENT_TEAM = "NoSuchName", "nobody"
# What nobody has, and what is no word to look for.
ODD_WORDS = [
    "0", "000", "4294967295", "4294967296", "9999999999", "00000000001", "2147483648", "2684354560", "536870912", "0x", "0x0",
    "0x7ff", "0x800", "0xFFFFFFFF", "0x100000000", "0x00000000f", "0XFF", "0xg", "pgn=", "pgn=0", "pgn=0000000", "pgn=262144",
    "pgn=0x1", "spn=", "spn=0", "spn=999999", "spn=-1", "PGN=1", "who=1", "a=b=c", "=", "-1", "+1", "%2d", "Vector__XXX", "VAL_",
    ABSENT_NAME, "N" * 128, "N" * 129]


def words_for(net):
    """What is looked for on a network: each name, and each number in each form."""
    numbers = [it.number for it in net.live] + net.held
    words = {it.name.decode() for it in net.live} | {last_name(net, it).decode() for it in net.held}
    for number in numbers:
        words |= {str(number), str(ident(number)), f"0x{number:x}", f"0x{ident(number):08X}"}
        if number >= EXTENDED:
            words |= {str(group(number)), f"pgn={group(number)}"}
    for number, _, _ in spn_uses(net):
        words |= {str(number), f"spn={number:06}"}
    for block in net.blocks:
        edges = {block.first - 1, block.first, block.last, block.last + 1}
        words |= {str(it) for it in edges if it >= 0}
        words |= {f"{FORMS[block.form]}={it}" for it in edges if it >= 0}
    return sorted(words)


def texts_of(office, looks):
    """What each of the looks must show; `None` where nothing is found."""
    return {look: office.text(*look) for look in looks}


def teams_of(net):
    return sorted({it.team.decode() for it in net.blocks} | {it.decode() for it in net.owners} | {ABSENT_TEAM})


def looks_at(name, net):
    """Each look at a network, `who` apart."""
    yield from (("show", name), *[("show", name, what) for what in
                ("state", "blocks", "messages", "held", "releases", "nodes", "spns")])
    yield from [("show", name, what, team) for what in ("blocks", "messages") for team in teams_of(net)]
    yield from [("show", name, "message", it) for it in [*[it.name.decode() for it in net.live], ABSENT_NAME]]
    yield from [("show", name, "nodes", it) for it in [*[it.decode() for it, _ in net.nodes], ABSENT_NAME]]


def looks_for(name, net):
    """Each look at who has a name or a number."""
    return [("show", name, "who", word) for word in [*words_for(net), *ODD_WORDS]]


def looks_at_office(office):
    """The list of networks, a network that isn't there, and the requests of each team."""
    yield from (("show",), ("show", "absent"), ("show", "absent", "blocks"), ("show", "absent", "who", "0"))
    yield from [("requests", it) for it in sorted({it.decode() for it, *_ in office.replies} | {ABSENT_TEAM})]


def of_words(looks):
    """Those of the looks that words of a command line can be: a word that begins with a dash is an option there."""
    return [look for look in looks if not any(word.startswith("-") and len(word) > 1 for word in look)]


def target_of(look):
    """The target of a desk at which the look is."""
    subcommand, *words = look
    if subcommand == "requests":
        return f"/requests/{words[0]}"
    if subcommand == "page":
        net, *number = words
        return f"/nets/{net}/releases/{number[0]}/page" if number else f"/nets/{net}/page"
    if not words:
        return "/nets"
    net, what, *name = *words, *["state"][len(words) - 1:]
    if what == "message":
        return f"/nets/{net}/messages/{name[0]}/signals"
    if what in ("blocks", "messages") and name:
        return f"/nets/{net}/teams/{name[0]}/{what}"
    return "/".join([f"/nets/{net}", what, *name])


def run(words):
    ran = subprocess.run([PROGRAM, *words], stdin=subprocess.DEVNULL, capture_output=True)
    return ran.returncode, ran.stdout.decode(errors="surrogateescape"), ran.stderr.decode(errors="surrogateescape")


def expect(got, wanted, what):
    """Ends the case if a text isn't what it has to be."""
    if got != wanted:
        sys.exit(f"{what} gives\n{got}\nand not\n{wanted}")


def answer_by_words(text):
    """What a run answers: the status, standard output and standard error."""
    return (1, "", "not found\n") if text is None else (0, text, "")


def answer_by_http(text):
    return (404, '{"error":"not found"}') if text is None else (200, text)


def compare_by_words(texts, looks, option, value):
    """Runs the program for each of these looks, with the option `--db` or `--port`. The texts are those that are due."""
    for subcommand, *words in looks:
        line = [subcommand, option, str(value), *words]
        expect(run(line), answer_by_words(texts[(subcommand, *words)]), " ".join(line))


def use_up(serve):
    """Connects until the desk ends by its count: words that haven't the form of what they name aren't asked."""
    while serve.process.poll() is None:
        try:
            with socket.create_connection(("127.0.0.1", serve.port), 5) as it:
                it.sendall(get("/nets"))
                while it.recv(65536):
                    pass
        except OSError:
            time.sleep(0.05)


def compare_at_desk(texts, database, by_port):
    """Has `serve` answer each look by HTTP, and these looks in runs with `--port` too."""
    serve = Serve(len(texts) + len(by_port), database=database)
    for look, text in texts.items():
        expect(serve.answer_to(get(target_of(look))), answer_by_http(text), f"GET {target_of(look)}")
    compare_by_words(texts, by_port, "--port", serve.port)
    use_up(serve)
    serve.end(0, "")
