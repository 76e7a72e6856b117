"""Lists as JSON, taken apart: the lines that have the same rows, by the columns that RULES.md names. These are compared
with what `looks_model` and `compare_model` work out, so the two forms of a list say the same.
"""
import json, re

from looks_model import runs_text, shown, word


def ident(it):
    if it is None:
        return f"{'-':>10} {'-':<3} {'-':<8} {'-':>6}"
    number = it["number"]
    assert it["dbc"] == number + (1 << 31 if it["form"] == "ext" else 0) and (it["pgn"] is None) == (it["form"] == "std")
    return f"{it['dbc']:>10} {it['form']} {number:08x} {'-' if it['pgn'] is None else it['pgn']:>6}"


def runs(pairs):
    return runs_text([tuple(it) for it in pairs])


def first_runs(pairs):
    return runs(pairs[:4]) + (",.." if len(pairs) > 4 else "")


def plain(text):
    return "-" if text is None else text


def escaped(text):
    return word((text or "").encode())


def rest(text):
    return shown((text or "").encode())


def mark(it):
    return {True: "!", False: "."}[it]


def change(it):
    assert sorted(it) == ["new", "old", "word"], it
    values = [it["old"], it["new"]]
    return it["word"] if values == [None, None] else f"{it['word']} {' -> '.join(map(plain, values))}"


def words(texts):
    return ",".join(escaped(it) for it in texts) or "-"


def share(it):
    return f"{it['count']} of {it['of']}"


def digits(it):
    ident(it)
    return f"{it['form']} {it['number']:08x}"


def layout(it):
    order = {"intel": 1, "motorola": 0}[it["order"]]
    return f"{it['start']}|{it['size']}@{order}{'-' if it['signed'] else '+'}"


def scale(it):
    return f"({it['factor']},{it['offset']})"


def place(it):
    return f"{it['line']}:{it['column']}"


def asked(text):
    more = " .." if text.endswith(" ..") else ""
    return rest(text.removesuffix(more)) + more


def limits(it):
    return f"[{it['minimum']}|{it['maximum']}]"


# Of each list its columns: how a value is written, and how that is set in a line.
RELEASES, SIGNAL = ("releases", runs, "{:>5}"), ("signal", plain, "{:<22}")
SIGNALS, IDENT, MESSAGE = ("signals", str, "{:>4}"), ("identifier", ident, "{}"), ("message", plain, "{}")
COLUMNS = {
    "blocks": [("form", plain, "{}"), ("first", str, "{:>9}"), ("last", str, "{:>9}"), ("team", escaped, "{:<12}"),
               ("live", str, "live {:>4}"), ("held", str, "held {:>3}"), ("free", str, "free {:>5}"), ("numbers", first_runs, "{}")],
    "messages": [IDENT, ("length", str, "{:>4}"), SIGNALS, ("owner", escaped, "{:<12}"), RELEASES, ("since", plain, "{:<7}"),
                 ("transmitter", plain, "{}"), MESSAGE],
    "held": [IDENT, ("team", escaped, "{:<12}"), RELEASES, ("last_name", escaped, "{}")],
    "releases": [("release", str, "{:>5}"), ("messages", str, "messages {:>5}"), ("signals", str, "signals {:>5}"),
                 ("added", str, "added {:>4}"), ("removed", str, "removed {:>4}"), ("changed", str, "changed {:>4}")],
    "nodes": [("sends", str, "sends {:>4}"), ("receives", str, "receives {:>4}"), ("node", plain, "{:<12}"), ("comment", rest, "{}")],
    "compare": [("breaks", mark, "{}"), ("kind", plain, "{:<7}"), IDENT, ("name", plain, "{}"), ("change", change, "{}")],
    "requests": [("key", escaped, "{:<24}"), ("reply", plain, "{:<24}"), ("request", asked, "<- {}")],
    "table": [IDENT, ("length", str, "{:>4}"), SIGNALS, ("transmitter", plain, "{}"), MESSAGE],
    "passed": [("offset", str, "{}"), ("keyword", plain, "{}")],
    "ok": [("messages", str, "{}"), ("signals", str, "{}")],
    "unclear": [("code", str, "{}"), ("name", plain, "{}"), ("number", str, "{}")],
    "fault": [("code", str, "{}"), ("name", plain, "{}"), ("offset", str, "{}")],
    "remark": [("place", place, "{}"), ("kind", plain, "{}"), ("about", plain, "{}")],
    "uses": [("use", plain, "{:<8}"), IDENT, SIGNALS, MESSAGE],
    "spns": [("spn", str, "{:>6}"), ("use", plain, "{:<4}"), RELEASES, IDENT, MESSAGE, ("signal", plain, "{}")],
    "signal": [("layout", layout, "{:>10}"), ("multiplexer", plain, "{:<4}"), ("spn", plain, "{:>6}"), SIGNAL, ("scale", scale, "{:<14}"),
               ("range", limits, "{:<14}"), ("unit", escaped, "{:<6}"), ("receivers", words, "{}")],
    "type": [("signal", plain, "{}"), ("type", plain, "{}")],
    "value": [SIGNAL, ("value", plain, "{:>6}"), ("text", rest, "{}")],
    "note": [SIGNAL, ("comment", rest, "{}")],
}
# Of what there is one of, its columns; and of what has several kinds of rows, these, and how wide their names are.
HEADS = {
    "state": [("network", escaped), ("kind", plain), ("phase", plain), ("submitted", escaped), ("approved", words), ("lacking", share),
              *[(it, str) for it in ("releases", "added", "removed", "changed", "held", "blocks", "nodes", "messages", "signals")]],
    "message": [("message", plain), ("number", str), ("identifier", digits), ("pgn", plain), ("priority", plain), ("source", plain),
                ("destination", plain), ("length", str), ("transmitter", plain), ("owner", escaped), ("releases", runs),
                ("since", plain), ("comment", rest)],
}
KINDS = {
    "state": (0, {}),
    "message": (11, {it: it for it in ("signal", "type", "value", "note")}),
    "who": (5, {"live": "messages", "held": "held", "spn": "spns", "block": "blocks"}),
}
TOTALS = {
    "blocks": [("blocks", "blocks"), ("free_std", "free std"), ("free_ext", "ext"), ("free_pgn", "pgn"), ("free_spn", "spn")],
    "messages": ["messages", "signals"], "held": ["held"], "releases": ["releases"], "nodes": ["nodes"],
    "uses": ["sends", "receives"], "spns": ["spns", "live", "gone", "used"], "who": ["live", "held", "spns", "blocks"],
    "compare": ["differences", "breaking", "added", "removed", "changed"],
    "requests": ["requests", "refused"], "table": ["messages", "signals"],
}


def lines_of(part, which, before=""):
    """The lines of the rows of a list, or of a kind of its rows."""
    assert part["columns"] == [name for name, _, _ in COLUMNS[which]], part["columns"]
    for row in part["rows"]:
        assert sorted(row) == sorted(part["columns"]), row
        yield before + " ".join(place.format(write(row[name])) for name, write, place in COLUMNS[which])


def last_line(totals, which):
    names = [it if isinstance(it, tuple) else (it, it) for it in TOTALS[which]]
    assert sorted(totals) == sorted(name for name, _ in names), totals
    return " ".join(f"{text} {totals[name]}" for name, text in names)


def text_of(text, what, is_named):
    """The lines that have what the JSON of `show NET WHAT` or of `compare` has."""
    assert text.endswith("\n") and "\n" not in text[:-1], text
    found = json.loads(text)
    which = "uses" if what == "nodes" and is_named else what
    head = HEADS.get(what, [])
    width, kinds = KINDS.get(what, (0, {}))
    totals = ["totals"] if which in TOTALS else []
    parts = [*kinds] if what in KINDS else ["columns", "rows"]
    assert sorted(found) == sorted([*[name for name, _ in head], *parts, *totals]), sorted(found)
    lines = [f"{name:<11} {write(found[name])}" for name, write in head]
    if what in KINDS:
        lines += [line for kind, of in kinds.items() for line in lines_of(found[kind], of, f"{kind:<{width}} ")]
    else:
        lines += lines_of(found, which)
    return "".join(f"{line}\n" for line in [*lines, *[last_line(found[it], which) for it in totals]])


def check_of(text):
    """The lines that have what the JSON of `check` has."""
    assert text.endswith("\n") and "\n" not in text[:-1], text
    found = json.loads(text)
    verdict = [it for it in ("ok", "unclear", "fault") if it in found]
    assert len(verdict) == 1 and len(found[verdict[0]]["rows"]) == 1, text
    kinds = verdict if verdict == ["fault"] else ["passed", *verdict, *["remark"][: "remark" in found]]
    assert sorted(found) == sorted(kinds), text
    return "".join(f"{line}\n" for kind in kinds for line in lines_of(found[kind], kind, f"{kind} "))


def lossy(text):
    """The lines with U+FFFD for what isn't UTF-8, as JSON has it, and without the spaces that fill columns."""
    def replaced(found):
        return "".join(f"%{it:02x}" for it in bytes.fromhex(found[0].replace("%", "")).decode(errors="replace").encode())
    return re.sub(" +", " ", re.sub("(%[0-9a-f]{2})+", replaced, text))


def without_chart(text):
    """The lines of a message without those of its chart, which JSON leaves out."""
    names = {name for name, _ in HEADS["message"]} | set(KINDS["message"][1])
    return "".join(line for line in text.splitlines(keepends=True) if line.split(" ")[0] in names)
