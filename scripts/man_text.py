"""Parts of the documents, as text of manual pages."""
import re


def section(text, title, without=None):
    """The lines below a heading, up to the next one that is no deeper; without those of a heading in it, if one is
    named.
    """
    found = re.search(rf"^(#+) {re.escape(title)}\n", text, re.MULTILINE)
    if not found:
        raise ValueError(f"there is no heading {title!r}")
    rest = text[found.end():]
    end = re.search(rf"^#{{1,{len(found[1])}}} ", rest, re.MULTILINE)
    lines = (rest[:end.start()] if end else rest).strip("\n").splitlines()
    if not without:
        return lines
    left_out = section(text, without)
    at = next(at for at in range(len(lines)) if lines[at + 1:][:len(left_out) + 1] == ["", *left_out])
    return lines[:at] + lines[at + 2 + len(left_out):]


def literal(text):
    """A text without marks, as troff takes it."""
    text = text.replace("\\", "\\e").replace("-", "\\-").replace("'", "\\(aq").replace("`", "\\(ga")
    text = text.replace("^", "\\(ha").replace("~", "\\(ti")
    return "\\&" + text if text[:1] in (".", "'") else text


# What Markdown marks: code, strong words and links.
MARK = re.compile(r"`([^`]+)`|\*\*(.+?)\*\*|\[([^\]]+)\]\([^)]*\)")


def inline(text):
    """A text of Markdown: code and strong words are bold, and of a link its words are left."""
    parts, at = [], 0
    for found in MARK.finditer(text):
        parts.append(literal(text[at:found.start()]))
        if found[3]:
            parts.append(inline(found[3]))
        else:
            parts.append("\\fB" + literal((found[1] or found[2].replace("`", "")).replace("\\|", "|")) + "\\fR")
        at = found.end()
    line = "".join([*parts, literal(text[at:])])
    return "\\&" + line if line[:1] in (".", "'") else line


def cells(line):
    """The cells of a line of a table."""
    return [cell.strip() for cell in re.split(r"(?<!\\)\|", line.strip().strip("|"))]


def table(lines):
    """A row is an item: its first cell, and below it the others, each after the head of its column."""
    heads = cells(lines[0])
    for line in lines[2:]:
        row = cells(line)
        yield from (".TP", inline(row[0]) or "\\&")
        rest = [(head, cell) for head, cell in zip(heads[1:], row[1:]) if cell]
        for at, (head, cell) in enumerate(rest):
            if at:
                yield ".br"
            yield inline(cell) if len(rest) == 1 or not head else f"{literal(head)}: {inline(cell)}"


def block(lines):
    """A block as it is, with the program's name as it is on the path."""
    return [".PP", ".nf", ".RS 4", *(literal(line.replace("./canoffice", "canoffice")) for line in lines), ".RE", ".fi"]


# An item of a list: its place, and its mark or its number.
ITEM = re.compile(r"( {0,3})(-|\d+\.) (.*)")


def lists(lines):
    """Items of a list, and of lists in it, each a paragraph."""
    items = []
    for line in lines:
        if found := ITEM.fullmatch(line):
            items.append([bool(found[1]), found[2].replace("-", "\\(bu"), found[3]])
        else:
            items[-1][2] += " " + line.strip()
    inside = False
    for deeper, mark, text in items:
        if deeper != inside:
            yield ".RS 4" if deeper else ".RE"
            inside = deeper
        yield from (f".IP {mark} {2 if mark.startswith(chr(92)) else 4}", inline(text))
    if inside:
        yield ".RE"


def kind(line):
    """What a line begins with, and so is a part of; an empty line ends a part."""
    if line.startswith("    "):
        return "block"
    if line.startswith("|"):
        return "table"
    if line.startswith("#"):
        return "heading"
    return "list" if ITEM.fullmatch(line) else "text"


def parts(lines):
    """The parts of a section: paragraphs, lists, tables, blocks and headings, each with its kind."""
    found, open_kind = [], None
    for line in lines:
        if not line:
            open_kind = None if open_kind != "block" else "ended block"
            continue
        now = "list" if open_kind == "list" else kind(line)
        if now == "block" and open_kind in ("block", "ended block"):
            if open_kind == "ended block":
                found[-1][1].append("")
            found[-1][1].append(line[4:])
            open_kind = "block"
            continue
        if open_kind != now or now not in ("text", "table", "list"):
            found.append((now, []))
            open_kind = now
        found[-1][1].append(line[4:] if now == "block" else line)
    return found


def roff(lines):
    """A section of a document, as the lines of a manual page."""
    out = []
    for part, text in parts(lines):
        if part == "heading":
            out += [f".SS {literal(text[0].lstrip('# ').replace('`', ''))}"]
        elif part == "table":
            out += table(text)
        elif part == "block":
            out += block(text)
        elif part == "list":
            out += lists(text)
        else:
            out += [".PP", inline(" ".join(text))]
    return out


def examples(text, command, limit):
    """Up to so many blocks of a document that run a subcommand of the program."""
    found = []
    for part, lines in parts(text.splitlines()):
        if part == "block" and any(re.search(rf"^\$ (.*[|;] )?\./canoffice {command}\b", line) for line in lines):
            found.append(lines)
    return found[:limit]
