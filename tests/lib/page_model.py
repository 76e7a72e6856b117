"""The page of a network, of a release and of a DBC file, for cases that compare the program's pages with it: made of what
the program prints in its looks, which other cases compare with models of their own, as a tree of elements.

    python3 page_model.py DATABASE NET [N]
    python3 page_model.py FILE.dbc

prints such a page. The upper part reads what the program prints. From "The pages" on there are only functions from that to
markup: concatenations and maps over lists, whole numbers only.
"""
import os, re, subprocess, sys
from collections import namedtuple as record

PROGRAM = os.environ.get("CANOFFICE", "canoffice")
# Where the office is whose pages are made.
AT = []

# ---------------------------------------------------------------- what the program prints

def run(*words):
    return subprocess.run([PROGRAM, *words], capture_output=True).stdout
def export(net, release):
    return run('export', *AT, net, '%d' % release)

seen = {}
def look(*words):
    """the lines of a look without its last one, which is the summary, and that"""
    if words not in seen:
        out = run(words[0], *AT, *words[1:]).decode('latin-1').split('\n')[:-1]
        seen[words] = (out[:-1], out[-1] if out else '')
    return seen[words]

def word(w):
    """a word of a look: bytes"""
    return b'' if w == '-' else words(w)
def words(w):
    return re.sub(rb'%([0-9a-f]{2})', lambda m: bytes([int(m[1], 16)]), w.encode('latin-1'))

def name_in(w):
    """a name that a look has as a word"""
    return '' if w == '-' else words(w).decode('latin-1')

Signal = record('Signal', 'name start size motorola signed mux factor offset least most unit comment spn kind receivers texts')
#   mux: -2 plain, -1 the multiplexor, else its value; kind: 0 integer, 1 float, 2 double; texts: (decimal, bytes)
Message = record('Message', 'number name length sender comment signals')
Sheet = record('Sheet', 'version comment nodes tables messages')          # nodes: (name, comment); tables: (name, texts)
Block = record('Block', 'form first last team live held free')            # std 0, ext 1, pgn 2, spn 3
Line = record('Line', 'breaks what number name change')                   # a line of `compare`
Net = record('Net', 'name kind phase submitter approved lacking releases added removed changed')
FORM = ('std', 'ext', 'pgn', 'spn')
TOKEN = re.compile(rb'\s*(?:"((?:[^"\\]|\\.)*)"|([A-Za-z_]\w*)|(-?[0-9][0-9.Ee+-]*)|([:;,|@()\[\]+-]))', re.S)

def read_dbc(data):
    """canonical text"""
    t, S = [], lambda b: b.decode('ascii')
    version, comment, nodes, tables, msgs = b'', b'', [], [], []
    notes, spns, vals, types = {}, {}, {}, {}
    def pairs(k):
        out = []
        while t[k] != (4, b';'):
            out.append((S(t[k][1]), t[k + 1][1])); k += 2
        return out
    lines = re.findall(rb'(?:[^"\n]|"(?:[^"\\]|\\.)*")+', data, re.S)        # in canonical text a statement is a line
    for l in lines:
        t = [(m.lastindex, m.group(m.lastindex)) for m in TOKEN.finditer(l)] + [(4, b';')]
        w = t[0][1]
        if w == b'VERSION':
            version = t[1][1]
        elif w == b'BU_':
            nodes = [S(x[1]) for x in t[2:] if x[0] == 2]
        elif w == b'VAL_TABLE_':
            tables.append((S(t[1][1]), pairs(2)))
        elif w == b'BO_':
            msgs.append((int(t[1][1]), S(t[2][1]), int(t[4][1]), S(t[5][1]), []))
        elif w == b'SG_':
            k = 3 if t[2][0] == 2 else 2
            mark = S(t[2][1]) if k == 3 else ''
            m = re.match(rb'.*? : (\d+)\|(\d+)@([01])([+-]) \((.*?),(.*?)\) \[(.*?)\|(.*?)\] "((?:[^"\\]|\\.)*)" (.*)$', l, re.S)
            msgs[-1][4].append(dict(name=S(t[1][1]), mux=-2 if not mark else -1 if mark == 'M' else int(mark[1:]), start=int(m[1]), size=int(m[2]),
                motorola=1 - int(m[3]), signed=int(m[4] == b'-'), factor=S(m[5]), offset=S(m[6]), least=S(m[7]), most=S(m[8]), unit=m[9],
                receivers=[x for x in S(m[10]).split(',') if x != 'Vector__XXX']))
        elif w == b'CM_':
            key = tuple(S(x[1]) for x in t[1:-2] if x[0] != 1)
            text = [x[1] for x in t if x[0] == 1][0]
            if key:
                notes[key] = text
            else:
                comment = text
        elif w == b'BA_' and t[1] == (1, b'SPN') and t[2][1] == b'SG_':
            spns[int(t[3][1]), S(t[4][1])] = int(t[5][1])
        elif w == b'VAL_':
            vals[int(t[1][1]), S(t[2][1])] = pairs(3)
        elif w == b'SIG_VALTYPE_':
            types[int(t[1][1]), S(t[2][1])] = int([x[1] for x in t[3:] if x[0] == 3][0])
    return Sheet(version, comment, [(n, notes.get(('BU_', n), b'')) for n in nodes], tables, [
        Message(num, name, length, '' if sender == 'Vector__XXX' else sender, notes.get(('BO_', '%d' % num), b''), [
            Signal(comment=notes.get(('SG_', '%d' % num, s['name']), b''), spn=spns.get((num, s['name']), 0), kind=types.get((num, s['name']), 0),
                   texts=vals.get((num, s['name']), []), **s) for s in sigs]) for num, name, length, sender, sigs in msgs])

sheets = {}
def sheet(net, release):
    if (net, release) not in sheets:
        sheets[net, release] = read_dbc(export(net, release))
    return sheets[net, release]

def nets():
    lines, last = look('show')
    return [l.split()[0] for l in lines + [last] if l]

def net_of(name):
    lines, last = look('show', name)
    f = dict((l.split(None, 1) + ['-'])[:2] for l in lines + [last])
    g = lambda k: f[k].strip()
    return Net(name, g('kind'), g('phase'), name_in(g('submitted')), [] if g('approved') == '-' else [name_in(x) for x in g('approved').split(',')],
               [int(x) for x in g('lacking').split(' of ')], int(g('releases')), int(g('added')), int(g('removed')), int(g('changed')))

def blocks_of(name):
    return [Block(FORM.index(f[0]), int(f[1]), int(f[2]), name_in(f[3]), int(f[5]), int(f[7]), int(f[9])) for f in (l.split() for l in look('show', name, 'blocks')[0])]

def owners_of(name):
    return {int(f[0]): name_in(f[6]) for f in (l.split() for l in look('show', name, 'messages')[0])}

def held_of(name):
    """(number, team of the block, releases, last name)"""
    return [(int(f[0]), name_in(f[4]), f[5], f[6]) for f in (l.split() for l in look('show', name, 'held')[0])]

def spns_of(name):
    """(SPN, live gone or used, releases, message, signal)"""
    return [(int(f[0]), f[1], f[2], f[7], f[8]) for f in (l.split() for l in look('show', name, 'spns')[0])]

def compared(lines):
    out = []
    for l in lines:
        f = l.split(None, 2)
        if f[1] in ('message', 'signal'):
            n, _, _, _, name, change = f[2].split(None, 5)
            out.append(Line(f[0] == '!', f[1], int(n), name, change))
        else:
            _, name, change = f[2].split(None, 2)
            out.append(Line(f[0] == '!', f[1], 0, name, change))
    return out

def compare_of(name, a, b):
    return compared(look('compare', name, '%d' % a, '%d' % b)[0])

def remarks_of(path, data=b''):
    """(clashes, remarks) of a sheet: lines of `check --explain` after its place, and of `check --lint`"""
    r = subprocess.run([PROGRAM, 'check', '--lint', '--', path], input=data, capture_output=True).stdout.decode('latin-1').split('\n')
    e = [] if not any(l.startswith('unclear') for l in r) else subprocess.run([PROGRAM, 'check', '--explain', '--', path], input=data, capture_output=True)
    e = e and (e.stdout + e.stderr).decode('latin-1').split('\n')
    return ([re.sub(r'^.*?:\d+:\d+: \d+ ', '', l) for l in e if re.search(r':\d+:\d+: 2[2-5] ', l)],
            [l.split(' ', 2)[2] for l in r if l.startswith('remark')], sorted({l.split()[2] for l in r if l.startswith('passed')}))
# ---------------------------------------------------------------- THE PAGES: texts and elements

def esc(data):
    """bytes as ASCII text of HTML, also right between double quotes (the present crate `html`)"""
    out, i = [], 0
    while i < len(data):
        b, n, c = data[i], 1, data[i]
        for k, lo, hi in ((2, 0xC2, 0xDF), (3, 0xE0, 0xEF), (4, 0xF0, 0xF4)):
            if lo <= b <= hi:
                try:
                    c, n = ord(data[i:i + k].decode('utf-8')), k
                except (UnicodeDecodeError, TypeError):
                    pass
        i += n
        if c in (34, 38, 39, 60, 62) or 160 <= c and not (c & 0xFFFE == 0xFFFE or 0xFDD0 <= c <= 0xFDEF):
            out.append('&#%d;' % c)
        elif 32 <= c < 127 or c in (9, 10):
            out.append(chr(c))
        elif c == 13:
            pass
        elif c < 32:
            out.append('&#%d;' % (9216 + c))
        else:
            out.append('&#65533;')
    return ''.join(out)

class H(str):
    """markup: what `tag` makes. Every other text, bytes or str, is escaped when it comes into an element."""

TAGS = set('html head meta title style body header nav main section h1 h2 h3 p ul li table caption thead tbody tr th td '
           'a b em small span code bdi i div details summary form input button'.split())
VOID = {'meta', 'input'}
LATER = {'p', 'li', 'ul', 'tr', 'table', 'thead', 'section', 'h1', 'h2', 'h3', 'nav', 'header', 'main', 'body', 'head', 'details', 'summary', 'form', 'style', 'title', 'meta'}
ATTRIBUTES = set('lang charset http-equiv name content class id href title colspan style aria-label role tabindex action value placeholder open'.split())
TONES = ['t%d' % i for i in range(8)] + ['tx']
CLASSES = set('bad bar big bits card cell chg cols eq f free good grid h home kind l line list long lot map matrix moved n none nums old p pair path q rows sel sig strip taken two u v was wide x y'.split()) | set(TONES)
used = (set(), set(), set())

def flat(x):
    if x is None:
        return ''
    if isinstance(x, H):
        return x
    if isinstance(x, (list, tuple)):
        return ''.join([flat(y) for y in x])
    return esc(x if isinstance(x, bytes) else ('%d' % x if isinstance(x, int) else x).encode())

def tag(name_, *content, cls='', **attributes):
    assert name_ in TAGS, name_
    used[0].add(name_)
    a = ''
    if cls:
        for c in cls.split():
            assert c in CLASSES, c
            used[2].add(c)
        a = ' class="%s"' % cls
        used[1].add('class')
    for k, v in attributes.items():
        k = k.rstrip('_').replace('_', '-')
        assert k in ATTRIBUTES, k
        if v is not None:
            used[1].add(k)
            a += ' %s="%s"' % (k, flat(v))
    end = '\n' if name_ in LATER else ''
    return H('<%s%s/>%s' % (name_, a, end)) if name_ in VOID else H('<%s%s>%s</%s>%s' % (name_, a, flat(content), name_, end))

def joined(sep, items):
    return [y for i, x in enumerate(items) for y in ((sep, x) if i else (x,))]

def count(n, one, many=None):
    return '%d %s' % (n, one if n == 1 else many or one + 's')

def runs(numbers):
    out = []
    for n in numbers:
        if out and out[-1][1] == n - 1:
            out[-1] = (out[-1][0], n)
        else:
            out.append((n, n))
    return out

def spelled(rs):
    return ', '.join(['%d' % a if a == b else '%d-%d' % (a, b) for a, b in rs])

q = lambda *c: tag('span', *c, cls='q')
bdi = lambda b: tag('bdi', b)
DOT, ARROW, MINUS, DIFFERS, TIMES = b'\xc2\xb7', b'\xe2\x86\x92', b'\xe2\x88\x92', b'\xe2\x89\xa0', b'\xc3\x97'

# ---------------------------------------------------------------- numbers

EXT = 2147483648
ident = lambda n: n % EXT
hexed = lambda n: '%08X' % ident(n) if n >= EXT else '%03X' % n
def pgn(n):
    n = ident(n) // 256 % 262144
    return n if n // 256 % 256 >= 240 else n // 256 * 256
is_addressed = lambda p: p // 256 % 256 < 240 and p % 256 == 0
is_broadcast = lambda p: p // 256 % 256 >= 240
HEX = ('%03X', '%08X', '%04X')
def both(form, a, b):
    """a run of numbers, decimal and hex; of SPNs decimal alone"""
    d = '%d' % a if a == b else '%d-%d' % (a, b)
    return d if form == 3 else [d, ' ', tag('code', '(' + (HEX[form] % a if a == b else HEX[form] % a + '-' + HEX[form] % b) + ')')]

# ---------------------------------------------------------------- where a page is, and its links

class Place:
    """how: desk, files or one (a page alone: links stay in it). up: the route's folders."""
    def __init__(self, how, up, letters):
        self.how, self.up, self.letters = how, up, letters
    def to(self, path, desk='', files='.html'):
        return '../' * self.up + path + (files if self.how == 'files' else desk)
    def a(self, content, path, **more):
        return tag('a', content, href=self.to(path), **more) if self.how != 'one' else content if isinstance(content, H) else H(flat(content))
    def home(self, content):
        return tag('a', content, href=(self.to('index') if self.how == 'files' else '../' * self.up or './')) if self.how != 'one' else content
    def net(self, n, content=None, part=''):
        return tag('a', content or n, href=self.to('nets/%s/page' % n) + part) if self.how != 'one' else content or n
    def release(self, n, r, content):
        return self.a(content, 'nets/%s/releases/%d/page' % (n, r))
    def compare(self, n, a, b, content, part=''):
        return tag('a', content, href=self.to('nets/%s/compare/%d/%d/page' % (n, a, b)) + part) if self.how != 'one' else content
    def team(self, t, content=None):
        return self.a(content or t, 'teams/%s/page' % t) if t in self.letters else content or t
    def message_at(self, n, m):
        return self.to('nets/%s/messages/%s/page' % (n, '%d' % m.number if self.how == 'files' else m.name)) if self.how != 'one' else '#m-' + m.name
    def message(self, n, m, content=None):
        return tag('a', content or m.name, href=self.message_at(n, m))
    def text(self, desk, files, content):
        """what isn't HTML: a desk has it at a route, a folder as a file or not at all"""
        return tag('a', content, href='../' * self.up + (desk if self.how == 'desk' else files)) if self.how == 'desk' or self.how == 'files' and files else None

def letter(i):
    return chr(65 + i % 26) if i < 26 else letter(i // 26 - 1) + letter(i % 26)
def tone_of(p, team):
    return 't%d' % (p.letters.index(team) % 8) if team in p.letters else 'tx'
def letter_of(p, team):
    return letter(p.letters.index(team)) if team in p.letters else DOT
def badge(p, team):
    return [tag('b', letter_of(p, team), cls='l ' + tone_of(p, team)), b'\xc2\xa0', team] if team in p.letters else team
def team_link(p, team):
    return p.team(team, H(flat(badge(p, team))))

CSP = "default-src 'none';style-src 'unsafe-inline';form-action 'self';base-uri 'none'"
def document(title, path, h1, small, head, parts, body, long=False):
    """path: breadcrumbs; parts: links of the bar; body: the main element"""
    return '<!DOCTYPE html>\n' + tag('html', tag('head', tag('meta', charset='utf-8'), tag('meta', http_equiv='Content-Security-Policy', content=CSP),
        tag('meta', name='viewport', content='width=device-width,initial-scale=1'), tag('meta', name='color-scheme', content='light dark'),
        tag('title', title), tag('style', H('\n' + CSS))),
        tag('body', tag('header', tag('nav', joined([' ', q(b'\xe2\x80\xba'), ' '], path), cls='path', aria_label='Path') if path else None,
                        tag('h1', h1, [' ', tag('small', small)] if small else None), head,
                        tag('nav', joined(' ', [x for x in parts if x]), cls='n', aria_label='Parts') if parts else None),
            tag('main', body), cls='long' if long else ''), lang='en')
def is_long(*sheets):
    """a name has more than 32 bytes (the remark LongName)"""
    return any(len(n) > 32 for s in sheets for m in s.messages for n in [m.name, m.sender, *[g.name for g in m.signals], *[r for g in m.signals for r in g.receivers]]) or any(len(n) > 32 for s in sheets for n, _ in s.nodes)
def crumbs(p, *more):
    return [p.home('Office'), *more] if p.how != 'one' else []
def part(name, heading, small, *content):
    return tag('section', tag('h2', heading, [' ', tag('small', small)] if small else None), content, id=name)
def to_part(name, words):
    return tag('a', words, href='#' + name)
def search(p, w=b''):
    return tag('form', tag('input', name='q', aria_label='Find a message, a signal, a node, a team, a unit or a number', placeholder='EEC1, 0x18FEF100, pgn 65265, spn 190, rpm', value=w),
               tag('button', 'Find'), role='search', action=p.to('find')) if p.how == 'desk' else None
def table(kind, heads, rows):
    return tag('table', tag('thead', tag('tr', [tag('th', h) for h in heads])), tag('tbody', rows), cls=kind)
def row(first, *cells, **more):
    return tag('tr', tag('th', first), [tag('td', c) for c in cells], **more)
def fold(opened, summary, *content):
    return tag('details', tag('summary', summary), content, open='' if opened else None)
breaking = lambda n, w='breaking': tag('b', '! %d %s' % (n, w), cls='bad')

# ---------------------------------------------------------------- bits

def walk(s):
    p, out = s.start, []
    for k in range(s.size):
        out.append((p, s.size - 1 - k if s.motorola else k))
        p = (p + 15 if p % 8 == 0 else p - 1) if s.motorola else p + 1
    return out
def present(m, value):
    """(place, signal) of those that are there with this value of the multiplexor; None: of the plain ones and the multiplexor"""
    return [(i, s) for i, s in enumerate(m.signals) if s.mux < 0 or s.mux == value]
def bits_of(m, value):
    at = {}
    for i, s in present(m, value) if m else []:
        for p, raw in walk(s):
            at.setdefault(p, []).append((i, raw))
    return at
def values_of(m):
    return sorted({s.mux for s in m.signals if s.mux >= 0}) if any(s.mux == -1 for s in m.signals) else []
def selector(m):
    return [s for s in m.signals if s.mux == -1][0]
def value_words(m, v):
    sel = selector(m)
    return ['%s = %d' % (sel.name, v), [[', ', bdi(w)] for d, w in sel.texts if d == '%d' % v][:1]]

def byte_row(m, at, byte, kinds):
    """the runs of a byte from bit 7 to bit 0: neighbours with the same signals are one run. kinds: signal -> (sign, class)"""
    if m is None or byte >= m.length:
        return tag('td', '' if m is None else 'past the end', colspan=8, cls='eq')
    out, p = [], 8 * byte + 7
    while p >= 8 * byte:
        who, lo = at.get(p, []), p
        while lo > 8 * byte and [w[0] for w in at.get(lo - 1, [])] == [w[0] for w in who]:
            lo -= 1
        span = p - lo + 1 if p > lo else None
        if not who:
            out.append(tag('td', colspan=span, cls='free'))
        elif len(who) > 1:
            out.append(tag('td', 'clash ', ' '.join(['%d' % (w[0] + 1) for w in who]), colspan=span, cls='x', title='clash: ' + ', '.join([m.signals[w[0]].name for w in who])))
        else:
            i, hi = who[0]
            s, low = m.signals[i], at[lo][0][1]
            sign, kind = kinds(s)
            out.append(tag('td', sign, '%d ' % (i + 1), s.name, None if hi - low + 1 == s.size else [' ', q('%d' % hi if hi == low else '%d:%d' % (hi, low))],
                           colspan=span, cls=kind, title=s.name))
        p = lo - 1
    return out
def plan(length, empty, same, cuts=()):
    """rows of a picture: (byte, byte) is shown; (first, last) of more than one, or an empty one, is left out"""
    out, b = [], 0
    while b < length:
        e = b
        while e < length and (empty(e) or same(e)) and (e == b or empty(e) == empty(b) and e not in cuts):
            e += 1
        out.append((b, max(e - 1, b), 'free' if e > b and empty(b) else 'the same' if e > b else ''))
        b = max(e, b + 1)
    return out
BITS = tag('thead', tag('tr', tag('th', 'Byte ', q('bits')), [tag('th', k) for k in range(7, -1, -1)]))
def picture(m, at, rows, caption, kinds, name):
    return tag('table', tag('caption', caption) if caption else None, BITS, tag('tbody', [
        tag('tr', tag('th', '%d ' % a, q('%d-%d' % (8 * a + 7, 8 * a))), byte_row(m, at, a, kinds)) if not word else
        tag('tr', tag('th', '%d' % a if a == b else '%d-%d' % (a, b)), tag('td', word if not m or a < m.length else 'past the end', colspan=8, cls='eq')) for a, b, word in rows]), cls='bits', aria_label='Bits of ' + name)
def pictures(m, changed):
    kinds = lambda s: (tag('b', '*') if s.name in changed else None, 'v' if s.mux >= 0 else 'u')
    def one(v, caption):
        at = bits_of(m, v)
        return picture(m, at, plan(m.length, lambda b: not any(8 * b + k in at for k in range(8)), lambda b: False), caption, kinds, m.name)
    vs = values_of(m)
    return [] if not m.length else [tag('div', [one(v, value_words(m, v)) for v in vs], cls='grid')] if vs else [one(None, None)]

# ---------------------------------------------------------------- signals and messages

def coding(s):
    return ('Motorola' if s.motorola else 'Intel') + (' float' if s.kind == 1 else ' double' if s.kind == 2 else ' signed' if s.signed else ' unsigned')
def texts_of(texts):
    return joined(', ', [[d, b'\xc2\xa0', bdi(w)] for d, w in texts])
def same(values):
    return all(v == values[0] for v in values)
def used_bits(m):
    return len({p for s in m.signals for p, _ in walk(s) if p < 8 * m.length})
def receivers_of(m):
    """each once, also where a signal names it twice"""
    return list(dict.fromkeys(r for s in m.signals for r in s.receivers))
def mark_of(s):
    return '' if s.mux == -2 else 'M' if s.mux == -1 else 'm%d' % s.mux
def signal_table(m, changed):
    if not m.signals:
        return tag('p', 'No signal.')
    codings, receivers, bits = not same([coding(s) for s in m.signals]), not same([s.receivers for s in m.signals]), 8 * m.length
    def line(i, s):
        texts = texts_of(s.texts) if len(s.texts) <= 16 else fold(False, count(len(s.texts), 'text'), texts_of(s.texts))
        return tag('tr', tag('td', i + 1), tag('th', tag('b', '*') if s.name in changed else None, s.name, q(' ', mark_of(s)) if s.mux > -2 else None),
            tag('td', '%d|%d' % (s.start, s.size), [' ', tag('em', 'outside')] if any(p >= bits for p, _ in walk(s)) else None), tag('td', s.factor), tag('td', s.offset),
            tag('td', s.least + ' to ' + s.most), tag('td', bdi(s.unit) if s.unit else None), tag('td', s.spn or None), tag('td', coding(s)) if codings else None,
            tag('td', ', '.join(s.receivers)) if receivers else None, tag('td', joined('; ', [x for x in (bdi(s.comment) if s.comment else None, texts) if x])))
    heads = ['#', 'Signal', 'Start|bits', 'Factor', 'Offset', 'Range', 'Unit', 'SPN'] + ['Coding'] * codings + ['Receivers'] * receivers + ['Values, comment']
    return table('sig', heads, [line(i, s) for i, s in enumerate(m.signals)])
def facts(m, j):
    n = ident(m.number)
    out = [tag('code', hexed(m.number)), '%d' % m.number]
    if j and m.number >= EXT:
        out += ['PGN %d' % pgn(m.number), 'priority %d' % (n // 67108864), 'source %d' % (n % 256)] + ['destination %d' % (n // 256 % 256)] * is_addressed(pgn(m.number))
    out += [count(m.length, 'byte'), '%d of %d bits used' % (used_bits(m), 8 * m.length)]
    out += [coding(m.signals[0])] if m.signals and same([coding(s) for s in m.signals]) else []
    return joined([' ', DOT, ' '], out)
def goes(m):
    """from whom, to whom; how many of the signals where not all"""
    n = len(m.signals)
    return ['from ', tag('b', m.sender) if m.sender else 'nobody named', ', to ', joined(', ', [[tag('b', r), q(' (%d of %d)' % (k, n)) if k < n else None]
        for r in receivers_of(m) for k in [sum(1 for s in m.signals if r in s.receivers)]]) or 'nobody named']

# ---------------------------------------------------------------- what differs

def partners(a, b):
    """(older, newer) of the newer sheet's messages that have a partner: that of the name, else that of the number if neither name is in the other"""
    by_name, by_number, there = {m.name: m for m in a.messages}, {m.number: m for m in a.messages}, {m.name for m in b.messages}
    out = {}
    for m in b.messages:
        o = by_name.get(m.name) or (by_number[m.number] if m.number in by_number and by_number[m.number].name not in there else None)
        if o:
            out[m.number] = (o, m)
    return out

class Changes:
    """of two sheets, by the lines of `compare`"""
    def __init__(self, a, b, lines):
        self.a, self.b, self.lines, self.pairs, self.of = a, b, lines, partners(a, b), {}
        for l in lines:
            if l.what in ('message', 'signal'):
                self.of.setdefault(message_of(l), []).append(l)
        old = {o.number for o, _ in self.pairs.values()}
        self.added = [m for m in b.messages if m.number not in self.pairs]
        self.removed = [m for m in a.messages if m.number not in old]
        self.changed = sorted([self.pairs[m.number] for m in b.messages if m.number in self.pairs and of_line(m) in self.of], key=lambda om: (-self.breaks(om[1]), om[1].number))
        self.frame = [l for l in lines if l.what not in ('message', 'signal')]
        self.breaking = sum(l.breaks for l in lines)
    def breaks(self, m):
        return sum(l.breaks for l in self.of.get(of_line(m), []))
    def older(self, l):
        """the message of a line as it was: the partner, or what is gone"""
        older = [o for o, m in self.pairs.values() if of_line(m) == message_of(l)]
        return (older or [m for m in self.a.messages if of_line(m) == message_of(l)])[0]

def of_line(m):
    """what the lines of a message have; one that is gone can have the number of another"""
    return m.number, m.name
def message_of(l):
    return l.number, l.name.split('.', 1)[0]
def signal_name(l):
    return l.name.split('.', 1)[1] if l.what == 'signal' else ''
def field_of(l):
    return l.change.split(' ', 1)[0]
def must_act(c):
    """node -> {(number, message, its signal or ''): fields that break it}, nodes by name: the receivers, in the older sheet, of what breaks. '' is: nobody is named"""
    out = {}
    for l in c.lines:
        if l.breaks:
            m = c.older(l)
            nodes = receivers_of(m) if l.what == 'message' else [r for s in m.signals if s.name == signal_name(l) for r in s.receivers]
            for n in nodes or ['']:
                out.setdefault(n, {}).setdefault((*message_of(l), signal_name(l)), []).append(field_of(l))
    return [(n, out[n]) for n in sorted(out)]
ACT = 'nodes that receive what breaks, as %s has it'
def act_table(c, link):
    rows = must_act(c)
    return (table('list', ['Node', 'What breaks'], [row(n or q('no receiver named'), tag('ul', [tag('li', tag('b', '!', cls='bad'), ' ', link(i, m), '.' + s if s else None, ' ', q(', '.join(f)))
            for (i, m, s), f in d.items()])) for n, d in rows]) if rows else tag('p', 'Nobody: nothing that changed breaks a receiver.'))
def verdict(c, n):
    return tag('ul', tag('li', tag('b', c.breaking), ' break a receiver', cls='bad' if c.breaking else 'good'), tag('li', tag('b', len(c.lines) - c.breaking), ' other ' + ('difference' if len(c.lines) - c.breaking == 1 else 'differences')),
        tag('li', tag('b', '+', len(c.added)), ' added'), tag('li', tag('b', MINUS, len(c.removed)), ' removed'), tag('li', tag('b', DIFFERS, len(c.changed)), ' changed, of %d messages' % n), cls='big')
# ---------------------------------------------------------------- the page of a network

class Office:
    """what the pages of one network need: its rows, and which number is live or held"""
    def __init__(self, name):
        self.net, self.blocks, self.owner, self.held, self.spns = net_of(name), blocks_of(name), owners_of(name), held_of(name), spns_of(name)
        self.name, self.live, self.j, self.kind = name, sheet(name, 0), self.net.kind == 'j1939', 'a J1939 network' if self.net.kind == 'j1939' else 'a CAN network'
        self.teams = sorted({b.team for b in self.blocks} | set(self.owner.values()))
        self.at, self.gone = {}, set()
        self.last = self.net.releases
        for m in self.live.messages:
            form = 1 if m.number >= EXT else 0
            self.at.setdefault((form, ident(m.number)), []).append(m)
            if form:
                self.at.setdefault((2, pgn(m.number)), []).append(m)
            for s in m.signals:
                if s.spn:
                    self.at.setdefault((3, s.spn), []).append(m)
        for n, _, _, _ in self.held:
            self.gone |= {(1 if n >= EXT else 0, ident(n))} | ({(2, pgn(n))} if n >= EXT else set())
        self.gone |= {(3, n) for n, state, _, _, _ in self.spns if state != 'live'}
        self.changes = Changes(sheet(name, self.last), self.live, compare_of(name, self.last, 0)) if self.last else None
        self.waiting = [t for t in self.teams if t != self.net.submitter and t not in self.net.approved] if self.net.phase == 'review' else []

ROWS = ('11 bits', '29 bits', 'PGN broadcast', 'PGN addressed', 'SPN')
ROW_FORM = (0, 1, 2, 2, 3)
def in_row(r, n):
    return is_broadcast(n) if r == 2 else is_addressed(n) if r == 3 else True
def tally(o, blocks, r):
    """(live, held, free runs) of the numbers of these blocks; of PGNs those of this row"""
    f, live, held, free = ROW_FORM[r], 0, 0, []
    for b in blocks:
        if r in (2, 3):
            ns = [n for n in range(b.first, b.last + 1) if in_row(r, n)]
            live += sum((f, n) in o.at for n in ns)
            held += sum((f, n) in o.gone and (f, n) not in o.at for n in ns)
            free += runs([n for n in ns if (f, n) not in o.at and (f, n) not in o.gone])
        else:
            t = sorted({n for g, n in list(o.at) + list(o.gone) if g == f and b.first <= n <= b.last})
            live += sum((f, n) in o.at for n in t)
            held += sum((f, n) not in o.at for n in t)
            k = b.first
            for n in t + [b.last + 1]:
                if k < n:
                    free.append((k, n - 1))
                k = n + 1
    return live, held, free
size_of = lambda free: sum(b - a + 1 for a, b in free)
def bar(tone, live, held, free):
    return tag('div', [tag('i', cls=c + ' ' + tone, style='flex:%d' % n) for c, n in (('l', live), ('h', held), ('f', free)) if n], cls='bar')
def left_rows(p, o, team, first):
    """rows of a team with numbers; first: what stands in the first cell of each"""
    out = []
    for r in range(5):
        live, held, free = tally(o, [b for b in o.blocks if b.team == team and b.form == ROW_FORM[r]], r)
        n = size_of(free)
        if live + held + n:
            few = n < 3 and live + held + n >= 8
            out.append(row(first, ROWS[r], live + held + n, bar(tone_of(p, team), live, held, n), live, held or None, tag('em', 'only %d' % n if n else 'none') if few else n,
                           [joined(', ', [both(ROW_FORM[r], a, b) for a, b in free[:4]]), ' and %d more' % (len(free) - 4) if len(free) > 4 else None]))
    return out
LEFT = ['Numbers', 'Granted', 'Live, held, free', 'Live', 'Held', 'Free', 'Free numbers, the next one first']
def wide(label, t):
    return tag('div', t, cls='wide', role='region', tabindex=0, aria_label=label)
def left_part(p, o):
    if not o.blocks:
        return part('left', 'Numbers left', None, tag('p', 'No block is granted. ', q('The office grants them: '), tag('code', 'grant net=%s team=.. form=.. first=.. last=..' % o.name)))
    rows = [x for t in o.teams for x in left_rows(p, o, t, team_link(p, t))]
    return part('left', 'Numbers left', None, wide('Numbers left', table('nums lot', ['Team'] + LEFT, rows)),
        tag('p', 'Of SPNs, held is: used once, and on no live signal here. Red is: fewer than three left, of eight or more.', cls='q'),
        fold(False, count(len(o.blocks), 'block'), tag('ul', [tag('li', tag('b', ('11 bits', '29 bits', 'PGN', 'SPN')[b.form]), ' ', both(b.form, b.first, b.last), ' ', badge(p, b.team)) for b in o.blocks], cls='cols')))

def map_cell(p, o, form, n, link):
    ms = o.at.get((form, n), [])
    team = ([b.team for b in o.blocks if b.form == form and b.first <= n <= b.last] or [''])[0]
    if ms:
        who = []
        for m in ms:
            who += [o.owner[m.number]] if o.owner[m.number] not in who else []
        tones, ls = [tone_of(p, t) for t in who], [letter_of(p, t) for t in who]
        title = '%d ' % n + ', '.join(['%s (%s)' % (m.name, o.owner[m.number]) for m in ms[:4]]) + (' and %d more' % (len(ms) - 4) if len(ms) > 4 else '')
        return tag('td', tag('a', ls if len(ls) < 3 else [ls[0], '+'], href=link(ms[0]) if len(ms) == 1 else '#t-' + ms[0].name, title=title, aria_label=title), cls='l ' + tones[0])
    if (form, n) in o.gone:
        return tag('td', letter_of(p, team) if team in p.letters else TIMES, cls='h ' + tone_of(p, team), title='%d held' % n)
    if team and (form != 2 or is_addressed(n) or is_broadcast(n)):
        return tag('td', letter_of(p, team).lower() if team in p.letters else DOT, cls='f ' + tone_of(p, team))
    return tag('td')
def map_pages(o):
    """(form, numbers of the first cells of the rows, step, caption): pages of 256 numbers, rows of 16 of which one isn't nobody's"""
    numbers = {f: {n for g, n in list(o.at) + list(o.gone) if g == f} for f in (0, 1, 2)}
    ends = {f: [(b.first, b.last) for b in o.blocks if b.form == f] for f in (0, 1, 2)}
    if o.j:
        numbers[1] = {n for n in numbers[1] if any(a <= n <= b for a, b in ends[1])}
    def rows(f, ok, step):
        r = {n // (16 * step) for n in numbers[f] if ok(n)}
        for a, b in ends[f]:
            r |= {a // 16, b // 16} if f == 1 else {n // (16 * step) for n in range(a, b + 1) if ok(n)}
        return sorted(r)
    out = []
    for f, ok, step, per in ((0, lambda n: True, 1, 16), (2, is_broadcast, 1, 16), (2, is_addressed, 256, 16), (1, lambda n: True, 1, 16)):
        if f == 2 and not o.j:
            continue
        rs = rows(f, ok, step)
        for page in sorted({r // per for r in rs}):
            first, last = page * per * 16 * step, (page * per + per) * 16 * step - step
            words = ('11 bits', '29 bits', 'PGN')[f] + (', addressed' if step > 1 else '')
            out.append((f, [r * 16 * step for r in rs if r // per == page], step, [words, ', ', tag('code', HEX[f] % first + ' to ' + HEX[f] % last), q(' (%d to %d)' % (first, last))]))
    return out
def map_part(p, o, link, whose):
    legend = tag('ul', [tag('li', tag('b', letter_of(p, t), cls='l ' + tone_of(p, t)), ' ', t) for t in o.teams], cls='line')
    states = tag('ul', tag('li', tag('b', 'A', cls='l tx'), ' live'), tag('li', tag('b', 'A', cls='h tx'), ' held for good'), tag('li', tag('b', 'a', cls='f tx'), ' granted and free'),
                 tag('li', tag('b', '', cls='cell none'), ' nobody', b'\xe2\x80\x99', 's'), cls='line') if o.blocks else None
    return part('map', 'Map of the numbers', whose, legend, states, tag('div', [tag('table', tag('caption', cap), tag('thead', tag('tr', tag('td'), [tag('th', '%X' % c) for c in range(16)])),
        tag('tbody', [tag('tr', tag('th', HEX[f] % a), [map_cell(p, o, f, a + step * c, link) for c in range(16)]) for a in firsts]), cls='map') for f, firsts, step, cap in map_pages(o)], cls='grid'))
def message_table(p, o, link, state, releases, file):
    n = any(releases.values())
    heads = ['Message', 'Number', 'DBC number'] + ['PGN', 'SA'] * o.j + ['Bytes', 'Bits used', 'Signals', 'Sent by'] + ['Owner'] * (not file) + ['Releases'] * n + ['State'] * bool(state)
    def line(m):
        x = o.j and m.number >= EXT
        return tag('tr', tag('th', link(m)), tag('td', tag('code', hexed(m.number))), tag('td', m.number), [tag('td', pgn(m.number) if x else None), tag('td', m.number % 256 if x else None)] if o.j else None,
            tag('td', m.length), tag('td', used_bits(m)), tag('td', len(m.signals)), tag('td', badge(p, m.sender) if file else m.sender), tag('td', badge(p, o.owner[m.number])) if not file else None,
            tag('td', releases.get(m.number)) if n else None, tag('td', state.get(m.number)) if state else None, id='t-' + m.name)
    return wide('Messages', table('nums', heads, [line(m) for m in o.live.messages])) if o.live.messages else tag('p', 'No message yet.')
def node_part(o, link):
    nodes = o.live.nodes
    if not nodes:
        return None
    sends, takes = {}, {}
    for m in o.live.messages:
        sends[m.sender] = sends.get(m.sender, 0) + 1
        for r in receivers_of(m):
            takes[r] = takes.get(r, 0) + 1
    t = wide('Nodes', table('nums', ['Node', 'Sends', 'Receives', 'Comment'], [row(n, sends.get(n, 0), takes.get(n, 0), bdi(c) if c else None) for n, c in nodes]))
    x = wide('Which node sends and receives which message', tag('table', tag('thead', tag('tr', tag('th', 'S sends, r receives'), [tag('th', tag('span', n)) for n, _ in nodes])),
        tag('tbody', [tag('tr', tag('th', link(m)), [tag('td', [tag('b', 'S')] if m.sender == n else None, 'r' if n in rs else None) for n, _ in nodes]) for m in o.live.messages for rs in [receivers_of(m)]]), cls='matrix')) if len(nodes) <= 40 and len(o.live.messages) <= 1024 else None
    return part('nodes', 'Nodes', None, tag('div', t, x, cls='pair'))
def each_part(o, changed, state, badge_of, folded):
    def one(m):
        head = [tag('h3', tag('b', m.name), ' ', badge_of(m), [' ', tag('em', state[m.number])] if m.number in state else None)]
        inner = [tag('p', facts(m, o.j), id='m-' + m.name, cls='q'), tag('p', goes(m)), tag('p', bdi(m.comment)) if m.comment else None, pictures(m, changed.get(m.number, ())), wide('Signals of ' + m.name, signal_table(m, changed.get(m.number, ())))]
        return tag('details', tag('summary', head), inner, cls='card') if folded else tag('section', head, inner, cls='card')
    return part('each', 'Each message', 'signals by their number in the table; 15:8 are bits of the raw value', [one(m) for m in o.live.messages])
def tables_part(tables):
    return part('tables', 'Value tables', None, table('list', ['Table', 'Texts'], [row(n, texts_of(t) if len(t) <= 64 else fold(False, count(len(t), 'text'), texts_of(t))) for n, t in tables])) if tables else None
def spn_part(p, o, link_name):
    items = []
    for n, state, rels, m, s in o.spns:
        where = m != '-' and ([link_name(m), '.' + s] if state == 'live' else m + '.' + s)
        items.append(tag('li', tag('b', n), ' ', where if state == 'live' else q('burnt, last in release %s: %s' % (rels.split('-')[-1].split(',')[-1], where) if where else 'burnt or on another network')))
    live = sum(1 for x in o.spns if x[1] == 'live')
    return part('spns', 'SPNs', None, fold(len(items) <= 256, '%s with a number, %d burnt' % (count(live, 'signal'), len(items) - live), tag('ul', items, cls='cols'))) if items else None
def remarks_part(clashes, remarks, passed):
    if not (clashes or remarks or passed):
        return None
    return part('remarks', 'Remarks', 'of check --lint', tag('ul', [tag('li', tag('b', '! clash', cls='bad'), ' ', c) for c in clashes], [tag('li', joined(' ', [tag('b', r.split(' ')[0])] + r.split(' ')[1:])) for r in remarks[:200]]),
        tag('p', q('%d more' % (len(remarks) - 200))) if len(remarks) > 200 else None, tag('p', q('passed: ' + ', '.join(passed))) if passed else None)
def remarks_line(clashes, remarks):
    return [tag('b', '! ' + count(len(clashes), 'message') + ' unclear', cls='bad') if clashes else None, ' ', tag('a', count(len(remarks), 'remark'), href='#remarks') if remarks else 'no remark'] if clashes or remarks else 'no clash, no remark'
def phase_words(p, net, waiting):
    if net.phase != 'review':
        return [tag('b', 'Draft', cls='kind'), ' A release needs %s.' % count(net.lacking[1], 'approval')]
    more = net.lacking[0]
    return [tag('b', 'In review', cls='kind'), ' Submitted by ', team_link(p, net.submitter), ', approved by ', joined(', ', [team_link(p, t) for t in net.approved]) or 'nobody yet', ': %d of %d. ' % (net.lacking[1] - more, net.lacking[1]),
            'The office may release.' if not more else [tag('b', count(more, 'approval') + ' to come'), ', of ', joined(', ', [team_link(p, t) for t in waiting]) or 'any other team', '.']]
def since_words(p, o):
    if not o.last:
        return 'No release yet.'
    c = o.changes
    return ['Since ', p.release(o.name, o.last, 'release %d' % o.last), ': ', [tag('span', 'no difference', cls='good')] if not c.lines else
            [p.compare(o.name, o.last, 0, H(flat(['+%d ' % len(c.added), MINUS, '%d ' % len(c.removed), DIFFERS, '%d messages' % len(c.changed)]))), ' ',
             breaking(c.breaking) if c.breaking else tag('span', 'nothing breaks', cls='good')]]
def releases_part(p, o):
    if not o.last:
        return None
    def line(l):
        f = l.split()
        k = int(f[0])
        b = 0 if k == 1 else sum(x.breaks for x in compare_of(o.name, k - 1, k))
        return row(p.release(o.name, k, 'release %d' % k), f[2], f[4], '+' + f[6], [MINUS, f[8]], [DIFFERS, f[10]], breaking(b) if b else None,
                   joined(' ', [x for x in (p.compare(o.name, k - 1, k, 'from %d' % (k - 1)) if k > 1 and p.how != 'one' else None, p.text('nets/%s/releases/%d' % (o.name, k), 'nets/%s/releases/%d.dbc' % (o.name, k), 'DBC')) if x]))
    rows = look('show', o.name, 'releases')[0]
    return part('releases', 'Releases', None, wide('Releases', table('nums', ['Release', 'Messages', 'Signals', 'Added', 'Removed', 'Changed', 'Breaks', ''], [line(l) for l in rows[::-1][:20]])),
                tag('p', q('the last 20 of %d' % len(rows))) if len(rows) > 20 else None)
EACH = 64
def net_page(p, name):
    o = Office(name)
    net, live, one = o.net, o.live, p.how == 'one'
    c = o.changes
    rel = {}
    for k in range(1, o.last + 1):
        for m in sheet(name, k).messages:
            rel.setdefault(m.number, []).append(k)
    state = {**{m.number: tag('em', 'new') for m in c.added}, **{m.number: p.compare(name, o.last, 0, breaking(c.breaks(m)) if c.breaks(m) else 'changed', '#m-%d' % m.number) for _, m in c.changed}} if c else {}
    plain = {**{m.number: 'new' for m in c.added}, **{m.number: 'changed' for _, m in c.changed}} if c else {}
    changed = {m.number: {signal_name(l) for l in c.of[of_line(m)]} for _, m in c.changed} if c else {}
    each = one or len(live.messages) <= EACH
    clashes, remarks, passed = (*remarks_of('-', export(name, 0))[:2], [])
    by_name = {m.name: m for m in live.messages}
    link = lambda m: p.message(name, m)
    link_name = lambda n: link(by_name[n]) if n in by_name else n
    nums = [(len(live.messages), 'message'), (sum(len(m.signals) for m in live.messages), 'signal'), (len(live.nodes), 'node'), (len(o.teams), 'team'), (o.last, 'release'), (len(o.held), 'held number')]
    parts = [to_part('since', 'Since release %d' % o.last) if c and c.lines else None, to_part('left', 'Numbers left'), to_part('map', 'Map') if o.at or o.blocks else None, to_part('messages', 'Messages'), to_part('nodes', 'Nodes') if live.nodes else None,
             to_part('releases', 'Releases') if o.last else None, to_part('spns', 'SPNs') if o.spns else None, to_part('held', 'Held') if o.held else None, to_part('tables', 'Value tables') if live.tables else None,
             to_part('remarks', 'Remarks') if remarks else None, to_part('each', 'Each message') if each and live.messages else None, p.text('nets/%s/live' % name, 'nets/%s/live.dbc' % name, 'DBC')]
    head = [tag('p', phase_words(p, net, o.waiting)), tag('p', since_words(p, o), ' ', DOT, ' ', remarks_line(clashes, remarks)), tag('p', bdi(live.comment)) if live.comment else None,
            tag('ul', [tag('li', tag('b', n), ' ', w if n == 1 else w + 's') for n, w in nums], cls='big')]
    to = lambda i, m: p.compare(name, o.last, 0, m, '#m-%d' % i)
    lists = tag('ul', [tag('li', tag('b', sign, cls='cell ' + k), ' ', to(m.number, m.name), ' ', breaking(c.breaks(m)) if m and c.breaks(m) and k == 'u' else None, ' ', q(', '.join(dict.fromkeys([signal_name(l) or field_of(l) for l in c.of[of_line(m)]])) if k == 'u' else None))
        for k, sign, ms in (('u', DIFFERS, [m for _, m in c.changed]), ('y', MINUS, c.removed), ('p', '+', c.added)) for m in ms[:200]], cls='rows') if c and c.lines else None
    since = part('since', 'Since release %d' % o.last, 'who must act: ' + ACT % ('release %d' % o.last), act_table(c, to), lists, tag('p', q(count(len(c.frame), 'difference') + ' of nodes, tables and the sheet')) if c.frame else None) if c and c.lines else None
    held = part('held', 'Held for good', None, wide('Held', table('nums', ['Number', 'DBC number'] + ['PGN'] * o.j + ['Last name', 'Releases', 'In the block of'],
        [row(tag('code', hexed(n)), n, *([pgn(n) if n >= EXT else None] if o.j else []), last, rels, badge(p, t)) for n, t, rels, last in o.held]))) if o.held else None
    title = '%s: messages and numbers' % name if one else '%s - canoffice' % name
    return document(title, crumbs(p, name), name, o.kind, head, parts, [since, left_part(p, o), map_part(p, o, lambda m: p.message_at(name, m), None) if o.at or o.blocks else None,
        part('messages', 'Messages', None, message_table(p, o, link, state, {n: spelled(runs(k)) for n, k in rel.items()}, False)), node_part(o, link), releases_part(p, o), spn_part(p, o, link_name), held,
        tables_part(live.tables), remarks_part(clashes, remarks, passed), each_part(o, changed, plain, lambda m: badge(p, o.owner[m.number]), len(live.messages) > 12) if each and live.messages else None], is_long(live))

class File:
    """a sheet alone: letters are of the nodes that send"""
    def __init__(self, live):
        self.live, self.blocks, self.held, self.gone, self.at = live, [], [], set(), {}
        self.j = any(s.spn for m in live.messages for s in m.signals)
        self.owner = {m.number: m.sender for m in live.messages}
        self.teams = sorted(set(self.owner.values()) - {''})
        uses = {}
        for m in live.messages:
            form = 1 if m.number >= EXT else 0
            self.at.setdefault((form, ident(m.number)), []).append(m)
            if form:
                self.at.setdefault((2, pgn(m.number)), []).append(m)
            for s in m.signals:
                if s.spn:
                    uses.setdefault(s.spn, (m.name, s.name))
        self.spns = [(n, 'live', '', *uses[n]) for n in sorted(uses)]
def sheet_page(p, title, path, h1, small, live, checked, link, each, links, dbc):
    """a release, or a file"""
    o = File(live)
    p.letters = o.teams
    nums = [(len(live.messages), 'message'), (sum(len(m.signals) for m in live.messages), 'signal'), (len(live.nodes), 'node')]
    parts = [to_part('map', 'Map') if o.at else None, to_part('messages', 'Messages'), to_part('nodes', 'Nodes') if live.nodes else None, to_part('spns', 'SPNs') if o.spns else None, to_part('tables', 'Value tables') if live.tables else None,
             to_part('remarks', 'Remarks') if any(checked) else None, to_part('each', 'Each message') if each and live.messages else None, dbc]
    by_name = {m.name: m for m in live.messages}
    tg = lambda m: tag('a', m.name, href=link(m))
    return document(title, path, h1, small, [links, tag('p', remarks_line(*checked[:2])), tag('p', bdi(live.comment)) if live.comment else None, tag('ul', [tag('li', tag('b', n), ' ', w if n == 1 else w + 's') for n, w in nums], cls='big')], parts,
        [map_part(p, o, link, 'letters are of the nodes that send') if o.at else None, part('messages', 'Messages', None, message_table(p, o, tg, {}, {}, True)), node_part(o, tg), spn_part(p, o, lambda n: tg(by_name[n])),
         tables_part(live.tables), remarks_part(*checked), each_part(o, {}, {}, lambda m: badge(p, m.sender), len(live.messages) > 12) if each and live.messages else None], is_long(live))
def release_page(p, name, r):
    s, now = sheet(name, r), {m.number: m for m in sheet(name, 0).messages}
    moved = {o.number: m.number for o, m in partners(s, sheet(name, 0)).values()}
    last = net_of(name).releases
    link = (lambda m: p.message_at(name, m) if now.get(m.number) == m else p.to('nets/%s/compare/%d/0/page' % (name, r)) + '#m-%d' % moved.get(m.number, m.number)) if p.how != 'one' else (lambda m: '#m-' + m.name)
    links = tag('p', joined(' ', [x for x in (p.compare(name, r - 1, r, 'what changed from release %d' % (r - 1)) if r > 1 else None, DOT if r > 1 else None, p.compare(name, r, 0, 'what changed since, to live')) if x])) if p.how != 'one' else None
    return sheet_page(p, '%s, release %d - canoffice' % (name, r), crumbs(p, p.net(name), 'release %d' % r), name, 'release %d of %d' % (r, last), s, (*remarks_of('-', export(name, r))[:2], []), link,
                      len(s.messages) <= EACH or p.how == 'one', links, p.text('nets/%s/releases/%d' % (name, r), 'nets/%s/releases/%d.dbc' % (name, r), 'DBC'))
def file_page(path, name):
    p = Place('one', 0, [])
    return sheet_page(p, [name, ': messages and numbers'], [], name, 'a DBC file', read_dbc(run('format', '--', path)), remarks_of(path), lambda m: '#m-' + m.name, True, None, None)
CSS = """\
:root{--g:#fff;--i:#1b1f24;--q:#59616a;--n:#dfe3e8;--p:#f1f3f6;--a:#0b57a4;--r:#b3261e;--y:#176b37;--m:100%}
@media(prefers-color-scheme:dark){:root{--g:#15181b;--i:#e3e6ea;--q:#a2abb5;--n:#343b43;--p:#22272c;--a:#8ab8ff;--r:#ff8a80;--y:#7bd88f;--m:40%}}
:root,.tx{--c:#bbb}
.t0{--c:#77aadd}.t1{--c:#ee8866}.t2{--c:#44bb99}.t3{--c:#eedd88}.t4{--c:#ffaabb}.t5{--c:#bbcc33}.t6{--c:#99ddff}.t7{--c:#aaaa00}
*{box-sizing:border-box}
html{scroll-padding-top:2.5rem}
body{margin:0 auto;padding:1.5rem;max-width:80rem;background:var(--g);color:var(--i);font:15px/1.45 system-ui,sans-serif;font-variant-numeric:tabular-nums;overflow-wrap:anywhere;-webkit-print-color-adjust:exact;print-color-adjust:exact}
h1{font-size:1.9rem;line-height:1.2;margin:0}
h2{font-size:1.3rem;margin:2.5rem 0 .6rem}
h3{font-size:1rem;margin:0;display:inline}
small,.q,caption,h3,summary{color:var(--q);font-weight:400}
h3 b{color:var(--i);font-size:1.06rem}
small{font-size:1rem}
p,ul{margin:.35rem 0}
ul{padding:0;list-style:none}
li{break-inside:avoid}
a{color:var(--a);text-decoration:none}
a:hover{text-decoration:underline}
a:has(>b.l){white-space:nowrap}
em{color:var(--r);font-style:normal;font-weight:600}
code{font:.93em ui-monospace,monospace}
summary{cursor:pointer;overflow-wrap:anywhere}
/* letters of teams, marks */
b.l,b.h,b.f,.cell{display:inline-block;min-width:1.4em;height:1.45em;padding:0 .3em;border-radius:2px;text-align:center;font-size:.85em;line-height:1.45;text-indent:0}
.l{background:var(--c);color:#000;forced-color-adjust:none}
.h{background:repeating-linear-gradient(135deg,color-mix(in srgb,var(--c) var(--m),var(--g)) 0 2px,var(--g) 2px 6px);color:var(--i);font-weight:700;forced-color-adjust:none}
.f{background:color-mix(in srgb,var(--c) 25%,var(--g));color:var(--i);forced-color-adjust:none}
b.f,.cell{font-weight:400}
.cell{vertical-align:middle;height:1.2em;border:1px solid var(--n);line-height:1.1}
.kind{border:1px solid;border-radius:3px;padding:.05em .5em;margin-right:.3em}
b.bad,span.good{border:1px solid;border-radius:3px;padding:0 .35em;font-size:.85em;font-weight:700;white-space:nowrap;color:var(--r)}
span.good{color:var(--y);font-weight:400}
.old{color:var(--r)}.sel{color:var(--y);font-weight:600}
/* head */
.path{font-size:.9rem;margin:0 0 .5rem}
.n{margin-top:.9rem;padding:.45rem 0;border:solid var(--n);border-width:1px 0}
.n a{display:inline-block;margin-right:1.1rem}
.big li,.line li{display:inline-block;margin-right:1.4rem}
.big b{font-size:1.35rem}
.big .bad,.big .bad b{color:var(--r)}
form{margin:.8rem 0 0;display:flex;gap:.5rem;max-width:40rem}
input,button{font:inherit;padding:.35rem .7rem;border:1px solid var(--q);border-radius:4px;background:var(--g);color:var(--i);min-width:0}
input{flex:1}
button{background:var(--p)}
/* tables */
table{border-collapse:collapse;width:100%}
th,td{padding:.2rem .5rem;text-align:left;vertical-align:top;font-weight:400}
td{overflow-wrap:break-word}
.long td{overflow-wrap:anywhere}
.long .nums td:is(:nth-child(2),:nth-child(3)){white-space:nowrap}
.list th{min-width:6rem}
tbody th{font-weight:600}
thead th{position:sticky;top:0;background:var(--g);color:var(--q);vertical-align:bottom;border-bottom:1px solid var(--q);z-index:1;overflow-wrap:normal}
caption{text-align:left;padding:.2rem 0}
:is(.nums,.sig,.list,.chg) tbody tr{border-bottom:1px solid var(--n)}
.nums,.sig{font-size:.92rem}
.nums,.list{width:auto;min-width:50%}
.sig tr>:is(:first-child,:nth-child(4),:nth-child(5),:nth-child(8)){text-align:right}
:is(.nums,.sig,.chg) :is(td,th){min-width:2.4rem}
.lot tr>:is(:nth-child(3),:nth-child(5),:nth-child(6),:nth-child(7)){text-align:right}
.lot td:nth-child(4){min-width:9rem}
.list ul{margin:0}
.lot td:last-child{min-width:13rem}
.sig td:last-child{min-width:12rem}
.chg{table-layout:fixed;min-width:38rem}
.chg th:first-child{width:24%}.chg tr>:last-child{width:3rem;text-align:center}.chg td:nth-child(2){width:16%}
tr:target,:target{background:var(--p)}
.bar{display:flex;height:.9em;min-width:8rem;margin:.25em 0;gap:0;border:1px solid var(--n)}
.bar i{min-width:0}
.rows li{padding:.12rem 0}
.cols{columns:20rem;column-gap:2rem;font-size:.87rem}
.cols li{padding:.05rem 0}
/* the map */
.grid{display:grid;grid-template-columns:repeat(auto-fill,minmax(min(25rem,100%),1fr));gap:.5rem 2rem;align-items:start}
.map{table-layout:fixed;border-spacing:1px;border-collapse:separate;break-inside:avoid}
.map :is(th,td){padding:0;height:1.45rem;text-align:center;vertical-align:middle;font-size:.75rem;line-height:1;min-width:0;overflow:hidden;white-space:nowrap}
.map th{position:static;border:0;color:var(--q);font:.7rem ui-monospace,monospace}
.map tr>:first-child{width:4.2rem;box-shadow:none}
.map td{box-shadow:0 0 0 1px var(--n)}
.map a{display:block;line-height:1.45rem;color:inherit;font-weight:700}
/* bits */
.bits,.strip{table-layout:fixed;margin:.5rem 0;font-size:.85rem}
:is(.bits,.strip) :is(th,td){border:1px solid var(--n);padding:.1rem .35rem;height:1.55rem;overflow:hidden;white-space:nowrap;text-overflow:ellipsis}
:is(.bits,.strip) th{position:static;border:0;color:var(--q);font-weight:400}
.bits tr>:first-child{width:6.2rem}
.bits td.eq{border:0;color:var(--q)}
.u,td.v,td.was,td.moved,td.y,td.p{border-color:var(--q)}
.u{background:var(--p)}
td.v,.moved{background:color-mix(in srgb,var(--a) 18%,var(--g))}
.was{border-style:dashed!important;border-color:var(--a)!important}
.y{background:repeating-linear-gradient(135deg,color-mix(in srgb,var(--r) 22%,var(--g)) 0 3px,var(--g) 3px 7px)}
.p{background:color-mix(in srgb,var(--y) 22%,var(--g))}
td.x{color:var(--r);outline:2px solid var(--r);outline-offset:-2px;font-weight:700}
:is(.u,.v)>b:first-child,.sig th>b{color:var(--r)}
.strip{min-width:34rem}
.strip tr>:first-child{width:10rem;white-space:nowrap}
.strip tbody th{color:var(--i)}
.strip thead th+th{border-left:1px solid var(--q);font:.75rem ui-monospace,monospace;padding-left:.2em}
.strip .taken{background:var(--q)}
.strip .none{border:0}
.two{display:grid;grid-template-columns:repeat(auto-fit,minmax(min(20rem,100%),1fr));gap:0 1.5rem}
.card{padding:.5rem 0;scroll-margin-top:1rem}
section.card,.home{border-top:1px solid var(--n);padding:.9rem 0}
.card p[id]{scroll-margin-top:4rem}
.home{display:grid;grid-template-columns:minmax(min(15rem,100%),26rem) 1fr;gap:.2rem 2.5rem}
.home h3 a{font-size:1.25rem;font-weight:700}
.pair{display:flex;flex-wrap:wrap;gap:1rem 3rem;align-items:start}
.pair .nums{min-width:0}
.pair .wide{overflow:auto;max-height:92vh;max-width:100%}
.matrix{width:auto;font-size:.87rem}
.matrix td{min-width:2.2rem;text-align:center;border-left:1px solid var(--n)}
.matrix tr{border-bottom:1px solid var(--n)}
.matrix td b{color:inherit!important}
.matrix thead span{writing-mode:vertical-rl;transform:rotate(180deg);max-height:14rem}
.matrix tbody th{position:sticky;left:0;background:var(--g);font-weight:400}
@media screen and (max-width:64rem){
.wide{overflow-x:auto;max-width:100%}
.wide thead th{position:static}
.wide td{overflow-wrap:break-word}
.wide .sig td:last-child{min-width:16rem}
:is(.nums,.sig,.chg) tbody th{overflow-wrap:anywhere;min-width:8rem}
}
@media screen and (max-width:48rem){
body{padding:.75rem}
.home{grid-template-columns:1fr}
.map tr>:first-child{width:3.6rem}
.map :is(th,td){height:1.3rem}
.bits{font-size:.75rem}.bits :is(th,td){padding:.1rem .2rem}.bits tr>:first-child{width:5.4rem}
.strip tr>:first-child{width:7rem}
}
@media(forced-colors:active){.l,.h,.f{outline:1px solid}.bar{height:1.1em}.u,td.v,.p,.y,.moved{border:2px solid}.strip .taken{background:CanvasText}}
@media print{body{max-width:none;padding:0;font-size:9.5px}html{font-size:10.5px}.n,form{display:none}thead th{position:static}details::details-content{content-visibility:visible;block-size:auto;height:auto}
tr,.card,.bits,.map{break-inside:avoid}h2,h3,summary{break-after:avoid}.wide{max-height:none!important;overflow:visible!important}a{color:inherit}}
"""

# ---------------------------------------------------------------- what cases call

def office_at(database):
    AT[:] = ['--db', database]
    seen.clear()
    sheets.clear()

def net_page_of(database, name):
    office_at(database)
    return str(net_page(Place('one', 0, Office(name).teams), name))

def release_page_of(database, name, number):
    office_at(database)
    return str(release_page(Place('one', 0, []), name, number))

def file_page_of(path, name=None):
    """of the file, under this name: without one under the last part of its path"""
    return str(file_page(path, os.fsencode(name or path.split('/')[-1])))

if __name__ == '__main__':
    words_ = sys.argv[1:]
    sys.stdout.write(file_page_of(words_[0]) if len(words_) == 1 else net_page_of(*words_) if len(words_) == 2 else release_page_of(*words_[:2], int(words_[2])))
