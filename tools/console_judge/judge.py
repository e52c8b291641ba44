#!/usr/bin/env python3
"""A judge of the console, from its rules alone: what a line means, and which replies are right.

A right reply is a text in which a field that is free is the region of the right ones, as [10.0.0.0/8] or [0-31].
Where the right witnesses are not such a box, NotABox is raised: the session has to be chosen otherwise.
"""
from dataclasses import dataclass, replace
from itertools import count

MAX32 = 2**32 - 1


class NotABox(Exception):
    pass


class Fault(Exception):
    def __init__(self, number, field, byte):
        self.reply = f"no,{number},{field},{byte}"


class Refusal(Exception):
    def __init__(self, *shown):
        self.reply = ",".join(["no"] + [str(s) for s in shown])


# ---------------------------------------------------------------- regions and boxes

def addr(a):
    return ".".join(str(a >> s & 255) for s in (24, 16, 8, 0))


def shown_address(lo, hi):
    if lo == hi:
        return addr(lo)
    size = hi - lo + 1
    if size & (size - 1) or lo % size:
        raise NotABox(f"addresses {addr(lo)} to {addr(hi)}")
    return f"[{addr(lo)}/{32 - size.bit_length() + 1}]"


def shown_number(lo, hi):
    return str(lo) if lo == hi else f"[{lo}-{hi}]"


def volume(box):
    v = 1
    for lo, hi in box:
        v *= hi - lo + 1
    return v


def meet(one, other):
    out = []
    for (a, b), (c, d) in zip(one, other):
        lo, hi = max(a, c), min(b, d)
        if lo > hi:
            return None
        out.append((lo, hi))
    return tuple(out)


def minus(box, cut):
    """The parts of a box outside another, disjoint."""
    if meet(box, cut) is None:
        return [box]
    out, rest = [], list(box)
    for i, ((a, b), (c, d)) in enumerate(zip(box, cut)):
        if a < c:
            out.append(tuple(rest[:i] + [(a, c - 1)] + rest[i + 1:]))
        if d < b:
            out.append(tuple(rest[:i] + [(d + 1, b)] + rest[i + 1:]))
        rest[i] = (max(a, c), min(b, d))
    return out


def minus_all(boxes, cut):
    return [part for box in boxes for part in minus(box, cut)]


def hull(boxes):
    """The one box that these disjoint ones make together."""
    whole = tuple((min(b[i][0] for b in boxes), max(b[i][1] for b in boxes)) for i in range(len(boxes[0])))
    if volume(whole) != sum(volume(b) for b in boxes):
        raise NotABox("several boxes")
    return whole


def shown_packet(interface, box):
    s, d, sp, dp, pr = box
    return [shown_number(*interface), shown_address(*s), shown_address(*d),
            shown_number(*sp), shown_number(*dp), shown_number(*pr)]


# ---------------------------------------------------------------- lines

def is_digit(b):
    return 48 <= b <= 57


class Reader:
    """Reads one field's form; `bad` is the byte that cannot stand there."""

    def __init__(self, text):
        self.text, self.i = text, 0

    def bad(self):
        raise FormFault(self.i)

    def peek(self):
        return self.text[self.i] if self.i < len(self.text) else None

    def number(self):
        start = self.i
        while self.peek() is not None and is_digit(self.peek()) and self.i - start < 10:
            self.i += 1
        if self.i == start:
            self.bad()
        return int(self.text[start:self.i])

    def byte(self, c):
        if self.peek() != ord(c):
            self.bad()
        self.i += 1

    def end(self):
        if self.i != len(self.text):
            self.bad()


class FormFault(Exception):
    def __init__(self, byte):
        self.byte = byte


class ValueFault(Exception):
    pass


def bound(n, most, least=0):
    if not least <= n <= most:
        raise ValueFault


def read_number(most, least=0):
    def read(r):
        n = r.number()
        r.end()
        bound(n, most, least)
        return n
    return read


def four(r):
    out = [r.number()]
    for _ in range(3):
        r.byte(".")
        out.append(r.number())
    return out


def address_of(ns):
    for n in ns:
        bound(n, 255)
    a, b, c, d = ns
    return a << 24 | b << 16 | c << 8 | d


def read_address(r):
    ns = four(r)
    r.end()
    return address_of(ns)


def read_prefix(r):
    ns = four(r)
    r.byte("/")
    length = r.number()
    r.end()
    a = address_of(ns)
    bound(length, 32)
    size = 2 ** (32 - length)
    if a % size:
        raise ValueFault
    return (a, a + size - 1)


def read_range(most):
    def read(r):
        lo = r.number()
        r.byte("-")
        hi = r.number()
        r.end()
        bound(lo, most)
        bound(hi, most)
        if lo > hi:
            raise ValueFault
        return (lo, hi)
    return read


def read_decision(r):
    c = r.peek()
    if c not in (ord("a"), ord("d")):
        r.bad()
    r.i += 1
    r.end()
    return chr(c)


def read_set(r):
    for _ in range(8):
        c = r.peek()
        if c is None or not (is_digit(c) or 97 <= c <= 102):
            r.bad()
        r.i += 1
    r.end()
    mask = int(r.text, 16)
    if mask == 0:
        raise ValueFault
    return mask


NUMBER = read_number(65535)
PORTS = read_range(65535)
REGIONS = [read_prefix, read_prefix, PORTS, PORTS, read_range(255)]
RULE = [NUMBER, NUMBER, read_decision, read_set] + REGIONS
PROPERTY = [read_decision, NUMBER, NUMBER] + REGIONS
FORMS = {
    "T": [read_number(1, 1)],
    "A": [NUMBER, NUMBER, NUMBER, read_decision],
    "B": [NUMBER, NUMBER],
    "G": [NUMBER, read_prefix],
    "K": [NUMBER],
    "P": RULE,
    "C": RULE,
    "L": [NUMBER, NUMBER],
    "S": PROPERTY,
    "W": [NUMBER],
    "Q": PROPERTY,
    "X": [read_address, read_address, NUMBER, NUMBER, read_number(255)],
    "M": [NUMBER],
}


def read_line(line):
    for i, b in enumerate(line):
        if i == 200 or not 32 <= b <= 126:
            raise Fault(13, 0, i)
    fields = line.split(b",")
    letter = fields[0].decode("ascii")
    if letter not in FORMS:
        raise Fault(14, 1, 0)
    forms = FORMS[letter]
    if len(forms) != len(fields) - 1:
        raise Fault(14, 0, 0)
    start, values = 2, []
    for number, form, text in zip(count(2), forms, fields[1:]):
        try:
            values.append(form(Reader(text)))
        except FormFault as f:
            raise Fault(15, number, start + f.byte)
        except ValueFault:
            raise Fault(16, number, start)
        start += len(text) + 1
    return letter, values


# ---------------------------------------------------------------- the register

@dataclass(frozen=True)
class Rule:
    decision: str
    mask: int
    box: tuple


@dataclass(frozen=True)
class Property:
    sort: str
    u: int
    v: int
    box: tuple


@dataclass(frozen=True)
class State:
    firewalls: tuple = ()          # (domain above, upper interface)
    domains: tuple = (None,)       # (firewall above, interface)
    lists: tuple = ()
    blocks: tuple = ()             # (domain, lo, hi)
    properties: tuple = ()


WHOLE = ((0, MAX32), (0, MAX32), (0, 65535), (0, 65535), (0, 255))
ALL = 2**32 - 1


def ancestors(s, d):
    """The nodes from domain d to the root, with the interface by which each firewall is entered from below."""
    out = [("d", d, None)]
    while d:
        f, i = s.domains[d]
        out.append(("f", f, i))
        d = s.firewalls[f][0]
        out.append(("d", d, None))
    return out


def route(s, u, v):
    """The firewalls from u to v, each with the interface that it is entered by."""
    up, down = ancestors(s, u), ancestors(s, v)
    at = {node[:2]: k for k, node in enumerate(down)}
    out = []
    for node in up:
        if node[0] == "f":
            out.append((node[1], node[2]))
        if node[:2] in at:
            meeting = at[node[:2]]
            break
    for node in reversed(down[:meeting]):
        if node[0] == "f":
            out.append((node[1], s.firewalls[node[1]][1]))
    return out


def owner(s, a):
    for d, lo, hi in s.blocks:
        if lo <= a <= hi:
            return d
    return 0


def astray(s, region, d):
    """Those of the region's addresses that are not of domain d, as disjoint intervals."""
    if d == 0:
        parts = [meet((region,), ((lo, hi),)) for _, lo, hi in s.blocks]
        return [p for p in parts if p]
    parts = [(region,)]
    for e, lo, hi in s.blocks:
        if e == d:
            parts = minus_all(parts, ((lo, hi),))
    return parts


def shown_astray(parts):
    return shown_address(*hull(parts)[0])


def joint(s, u, v):
    """The firewall that joins two neighbours, and the interface by which u is joined to it."""
    r = route(s, u, v)
    return r[0] if len(r) == 1 else None


def decided(rules, interface, box):
    """The boxes that a list decides of these packets: (decision, box)."""
    left, out = [box], []
    for rule in rules:
        if rule.mask >> interface & 1:
            for part in left:
                m = meet(part, rule.box)
                if m:
                    out.append((rule.decision, m))
            left = minus_all(left, rule.box)
    return out, left


def breaking(s, p):
    """(firewall, interface, box) of the first break, or None."""
    r = route(s, p.u, p.v)
    bad = "d" if p.sort == "a" else "a"
    for f, i in r:
        out, left = decided(s.lists[f], i, p.box)
        assert not left
        boxes = [b for w, b in out if w == bad]
        if boxes:
            return f, i, hull_of_regions(boxes)
    return None


def hull_of_regions(boxes):
    return hull(boxes)


def unmatched(rules):
    """The unmatched packets: (interfaces, box), or None."""
    per = {}
    for i in range(32):
        _, left = decided(rules, i, WHOLE)
        if left:
            per.setdefault(hull(left), []).append(i)
    if not per:
        return None
    if len(per) > 1:
        raise NotABox("other packets on other interfaces")
    (box, interfaces), = per.items()
    if interfaces != list(range(interfaces[0], interfaces[-1] + 1)):
        raise NotABox("interfaces with gaps")
    return (interfaces[0], interfaces[-1]), box


def misplaced(s, p):
    """The addresses that show that a standing property is misplaced, or None."""
    if p.sort == "a":
        parts = astray(s, p.box[0], p.u)
        if parts:
            return shown_astray(parts)
    parts = astray(s, p.box[1], p.v)
    return shown_astray(parts) if parts else None


class Console:
    def __init__(self):
        self.s = State()

    # -------- the checks

    def need(self, ok, number):
        if not ok:
            raise Refusal(number)

    def domain(self, *ds):
        for d in ds:
            self.need(d < len(self.s.domains), 2)

    def well_placed(self, p):
        s = self.s
        if p.u == p.v or (p.sort == "d" and joint(s, p.u, p.v) is None):
            raise Refusal(7)
        if p.sort == "a":
            parts = astray(s, p.box[0], p.u)
            if parts:
                raise Refusal(8, shown_astray(parts))
        parts = astray(s, p.box[1], p.v)
        if parts:
            raise Refusal(9, shown_astray(parts))

    def none_misplaced(self, s):
        for n, p in enumerate(s.properties):
            shown = misplaced(s, p)
            if shown:
                raise Refusal(11, n, shown)

    def none_broken(self, s):
        for n, p in enumerate(s.properties):
            b = breaking(s, p)
            if b:
                f, i, box = b
                raise Refusal(12, n, f, *shown_packet((i, i), box))

    def complete(self, rules):
        u = unmatched(rules)
        if u:
            raise Refusal(10, *shown_packet(*u))

    def total(self):
        return sum(len(l) for l in self.s.lists)

    # -------- the calls: each answers the reply, having changed the state

    def T(self, one):
        return "ok"

    def A(self, d, i, j, w):
        self.domain(d)
        self.need(i <= 31 and j <= 31 and i != j, 3)
        self.need(len(self.s.domains) < 64 and self.total() < 512, 4)
        s = self.s
        f = len(s.firewalls)
        self.s = replace(s, firewalls=s.firewalls + ((d, i),), domains=s.domains + ((f, j),),
                         lists=s.lists + ((Rule(w, ALL, WHOLE),),))
        return f"ok,{f},{len(s.domains)}"

    def B(self, f, i):
        s = self.s
        self.need(f < len(s.firewalls), 2)
        used = {s.firewalls[f][1]} | {x[1] for x in s.domains[1:] if x[0] == f}
        self.need(i <= 31 and i not in used, 3)
        self.need(len(s.domains) < 64, 4)
        self.s = replace(s, domains=s.domains + ((f, i),))
        return f"ok,{len(s.domains)}"

    def G(self, d, region):
        s = self.s
        self.domain(d)
        self.need(d != 0, 2)
        self.need(len(s.blocks) < 128, 4)
        for n, (_, lo, hi) in enumerate(s.blocks):
            if lo <= region[1] and region[0] <= hi:
                raise Refusal(6, n)
        after = replace(s, blocks=s.blocks + ((d,) + region,))
        self.none_misplaced(after)
        self.s = after
        return "ok"

    def K(self, b):
        s = self.s
        self.need(b < len(s.blocks), 2)
        after = replace(s, blocks=s.blocks[:b] + s.blocks[b + 1:])
        self.none_misplaced(after)
        self.s = after
        return "ok"

    def with_list(self, f, rules):
        s = self.s
        return replace(s, lists=s.lists[:f] + (rules,) + s.lists[f + 1:])

    def P(self, f, p, w, mask, *box):
        s = self.s
        self.need(f < len(s.firewalls) and p <= len(s.lists[f]), 2)
        rules = s.lists[f]
        self.need(len(rules) < 128 and self.total() < 512, 4)
        after = self.with_list(f, rules[:p] + (Rule(w, mask, tuple(box)),) + rules[p:])
        self.none_broken(after)
        self.s = after
        return "ok"

    def C(self, f, p, w, mask, *box):
        s = self.s
        self.need(f < len(s.firewalls) and p < len(s.lists[f]), 2)
        rules = s.lists[f]
        rules = rules[:p] + (Rule(w, mask, tuple(box)),) + rules[p + 1:]
        self.complete(rules)
        after = self.with_list(f, rules)
        self.none_broken(after)
        self.s = after
        return "ok"

    def L(self, f, p):
        s = self.s
        self.need(f < len(s.firewalls) and p < len(s.lists[f]), 2)
        rules = s.lists[f]
        rules = rules[:p] + rules[p + 1:]
        self.complete(rules)
        after = self.with_list(f, rules)
        self.none_broken(after)
        self.s = after
        return "ok"

    def S(self, w, u, v, *box):
        s = self.s
        self.domain(u, v)
        self.need(len(s.properties) < 64, 4)
        p = Property(w, u, v, tuple(box))
        self.well_placed(p)
        b = breaking(s, p)
        if b:
            f, i, where = b
            raise Refusal(12, len(s.properties), f, *shown_packet((i, i), where))
        self.s = replace(s, properties=s.properties + (p,))
        return "ok"

    def W(self, n):
        s = self.s
        self.need(n < len(s.properties), 2)
        self.s = replace(s, properties=s.properties[:n] + s.properties[n + 1:])
        return "ok"

    def Q(self, w, u, v, *box):
        self.domain(u, v)
        p = Property(w, u, v, tuple(box))
        self.well_placed(p)
        b = breaking(self.s, p)
        if b is None:
            return "kept"
        f, i, where = b
        return ",".join(["broken", str(f)] + shown_packet((i, i), where))

    def X(self, a, b, sp, dp, pr):
        s = self.s
        packet = ((a, a), (b, b), (sp, sp), (dp, dp), (pr, pr))
        for f, i in route(s, owner(s, a), owner(s, b)):
            for p, rule in enumerate(s.lists[f]):
                if rule.mask >> i & 1 and meet(packet, rule.box):
                    break
            else:
                raise AssertionError("unmatched")
            if rule.decision == "d":
                return f"stopped,{f},{p}"
        return "passed"

    def M(self, k):
        lines = self.listing()
        return lines[k] if k < len(lines) else "none"

    # -------- the listing

    def listing(self):
        s, out, seen = self.s, ["T,1"], set()
        for f, i in s.domains[1:]:
            if f in seen:
                out.append(f"B,{f},{i}")
            else:
                d, up = s.firewalls[f]
                out.append(f"A,{d},{up},{i},d")
            seen.add(f)
        for d, lo, hi in s.blocks:
            out.append(f"G,{d},{prefix(lo, hi)}")
        for f, rules in enumerate(s.lists):
            for p, r in enumerate(rules):
                letter = "C" if p == len(rules) - 1 else "P"
                out.append(f"{letter},{f},{p},{r.decision},{r.mask:08x},{regions(r.box)}")
        for p in s.properties:
            out.append(f"S,{p.sort},{p.u},{p.v},{regions(p.box)}")
        return out

    # -------- one line

    def answer(self, line):
        try:
            letter, values = read_line(line)
            return getattr(self, letter)(*values)
        except (Fault, Refusal) as no:
            return no.reply


def prefix(lo, hi):
    return f"{addr(lo)}/{32 - (hi - lo).bit_length()}"


def regions(box):
    s, d, *others = box
    return ",".join([prefix(*s), prefix(*d)] + [f"{lo}-{hi}" for lo, hi in others])


# ---------------------------------------------------------------- files of sessions

def escape(line):
    out = ""
    for b in line:
        if b == 92:
            out += "\\\\"
        elif 32 <= b <= 126:
            out += chr(b)
        else:
            out += f"\\x{b:02x}"
    return out


def unescape(text):
    out, i = bytearray(), 0
    while i < len(text):
        if text[i] != "\\":
            out.append(ord(text[i]))
            i += 1
        elif text[i + 1] == "\\":
            out.append(92)
            i += 2
        else:
            assert text[i + 1] == "x"
            out.append(int(text[i + 2:i + 4], 16))
            i += 4
    return bytes(out)


def confirm(path):
    """Holds a file of sessions to the judge: the count of differences."""
    console, wrong, lines, pending, name, replies = None, 0, 0, None, None, 0
    for n, text in enumerate(open(path), 1):
        text = text.rstrip("\n")
        if text.startswith("# "):
            console, name = Console(), text[2:]
        elif text.startswith("> "):
            pending = unescape(text[2:])
            lines += 1
        elif text.startswith("< "):
            replies += 1
            try:
                right = console.answer(pending)
            except NotABox as e:
                right = f"(no box: {e})"
            if right != text[2:]:
                wrong += 1
                print(f"{path}:{n}: {name}: {escape(pending)}\n  written  {text[2:]}\n  judged   {right}")
        else:
            raise SystemExit(f"{path}:{n}: what is this? {text!r}")
    assert lines == replies
    print(f"{path}: {lines} lines, {wrong} differ")
    return wrong


if __name__ == "__main__":
    import sys
    raise SystemExit(1 if sum(confirm(p) for p in sys.argv[1:]) else 0)
