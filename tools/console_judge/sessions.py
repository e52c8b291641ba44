#!/usr/bin/env python3
"""Makes the long sessions: their lines are drawn up here, their replies are the judge's."""
import random
import sys
from judge import Console, NotABox, escape, prefix

out = []


class Session:
    def __init__(self, name):
        self.console = Console()
        self.text = [f"# {name}"]
        out.append(self)

    def say(self, line, reply=None):
        """A line, and its reply as it was worked out by hand, if it was: the judge must agree."""
        raw = line.encode("latin-1") if isinstance(line, str) else line
        right = self.console.answer(raw)
        if reply is not None and right != reply:
            raise SystemExit(f"{self.text[0]}: {escape(raw)}: by hand {reply}, judged {right}")
        self.text += ["> " + escape(raw), "< " + right]
        return right

    def listing(self):
        n = len(self.console.listing())
        for k in range(n + 1):
            self.say(f"M,{k}")


# ---------------------------------------------------------------- bytes

def at(length, *wrong):
    """A printed line of this length, but for these wrong bytes (place, byte)."""
    line = bytearray(b"M,1" + b"1" * max(0, length - 3))[:length]
    for place, byte in wrong:
        line[place] = byte
    return bytes(line)


def whole_bytes():
    s = Session("bytes of a line")
    s.say(b"", "no,14,1,0")
    s.say(at(200), "no,15,2,12")
    s.say(at(201), "no,13,0,200")
    s.say(at(202), "no,13,0,200")
    s.say(at(1000), "no,13,0,200")
    for byte in (0, 9, 10, 13, 31, 127, 128, 255):
        s.say(at(3, (0, byte)), "no,13,0,0")
        s.say(at(200, (0, byte)), "no,13,0,0")
        s.say(at(200, (199, byte)), "no,13,0,199")
        s.say(at(201, (200, byte)), "no,13,0,200")
        s.say(at(201, (0, byte)), "no,13,0,0")
        s.say(at(201, (199, byte)), "no,13,0,199")
    s.say(at(300, (200, 7)), "no,13,0,200")
    s.say(at(300, (201, 7)), "no,13,0,200")
    s.say(at(300, (299, 7)), "no,13,0,200")
    s.say(at(300, (5, 7), (299, 7)), "no,13,0,5")
    s.say(at(200, (7, 7), (3, 200)), "no,13,0,3")
    s.say(b" " * 200, "no,14,1,0")
    s.say(b"~" * 201, "no,13,0,200")
    s.say(b"," * 200, "no,14,1,0")
    s.say(b"T" + b"," * 199, "no,14,0,0")
    s.say(b"T" + b"," * 200, "no,13,0,200")
    for byte in range(256):
        if byte in (0x41, 0x42, 0x43, 0x47, 0x4b, 0x4c, 0x4d, 0x50, 0x51, 0x53, 0x54, 0x57, 0x58):
            s.say(bytes([byte]), "no,14,0,0")
        elif 32 <= byte <= 126:
            s.say(bytes([byte]), "no,14,1,0")
        else:
            s.say(bytes([byte]), "no,13,0,0")


def exactly_200():
    s = Session("lines of 200 bytes")
    s.say("A,0,0,1,a", "ok,0,1")
    zeros = "0000000000"
    four = ".".join([zeros] * 4)
    port = zeros + "-0000065535"
    protocols = zeros + "-0000000255"
    line = f"P,0,0,a,ffffffff,{four}/{zeros},{four}/{zeros},{port},{port},{protocols}"
    short = line.replace(f"{zeros}.", "0.")
    free = 200 - len(short)
    assert free >= 0
    short = "P," + "0" * (free + 1) + short[3:] if free <= 9 else pad(short, free)
    assert len(short) == 200
    s.say(short, "ok")
    s.say(short + " ", "no,13,0,200")
    s.say(short[:-1] + " ", "no,15,10,199")
    s.say(short[:-1] + ",", "no,14,0,0")
    s.say(short[:-1] + "6", "no,16,10,179")
    s.say(short[:-1], "ok")
    s.say("M,2", "P,0,0,a,ffffffff,0.0.0.0/0,0.0.0.0/0,0-65535,0-65535,0-25")
    s.say("M,3", "P,0,1,a,ffffffff,0.0.0.0/0,0.0.0.0/0,0-65535,0-65535,0-255")
    s.listing()


def pad(line, free):
    """Zeros in front of numbers, as many as free, none above ten digits."""
    fields = line.split(",")
    for i in (1, 2):
        n = min(free, 10 - len(fields[i]))
        fields[i] = "0" * n + fields[i]
        free -= n
    for i in (5, 6):
        parts = fields[i].split("/")
        numbers = parts[0].split(".")
        for k in range(4):
            n = min(free, 10 - len(numbers[k]))
            numbers[k] = "0" * n + numbers[k]
            free -= n
        fields[i] = ".".join(numbers) + "/" + parts[1]
    return ",".join(fields)


# ---------------------------------------------------------------- fields

NUMBERS = ["", "x", "-1", " 1", "1 ", "1x", "12x4", "+1", "00000000001", "1234567890a", "0x1", "1.5", "1/1", "1-1",
           "65536", "9999999999", "0000065536", "65535", "0000065535", "0"]
SMALL = ["256", "0000000256", "65535", "4294967295", "255"]
DECISIONS = ["", "A", "b", "0", "aa", "da", "ad", " a", "a ", "accept", "a", "d"]
SETS = ["", "0", "0000000", "000000001", "0000000g", "0000000F", "x0000001", "0x000001", "0000 001", "000-0001",
        "00000000", "000000000", "ffffffff", "80000000"]
ADDRESSES = ["", ".", "x", "10", "10.", "10.0", "10.0.0", "10.0.0.", "10..0.0", ".10.0.0", "10.0.0.0.0", "10.0.0.0.",
             "10.0.0.0 ", " 10.0.0.0", "x.0.0.0", "10.x.0.0", "10.0.0.x", "10.0.0.0x", "10-0.0.0", "10.0.256.x",
             "10.0.0.00000000001", "00000000010.0.0.0", "10.0.0.256", "256.0.0.0", "0.300.0.0", "9999999999.0.0.0",
             "255.255.255.255", "10.0.0.0"]
PREFIXES = ADDRESSES[:-2] + ["255.255.255.255", "10.0.0.0"] + [
    "10.0.0.0/", "10.0.0.0/x", "10.0.0.0/8x", "10.0.0.0/8/", "10.0.0.0/ 8", "10.0.0.0/8 ", "10.0.0.0/-1", "10.0.0/8",
    "/8", "10.0.0.0//8", "10.0.256.0/8x", "10.0.0.0/00000000008", "10.0.0.0/33", "10.0.0.0/9999999999", "256.0.0.0/8",
    "10.0.0.256/32", "10.0.0.1/31", "10.0.0.1/0", "128.0.0.0/0", "10.1.0.0/15", "10.0.0.0/6", "255.255.255.255/32",
    "0.0.0.0/0", "10.0.0.0/8"]
RANGES = ["", "-", "x", "5", "5-", "-5", "5-x", "5-6-", "5-6-7", "5--6", "5 -6", "5- 6", "5-6 ", "5-6x", "x5-6", "5.6",
          "00000000005-6", "5-00000000006", "6-5", "65535-0", "65536-65536", "0-65536", "65536-0", "9999999999-1",
          "1-9999999999", "65536-x", "65535-65535", "0-0"]
PROTOCOLS = ["256-256", "0-256", "256-0", "17-6", "0-65535", "255-255"]

BASES = {
    "T": ("1", ["one"]),
    "A": ("0,5,6,d", ["number", "number", "number", "decision"]),
    "B": ("0,7", ["number", "number"]),
    "G": ("1,10.0.0.0/8", ["number", "prefix"]),
    "K": ("0", ["number"]),
    "P": ("0,0,a,00000001,10.0.0.0/8,10.0.0.0/8,25-25,25-25,6-6",
          ["number", "number", "decision", "set", "prefix", "prefix", "range", "range", "protocols"]),
    "L": ("0,0", ["number", "number"]),
    "S": ("a,0,1,11.0.0.0/8,10.0.0.0/8,25-25,25-25,6-6",
          ["decision", "number", "number", "prefix", "prefix", "range", "range", "protocols"]),
    "W": ("0", ["number"]),
    "X": ("10.0.0.1,10.0.0.2,25,25,6", ["address", "address", "number", "number", "small"]),
    "M": ("0", ["number"]),
}
BASES["C"] = BASES["P"]
BASES["Q"] = BASES["S"]
VARIANTS = {
    "one": NUMBERS + ["1", "2", "01"],
    "number": NUMBERS,
    "small": NUMBERS + SMALL,
    "decision": DECISIONS,
    "set": SETS,
    "address": ADDRESSES,
    "prefix": PREFIXES,
    "range": RANGES,
    "protocols": RANGES + PROTOCOLS,
}


def faults_of(letter):
    """Each field of a line spoiled in each way, alone and with the field behind it spoiled too; and wrong counts."""
    s = Session(f"faults of {letter}")
    s.say("A,0,0,1,a")
    s.say("G,1,10.0.0.0/8")
    s.say("P,0,0,a,00000001,11.0.0.0/8,10.0.0.0/8,0-65535,25-25,6-6")
    text, kinds = BASES[letter]
    fields = text.split(",")
    n = len(fields)
    for k in range(n):
        s.say(",".join([letter] + fields[:k]), "no,14,0,0")
    s.say(",".join([letter] + fields + [""]), "no,14,0,0")
    s.say(",".join([letter] + fields + ["0"]), "no,14,0,0")
    s.say(",".join([letter, ""] + fields), "no,14,0,0")
    s.say(",".join([letter.lower()] + fields), "no,14,1,0")
    s.say(",".join([letter * 2] + fields), "no,14,1,0")
    s.say(",".join([" " + letter] + fields), "no,14,1,0")
    s.say(",".join([""] + fields), "no,14,1,0")
    s.say(",".join([letter] + [""] * n))
    for k, kind in enumerate(kinds):
        for variant in VARIANTS[kind]:
            spoiled = fields[:k] + [variant] + fields[k + 1:]
            try:
                s.say(",".join([letter] + spoiled))
            except NotABox:
                print(f"left out: {letter} {spoiled}", file=sys.stderr)
    for k in range(n - 1):
        for one, other in (("x", ""), ("", "x"), ("99999", "x"), ("x", "99999")):
            s.say(",".join([letter] + fields[:k] + [one, other] + fields[k + 2:]))
    s.listing()


# ---------------------------------------------------------------- limits

EVERYTHING = "0.0.0.0/0,0.0.0.0/0,0-65535,0-65535,0-255"


def domains_64():
    s = Session("64 domains")
    for f in range(3):
        s.say(f"A,{f},0,1,a", f"ok,{f},{f + 1}")
    n = 4
    for f in range(3):
        for i in range(2, 32):
            if n < 64:
                s.say(f"B,{f},{i}", f"ok,{n}")
                n += 1
    s.say("B,2,31", "no,4")
    s.say("B,2,30", "no,4")
    s.say("A,63,0,1,d", "no,4")
    s.say("B,2,29", "no,4")
    s.say("B,0,31", "no,3")
    s.say("B,2,0", "no,3")
    s.say("B,2,32", "no,3")
    s.say("B,3,2", "no,2")
    s.say("A,64,0,1,d", "no,2")
    s.say("A,63,1,1,d", "no,3")
    s.say("G,63,10.0.0.0/8", "ok")
    s.say("G,64,11.0.0.0/8", "no,2")
    s.say("S,a,0,63,11.0.0.0/8,10.0.0.0/8,0-65535,0-65535,0-255", "ok")
    s.listing()


def blocks_128():
    s = Session("128 blocks")
    s.say("A,0,0,1,a", "ok,0,1")
    s.say("B,0,2", "ok,2")
    for k in range(128):
        s.say(f"G,{k % 2 + 1},10.{k}.0.0/16", "ok")
    s.say("G,1,10.128.0.0/16", "no,4")
    s.say("G,1,10.1.0.0/16", "no,4")
    s.say("G,0,10.128.0.0/16", "no,2")
    s.say("G,3,10.128.0.0/16", "no,2")
    s.say("K,128", "no,2")
    s.say("K,64", "ok")
    s.say("G,1,10.1.0.0/16", "no,6,1")
    s.say("G,1,10.127.9.0/24", "no,6,126")
    s.say("G,2,10.0.0.0/8", "no,6,0")
    s.say("G,2,10.64.0.0/16", "ok")
    s.say("G,1,10.128.0.0/16", "no,4")
    s.say("X,10.64.0.1,10.65.0.1,1,2,3", "passed")
    s.say("P,0,0,d,00000004,10.64.0.0/16,10.63.0.0/16,0-65535,0-65535,0-255", "ok")
    s.say("X,10.64.0.1,10.63.0.1,1,2,3", "passed")
    s.say("P,0,0,d,00000004,10.64.0.0/16,10.62.0.0/16,0-65535,0-65535,0-255", "ok")
    s.say("X,10.64.0.1,10.62.0.1,1,2,3", "stopped,0,0")
    s.say("K,0", "ok")
    s.say("G,1,10.128.0.0/9", "ok")
    s.listing()


def properties_64():
    s = Session("64 properties")
    s.say("A,0,0,1,a", "ok,0,1")
    s.say("G,1,10.0.0.0/8", "ok")
    for k in range(64):
        s.say(f"S,a,0,1,11.0.0.0/8,10.{k}.0.0/16,0-65535,{k}-{k},6-6", "ok")
    last = "S,a,0,1,11.0.0.0/8,10.64.0.0/16,0-65535,64-64,6-6"
    s.say(last, "no,4")
    s.say("S,a,0,0,11.0.0.0/8,10.64.0.0/16,0-65535,64-64,6-6", "no,4")
    s.say("S,a,0,2,11.0.0.0/8,10.64.0.0/16,0-65535,64-64,6-6", "no,2")
    s.say("S,d,0,1,11.0.0.0/8,10.64.0.0/16,0-65535,64-64,6-6", "no,4")
    s.say("Q,d,0,1,11.0.0.0/8,10.64.0.0/16,0-65535,64-64,6-6",
          "broken,0,0,[11.0.0.0/8],[10.64.0.0/16],[0-65535],64,6")
    s.say("P,0,0,d,ffffffff,0.0.0.0/0,0.0.0.0/0,0-65535,63-63,0-255",
          "no,12,63,0,0,[11.0.0.0/8],[10.63.0.0/16],[0-65535],63,6")
    s.say("P,0,0,d,ffffffff,0.0.0.0/0,0.0.0.0/0,7-7,40-63,0-255",
          "no,12,40,0,0,[11.0.0.0/8],[10.40.0.0/16],7,40,6")
    s.say("K,0", "no,11,0,[10.0.0.0/16]")
    s.say("W,64", "no,2")
    s.say("W,40", "ok")
    s.say("P,0,0,d,ffffffff,0.0.0.0/0,0.0.0.0/0,7-7,40-63,0-255",
          "no,12,40,0,0,[11.0.0.0/8],[10.41.0.0/16],7,41,6")
    s.say(last, "ok")
    s.say(last, "no,4")
    s.say("P,0,0,d,ffffffff,0.0.0.0/0,0.0.0.0/0,7-7,64-64,0-255",
          "no,12,63,0,0,[11.0.0.0/8],[10.64.0.0/16],7,64,6")
    s.listing()


def list_128():
    s = Session("128 rules in a list")
    s.say("A,0,0,1,a", "ok,0,1")
    s.say("A,0,0,1,a", "ok,1,2")
    s.say("G,1,10.0.0.0/8", "ok")
    for k in range(127):
        s.say(f"P,0,{k},d,00000001,0.0.0.0/0,10.{k}.0.0/16,0-65535,{k}-{k},6-6", "ok")
    more = "P,0,128,d,ffffffff," + EVERYTHING
    s.say(more, "no,4")
    s.say("P,0,0,d,ffffffff," + EVERYTHING, "no,4")
    s.say("P,0,129,d,ffffffff," + EVERYTHING, "no,2")
    s.say("P,1,0,d,ffffffff," + EVERYTHING, "ok")
    s.say("X,11.0.0.1,10.126.0.1,1,126,6", "stopped,0,126")
    s.say("X,11.0.0.1,10.126.0.1,1,126,7", "passed")
    s.say("X,11.0.0.1,10.125.0.1,1,126,6", "passed")
    s.say("C,0,64,a,00000001,0.0.0.0/0,10.0.0.0/8,0-65535,60-70,6-6", "ok")
    s.say("X,11.0.0.1,10.63.0.1,1,63,6", "stopped,0,63")
    s.say("X,11.0.0.1,10.65.0.1,1,65,6", "passed")
    s.say("L,0,128", "no,2")
    s.say("L,0,0", "ok")
    s.say("X,11.0.0.1,10.126.0.1,1,126,6", "stopped,0,125")
    s.say("P,0,127,d,ffffffff," + EVERYTHING, "ok")
    s.say("P,0,128,d,ffffffff," + EVERYTHING, "no,4")
    s.say("X,11.0.0.1,10.125.0.1,1,1,6", "passed")
    s.listing()


def rules_512():
    s = Session("512 rules in all")
    for f in range(6):
        s.say(f"A,0,{f},31,a", f"ok,{f},{f + 1}")
    for f in range(4):
        for k in range(126):
            s.say(f"P,{f},{k},d,00000001,0.0.0.0/0,10.{k}.0.0/16,0-65535,{f}-{f},6-6", "ok")
    # 4 lists of 127 rules and 2 of 1: 510
    s.say("P,4,0,a,00000002," + EVERYTHING, "ok")
    s.say("A,1,0,1,d", "ok,6,7")
    s.say("P,0,0,a,00000002," + EVERYTHING, "no,4")
    s.say("P,5,0,a,00000002," + EVERYTHING, "no,4")
    s.say("A,0,0,1,d", "no,4")
    s.say("A,0,1,1,d", "no,3")
    s.say("A,8,1,1,d", "no,2")
    s.say("B,6,2", "ok,8")
    s.say("C,5,0,d,ffffffff," + EVERYTHING, "ok")
    s.say("L,0,5", "ok")
    s.say("A,0,0,1,d", "ok,7,9")
    s.say("A,0,0,1,d", "no,4")
    s.say("L,1,0", "ok")
    s.say("P,0,126,a,00000002," + EVERYTHING, "ok")
    s.say("P,0,127,a,00000002," + EVERYTHING, "no,4")
    s.say("L,3,125", "ok")
    s.say("P,0,127,a,00000002," + EVERYTHING, "ok")
    s.say("G,1,10.0.0.0/8", "ok")
    s.listing()


# ---------------------------------------------------------------- deep and wide trees

def chain_questions(s, n, middle, down, up):
    s.say(f"Q,{down},{1000 + n}-1999,0-255", "kept")
    s.say(f"Q,{down},0-999,0-255", "kept")
    for f in (0, 1, middle, n - 1):
        s.say(f"Q,{down},{1000 + f}-1999,0-255",
              f"broken,{f},{f % 32},[11.0.0.0/8],[10.{n}.0.0/16],[0-65535],{1000 + f},[0-255]")
        s.say(f"Q,{up},2000-{2000 + f},0-255",
              f"broken,{f},{(f + 1) % 32},[10.{n}.0.0/16],[11.0.0.0/8],[0-65535],{2000 + f},[0-255]")
        s.say(f"S,{up},2000-{2000 + f},0-255",
              f"no,12,0,{f},{(f + 1) % 32},[10.{n}.0.0/16],[11.0.0.0/8],[0-65535],{2000 + f},[0-255]")
    s.say(f"S,{down},{1000 + n}-1999,0-255", "ok")
    s.say(f"S,{up},0-999,6-6", "ok")


def chain_edits(s, n, middle):
    for f in (0, middle, n - 1):
        s.say(f"P,{f},0,d,ffffffff,0.0.0.0/0,0.0.0.0/0,9-9,1500-1500,0-255",
              f"no,12,0,{f},{f % 32},[11.0.0.0/8],[10.{n}.0.0/16],9,1500,[0-255]")
        s.say(f"C,{f},2,d,ffffffff,0.0.0.0/0,0.0.0.0/0,0-65535,0-65535,0-255",
              f"no,12,0,{f},{f % 32},[11.0.0.0/8],[10.{n}.0.0/16],[0-65535],[{1000 + n}-1999],[0-255]")
        s.say(f"P,{f},0,d,{1 << (f + 1) % 32:08x},0.0.0.0/0,0.0.0.0/0,9-9,0-65535,0-255",
              f"no,12,1,{f},{(f + 1) % 32},[10.{n}.0.0/16],[11.0.0.0/8],9,[0-999],6")
    s.say(f"G,{n},11.5.0.0/16", "no,11,0,[11.5.0.0/16]")
    s.say(f"K,{n - 1}", f"no,11,0,[10.{n}.0.0/16]")
    s.say("K,0", "ok")
    s.say(f"S,d,{n - 1},{n},0.0.0.0/0,10.{n}.0.0/16,0-65535,{1000 + n - 1}-{1000 + n - 1},0-255", "ok")
    s.say(f"S,d,{n},{n - 1},0.0.0.0/0,10.{n - 1}.0.0/16,0-65535,{2000 + n - 1}-{2000 + n - 1},0-255", "ok")
    s.say(f"S,d,{n},{n - 2},0.0.0.0/0,10.{n - 2}.0.0/16,0-65535,{2000 + n - 1}-{2000 + n - 1},0-255", "no,7")
    s.say(f"L,{n - 1},0",
          f"no,12,2,{n - 1},{(n - 1) % 32},[0.0.0.0/0],[10.{n}.0.0/16],[0-65535],{1000 + n - 1},[0-255]")
    s.listing()


def chain(n):
    s = Session(f"a chain of {n} firewalls")
    for f in range(n):
        s.say(f"A,{f},{f % 32},{(f + 1) % 32},a", f"ok,{f},{f + 1}")
    for f in range(n):
        s.say(f"G,{f + 1},10.{f + 1}.0.0/16", "ok")
    # firewall f stops port 1000+f downwards and 2000+f upwards
    for f in range(n):
        s.say(f"P,{f},0,d,{1 << f % 32:08x},0.0.0.0/0,0.0.0.0/0,0-65535,{1000 + f}-{1000 + f},0-255", "ok")
        s.say(f"P,{f},1,d,{1 << (f + 1) % 32:08x},0.0.0.0/0,0.0.0.0/0,0-65535,{2000 + f}-{2000 + f},0-255", "ok")
    last = f"10.{n}.0.1"
    for f in range(n):
        s.say(f"X,11.0.0.1,{last},7,{1000 + f},6", f"stopped,{f},0")
        s.say(f"X,{last},11.0.0.1,7,{2000 + f},6", f"stopped,{f},1")
    s.say(f"X,11.0.0.1,{last},7,{1000 + n},6", "passed")
    s.say(f"X,{last},11.0.0.1,7,{2000 + n},6", "passed")
    s.say(f"X,11.0.0.1,{last},7,2000,6", "passed")
    s.say(f"X,{last},11.0.0.1,7,1000,6", "passed")
    middle = n // 2
    s.say(f"X,10.{middle}.0.1,{last},7,{1000 + middle - 1},6", "passed")
    s.say(f"X,10.{middle}.0.1,{last},7,{1000 + middle},6", f"stopped,{middle},0")
    down = f"a,0,{n},11.0.0.0/8,10.{n}.0.0/16,0-65535"
    up = f"a,{n},0,10.{n}.0.0/16,11.0.0.0/8,0-65535"
    chain_questions(s, n, middle, down, up)
    chain_edits(s, n, middle)


def fan_properties(s):
    for d in range(1, 31):
        s.say(f"S,a,{d},{d + 1},10.{d}.0.0/16,10.{d + 1}.0.0/16,0-65535,0-65535,0-255", "ok")
    s.say("S,a,0,62,11.0.0.0/8,10.62.0.0/16,0-65535,80-80,6-6", "ok")
    s.say("S,d,62,32,0.0.0.0/0,10.32.0.0/16,0-65535,0-65535,0-255", "ok")
    s.say("S,d,31,62,0.0.0.0/0,10.62.0.0/16,0-65535,81-65535,0-255", "ok")
    s.say("S,d,31,1,0.0.0.0/0,10.1.0.0/16,0-65535,0-65535,0-255", "ok")
    s.say("S,d,30,62,0.0.0.0/0,10.62.0.0/16,0-65535,81-65535,0-255", "no,7")
    s.say("L,0,17", "no,12,17,0,18,[10.18.0.0/16],[10.19.0.0/16],[0-65535],[0-65535],[0-255]")
    s.say("L,0,30", "no,12,30,0,0,[11.0.0.0/8],[10.62.0.0/16],[0-65535],80,6")
    s.say("L,1,0", "no,12,30,1,31,[11.0.0.0/8],[10.62.0.0/16],[0-65535],80,6")
    s.say("P,1,0,a,40000000,0.0.0.0/0,10.32.5.0/24,0-65535,0-65535,0-255",
          "no,12,31,1,30,[0.0.0.0/0],[10.32.5.0/24],[0-65535],[0-65535],[0-255]")
    s.say("P,0,0,a,80000000,0.0.0.0/0,10.0.0.0/8,0-65535,0-65535,9-9",
          "no,12,33,0,31,[0.0.0.0/0],[10.1.0.0/16],[0-65535],[0-65535],9")
    s.say("W,33", "ok")
    s.say("P,0,0,a,80000000,0.0.0.0/0,10.0.0.0/8,0-65535,0-65535,9-9", "ok")
    s.listing()


def fan():
    s = Session("31 domains below one firewall, and 31 below another")
    s.say("A,0,0,1,d", "ok,0,1")
    for i in range(2, 32):
        s.say(f"B,0,{i}", f"ok,{i}")
    s.say("B,0,31", "no,3")
    s.say("A,31,31,0,d", "ok,1,32")
    for i in range(1, 31):
        s.say(f"B,1,{i}", f"ok,{32 + i}")
    s.say("B,1,31", "no,3")
    for d in range(1, 63):
        s.say(f"G,{d},10.{d}.0.0/16", "ok")
    # domain d below the first firewall may reach d+1, and port 80 of all below the second
    for d in range(1, 31):
        s.say(f"P,0,{d - 1},a,{1 << d:08x},10.{d}.0.0/16,10.{d + 1}.0.0/16,0-65535,0-65535,0-255", "ok")
    s.say("P,0,30,a,ffffffff,0.0.0.0/0,10.32.0.0/11,0-65535,80-80,6-6", "ok")
    s.say("P,1,0,a,80000000,0.0.0.0/0,0.0.0.0/0,0-65535,80-80,6-6", "ok")
    for d in range(1, 32):
        to = d % 31 + 1
        s.say(f"X,10.{d}.0.9,10.{to}.0.9,1,2,3", "passed" if d < 31 else "stopped,0,31")
        back = (d + 29) % 31 + 1
        s.say(f"X,10.{d}.0.9,10.{back}.0.9,1,2,3", "stopped,0,31")
    for d in range(1, 32):
        to = 63 - d
        s.say(f"X,10.{d}.0.9,10.{to}.0.9,1,80,6", "passed")
        s.say(f"X,10.{to}.0.9,10.{d}.0.9,1,80,6", "stopped,1,1")
    s.say("X,11.0.0.1,10.62.0.1,1,80,6", "passed")
    s.say("X,11.0.0.1,10.62.0.1,1,81,6", "stopped,0,31")
    s.say("X,10.31.0.1,10.62.0.1,1,81,6", "stopped,1,1")
    s.say("X,10.62.0.1,10.62.7.1,1,81,6", "passed")
    s.say("X,10.62.0.1,10.61.7.1,1,81,6", "stopped,1,1")
    fan_properties(s)


# ---------------------------------------------------------------- drawn sessions

PLACES = ["10.0.0.0/8", "10.0.0.0/9", "10.128.0.0/9", "10.1.0.0/16", "10.2.0.0/16", "10.1.2.0/24", "10.1.2.3/32",
          "11.0.0.0/8", "11.0.0.9/32", "12.0.0.0/7", "0.0.0.0/0", "0.0.0.0/1", "128.0.0.0/1", "10.0.0.0/15"]
PORTS = ["0-65535", "0-65535", "0-65535", "25-25", "80-443", "0-24", "25-65535", "443-443", "81-65535"]
KINDS = ["0-255", "0-255", "6-6", "17-17", "0-16", "7-255"]
MASKS = ["ffffffff", "ffffffff", "ffffffff", "00000001", "00000002", "00000004", "fffffffe", "0000ffff", "ffff0000"]


class Draw:
    def __init__(self, name, seed):
        self.r = random.Random(seed)
        self.s = Session(name)

    def below(self, n):
        return self.r.randrange(n + 1) if self.r.random() < 0.05 else self.r.randrange(max(n, 1))

    def domain(self):
        return self.below(len(self.s.console.s.domains))

    def firewall(self):
        return self.below(len(self.s.console.s.firewalls))

    def position(self, f, more):
        lists = self.s.console.s.lists
        return self.below((len(lists[f]) if f < len(lists) else 0) + more)

    def place(self):
        return self.r.choice(PLACES)

    def place_of(self, d):
        own = [prefix(lo, hi) for e, lo, hi in self.s.console.s.blocks if e == d]
        if own and self.r.random() < 0.8:
            return self.r.choice(own)
        if d == 0 and self.r.random() < 0.8:
            return self.r.choice(["11.0.0.0/8", "12.0.0.0/7", "11.0.0.9/32", "128.0.0.0/1"])
        return self.place()

    def rest(self):
        return ",".join([self.r.choice(PORTS), self.r.choice(PORTS), self.r.choice(KINDS)])

    def decision(self):
        return self.r.choice("ad")

    def rule(self, f, more):
        return f"{f},{self.position(f, more)},{self.decision()},{self.r.choice(MASKS)},{self.place()},{self.place()},{self.rest()}"

    def property(self):
        w, u, v = self.decision(), self.domain(), self.domain()
        return f"{w},{u},{v},{self.place_of(u) if w == 'a' else self.place()},{self.place_of(v)},{self.rest()}"

    def address(self):
        a = self.r.choice(PLACES).split("/")[0].split(".")
        return ".".join(a[:3] + [str(self.r.choice([0, 3, 9]))])

    def line(self, letter):
        if letter == "A":
            return f"A,{self.domain()},{self.below(4)},{self.below(4)},{self.decision()}"
        if letter == "B":
            return f"B,{self.firewall()},{self.below(6)}"
        if letter == "G":
            return f"G,{self.domain()},{self.place()}"
        if letter == "K":
            return f"K,{self.below(len(self.s.console.s.blocks))}"
        if letter in "PC":
            f = self.firewall()
            return f"{letter},{self.rule(f, letter == 'P')}"
        if letter == "L":
            f = self.firewall()
            return f"L,{f},{self.position(f, 0)}"
        if letter in "SQ":
            return f"{letter},{self.property()}"
        if letter == "W":
            return f"W,{self.below(len(self.s.console.s.properties))}"
        if letter == "X":
            return f"X,{self.address()},{self.address()},{self.r.choice([0, 25, 80])},{self.r.choice([24, 25, 80, 443])},{self.r.choice([6, 17])}"
        return f"M,{self.below(len(self.s.console.listing()))}"

    def run(self, lines):
        made = 0
        while made < lines:
            n = len(self.s.console.s.domains)
            letters = "PPPPPPPCCLLSSSSSSQQQQXXXXXXGGGKWMM" + ("AB" if n > 5 else "AAABBGGG")
            line = self.line(self.r.choice(letters))
            try:
                reply = self.s.console.answer(line.encode())
            except NotABox:
                continue
            self.s.text += ["> " + line, "< " + reply]
            made += 1
        self.s.listing()


def main():
    whole_bytes()
    exactly_200()
    for letter in "TABGKPCLSWQXM":
        faults_of(letter)
    domains_64()
    blocks_128()
    properties_64()
    list_128()
    rules_512()
    chain(63)
    fan()
    for seed in range(1, 21):
        Draw(f"drawn, number {seed}", seed).run(120)
    for s in out:
        print("\n".join(s.text))


if __name__ == "__main__":
    main()
