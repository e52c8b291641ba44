#!/usr/bin/env python3
"""Holds the replies of a console program to the judge: hold.py PROGRAM LINES [CHUNK] [LIMIT]. Each chunk of lines goes to a new console.
Where the right witnesses are no box, the witness that was given must be one of them."""
import re
import subprocess
import sys
import time
import judge

old_hull, old_unmatched = judge.hull, judge.unmatched
hint = []


def number(a):
    parts = a.split(".")
    n = 0
    for p in parts:
        n = n << 8 | int(p)
    return n


def witness(dims):
    try:
        if dims == 1:
            return (number(hint[-1]),)
        return tuple(number(x) for x in hint[-5:])
    except (ValueError, IndexError):
        raise judge.NotABox("no witness")


def hull(boxes):
    try:
        return old_hull(boxes)
    except judge.NotABox:
        w = witness(len(boxes[0]))
        for b in boxes:
            if all(lo <= x <= hi for x, (lo, hi) in zip(w, b)):
                return tuple((x, x) for x in w)
        raise


def unmatched(rules):
    lefts, seen = {}, {}
    for i in range(32):
        key = tuple(n for n, r in enumerate(rules) if r.mask >> i & 1)
        if key not in seen:
            seen[key] = judge.decided(rules, i, judge.WHOLE)[1]
        if seen[key]:
            lefts[i] = seen[key]
    if not lefts:
        return None
    try:
        i = int(hint[-6])
    except (ValueError, IndexError):
        raise judge.NotABox("no witness")
    if i not in lefts:
        raise judge.NotABox("another interface")
    return (i, i), hull(lefts[i])


def shown_address(lo, hi):
    return f"[{lo}..{hi}]"


judge.hull, judge.unmatched, judge.shown_address = hull, unmatched, shown_address


def meets(expected, got):
    if "[" not in expected:
        return expected == got
    one, other = expected.split(","), got.split(",")
    if len(one) != len(other):
        return False
    for e, g in zip(one, other):
        m = re.fullmatch(r"\[(\d+)(\.\.|-)(\d+)\]", e)
        if m:
            if m[2] == "..":
                if judge.addr(number(g)) != g:
                    return False
            elif str(int(g)) != g:
                return False
            if not int(m[1]) <= number(g) <= int(m[3]):
                return False
        elif e != g:
            return False
    return True


def main():
    global hint
    program, path = sys.argv[1:3]
    size = int(sys.argv[3]) if len(sys.argv) > 3 else 10000
    limit = int(sys.argv[4]) if len(sys.argv) > 4 else 10**9
    lines = open(path, "rb").read().split(b"\n")[:-1][:limit]
    wrong, t = 0, time.time()
    for start in range(0, len(lines), size):
        chunk = lines[start:start + size]
        out = subprocess.run([program], input=b"".join(l + b"\n" for l in chunk), stdout=subprocess.PIPE, check=True).stdout
        replies = out.split(b"\n")
        assert replies[-1] == b"" and len(replies) == len(chunk) + 1, "not a reply for each line"
        console = judge.Console()
        for k, (line, reply) in enumerate(zip(chunk, replies)):
            got = reply.decode("ascii")
            hint = got.split(",")
            try:
                right = console.answer(line)
            except judge.NotABox as e:
                right = f"(no right witness: {e})"
            if not meets(right, got):
                wrong += 1
                print(f"chunk {start}, line {k}: {line!r}\n  got   {got}\n  right {right}")
                if wrong > 5:
                    raise SystemExit(1)
        print(f"{start + len(chunk)} lines held, {wrong} wrong, {time.time() - t:.0f} s", flush=True)


main()
