#!/usr/bin/env python3
"""Brings this repository's own definitions and lemmas to snake case. Run once at the top of the repository, after /opt/rattle/port/port.py.

A name is this repository's own if a file of specs/ or proofs/ gives it a signature. `withMask` and `bit-low` become `with_mask` and `bit_low`. Names that Rattle makes,
functions, fields of types in src/, strings and the library's names stay; in a must-fail edit each word in camel case is turned. `--list` prints each name and what
it becomes, and changes nothing. A second run would turn names that today's Rattle makes.
"""

import glob
import os
import re
import sys

SIGNATURE = re.compile(r"^\s*(?:(?:unfoldable|abbrev|pub|ruleset)\s+)*([^\s:(){}\[\],.;=]+)\s*(?:\{[^}]*\}\s*)?[:=](?:\s|$)")
TOKEN = re.compile(r"[^\s(){}\[\],;.«»]+")
USE = re.compile(r"^(?:pub |ghost )?use ([^\s{]+?)\.\{([^}]*)\}", re.M)
ALIAS = re.compile(r"^(?:pub |ghost )?use Rattle\.(\w+)\S* as ([\w-]+)", re.M)
# A lemma that would have the name of the definition that it is about gets `_lem`, as in the library; two words have a field's or a lemma's snake case, and get another.
LEMMAS = """
access-plan admitted-plan all-bytes any-send bit-and bit-or bit-xor bus-messages clash-bits class-next freq-sent inputs-noted judged-plan known-noted node-on node-plan none-moved
own-offset step-at to-core to-pin with-mail words-in words-on write-four written-plan
""".split()
OTHERWISE = {n: n.replace("-", "_") + "_lem" for n in LEMMAS} | {"secondOpen": "is_second_open", "inBytes": "in_written_bytes"}


def read(path):
    with open(path, encoding="utf-8") as f:
        return f.read()


def antt_files():
    found = []
    for part in ("specs", "proofs"):
        found += glob.glob(f"crates/*/{part}/**/*.antt", recursive=True)
    return sorted(p for p in found if "/out/" not in p)


def code_of(line):
    return re.sub(r"--.*", "", line)


def declared():
    """Each name that a signature of ours gives, a generated function's proof aside, which Rattle names."""
    names = set()
    for p in antt_files():
        for line in read(p).split("\n"):
            m = SIGNATURE.match(code_of(line))
            if m:
                names.add(m.group(1))
    return names


def snake(name):
    if name in OTHERWISE:
        return OTHERWISE[name]
    s = re.sub(r"([a-z0-9'])([A-Z])", lambda m: m.group(1) + "_" + m.group(2).lower(), name)
    return s.replace("-", "_")


def is_old(name):
    if name[0].isupper() or not re.match(r"^[a-z][A-Za-z0-9'_-]*$", name):
        return False
    return "-" in name or re.search(r"[a-z0-9][A-Z]", name) is not None


def spelling():
    names = declared()
    new = {n: snake(n) for n in names if is_old(n)}
    fall = {}
    for n in names:
        fall.setdefault(new.get(n, n), []).append(n)
    together = {k: sorted(v) for k, v in fall.items() if len(v) > 1}
    return new, together


def foreign(text):
    """Names that a file takes from the library, by their own spelling."""
    out = set()
    for m in USE.finditer(text):
        parts = m.group(1).split(".")
        if parts[0] != "Rattle" or parts[1] == "std":
            for n in m.group(2).split(","):
                out.add(n.strip().split(" as ")[-1].strip())
    return out


def turned(text, new, keep, aliases, camel_only):
    """text with our names respelled. A name behind a dot is a field or one of Rattle's, unless what stands before the dot is a module of ours."""
    out, at = [], 0
    for m in TOKEN.finditer(text):
        w = m.group(0)
        out.append(text[at:m.start()])
        at = m.end()
        to = new.get(w)
        if to and w not in keep:
            camel = re.search(r"[a-z0-9][A-Z]", w) is not None
            before = text[:m.start()]
            behind = before.endswith(".") and not before.endswith("..")
            owner = re.search(r"([\w-]+)\.$", before[-80:]) if behind else None
            if camel or (not camel_only and (not behind or (owner and owner.group(1) in aliases))):
                w = to
        out.append(w)
    out.append(text[at:])
    return "".join(out)


HUMPED = re.compile(r"(?<![\w\"'-])[a-z][a-z0-9]*(?:[A-Z][a-z0-9]*)+(?![\w\"'-])")


def humps(text):
    """What is left in camel case outside strings: names given by `as`, parameters, words of comments."""
    pieces = re.split(r'("(?:[^"\\\n]|\\.)*")', text)
    return "".join(p if i % 2 else HUMPED.sub(lambda m: snake(m.group(0)), p) for i, p in enumerate(pieces))


def antt(text, new):
    keep = foreign(text)
    aliases = {a for c, a in ALIAS.findall(text) if c != "std"}
    lines = []
    for line in text.split("\n"):
        code = code_of(line)
        lines.append(turned(code, new, keep, aliases, False) + turned(line[len(code):], new, keep, aliases, True))
    return humps("\n".join(lines))


def source(text, new):
    """A source file: ghost imports, clauses and comments have our words; strings are left."""
    keep = foreign(text)
    pieces = re.split(r'("(?:[^"\\\n]|\\.)*")', text)
    return humps("".join(p if i % 2 else turned(p, new, keep, set(), True) for i, p in enumerate(pieces)))


def edit(text):
    """A must-fail edit: port.py leaves these, so each word in camel case is brought to snake case, the names that port.py has turned in the files among them."""
    lines = []
    for line in text.split("\n"):
        if line.startswith(("old:", "new:")):
            line = line[:4] + humps(line[4:])
        lines.append(line)
    return "\n".join(lines)


def main(argv):
    new, together = spelling()
    for k, v in sorted(together.items()):
        print(f"falls together: {k}: {', '.join(v)}")
    if "--list" in argv:
        for n in sorted(new):
            print(n, new[n])
        return
    n = 0
    paths = antt_files() + sorted(glob.glob("crates/*/src/**/*.rt", recursive=True)) + sorted(glob.glob("crates/*/must-fail/*.edit"))
    for p in paths:
        old = read(p)
        text = antt(old, new) if p.endswith(".antt") else edit(old) if p.endswith(".edit") else source(old, new)
        if text != old:
            with open(p, "w", encoding="utf-8") as f:
                f.write(text)
            n += 1
    print(f"{len(new)} names, {n} files")


if __name__ == "__main__":
    main(sys.argv[1:])
