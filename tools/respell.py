#!/usr/bin/env python3
"""Brings the names of definitions and lemmas to today's spelling, after port.py has run: words in snake case, and a dash only between two names.

usage: tools/respell.py [--list]        at the top of the checkout; --list prints old and new names, and changes nothing

A name that a file of specs/ or proofs/ declares, or that an import gives (`as`), is turned where it stands in antt: in these files, and in the imports and
clauses of .rt files. Functions of src/, exported names, strings, inputs and outputs keep their names. Two names that would fall together stop it.
"""
import collections
import os
import re
import sys

DECLARED = re.compile(r"^\s*(?:(?:unfoldable|abbrev|pub|ruleset) +)*([^\s(){}:,;.λ=]+)(?: \{[^}]*\}| \([^)]*\))* *(?::(?= |$)|=(?= |$))")
FIELDS = re.compile(r"[({;] ?(?:pub )?([a-z][\w']*[A-Z-][\w'-]*) :(?= )")
ALIAS = re.compile(r" as ([a-z][\w'-]*)")
TOKEN = re.compile(r"[A-Za-zℕ◌_][\w'◌·-]*")
# words that a dash may join
WORDS = set("length take drop sets replicate append map add sub mul div mod min max pow".split())
# names that would fall together with another in their own scope get one by hand
GIVEN = {
    "bareAt": "bare_seen",
    "goOn": "gone_on",
    "nextPacket": "packet_after",
    "noSetting": "zero_setting",
    "read_number": "read_number_is",
    "up-to": "up_to_is",
    "wordEnds": "ends_word",
    "lineEnds": "ends_line",
    "stringEnds": "ends_string",
    "commentEnds": "ends_comment",
}
# names of goals
GOALS = re.compile(r"(returns|decreases|invariant|overflow|bounds)-.*|add-[ky]|sub-(up|result)|.*-requires")
# names that stand elsewhere too, but never in one scope: a theorem of promises beside a path's folder or a test's function, a local word
APART = re.compile(r"(flexray|usb|udp)_(lent|reads?|writes?)|xcp_\w+|most_bytes|put_field|read_lent|read_number|read_sound|rows_told|bare_at")


def texts(root, ending):
    for folder, dirs, files in os.walk(os.path.join(root, "crates")):
        dirs[:] = sorted(d for d in dirs if d != "out")
        for f in sorted(files):
            if f.endswith(ending):
                yield os.path.join(folder, f)


def read(path):
    with open(path, encoding="utf-8") as f:
        return f.read()


def snake(part):
    return re.sub(r"(?<=[a-z0-9])([A-Z])", lambda m: "_" + m.group(1).lower(), part)


def turned(name, words):
    parts = [snake(p) if p[:1].islower() else p for p in name.split("-")]
    if parts[-1] == "spec":
        return "_".join(parts)
    made = parts[0]
    for before, part in zip(parts, parts[1:]):
        made += ("-" if before in words and part in words else "_") + part
    return made


def clauses(text):
    """The spans of a .rt file that are antt: imports, and what stands in the braces of a clause."""
    for m in re.finditer(r"(?m)^ *ghost use [^;]*;", text):
        yield m.span()
    for m in re.finditer(r"\b(?:requires|ensures|ghost|decreases|invariant)\b[^{};\n]*\{", text):
        depth, at = 1, m.end()
        while depth and at < len(text):
            depth += {"{": 1, "}": -1}.get(text[at], 0)
            at += 1
        yield m.end(), at - 1


def main(argv):
    root = "."
    declared, defined = collections.Counter(), set()
    for path in texts(root, ".antt"):
        for line in read(path).splitlines():
            if line.lstrip().startswith(("--", "use ", "pub use ", "mod ", "pub mod ")):
                continue
            m = DECLARED.match(line)
            if m:
                declared[m.group(1)] += 1
                if "/specs/" in path:
                    defined.add(m.group(1))
            for n in FIELDS.findall(line):
                declared[n] += 1
    for path in [*texts(root, ".antt"), *texts(root, ".rt")]:
        for line in read(path).splitlines():
            if re.match(r"\s*(ghost |pub )?use ", line):
                for n in ALIAS.findall(line):
                    declared[n] += 1
    words = WORDS | {snake(n) for n in defined if "-" not in n and n[:1].islower()}
    names = {}
    for n in declared:
        if GOALS.fullmatch(n):
            continue
        if n in GIVEN or n[:1].islower() and (re.search(r"[a-z0-9][A-Z]", n) or "-" in n):
            to = GIVEN.get(n) or turned(n, words)
            if to != n:
                names[n] = to
    used = collections.defaultdict(set)
    for path in texts(root, ".antt"):
        for line in read(path).splitlines():
            for t in TOKEN.findall(line.split("--")[0]):
                used[t].add(path)
    for path in texts(root, ".rt"):
        for t in TOKEN.findall(read(path)):
            used[t].add(path)
    clash = collections.defaultdict(list)
    for n, to in names.items():
        clash[to].append(n)
    bad = 0
    for to, olds in sorted(clash.items()):
        if len(olds) > 1:
            print(f"fall together: {' '.join(olds)} as {to}")
            bad += 1
        if to in used and not APART.fullmatch(to):
            print(f"there is one: {olds[0]} as {to}: {' '.join(sorted(used[to]))[:300]}")
            bad += 1
    if "--list" in argv:
        for n, to in sorted(names.items()):
            print(n, to)
        return 0
    if bad:
        return 1

    def turn(text):
        return TOKEN.sub(lambda m: names.get(m.group(0), m.group(0)), text)

    for path in texts(root, ".antt"):
        old = read(path)
        lines = []
        for line in old.splitlines(keepends=True):
            code, dash, rest = line.partition("--") if line.lstrip().startswith("--") else (line, "", "")
            lines.append(turn(code) + dash + rest)
        new = "".join(lines)
        if new != old:
            with open(path, "w", encoding="utf-8") as f:
                f.write(new)
    for path in texts(root, ".rt"):
        old = read(path)
        new, at = "", 0
        for a, b in sorted(clauses(old)):
            if a < at:
                continue
            new += old[at:a] + turn(old[a:b])
            at = b
        new += old[at:]
        if new != old:
            with open(path, "w", encoding="utf-8") as f:
                f.write(new)
    return 0


if __name__ == "__main__":
    raise SystemExit(main(sys.argv[1:]))
