#!/usr/bin/env python3
"""Spells the repository's own names as today's Rattle does: definitions, lemmas and fields in snake case, facts in camel case; a dash joins two names.

usage: python3 tools/respell.py            at the top, once, after port.py: turns specs/, proofs/ and the clauses of src/
       python3 tools/respell.py --map      prints the names that it turns, old and new

Rust names, strings and generated labels stay. The map is in tools/respell.tsv once it was made, and is read from there if it is there.
"""
import collections
import glob
import os
import re
import subprocess
import sys

HERE = os.path.dirname(os.path.realpath(__file__))
TABLE = os.path.join(HERE, "respell.tsv")
# the names of record fields
FIELDS = set()
WORD = r"[^\s(){}\[\].;,@\"«»:=λ]+"
NAME = re.compile(r"(?<![\w'\-′])[A-Za-z_][\w'\-′]*(?![\w'\-′])")
SIGNED = re.compile(r"^( *)((?:abbrev |unfoldable |pattern |axiom |pub )*)([A-Za-z_][\w'\-]*)(?: \{[^{}]*\})* :(?!:)\s*(.*)$")
CAMEL = re.compile(r"^[a-z][a-z0-9_]*[A-Z]")
LIBRARY = re.compile(r"^(?:ghost )?use (?!Rattle\.(?!std\.|core\.))[^{\n]*\{([^}]*)\}", re.M)


def read(p):
    with open(p, encoding="utf-8") as f:
        return f.read()


def antt():
    return sorted(p for p in glob.glob("crates/*/*/**/*.antt", recursive=True) if p.split("/")[2] in ("specs", "proofs"))


def sources():
    return sorted(glob.glob("crates/*/src/**/*.rt", recursive=True))


def snake(n):
    n = re.sub(r"(?<=[a-z0-9])[A-Z]+(?![a-z])", lambda m: "_" + m[0].lower(), n)
    return re.sub(r"(?<=[a-z0-9])([A-Z])", lambda m: "_" + m[1].lower(), n)


def read_fields():
    for p in antt():
        for block in re.findall(r"^(?: *)(?:pub )?record [^\n]* where\n((?:[ ]+[^\n]*\n|\n)*)", read(p), re.M):
            FIELDS.update(re.findall(r"^\s+(?:pub )?([A-Za-z_][\w'\-]*) :", block, re.M))


def make_table():
    declared = collections.OrderedDict()  # name -> (in specs?, is a type?)
    known, tokens = set(), collections.defaultdict(set)
    for p in antt():
        t = read(p)
        for m in LIBRARY.finditer(t):
            known.update(re.findall(WORD, m[1]))
        lines = t.split("\n")
        for i, l in enumerate(lines):
            m = SIGNED.match(l)
            if not m:
                continue
            body = m[4]
            j = i + 1
            while j < len(lines) and re.match(r"^\s+(→|×|\()", lines[j]):
                body += " " + lines[j].strip()
                j += 1
            is_type = bool(re.search(r"(^|→ |→)Type \d\s*$|(^|→ )Type 0\b", body)) and body.rstrip().split("→")[-1].strip().startswith("Type")
            spec = "/specs/" in p
            old = declared.get(m[3], (False, False))
            declared[m[3]] = (old[0] or spec, old[1] or is_type)
        for w in NAME.findall(t):
            tokens[w].add(p)
    for p in sources():
        for w in NAME.findall(read(p)):
            tokens[w].add(p)
    words = set(known) | {snake(n) for n, (s, _) in declared.items() if s and "-" not in n} | {"length", "take", "drop"}

    words -= set("is are by of at in on to for end same first last next rest here many some all one none few no any front tail once again after before with and or than as it its that what whole behind over under between".split())

    def dashed(n):
        if n in FIELDS:
            return snake(n).replace("-", "_")
        parts = [snake(x) for x in n.split("-")]
        out = parts[0]
        for i in range(1, len(parts)):
            left = any("_".join(parts[a:i]) in words for a in range(i))
            right = any("_".join(parts[i:b]) in words for b in range(i + 1, len(parts) + 1))
            out += ("-" if left and right else "_") + parts[i]
        return out

    table = {}
    wanted = [n for n in declared if CAMEL.match(n) or "-" in n]
    # camelBack words that no signature declares: parameters, let-bound names
    wanted += [n for n in tokens if CAMEL.match(n) and "-" not in n and n not in declared]
    wanted += [n for n in tokens if "-" in n and re.search("[a-z0-9][A-Z]", n) and n not in declared and not re.match(r"(Need|After|In|Else|Then)-", n)]
    for n in wanted:
        if n in known or n in table:
            continue
        spec, is_type = declared.get(n, (False, False))
        if n[0].isupper():
            continue
        if n.startswith(("Need-", "After-")):
            continue
        new = dashed(n) if "-" in n else snake(n)
        if is_type and CAMEL.match(n) and "-" not in n:
            new = n[0].upper() + n[1:]
        if new != n:
            table[n] = new
    # names that fall together
    taken = collections.defaultdict(list)
    for n in tokens:
        taken[table.get(n, n)].append(n)
    for new, olds in sorted(taken.items()):
        if len(olds) < 2:
            continue
        # the definition of specs/ keeps the plain name; then a name that was so spelled before
        rank = lambda n: (not (n in declared and declared[n][0] and "-" not in n), n in table, n)
        order = sorted(olds, key=rank)
        # two names share a spelling where no file has both; else the lesser one gets an ending
        for i, n in enumerate(order[1:], 1):
            if any(tokens[n] & tokens[o] for o in order[:i]) and (n in table or n in declared):
                if n in table or order[0] in table:
                    table[n] = new + ("_lem" if "-" in n or n in declared else "_here")
    return {k: v for k, v in table.items() if k != v}


def load():
    if os.path.exists(TABLE):
        return dict(l.split("\t") for l in read(TABLE).splitlines() if l)
    table = make_table()
    with open(TABLE, "w", encoding="utf-8") as f:
        f.writelines(f"{k}\t{v}\n" for k, v in sorted(table.items()))
    return table


PIECE = re.compile(r'"(?:[^"\\\n]|\\.)*"|--[^\n]*|//[^\n]*|(?<![\w\'\-′])[A-Za-z_][\w\'\-′]*')


def turn(text, table, source, own=None):
    aliases = set(re.findall(r"^(?:ghost )?use .* as (\S+?);?$", text, re.M)) - {"tie", "goal"}

    def one(m):
        w = m[0]
        if w[0] == '"':
            return w
        if w.startswith("//") or w.startswith("--"):
            return re.sub(r"`[^`\n]*`", lambda q: NAME.sub(lambda k: table.get(k[0], k[0]), q[0]), w)
        if own and w == own[0]:
            return own[1]
        before = text[: m.start()]
        if re.search(r"(?:\btie|\bgoal|\bLts|\bReads)\.$", before[-6:]):
            return w
        new = table.get(w)
        if new is None:
            return w
        if "-" in w and before.endswith("."):
            head = re.search(r"([\w'\-]+)\.$", before)
            return new if w in FIELDS or head and head[1] in aliases else w
        return new

    return PIECE.sub(one, text)


def main():
    read_fields()
    table = load()
    if "--map" in sys.argv:
        for k, v in sorted(table.items()):
            print(k, v)
        return
    for p in antt():
        t = read(p)
        m = re.match(r"crates/[^/]+/proofs/(?:.*/)?\+?([^/]+)/Proof\.antt$", p)
        own = None
        if m:
            names = re.findall(r"^pub ([\w\-]+[-_]spec) :", t, re.M)
            if len(names) == 1:
                own = (names[0], m[1] + "_spec")
        new = turn(t, table, False, own)
        if new != t:
            open(p, "w", encoding="utf-8").write(new)
    for p in sources():
        t = read(p)
        new = turn(t, table, True)
        if new != t:
            open(p, "w", encoding="utf-8").write(new)
    for c in sorted(os.listdir("crates")):
        if os.path.isdir(os.path.join("crates", c, "src")):
            subprocess.run(["rt", "fmt"], cwd=os.path.join("crates", c), stdout=subprocess.DEVNULL)


if __name__ == "__main__":
    main()
