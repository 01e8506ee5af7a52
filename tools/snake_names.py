#!/usr/bin/env python3
"""Brings the repository's own names of specs/, proofs/ and must-fail/ to today's spelling: words in snake case, a dash between two names only.

usage: python3 tools/snake_names.py [ROOT]     once, right after port.py, over crates/ and docs/; prints what it left because names would fall together

A name is own if a file of specs/ or proofs/ declares it. Camel case goes first (rowCount, row_count). Then a dash goes to _ (fits-signed, fits_signed)
but where both neighbours are names themselves (length-tab). Functions of src/, exported names, strings, comments of src/ and the names that
Rattle makes stay. A lemma whose new
spelling is a definition's gets _lem behind it; any other new spelling that is in use already is left out.
"""
import os
import re
import sys
import collections

ROOT = sys.argv[1] if len(sys.argv) > 1 else "."
TOKEN = re.compile(r"[^\s(){}\[\];,.@\"`«»:|]+")
CAMEL = re.compile(r"(?<![A-Za-z0-9_'])([a-z][a-z0-9]*'*)((?:[A-Z][a-z0-9]*)+)")
SPECIAL = {"getD": "get_or", "setOp": "set_op_call"}
# words of std that a lemma's name may join by a dash
STD = set("length append take drop map reverse replicate get_or set sum count_by filter pos negsuc suc zero true false cond eqb ltb leb".split())


def files():
    for folder, dirs, names in os.walk(os.path.join(ROOT, "crates")):
        dirs[:] = sorted(d for d in dirs if d != "out")
        for n in sorted(names):
            if n.endswith((".antt", ".rt", ".edit")):
                yield os.path.join(folder, n)


def uncomment(line):
    return re.split(r"(?:^|(?<=\s))--(?=\s|$)", line)[0]


def snake(word):
    def one(m):
        if m.group(0) in SPECIAL:
            return SPECIAL[m.group(0)]
        rest = re.findall(r"[A-Z][a-z0-9]*", m.group(2))
        return "_".join([m.group(1)] + [r.lower() for r in rest])

    return CAMEL.sub(one, word)


DECLARED = re.compile(r"^(\s*)((?:abbrev |unfoldable |pub |ruleset )*)([^\s(){}:;,=«»]+)(?: ([^\s(){}:;,=«»]+))* ?:(?: |$)")


def declared(path, text):
    """The names that a file of specs/ or proofs/ declares: definitions, lemmas, fields and constructors, and not parameters."""
    found = set()
    for line in text.splitlines():
        line = uncomment(line)
        m = re.match(r"^\s*(?:(?:abbrev|unfoldable|pub) )*((?:[^\s(){}:;,=«»λ]+ )+)?:(?=\s|$)", line)
        if m and m.group(1):
            found |= set(m.group(1).split())
        m = re.match(r"^\s*(?:pub )?(?:record|data|ruleset) (\S+)", line)
        if m:
            found.add(m.group(1))
    return {n for n in found if re.match(r"[^\W\d]", n)}


def main():
    texts = {p: open(p, encoding="utf-8").read() for p in files()}
    own, spec, fields, local = set(), set(), set(), collections.defaultdict(set)
    for p, t in texts.items():
        if not p.endswith(".antt"):
            continue
        names = declared(p, t)
        if p.endswith("Proof.antt"):
            local[p] = {n for n in names if not re.search(r"(?m)^(?:abbrev )?(?:pub )?" + re.escape(n) + r" : tie\.", t)}
        else:
            own |= names
            fields |= set(re.findall(r"(?m)^  (?:pub )?(\S+) : ", t))
            if "/specs/" in p:
                spec |= names
    # What is in use: in antt all that stands behind no dot. A parameter of a function matters where that file's clauses have the old name.
    used, params = set(), []
    for p, t in texts.items():
        here = set()
        for line in t.splitlines():
            if p.endswith(".antt"):
                line = uncomment(line)
                line = re.sub(r"^use [^{]*", "", line)
                used |= {m.group(0) for m in TOKEN.finditer(line) if not line[: m.start()].endswith(".")}
            elif p.endswith(".rt") and not line.lstrip().startswith("//"):
                here |= set(re.findall(r"(?:^|[\s(,])(?:mut )?(\w+): ", line))
        if p.endswith(".rt"):
            params.append((set(TOKEN.findall(t)), here))

    def is_hidden(n, new):
        return any(n in tokens and new in here for tokens, here in params)

    # Camel case.
    table, left = {}, []
    every = own | set().union(*local.values())
    for n in sorted(every):
        new = snake(n)
        if new == n:
            continue
        if is_hidden(n, new) or (new in used and new not in every):
            left.append((n, new))
            continue
        if new in used:
            # a lemma that would have its function's name
            table[new] = new + "_lem"
        table[n] = new
    # A dash between two names stays; the others go.
    names = {table.get(n, n) for n in spec if "-" not in n} | STD
    after = used | set(table.values())
    for n in sorted(every):
        at = table.get(n, n)
        if "-" not in at or at.startswith("-") or at.endswith("-"):
            continue
        parts = at.split("-")
        new = parts[0]
        for a, b in zip(parts, parts[1:]):
            both = (a in names or a[:1].isupper()) and (b in names or b[:1].isupper())
            new += ("-" if both else "_") + b
        if new == at:
            continue
        if new in after:
            new += "_lem"
        if new in after or not re.fullmatch(r"[\w'₀-₉ᵃ-]+", new):
            left.append((n, new))
            continue
        table[n] = new
        after.add(new)
    crates = set(os.listdir(os.path.join(ROOT, "crates")))
    changed = 0
    for p, t in texts.items():
        hand = p.endswith("Proof.antt")
        mine = local.get(p, set())
        aliases = set(re.findall(r"(?m)^use \S+ as (\S+)", t)) if hand else set()

        foreign = set()
        for path, names_ in re.findall(r"(?m)^(?:ghost |pub )?use ([^\s{]*)\.\{([^}]*)\}", t):
            c = path.split(".")
            if not (c[0] == "Rattle" and len(c) > 1 and c[1] in crates):
                foreign |= {x.split(" as ")[0].strip() for x in names_.split(",")}

        def turn(m, line):
            n = m.group(0)
            if n not in table or n in foreign:
                return n
            before = line[: m.start()]
            if re.match(r"\s*(?:ghost |pub )?use ", line) and "{" not in before and " as " not in before:
                # a path
                return n
            if hand:
                if n not in own and n not in mine:
                    return n
                if before.endswith(".") and "-" in n:
                    # Of what Rattle makes a field keeps its name: only an own field, or a name behind an import's own name, turns.
                    q = re.search(r"([^\s(){}\[\];,.]*)\.$", before)
                    if not (q and q.group(1) in aliases and q.group(1) != "tie") and n not in fields:
                        return n
            return table[n]

        out = []
        for line in t.splitlines(keepends=True):
            if p.endswith(".rt"):
                code = line
                m = re.match(r"^(\s*)//", line)
                if m:
                    out.append(CAMEL.sub(lambda m: table.get(m.group(0), m.group(0)), line))
                    continue
                if not re.search(r"ghost use|requires|ensures|^\s*ghost|invariant", line) and not CAMEL.search(line) and "-" not in line:
                    out.append(line)
                    continue
                if not re.search(r"ghost use|requires|ensures|ghost ", line):
                    # a clause that goes over lines
                    out.append(re.sub(TOKEN, lambda m: table.get(m.group(0), m.group(0)) if CAMEL.search(m.group(0)) or "-" in m.group(0) and re.search(r"[a-z]-[a-z]", m.group(0)) else m.group(0), line))
                    continue
            if p.endswith(".edit") and not re.match(r"(old|new):", line):
                out.append(line)
                continue
            out.append(TOKEN.sub(lambda m: turn(m, line), line))
        new = "".join(out)
        if new != t:
            changed += 1
            open(p, "w", encoding="utf-8").write(new)
    for folder, dirs, fs in os.walk(os.path.join(ROOT, "docs")):
        for n in fs:
            if n.endswith(".md") and not n.startswith("PORT"):
                p = os.path.join(folder, n)
                t = open(p, encoding="utf-8").read()
                new = re.sub(r"`([^`\n]+)`", lambda m: "`" + TOKEN.sub(lambda k: table.get(k.group(0), k.group(0)) if "/" not in k.group(0) else k.group(0), m.group(1)) + "`", t)
                if new != t:
                    open(p, "w", encoding="utf-8").write(new)
    print(f"{len(table)} names turned in {changed} files")
    for n, new in left:
        print(f"left: {n}, since {new} is in use")


main()
