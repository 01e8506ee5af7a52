#!/usr/bin/env python3
"""Counts the places of docs/DESIGN-PASS.md in crates/*/src at a commit, or in the work tree.

    tools/count_places.py [COMMIT] [--list POINT]

Each count is by text: a line or a function of src/ that a pattern fits.
"""
import os
import re
import subprocess
import sys

OPS = "ListOp|RowOp|Unary|SetOp|ValueOp|HashOp|Operation|Plain|Taking|Optional|Width"


def files(commit):
    """The text of each .rt file of src/, by its path."""
    if commit is None:
        found = subprocess.run(["git", "ls-files", "crates/*/src/*.rt"], capture_output=True, text=True, check=True)
        return {path: open(path).read() for path in found.stdout.split() if os.path.exists(path)}
    names = subprocess.run(["git", "ls-tree", "-r", "--name-only", commit, "crates"], capture_output=True, text=True, check=True)
    paths = [it for it in names.stdout.split() if re.fullmatch(r"crates/[^/]+/src/.*\.rt", it)]
    return {it: subprocess.run(["git", "show", f"{commit}:{it}"], capture_output=True, text=True, check=True).stdout for it in paths}


def plain(text):
    """The text without comments and without imports."""
    lines = [re.sub(r"//.*", "", it) for it in text.split("\n")]
    return "\n".join("" if re.match(r"\s*(ghost )?use ", it) else it for it in lines)


def functions(text):
    """Each function's name, signature with clauses, and body."""
    found = []
    for start in re.finditer(r"(?m)^[ ]*(?:pub(?:\([a-z]+\))? )?(?:final )?(?:unsafe )?(?:extern \"C\" )?fn (\w+)", text):
        at = start.end()
        depth, angle = 0, text.find("{", at)
        # the body is the first brace that begins no clause
        here = at
        while True:
            brace = text.find("{", here)
            stop = text.find(";", here)
            if brace < 0 or (0 <= stop < brace and depth == 0 and text[here:stop].count("(") == text[here:stop].count(")")
                             and "requires" not in text[here:stop] and "ensures" not in text[here:stop]):
                body = ""
                break
            close, level = brace, 0
            while close < len(text):
                level += {"{": 1, "}": -1}.get(text[close], 0)
                if level == 0:
                    break
                close += 1
            before = text[max(here, text.rfind("\n", 0, brace)):brace]
            if re.search(r"\b(requires|ensures|ghost)\b", before):
                here = close + 1
                continue
            body = text[brace:close + 1]
            found.append((start.group(1), text[start.start():brace], body))
            break
    return found


def normal(name, head, body):
    """A function's text with its types, sizes and names of widths left out."""
    text = re.sub(r"(?s)\b(requires|ensures)\b.*", "", head) + body
    text = text.replace(f"fn {name}", "fn F")
    text = re.sub(r"\b[iu](8|16|32|64|size)\b", "N", text)
    text = re.sub(r"_[iu](32|64)\b", "_N", text)
    text = re.sub(r"\b(offsets|large|narrow|wide|Narrow|Wide|lists|large_lists|recipes|large_recipes|index|large_index)::", "M::", text)
    text = re.sub(r"\b(narrow|wide|Narrow|Wide)\b", "W", text)
    text = re.sub(r"\b\d+\b", "0", text)
    text = re.sub(r"//.*", "", text)
    return re.sub(r"\s+", "", text)


def places(all_files):
    """For each point, its parts: what they are, and the places."""
    enums, refusals, numbered, twins_of, pairs = [], [], [], {}, []
    whiles, by_hand, conversions, long_lists, bits, arrays, switches = [], [], [], [], [], [], []
    facts = {}
    for path, text in sorted(all_files.items()):
        code = plain(text)
        crate = path.split("/")[1]
        c_side = crate.endswith("_c")
        for it in re.finditer(r"enum (\w+) \{(.*?)\n\}", code, re.S):
            variants = set(re.findall(r"(?m)^    (\w+)\b", it.group(2)))
            if variants & {"Refused", "None", "Absent", "Null", "TooMany", "Missing"}:
                enums.append(f"{path} {it.group(1)}")
        for line in code.split("\n"):
            if re.search(r"\bwhile\b", line):
                whiles.append(f"{path} {line.strip()}")
            if re.search(r"let (mut )?\w+(: [^=]+)? = \[[^;\]]+; [^\]]+\];", line):
                arrays.append(f"{path} {line.strip()}")
        for name, head, body in functions(code):
            where = f"{path} {name}"
            sign = re.sub(r"(?s)\b(requires|ensures)\b.*", "", head)
            if re.search(r"-> u(8|32)\b", sign) and (re.search(r"refus|early|earlier", name) or re.search(r"return \d+;", body)) and not c_side:
                refusals.append(where)
            if re.search(r"if \w+ != 0 \{\s*return", body):
                numbered.append(where)
            twins_of.setdefault(normal(name, head, body), []).append(where)
            if re.search(r"\bwidth: Width\b", sign):
                pairs.append(where)
            if re.fullmatch(r"(to|from|fill|decode|encode|get|put)_[iu](32|64)", name) or crate == "compare" or re.fullmatch(r"(is_none|one_more|one_less|same_value|stride_of|limit_of|fits_i32)", name):
                conversions.append(where)
            parameters = [it for it in re.findall(r"(\w+): [&\w\[\(']", re.sub(r"(?s)^.*?\(", "(", sign, count=1))]
            if len(parameters) >= 8 and not c_side:
                long_lists.append(where)
            if re.search(r"\w+: &(?:'\w )?\[u8\],\s*\w*start: usize", sign):
                bits.append(where)
            if re.search(r"match \w+ \{\s*(?:%s)::" % OPS, body):
                switches.append(where)
            for clause in re.findall(r"requires (?:\w+ )?\{(.*?)\}\n", head):
                facts.setdefault(clause.strip(), set()).add(where)
    twins = [it for group in twins_of.values() if len(group) > 1 for it in group if not it.split("/")[1].endswith("_c")]
    shared = [f"{len(w)} functions: {fact}" for fact, w in sorted(facts.items()) if len(w) >= 3]
    return [
        (1, "own enums of the shape of Option or Result", enums),
        (1, "functions that give a refusal's number", refusals),
        (1, "functions that test such a number for 0", numbered),
        (2, "functions whose text is another's, but for types, sizes and widths", twins),
        (2, "functions that take a width and a slice for each", pairs),
        (3, "loops that count by hand (while)", whiles),
        (4, "conversions and comparisons by hand", conversions),
        (5, "functions of eight parameters or more", long_lists),
        (5, "functions that take a bitmap and its starting bit apart", bits),
        (5, "facts that three or more functions ask for", shared),
        (6, "arrays of a fixed length made in a function", arrays),
        (7, "functions that switch on an operation", switches),
    ]


def main(words):
    commit, only = None, None
    if "--list" in words:
        at = words.index("--list")
        only = int(words[at + 1])
        words = words[:at] + words[at + 2:]
    if words:
        commit = words[0]
    for point, what, found in places(files(commit)):
        if only is None:
            print(f"{point} {len(found):4} {what}")
        elif only == point:
            print(f"{point} {len(found):4} {what}")
            for it in found:
                print(f"       {it}")


main(sys.argv[1:])
