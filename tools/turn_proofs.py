#!/usr/bin/env python3
"""Turns the names in each proofs/F/Proof.antt of a crate to those that today's Rattle makes of F.

usage: python3 tools/turn_proofs.py CRATES NAMES LANDED CRATE..     CRATES: the folder crates/; NAMES: a folder with CRATE/names.json, as 'rt names'
writes it; LANDED: crates/ before port.py, for the older names of the goals

Goals, places and steps get their new names, the steps of a match's arm are one place, and a '.before' in front of a step goes, since a place
shows the steps before it. It goes by text: what it gets wrong the check says.
"""
import json
import os
import re
import sys

NAME = r"[^\s(){}\[\];,.@\"`«»:|]+"
CHAIN = re.compile(r"(?<![\w.'₀-₉-])((?:[\w'₀-₉κ-]+|\)))((?:\." + NAME + r")+)")
PLACE = r"tie\.((?:After|Else|Then|At|In|Joined|Start)[^\s(){}\[\];,.@\"`«»:|]*)"


def norm(n):
    return n.replace("_", "-").lower()


class Function:
    def __init__(self, v):
        self.names = v["places_by_name"]
        self.index = {norm(p[0]): i for i, p in enumerate(v["places"])}
        old = [p[0] for p in v["places"]]
        self.parent = [old.index(p[1]) if p[1] else None for p in v["places"]]
        self.arms = v["arms"]
        # a place inside of an arm stands for the arm's
        for key, i in list(self.index.items()):
            deeper = True
            while deeper:
                deeper = False
                for j, a in enumerate(self.arms):
                    if a and self.parent[j] == i and self.arms[i] and a[0] == self.arms[i][0] and a[1] == self.arms[i][1] + 1:
                        i, deeper = j, True
            self.index[key] = i
        # a place that today's walk has no more: the one before the call
        self.steps, self.callee, self.facts = {}, {}, {}
        self.step_at = {}
        for i, p in enumerate(v["places"]):
            name, new = p[2]
            if name:
                self.steps[norm(name)] = new
                self.step_at.setdefault(norm(name), []).append(i)
                if p[3]:
                    self.callee[norm(name)] = p[3]
                for a, b in p[4]:
                    self.facts.setdefault(norm(name), {})[a] = b
        self.loops = {norm(o): (n, names) for (o, n), names in v["loops"]}
        self.needs = [tuple(x) for x in v["needs"]]
        self.asked_at = [self.index.get(norm(a[0])) for a in v["asked_at"]]
        self.params = v.get("params") or {}

    def place(self, said):
        n = norm(said)
        if n in self.index:
            return self.index[n]
        m = re.match(r"(after-.*)-arg\d*$", n)
        if m and m.group(1) in self.index:
            return self.parent[self.index[m.group(1)]]
        return None

    def place_name(self, said):
        i = self.place(said)
        return self.names[i] if i is not None else said

    def need(self, said):
        n = norm(said)
        bare = re.sub(r"^(overflow|slice-bounds|bounds)-", "", n)
        for kind in (lambda o, w: norm(o) == n, lambda o, w: norm(w) == n, lambda o, w: norm(o) == bare):
            for i, (old, new) in enumerate(self.needs):
                if kind(old, new):
                    return i
        return None

    def many_up(self, at, to):
        """How many '.before' lead from place 'at' to place 'to' today; None where 'to' is not above 'at'."""
        many = 0
        while at is not None and at != to:
            arm = self.arms[at]
            if not (arm and arm[1] > 1):
                many += 1
            at = self.parent[at]
        return many if at is not None else None

    def above(self, at):
        while at is not None:
            yield at
            at = self.parent[at]

    def arm_field(self, at, step, rest):
        """What names a part of a match's arm today: the arm, the field and how many of rest it stands for."""
        first = list(self.above(at)) if at is not None else []
        for where in (first, range(len(self.names))):
            best = None
            for i in where:
                arm = self.arms[i]
                for name, old, path in arm[2] if arm else []:
                    if norm(old) == step and rest[: len(path)] == path and (best is None or len(path) > best[2]):
                        best = (arm[0], name, len(path))
            if best:
                return best
        return None


def turn_chain(fn, env, root, comps):
    kind, at, name = env.get(root, ("place", None, root))
    i = 0
    if kind == "place":
        while i < len(comps) and comps[i] == "before":
            i += 1
        if i == len(comps):
            return name, ("place", at, name)
        c = comps[i]
        n = norm(c)
        if n not in fn.steps and c.endswith("_lem") and norm(c[:-4]) in fn.steps:
            # a field that the names' script took for a lemma
            n = norm(c[:-4])
        rest = comps[i + 1 :]
        if c in ("pre", "requires"):
            return name + ".requires" + "".join("." + x for x in rest), ("value", None, None)
        if c == "good":
            c = "well_formed"
        if c in ("well-formed", "well_formed", "type-inv", "lifetimes"):
            return name + "." + c.replace("-", "_") + "".join("." + x for x in rest), ("value", None, None)
        if c in ("args", "ranges", "fits"):
            return turn_args(name + "." + ("args" if c == "args" else "ranges"), rest)
        if n in fn.steps:
            if rest == ["given"] and fn.arm_field(at, n, ["given", "1"]):
                # all that an arm binds, of which parts are named later
                return name + "." + fn.steps[n] + ".given", ("given", (at, n), name)
            hit = fn.arm_field(at, n, rest)
            if hit:
                arm, field, used = hit
                return name + "." + arm + "." + field + "".join("." + x for x in rest[used:]), ("value", None, None)
            return turn_step(fn, name + "." + fn.steps[n], n, rest)
        return name + ".before" * i + "." + c + "".join("." + x for x in rest), ("value", None, None)
    if kind == "auto":
        step, member, first = at
        k = 0
        while k < len(comps) and comps[k] == "1":
            k += 1
        ps = fn.params.get(fn.callee[step])
        if k < len(comps) and comps[k] == "0" and first + k < len(ps):
            return name + "." + member + "." + ps[first + k] + "".join("." + x for x in comps[k + 1 :]), ("value", None, None)
    if kind == "given":
        hit = fn.arm_field(at[0], at[1], ["given"] + comps)
        if hit:
            return name + "." + hit[0] + "." + hit[1] + "".join("." + x for x in (["given"] + comps)[hit[2] :]), ("value", None, None)
    if kind == "args":
        return turn_args(root, comps)
    if kind == "step":
        return turn_step(fn, root, at, comps)
    return root + "".join("." + x for x in comps), ("value", None, None)


def turn_args(head, rest):
    if not rest:
        return head, ("args", None, None)
    return head + "." + rest[0].replace("-", "_") + "".join("." + x for x in rest[1:]), ("value", None, None)


def turn_step(fn, head, step, rest):
    if not rest:
        return head, ("step", step, None)
    c, more = rest[0], rest[1:]
    if c == "kept":
        c = "auto"
    elif c == "ok":
        c = "type_inv"
    elif c == "last" and step in fn.callee:
        c = "new"
    loop = fn.loops.get(step)
    if loop and norm(c) in [norm(x) for x in loop[1]]:
        c = next(x for x in loop[1] if norm(x) == norm(c))
    elif c == "inv":
        c = "invariant"
    elif c == "type-inv":
        c = "type_inv"
    elif c == "taken" and not loop:
        c = "true"
    elif c == "left" and not loop:
        c = "false"
    elif c in ("auto", "new") and step in fn.callee:
        k = 0
        while k < len(more) and more[k] == "1":
            k += 1
        ps = fn.params.get(fn.callee[step])
        if ps and k == len(more):
            # several at once, of which one is named later
            return head + "." + c + "".join("." + x for x in more), ("auto", (step, c, k), head)
        if ps and k < len(more) and more[k] == "0" and k < len(ps):
            return head + "." + c + "." + ps[k] + "".join("." + x for x in more[k + 1 :]), ("value", None, None)
    c = fn.facts.get(step, {}).get(c, c)
    return head + "." + c + "".join("." + x for x in more), ("value", None, None)


def blocks_of(text):
    out, cur = [], []
    for l in text.split("\n"):
        m = re.match(r"(\s*)(?:abbrev |pub |unfoldable )*\S+ ?:(?=\s|$)", l)
        starts = bool(l) and (not l[0].isspace() or re.match(r"  (?:abbrev )?(?:pub )?[^\s(){}]+ : ", l))
        if starts and cur:
            out.append("\n".join(cur))
            cur = [l]
        else:
            cur.append(l)
    out.append("\n".join(cur))
    return out


def binders(sig):
    """The places of a signature's arguments in order, None for one that is no place, and the place of its result."""
    parts, depth, cur = [], 0, ""
    for ch in sig:
        if ch in "([{":
            depth += 1
        elif ch in ")]}":
            depth -= 1
        if ch == "→" and depth == 0:
            parts.append(cur)
            cur = ""
        else:
            cur += ch
    parts.append(cur)
    out = []

    def place(t):
        m = re.match(r"\s*" + PLACE, t)
        return norm(m.group(1)) if m else None

    for p in parts[:-1]:
        p = p.strip()
        groups = re.findall(r"[({]([^(){}:]+) : ([^()]*(?:\([^()]*\)[^()]*)*)[)}]", p)
        if groups and p[0] in "({":
            for names, t in groups:
                for _ in names.split():
                    if p[0] == "{":
                        continue
                    out.append(place(t))
        else:
            out.append(place(p))
    return out, place(parts[-1])


def turn(fn, text, spec, landed):
    declared, results = {}, {}
    blocks = blocks_of(text)
    before = re.findall(r"(?m)^\S+ : tie\.Need-([^\s]+)", landed)
    now = re.findall(r"(?m)^\S+ : tie\.Need-([^\s]+)", text)
    was = dict(zip(now, before)) if len(before) == len(now) else {}

    def asked(n):
        hit = fn.need(was.get(n, n))
        return fn.need(n) if hit is None else hit

    for b in blocks:
        m = re.match(r"(?:pub )?(\S+) : tie\.Need-(\S+)", b)
        if m:
            hit = asked(m.group(2))
            if hit is not None:
                declared[m.group(1)] = hit
    signatures = {}
    for b in blocks:
        m = re.match(r"(?s)\s*(?:abbrev )?(?:pub )?([^\s(){}]+) :\s(.*?)(?=\n\s*(?:unfolding [^\n]*\n\s*)?\1(?:\s|$)|\Z)", b)
        if m and "tie." in m.group(2):
            args, res = binders(m.group(2))
            signatures[m.group(1)] = args
            if res:
                results[m.group(1)] = fn.place(res)
    out = []
    module, inside = {}, None
    # what stands in a module takes the module's places first, seen from outside
    taken, at_module, count = {}, {}, 0
    for b in blocks:
        if b and not b[0].isspace():
            m = re.match(r"module _ (.*?) ?where", b)
            count += 1
            at_module = [fn.place(t) for names, t in re.findall(r"\(([^():]+) : " + PLACE, m.group(1)) for _ in names.split()] if m else []
        m = re.match(r"\s*(?:abbrev )?(?:pub )?([^\s(){}]+) :", b)
        if m and b[:1].isspace():
            taken[m.group(1)] = (count, at_module)
    count = 0
    for b in blocks:
        if b and not b[0].isspace():
            module = {}
            count += 1
            m = re.match(r"module _ (.*?) ?where", b)
            if m:
                for names, t in re.findall(r"\(([^():]+) : " + PLACE, m.group(1)):
                    for n in names.split():
                        module[n] = ("place", fn.place(t), n)
        if b.startswith("use ") or b.startswith("--"):
            out.append(b)
            continue
        env = dict(module)
        for n, at in results.items():
            if not signatures.get(n) and (n not in taken or taken[n][0] == count):
                env[n] = ("place", at, n)
        for e in re.finditer(r"(?m)^\s*(\S+)((?: [\w'κ₀-₉_]+)+) =(?:\s|$)", b):
            if e.group(1) in declared:
                vs = e.group(2).split()
                if vs:
                    env[vs[0]] = ("place", fn.asked_at[declared[e.group(1)]], vs[0])
            elif e.group(1) in signatures:
                for v, at in zip(e.group(2).split(), signatures[e.group(1)]):
                    if at:
                        env[v] = ("place", fn.place(at), v)
        for v, t in re.findall(r"\(([\w'₀-₉]+) : " + PLACE, b):
            env[v] = ("place", fn.place(t), v)
        # what 'let' binds is a value until it is seen to be a place
        for v in re.findall(r"let ([\w'₀-₉]+)(?: :[^=\n]*)? = ", b):
            env.setdefault(v, ("value", None, v))

        def wants(name):
            """The places that a helper takes, seen from this block."""
            own = [fn.place(x) if x else None for x in signatures.get(name, [])]
            if name in taken:
                where, ats = taken[name]
                return own if where == count else list(ats) + own
            return own

        def go(text, env):
            done, pos = "", 0
            word = re.compile(r"(?<![\w.'₀-₉-])[A-Za-zκ_][\w'₀-₉-]*(?:\." + NAME + r")*|\)(?:\." + NAME + r")+")
            while True:
                q = word.search(text, pos)
                if not q:
                    return done + text[pos:]
                done += text[pos : q.start()]
                pos = q.end()
                t = q.group(0)
                root, *comps = t.split(".")
                if root == "tie":
                    done += t
                    continue
                if root == ")":
                    src, depth = done + ")", 0
                    for k in range(len(src) - 1, -1, -1):
                        depth += (src[k] == ")") - (src[k] == "(")
                        if depth == 0:
                            break
                    head = re.match(r"\(([^\s()]+)[ )]", src[k:])
                    r = results.get(head.group(1)) if head else None
                    n = norm(comps[0])
                    place = r is not None or n in ("before", "args", "ranges", "fits", "pre", "requires") or n in fn.steps
                    if all(c == "before" for c in comps):
                        at, many = r, len(comps)
                        if r is not None:
                            many = 0
                            for _ in comps:
                                arm = fn.arms[at] if at is not None else None
                                many += not (arm and arm[1] > 1)
                                at = fn.parent[at] if at is not None else None
                        new, got = "@" + ".before" * many, ("place", at, None)
                    else:
                        new, got = turn_chain(fn, {"@": ("place" if place else "value", r, "@")}, "@", comps)
                    m = re.search(r"let ([\w'₀-₉]+) = $", src[:k])
                    if m and re.match(r"\s+in\b", text[pos:]):
                        if got[0] == "place":
                            got = ("place", got[1], m.group(1))
                        elif got[0] in ("auto", "given"):
                            got = (got[0], got[1], src[k:] + got[2][1:])
                        env[m.group(1)] = got
                    done += ")" + new[1:]
                    continue
                want = wants(root) if not comps else []
                if want and any(w is not None for w in want) and not re.match(r"\s*[:=]", text[pos:]):
                    # a helper, and what it is given
                    m = re.search(r"let ([\w'₀-₉]+) = $", done)
                    bound = m.group(1) if m and root in results else None
                    done += root
                    for w in want:
                        m = re.match(r"\s+", text[pos:])
                        if not m:
                            break
                        k = pos + m.end()
                        if k >= len(text) or text[k] in ")],;→=":
                            break
                        if text[k] == "(":
                            depth, e = 0, k
                            while e < len(text):
                                depth += (text[e] == "(") - (text[e] == ")")
                                e += 1
                                if depth == 0:
                                    break
                            m2 = re.match(r"(?:\." + NAME + r")+", text[e:])
                            if m2:
                                e += m2.end()
                        else:
                            m2 = re.match(r"[^\s(){}\[\],;]+", text[k:])
                            if not m2 or m2.group(0) in ("in", "as"):
                                break
                            e = k + m2.end()
                        arg = text[k:e]
                        done += text[pos:k]
                        pos = e
                        call = re.match(r"(?s)(\(([^\s()]+) .*\))((?:\.before)*)$", arg)
                        if w is not None and call and results.get(call.group(2)) is not None:
                            many = fn.many_up(results[call.group(2)], w)
                            if many is not None:
                                done += go(call.group(1), env) + ".before" * many
                                continue
                        bare = arg.strip("()")
                        r, *cs = bare.split(".")
                        got = env.get(r)
                        if w is not None and got and got[0] == "place" and got[1] is not None and all(c == "before" for c in cs):
                            many = fn.many_up(got[1], w)
                            if many is None:
                                done += go(arg, env)
                            else:
                                done += got[2] + ".before" * many
                        else:
                            done += go(arg, env)
                    if bound and re.match(r"\s+in\b", text[pos:]):
                        env[bound] = ("place", results[root], bound)
                    continue
                if not comps:
                    if root in env and env[root][0] == "given" and not re.match(r"\s*=", text[pos:]):
                        done += env[root][2] + "." + fn.steps[env[root][1][1]] + ".given"
                    elif root in env and env[root][0] == "place" and env[root][2] != root and not re.match(r"\s*=", text[pos:]):
                        done += env[root][2]
                    else:
                        done += root
                    continue
                new, got = turn_chain(fn, env, root, comps)
                m = re.search(r"(?:let |^\s*)([\w'₀-₉]+) = $", done)
                if m and re.match(r"\s+in\b", text[pos:]):
                    env[m.group(1)] = got
                    if got[0] in ("place", "given", "auto"):
                        # another name of a place that shows the same
                        done = done[: m.start()]
                        pos += re.match(r"\s+in\b[ ]?", text[pos:]).end()
                        if re.search(r"\n\s*$", done) and re.match(r"\n\s*", text[pos:]):
                            pos += re.match(r"\n\s*", text[pos:]).end()
                        continue
                done += new

        # a name for a place
        for n, at in results.items():
            m = re.search(r"(?m)^(\s*" + re.escape(n) + r"(?: [\w'κ₀-₉_]+)* =\s+)([\w'₀-₉]+)((?:\.before)*)[ \t]*$", b)
            if m and at is not None and env.get(m.group(2), ("", None))[0] == "place" and env[m.group(2)][1] is not None:
                many = fn.many_up(env[m.group(2)][1], at)
                if many is not None:
                    b = b[: m.start()] + "@@" + b[m.end() :]
                    put = m.group(1) + env[m.group(2)][2] + ".before" * many
                    out.append(go(b, env).replace("@@", put))
                    break
        else:
            out.append(go(b, env))
    text = "\n".join(out)
    def need(m):
        hit = asked(m.group(1))
        return "tie.Need-" + (fn.needs[hit][1] if hit is not None else m.group(1))

    text = re.sub(r"tie\.Need-(" + NAME + ")", need, text)
    text = re.sub(PLACE, lambda m: "tie." + fn.place_name(m.group(1)), text)
    for old, (new, _) in fn.loops.items():
        text = re.sub(r"\b(invariant|decreases)-" + re.escape(old) + r"(?![\w-])", lambda m: m.group(1) + "-@" + new, text)
    text = text.replace("-@", "-")
    said = {n: fn.needs[i][1] for n, i in declared.items() if n != fn.needs[i][1]}
    if said:
        text = re.sub(r"(?<![\w.'₀-₉-])[A-Za-z][\w'₀-₉-]*", lambda m: said.get(m.group(0), m.group(0)), text)
    m = re.search(r"(?s)pub (\S+) : \{M : Type 1\} → statement M\n\S+ =(.*)$", text)
    if m:
        inner = re.search(r"(?s)tie\.spec(.*)\)", m.group(2))
        have = inner.group(1).split() if inner else []
        head = [h for h in have if h.startswith(("invariant-", "decreases-"))]
        listed = head + [new for _, new in fn.needs]
        got = {fn.needs[i][1] for i in declared.values()}
        loops = "".join(" " + h for h in head)
        extra = "".join(f"{n} : tie.Need-{n}{loops}\n{n} c = search rules\n\n" for _, n in fn.needs if n not in got)
        text = text[: m.start()] + extra + f"pub {spec} : {{M : Type 1}} → statement M\n{spec} =\n    tie.close\n    (tie.spec\n    " + "\n    ".join(listed) + ")\n"
        if not listed:
            text = text.replace("    (tie.spec\n    )\n", "    tie.spec\n")
    return text


def main():
    crates, names, landed = sys.argv[1:4]
    for crate in sys.argv[4:]:
        at = os.path.join(names, crate, "names.json")
        if not os.path.exists(at):
            continue
        j = json.load(open(at))
        for key, v in j.items():
            if not key.endswith(".Lts"):
                continue
            path = key[len(f"Rattle-{crate}-proofs.") : -len(".Lts")].split(".")
            p = os.path.join(crates, crate, "proofs", *path, "Proof.antt")
            if not os.path.exists(p):
                continue
            text = open(p, encoding="utf-8").read()
            old = os.path.join(landed, crate, "proofs", *path, "Proof.antt")
            new = turn(Function(v), text, path[-1] + "_spec", open(old, encoding="utf-8").read() if os.path.exists(old) else "")
            if new != text:
                open(p, "w", encoding="utf-8").write(new)


main()
