#!/usr/bin/env python3
"""Turns the proofs that walk a function's code (Proof.antt) into today's two files, Invariants.antt and Answers.antt.

Usage: python3 tools/answers.py NAMES CRATE..     at the top; NAMES is what `rt names` wrote in crates/
It goes by the toolchain's list of old and new names. Answers that the check finds by itself (`search rules`, `omega arith`) are left out.
What it cannot turn is said and left in place. A cycle of functions is left alone.
"""
import glob
import json
import os
import re
import sys

NAME = r"[^\s(){}\[\].;,@\"«»:]+"
WORD = re.compile(r"[^\s(){}\[\];,@\"«»]+")
ALONE = re.compile(r"^(search rules|omega arith)$")
START = {"args", "requires", "ranges", "well_formed", "utf8", "lifetimes", "type_inv"}


def norm(s):
    s = re.sub(r"_(holds|lem)$", "", s)
    s = s.replace("_", "-").lower()
    s = re.sub(r"^overflow-", "", s)
    s = re.sub(r"^slice-bounds-", "part-", s)
    s = re.sub(r"^nonzero-(div|rem)-", r"\\1-", s)
    return s


def items(text):
    """The declarations of a file: (name, signature, lines between, body head, body), with comments above."""
    blocks, now = [], []
    for line in text.split("\n"):
        if line and not line.startswith((" ", "\t", ")")) and now and not starts_body(now, line):
            blocks.append(now)
            now = []
        now.append(line)
    blocks.append(now)
    return [b for b in blocks if any(x.strip() for x in b)]


def starts_body(now, line):
    """Does this line go on with the declaration above it: its unfolding line or a clause of it?"""
    head = declared("\n".join(x for x in now if not x.startswith("--")))
    if not head:
        return now[-1].startswith("--") and not line.startswith("use ") and not any(x.startswith("use ") for x in now)
    return line.startswith("unfolding ") or line.split(" ")[0] == head


def declared(text):
    m = re.match(rf"(?:(?:abbrev|pub|unfoldable) )*({NAME})(?: +[{{(].*)? :", text.strip("\n"))
    return m.group(1) if m and not text.startswith("use ") else None


class Function:
    def __init__(self, crate, path, names, clauses):
        self.crate, self.path, self.j, self.own = crate, path, names, clauses
        self.places = {p[0]: (i, p) for i, p in enumerate(names["places"])}
        self.said = []

    def chain(self, place):
        out = []
        while place:
            out.append(place)
            place = self.places[place][1][1]
        return out

    def nested(self, segs, fields):
        """A path of 0s and 1s into clauses that were joined, as the name of the clause."""
        k = 0
        segs = list(segs)
        while len(segs) and segs[0] == "1" and k < len(fields) - 1:
            segs.pop(0)
            k += 1
        if k < len(fields) - 1:
            if segs and segs[0] == "0":
                segs.pop(0)
            elif not segs and k == 0:
                return None
            else:
                return None
        return [fields[k]] + segs

    def path_of(self, place, depth, segs):
        """The new path of c.before^depth.segs, as seen from a place."""
        chain = self.chain(place)
        if depth >= len(chain):
            depth = len(chain) - 1
        if not segs:
            return None
        step, rest = segs[0], segs[1:]
        if step in START:
            return self.start(step, rest)
        found = None
        for d in [depth] + list(range(depth + 1, len(chain))) + list(range(depth)):
            i, p = self.places[chain[d]]
            if norm(p[2][0]) == norm(step):
                found = (i, p)
                break
        if not found:
            self.said.append(f"no step {step} at {place}")
            return ["c", step] + rest
        i, p = found
        arm = self.j["arms"][i]
        if arm:
            for field, old, at in arm[2]:
                if norm(old) == norm(p[2][0]) and rest[: len(at)] == list(at):
                    return ["c", arm[0], field] + rest[len(at) :]
        for var, old in self.j["typed"][i]:
            if norm(old) == norm(p[2][0]):
                return ["c", "type_inv", var] + (rest[1:] if rest[:1] == ["given"] else rest)
        if rest:
            for a, b in p[4]:
                if rest[0] == a:
                    rest = [b] + rest[1:]
                    break
        fields = self.j["clauses"][i]
        if fields and rest[:1] == ["ensures"] and len(rest) > 1:
            named = self.nested(rest[1:], fields["fields"])
            if named:
                rest = ["ensures"] + named
        return ["c", p[2][1]] + rest

    def start(self, step, rest):
        if step == "requires" and self.j["pre"] and rest:
            named = self.nested(rest, self.j["pre"]["fields"])
            if named:
                return ["c", "requires"] + named
        out = ["c", step] + rest
        flat = " ".join("." + s for s in out[1:])
        for a, b in self.j["args"]:
            if flat.startswith(a):
                flat = b + flat[len(a) :]
                return ["c"] + flat.replace(".", "").split()
        return out

    def special(self, place, depth, segs):
        """Must a name for this path be written out, since what follows it is named anew?"""
        if not segs:
            return True
        if segs == ["requires"]:
            return bool(self.j["pre"])
        if len(segs) == 1 and segs[0] not in START:
            for d in self.chain(place):
                i, p = self.places[d]
                if norm(p[2][0]) == norm(segs[0]):
                    return bool(self.j["arms"][i] or p[4] or self.j["clauses"][i] or any(norm(o) == norm(segs[0]) for _, o in self.j["typed"][i]))
        if segs[0] == "requires" and self.j["pre"] and set(segs[1:]) <= {"0", "1"}:
            return True
        return False

    def rewrite(self, text, place):
        """A body with every path of c, and of names for such paths, as it is named today."""
        known = {"c": (0, [])}
        for m in re.finditer(r"\blet ([\w'₀-]+)(?: : [^=]*)? = ([\w'-]+(?:\.[\w'-]+)*) in\b", text):
            head, *segs = m.group(2).split(".")
            if head in known:
                depth, base = known[head]
                segs = list(segs)
                if not base:
                    while segs and segs[0] == "before":
                        segs.pop(0)
                        depth += 1
                full = base + segs
                if self.special(place, depth, full):
                    known[m.group(1)] = (depth, full)
        for name in known:
            if name != "c":
                text = re.sub(rf"(?m)(^ *)?\blet {re.escape(name)}(?: : [^=]*)? = [\w'.-]+ in(\n *| )?", lambda m: (m.group(1) or "") if m.group(1) is not None else "", text, count=1)

        def word(m):
            head, *segs = m.group(0).split(".")
            if head not in known or (not segs and head == "c"):
                return m.group(0)
            depth, base = known[head]
            segs = list(segs)
            if not base:
                while segs and segs[0] == "before":
                    segs.pop(0)
                    depth += 1
            full = base + segs
            if not full:
                return ".".join(["c"] + ["before"] * depth)
            new = self.path_of(place, depth, full)
            return ".".join(new)

        return re.sub(r"(?<![\w'.-])[A-Za-z_][\w'₀-]*(?:\.[\w'-]+)*", word, text)


def split_lets(body):
    """The lets in front of a body, and what follows them."""
    at = 0
    while True:
        m = re.match(r"\s*let\b", body[at:])
        if not m:
            return body[:at], body[at:]
        depth = lets = 0
        for t in re.finditer(r"[(\[{]|[)\]}]|(?<![\w'-])let(?![\w'-])|(?<![\w'-])in(?![\w'-])", body[at:]):
            w = t.group(0)
            if w in "([{":
                depth += 1
            elif w in ")]}":
                depth -= 1
            elif depth == 0:
                lets += 1 if w == "let" else -1
                if lets == 0:
                    at += t.end()
                    break
        else:
            return body[:at], body[at:]


def parts_of(text):
    """The parts of a tuple that is a whole text, or None."""
    t = text.strip()
    if not (t.startswith("(") and t.endswith(")")):
        return None
    depth, out, last = 0, [], 1
    for i, ch in enumerate(t):
        if ch in "([{":
            depth += 1
        elif ch in ")]}":
            depth -= 1
            if depth == 0 and i < len(t) - 1:
                return None
        elif ch == "," and depth == 1:
            out.append(t[last:i])
            last = i + 1
    out.append(t[last:-1])
    if len(out) > 1 and not out[-1].strip():
        out.pop()
    return [x.strip() for x in out] if len(out) > 1 else None


def by_clause(body, fields):
    """A pair of pairs as a record of clauses."""
    lets, last = split_lets(body)
    out, rest = [], last.strip()
    while len(out) < len(fields) - 1:
        parts = parts_of(rest)
        if parts is None:
            break
        if len(parts) == len(fields) - len(out):
            out += parts
            rest = None
            break
        if len(parts) != 2:
            break
        out.append(parts[0])
        rest = parts[1]
    if rest is not None:
        if len(out) == len(fields) - 1:
            out.append(rest)
        else:
            k = len(fields) - len(out)
            lets += f"\n    let held = {rest} in"
            for i in range(k):
                out.append("held" + ".1" * i + (".0" if i < k - 1 else ""))
    pad = "\n      "
    return lets + "\n    record {" + "".join(f"{pad}{f} = {v};" for f, v in zip(fields, out)) + "\n    }"


def clauses_of(path):
    """The labels of the ensures of each function of a file."""
    text = open(path, encoding="utf8").read()
    found = {}
    for m in re.finditer(r"(?m)^\s*(?:pub )?(?:extern \"C\" )?fn (\w+)", text):
        end = re.search(r"(?m)^\s*\{\s*$|\{$", text[m.end() :])
        head = text[m.end() : m.end() + (end.start() if end else 0)]
        labels = re.findall(r"(?m)^\s*ensures (\w+)? ?\{", head)
        found.setdefault(m.group(1), labels)
    return found


def convert(crate, names):
    base = f"crates/{crate}/proofs"
    ensures = {}
    for path in glob.glob(f"crates/{crate}/src/**/*.rt", recursive=True):
        mod = os.path.relpath(path, f"crates/{crate}/src")[:-3].replace("/", ".")
        mod = "" if mod in ("lib", "main") else re.sub(r"\.mod$", "", mod) + "."
        for fn, labels in clauses_of(path).items():
            ensures[mod + fn] = labels
    done = left = 0
    for file in sorted(glob.glob(f"{base}/**/Proof.antt", recursive=True)):
        path = os.path.relpath(os.path.dirname(file), base).replace("/", ".")
        key = f"Rattle-{crate}-proofs.{path}.Lts"
        if key not in names:
            print(f"left: {file}: a cycle")
            left += 1
            continue
        f = Function(crate, path, names[key], ensures.get(path, []))
        text = open(file, encoding="utf8").read()
        if one(f, file, text):
            done += 1
        else:
            left += 1
    print(f"{crate}: {done} turned, {left} left")


def one(f, file, text):
    comments, uses, given, answers, helpers = [], [], [], [], []
    decls = []
    for block in items(text):
        body = "\n".join(block).strip("\n")
        if body.startswith("use "):
            uses += [l for l in body.split("\n") if l.startswith("use ")]
            continue
        if all(l.startswith("--") or not l.strip() for l in block):
            comments += [l for l in block if l.strip()]
            continue
        lead = [l for l in block if l.startswith("--")]
        if any(l.startswith("use ") for l in block):
            comments += lead
            uses += [l for l in block if l.startswith("use ")]
            continue
        decls.append((lead, "\n".join(l for l in block if not l.startswith("--")).strip("\n")))
    macros, decls = macros_of(f, decls)
    needs = list(f.j["needs"])
    asked_at = f.j["asked_at"]
    listed = [norm(o) for o, _ in needs]
    at = 0
    loops = {norm(l[0][0]): (l[0][1], l[1], ch) for l, ch in zip(f.j["loops"], f.j["changed"])}
    for lead, d in decls:
        name = declared(d)
        if name is None:
            f.said.append("unread: " + d[:60])
            continue
        head, rest = d.split(":", 1)
        typ = rest.strip()
        m = re.match(r"(?:\(t : ℕ\)\s*→\s*)?tie\.Need-(\S+)", typ)
        inv = re.match(r"tie\.(invariant|decreases)-(\S+)", typ)
        if inv:
            loop = loops.get(norm(inv.group(2)))
            if not loop:
                f.said.append("no loop " + inv.group(2))
                continue
            given.append(lead_of(lead) + invariant(f, name, d, inv.group(1), loop))
            continue
        if m:
            old = norm(m.group(1))
            k = next((i for i in range(at, len(needs)) if listed[i] == old), None)
            if k is None:
                if old.startswith("slice-aggregate"):
                    continue
                k = at if at < len(needs) else None
                f.said.append(f"need {m.group(1)} taken for {needs[k][0] if k is not None else None}")
                if k is None:
                    continue
            at = k + 1
            new = needs[k][1]
            a = answer(f, name, d, new, asked_at[k][0], macros)
            if a:
                answers.append(lead_of(lead) + a)
            continue
        if re.search(r"statement|tie\.close", typ) or name.endswith(("-spec", "_spec")):
            continue
        if "tie." in d:
            f.said.append("a helper: " + d[:80])
        helpers.append(lead_of(lead) + d)
    folder = os.path.dirname(file)
    module = f"Rattle.{f.crate}.proofs.{f.path}"
    head = "\n".join(comments)
    for out, parts, kind in (("Invariants.antt", given, "Given"), ("Answers.antt", helpers + answers, "Goals")):
        if not parts or (kind == "Goals" and not answers):
            continue
        body = "\n\n".join(parts)
        lines = [u for u in (used(u, body) for u in uses) if u]
        lines.append(f"use {module}.{kind} as goal")
        with open(os.path.join(folder, out), "w", encoding="utf8") as w:
            w.write((head + "\n" if head and (kind == "Goals" or not answers) else "") + "\n".join(lines) + "\n\n" + body + "\n")
    os.remove(file)
    if not os.listdir(folder):
        os.rmdir(folder)
    for s in f.said:
        print(f"look: {file}: {s}")
    return True


def lead_of(lead):
    return "".join(l + "\n" for l in lead)


def used(line, body):
    words = set(WORD.findall(re.sub(r"--[^\n]*", "", body)))
    words |= {w.split(".")[0] for w in words}
    m = re.match(r"use ([^{]+)\.\{([^}]*)\}", line)
    if not m:
        alias = line.split(" as ")[-1].strip() if " as " in line else line.split(".")[-1]
        return line if alias in words and alias not in ("tie", "statement") else None
    if m.group(1).endswith(".Statement"):
        return None
    keep = []
    for n in m.group(2).split(","):
        n = n.strip()
        shown = n.split(" as ")[-1]
        if "◌" in shown:
            if all(p in words or p == "" for p in shown.split("◌")):
                keep.append(n)
        elif shown in words:
            keep.append(n)
    return f"use {m.group(1)}.{{{', '.join(keep)}}}" if keep else None


def clause(name, d):
    """The lines between signature and clause, the clause's parameters and its body."""
    lines = d.split("\n")
    k = next(i for i, l in enumerate(lines) if i and l.split(" ")[0] == name)
    between = [l for l in lines[1:k] if l.startswith("unfolding")]
    text = "\n".join(lines[k:])
    head, body = text.split("=", 1) if " = " in text or " =\n" in text else (text, "")
    return between, head.split()[1:], body.rstrip()


def invariant(f, name, d, kind, loop):
    new, variables, changed = loop
    between, params, body = clause(name, d)
    moving = [v for v, ch in zip(variables, changed) if ch]
    want = [f"l.initial.{v}" if ch else f"l.{v}" for v, ch in zip(variables, changed)] + [f"l.{v}" for v in moving]
    if len(want) != len(params):
        f.said.append(f"{name}: {len(params)} parameters, {len(want)} variables")
    table = dict(zip(params, want))
    body = re.sub(r"(?<![\w'.₀-])[\w'₀]+(?:-[\w'₀]+)*", lambda m: table.get(m.group(0), m.group(0)), body)
    sig = f"{kind}-{new}"
    return f"abbrev pub {sig} : goal.{sig}\n" + "".join(b + "\n" for b in between) + f"{sig} l ={' ' if not body.startswith(chr(10)) else ''}{body.lstrip(' ')}"


def answer(f, name, d, new, place, macros):
    between, params, body = clause(name, d)
    body, opened = written_out(macros, body)
    names = [w for b in between + opened for w in b.split()[1:]]
    between = ["unfolding " + " ".join(dict.fromkeys(names))] if names else []
    if ALONE.match(body.strip()) and not between:
        return None
    params = [p for p in params if p != "κs"]
    if re.search(r"(?<![\w'])κs(?![\w'])", body):
        f.said.append(f"{new}: the lifetimes are used")
    body = f.rewrite(body, place)
    body = re.sub(r"not-(true|false) _ (c\.[\w.-]+\.\1)-raw(?![\w-])", r"\2", body)
    body = re.sub(r"(?<=[\s(])\((c\.[\w.-]+)\)", r"\1", body)
    fields = f.j["asked"].get(new) or (f.own if re.match(r"returns(-|$)", new) and len(f.own) > 1 else None)
    if fields:
        body = by_clause(body, fields)
    body = body.rstrip()
    sep = "" if body.startswith("\n") else " "
    return f"pub {new} : goal.{new}\n" + "".join(b + "\n" for b in between) + f"{new} {' '.join(params)} ={sep}{body.lstrip(' ') if sep else body}"


PATH = r"c(?:\.before)*(?![\w.'-])"


class Macro:
    """A lemma on the facts known at a place, written out where it is used: there all the facts have names of their own."""

    def __init__(self, name, d):
        self.name = name
        self.between, params, self.body = clause(name, d)
        self.param = params[0] if params else "c"
        self.count = len(params)
        self.body = re.sub(r"\n\s*", " ", self.body.strip())

    def at(self, state):
        rest = state[1:]
        body = re.sub(rf"(?<![\w'.-]){self.param}(?=[.\s)]|$)", "c" + rest, self.body)
        return body if re.fullmatch(r"[\w.'-]+", body) else f"({body})"


def macros_of(f, decls):
    out, left = {}, []
    for lead, d in decls:
        name = declared(d)
        typ = d.split(":", 1)[1].strip() if name else ""
        if name and re.search(r"tie\.", typ) and not re.match(r"(?:\(t : ℕ\)\s*→\s*)?tie\.(Need-|(invariant|decreases)-)|.*tie\.close", typ) and not name.endswith(("-spec", "_spec")):
            m = Macro(name, d)
            if m.count == 1:
                out[name] = m
                continue
            f.said.append(f"a helper of {m.count}: {name}")
        left.append((lead, d))
    return out, left


def written_out(macros, body):
    """A body with its macros written out, and the definitions that they open."""
    opened = []
    for _ in range(6 if macros else 0):
        m = re.search(rf"(?m)(^ *)?\blet ([\w'-]+) = ({PATH}|\(?[\w'-]+ {PATH}\)?) in(\n *| )?", body)
        if not m or not (re.fullmatch(PATH, m.group(3)) or m.group(3).strip("(").split(" ")[0] in macros):
            break
        value = m.group(3) if re.fullmatch(PATH, m.group(3)) or m.group(3).startswith("(") else f"({m.group(3)})"
        body = body[: m.start()] + (m.group(1) or "") + body[m.end() :]
        body = re.sub(rf"(?<![\w'.-]){re.escape(m.group(2))}(?![\w'-])", lambda w: value, body)
    for _ in range(8):
        old = body
        for name, m in macros.items():

            def use(w, m=m):
                opened.extend(b for b in m.between if b not in opened)
                return m.at(w.group(1))

            body = re.sub(rf"(?<![\w'.-]){re.escape(name)} ({PATH})", use, body)
        body = re.sub(rf"\(({PATH})\)", r"\1", body)
        body = re.sub(r"\((c(?:\.[\w'-]+)+)\)(?=\.)", r"\1", body)
        if body == old:
            return body, opened
    return body, opened


def main():
    folder, crates = sys.argv[1], sys.argv[2:]
    for crate in crates:
        names = json.load(open(f"{folder}/{crate}/names.json", encoding="utf8"))
        convert(crate, names)


main()
