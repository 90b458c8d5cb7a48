#!/usr/bin/env python3
"""Spells this repository's own definitions, lemmas and fields as today's Rattle does: words in snake case, a prime as an apostrophe.

Usage, once, at the top, right after the scripts of the toolchain: python3 tools/respell.py
A definition isDay becomes is_day, a lemma or a field names-good names_good. Where two names would fall together, the lemma takes _lem and the field _holds.
Functions, types, strings, inputs and outputs keep their names. It prints what fell together and what met another word.
"""
import collections
import glob
import re

NAME = r"[^\s(){}\[\].;,@\"«»:⌜⌝`]+"
WORDS = r"(?:unfoldable|abbrev|pub|record|data|ruleset|constructor)"
ARGUMENTS = r"((?: +(?:\{[^{}\n]*\}|\([^()\n]*(?:\([^()\n]*\)[^()\n]*)*\)))*)"
HEAD = re.compile(rf"(?m)^( *)((?:{WORDS} +)*)({NAME}){ARGUMENTS} +:(?!:)\s")
MARKED = re.compile(rf"(?m)^()((?:{WORDS} +)+)({NAME})")
USE = re.compile(r"(?m)^(?:ghost )?use ([\w.'·-]+)\.\{([^}]*)\}")
LOCAL = re.compile(r"[a-z][\w-]*?[a-z0-9][A-Z]\S*$")
MADE = re.compile(r"\s*(tie|goal)\.|\s*statement")
# Words that a new name would meet in the same file: of each file the word and what it is now.
MET = {
    "overrides/proofs/Examples.antt": ("none_in", "none_in_lem"),
    "zone_values/proofs/OffsetLaws.antt": ("signed_by", "signed_by_lem"),
    "series/proofs/PassLaws.antt": ("all_keep", "all_keep_lem"),
    "query_check/specs/QueryRules.antt": ("is_name", "is_name_holds"),
    "query_check/proofs/QueryRules.antt": ("is_name", "is_name_holds"),
    "property/proofs/gives_periods/Proof.antt": ("same_name", "told"),
}
ACRONYMS = {"vEvent": "vevent", "-noCR": "-no_cr", "NoCR": "_no_cr"}


def read(path):
    return open(path, encoding="utf8").read()


def snake(name):
    for old, new in ACRONYMS.items():
        name = name.replace(old, new)
    name = name.replace("′", "'")
    if name[0].isupper():
        return name
    return re.sub(r"(?<=[a-z0-9])[A-Z]", lambda m: "_" + m[0].lower(), name)


def declared(path):
    """The names that a file declares, each with whether it is a field or a constructor; of a function's proof only what is not made for it."""
    text = re.sub(r"--[^\n]*", "", read(path))
    for find in (HEAD, MARKED):
        for m in find.finditer(text):
            name = m.group(3)
            if path.endswith("/Proof.antt") and (MADE.match(text[m.end() :]) or name.endswith("-spec")):
                continue
            yield name, len(m.group(1)) == 2


def made():
    """Names that the toolchain makes of code: those of a function's goals."""
    found = set()
    for path in glob.glob("crates/*/proofs/**/Proof.antt", recursive=True):
        for m in HEAD.finditer(read(path)):
            if MADE.match(read(path)[m.end() :]):
                found.add(m.group(3))
    return found


def mapping():
    fields, names = set(), collections.defaultdict(set)
    for path in glob.glob("crates/*/specs/*.antt") + glob.glob("crates/*/proofs/**/*.antt", recursive=True):
        for name, field in declared(path):
            names[name].add(path)
            if field:
                fields.add(name)
    for name in made():
        names.pop(name, None)
    words = {n for n in names if snake(n) == n and "-" not in n}
    camel = {n: snake(n) for n in names if snake(n) != n and "-" not in n}
    taken = words | set(camel.values())
    for n, s in camel.items():
        if s in words:
            print("fall together:", n, "and", s)
    dashed = {}
    for n in sorted(names):
        if "-" not in n or not re.match(r"[^\W\d_]", n) or n[0].isupper():
            continue
        s = snake(n).replace("-", "_")
        if s in taken:
            s += "_holds" if n in fields else "_lem"
            print("fall together:", n, "is now", s)
        dashed[n] = s
    return camel, dashed


def cut(text, rust):
    """A text in pieces: (is it code, piece). Comments and strings are no code."""
    mark = r"//[^\n]*|b?\"(?:\\.|[^\"\\])*\"|b?'(?:\\.|[^'\\\n])'" if rust else r"--[^\n]*|\"(?:\\.|[^\"\\])*\""
    at = 0
    for m in re.finditer(mark, text):
        yield True, text[at : m.start()]
        yield False, m.group(0)
        at = m.end()
    yield True, text[at:]


def borrowed(text):
    """Names that a file imports from elsewhere than this repository's crates."""
    own = {p.split("/")[1] for p in glob.glob("crates/*/src")}
    found = set()
    for m in USE.finditer(text):
        steps = m.group(1).split(".")
        if not (steps[0] == "Rattle" and len(steps) > 1 and steps[1] in own):
            found |= {w.strip() for name in m.group(2).split(",") for w in name.split(" as ")}
    return found


def turn(text, rust, camel, dashed, page=False, now=()):
    kept = borrowed(text)
    both = {**camel, **dashed}

    def word(m):
        w = m.group(0)
        if w in kept:
            return w
        if w not in both and LOCAL.match(w):
            return snake(w)
        return both.get(w, later(w))

    def later(w):
        """What the toolchain's scripts made of a name, for edits and pages, which they do not read."""
        s = snake(w).replace("-", "_")
        return s if s in now else w

    def prose(m):
        w = m.group(0)
        if now and w not in both:
            return later(w)
        return camel.get(w) or (dashed[w] if w in dashed and (snake(w) != w or page) else w)

    out = []
    for code, piece in cut(text, rust):
        if code and not page:
            out.append(re.sub(NAME, word, piece))
        elif page or piece.startswith(("--", "//")):
            out.append(re.sub(r"[\w'′-]+", prose, piece))
        else:
            out.append(piece)
    return "".join(out)


def part():
    """Words of a file that a new name would meet there get other names first; a field of a call keeps its own."""
    for path, (old, new) in MET.items():
        path = "crates/" + path
        text = read(path)
        open(path, "w", encoding="utf8").write(re.sub(rf"(?<![\w'-])(?<!c\.)(?<!before\.){old}(?![\w'-])", new, text))


def main():
    part()
    camel, dashed = mapping()
    both = {**camel, **dashed}
    for path in sorted(glob.glob("crates/*/src/**/*.rt", recursive=True) + glob.glob("crates/*/*/**/*.antt", recursive=True)):
        text = read(path)
        rust = path.endswith(".rt")
        new = turn(text, rust, camel, dashed)
        if new == text:
            continue
        words = {w for code, piece in cut(text, rust) if code for w in re.findall(rf"(?<![.\w'-]){NAME}", piece)}
        for w in sorted(words & set(both)):
            if both[w] in words and not rust:
                print("meets:", path, w, both[w])
        open(path, "w", encoding="utf8").write(new)
    now = {n for p in glob.glob("crates/*/*/**/*.antt", recursive=True) for n, _ in declared(p) if "_" in n}
    for path in sorted(glob.glob("crates/*/must-fail/*.edit")):
        lines = []
        rust = True
        for line in read(path).split("\n"):
            head, _, rest = line.partition(":")
            if head == "file":
                rust = rest.strip().endswith(".rt")
            if head in ("old", "new"):
                line = head + ":" + turn(rest, rust, camel, dashed, False, now)
            elif line.startswith("#"):
                line = "#" + turn("--" + line[1:], False, camel, dashed)[2:]
            lines.append(line)
        open(path, "w", encoding="utf8").write("\n".join(lines))
    for path in ["README.md"] + glob.glob("docs/*.md"):
        text = re.sub(r"`[^`\n]+`", lambda m: turn(m.group(0), False, camel, dashed, True, now), read(path))
        open(path, "w", encoding="utf8").write(text)


main()
