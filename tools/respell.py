#!/usr/bin/env python3
"""Brings the definitions, fields and lemmas of this repository to the spelling of today's Rattle: words in snake case.

usage: python3 tools/respell.py [FILES..]     at the top, once, right after the kit's own script has run

A definition in camel case gets snake case, and a dash between the words of a lemma's or a field's name becomes an underscore. Where two names
would fall together, or with one of a library, a lemma keeps its dash. With FILES (pages, edits) only the names in them are turned, by the map
that the first run wrote to tools/respelled.tsv.
"""
import os, re, sys
from collections import defaultdict

HERE = os.path.dirname(os.path.abspath(__file__))
MAP = os.path.join(HERE, "respelled.tsv")
# Lemmas whose names the kit's script gave underscores, and that a definition in camel case has a better claim to: they get their dash back.
DASHED = {"find_at": "find-at", "goes_after": "goes-after", "none_named": "none-named", "rises_by": "rises-by", "rows_left": "rows-left"}
TOKEN = re.compile(r"[^\s(){}\[\].,;:\"`]+")
DECL = re.compile(r"^\s*(?:(?:abbrev|unfoldable)\s+)?(?:pub\s+)?([^\s(){}\[\].,;:\"]+)\s*:(?!:)\s*(.*)")


def files(*endings):
    for top, dirs, names in os.walk("crates"):
        dirs[:] = sorted(d for d in dirs if d != "out")
        for n in sorted(names):
            if n.endswith(endings):
                yield os.path.join(top, n)


def snake(name):
    name = re.sub(r"([a-z0-9])([A-Zℤℕ])", r"\1_\2", name)
    return re.sub(r"[A-Z]", lambda m: m[0].lower(), name)


def wanted(name):
    return bool(re.match(r"[a-z]", name)) and ("-" in name or re.search(r"[a-z0-9][A-Zℤℕ]", name) is not None)


def of_library(text):
    """The names that a text imports from crates that are not of this repository."""
    for path, names in re.findall(r"(?m)^\s*(?:pub )?use ([^\s{]+?)\.\{(.*)\}", text):
        own = re.match(r"Rattle\.(\w+)\.(specs|proofs)", path)
        if not (own and os.path.isdir("crates/" + own[1])):
            yield from (x.strip().split(" as ")[0] for x in names.split(","))


def collect():
    top, field, plain, library = set(), set(), set(), set()
    for p in files(".antt"):
        walk = p.endswith("/Proof.antt")
        inside, depth = None, 0
        for line in open(p, encoding="utf-8"):
            if line.lstrip().startswith("--"):
                continue
            if re.match(r"\s*(?:pub )?use ", line):
                library.update(of_library(line))
                continue
            if re.match(r"\s*(?:abbrev |pub )*record ", line):
                inside = len(line) - len(line.lstrip())
                continue
            if inside is not None and line.strip() and len(line) - len(line.lstrip()) <= inside:
                inside = None
            m = DECL.match(line)
            if not m:
                continue
            name, rest = m[1], m[2]
            if walk and ("tie." in rest or name.endswith("_spec") or "statement" in rest):
                continue
            if name in DASHED:
                continue
            if wanted(name):
                (field if inside is not None and line.lstrip().startswith("pub ") else top).add(name)
            else:
                plain.add(name)
    return top, field, plain, library


def choose():
    top, field, plain, library = collect()
    old = (top | field) - set(DASHED.values())
    taken = plain | library | set(DASHED.values())
    out = {}
    # definitions in camel case first: a lemma gives way to them
    for dashed in (False, True):
        for name in sorted(n for n in old if ("-" in n) == dashed):
            new = snake(name).replace("-", "_")
            if new in taken or new in out.values():
                new = snake(name)
                if new in taken or new in out.values() or new == name:
                    print(f"kept: {name}")
                    continue
            out[name] = new
    return out, field


def turn_antt(text, names, fields):
    here = set(of_library(text))
    every = names
    names = {a: b for a, b in names.items() if a not in here}
    lines = []
    for line in text.split("\n"):
        if here and re.match(r"\s*(?:pub )?use ", line) and not set(of_library(line)):
            lines.append(TOKEN.sub(lambda m: every.get(m[0], m[0]), line))
            continue
        code, sep, note = line.partition(" -- ") if not line.lstrip().startswith("--") else ("", line, "")
        if sep == line:
            lines.append(TOKEN.sub(lambda m: names.get(m[0], m[0]), line))
            continue

        def one(m):
            t, at = m[0], m.start()
            if t not in names:
                return t
            if at and code[at - 1] == ".":
                before = re.search(r"([^\s(){}\[\].,;]*)\.$", code[:at])
                if before and before[1] in ("tie", "goal"):
                    return t
                if re.match(r"\s*(?:pub )?use ", code) or t in fields or (before and before[1][:1].isupper()):
                    return names[t]
                return t
            return names[t]

        new = TOKEN.sub(one, code)
        lines.append(new + sep + TOKEN.sub(lambda m: names.get(m[0], m[0]), note) if sep else new)
    return "\n".join(lines)


def turn_rt(text, names):
    """Names in camel case are no names of Rust here, so they are turned everywhere but in strings; dashes in ghost lines alone."""
    out = []
    for line in text.split("\n"):
        ghost = line.lstrip().startswith("ghost use")
        parts = re.split(r'("(?:[^"\\]|\\.)*")', line)
        for i in range(0, len(parts), 2):
            parts[i] = TOKEN.sub(lambda m: names[m[0]] if m[0] in names and (ghost or "-" not in m[0]) else m[0], parts[i])
        out.append("".join(parts))
    return "\n".join(out)


def write(path, text, new):
    if new != text:
        with open(path, "w", encoding="utf-8") as f:
            f.write(new)


def main(pages):
    if pages:
        names = dict(l.rstrip("\n").split("\t")[:2] for l in open(MAP, encoding="utf-8"))
        for p in pages:
            text = open(p, encoding="utf-8").read()
            if p.endswith(".edit"):
                new = TOKEN.sub(lambda m: names.get(m[0], m[0]), text)
            else:
                new = re.sub(r"`[^`\n]+`|\*\w+\*", lambda s: TOKEN.sub(lambda m: names.get(m[0], m[0]), s[0]), text)
            write(p, text, new)
        return
    for p in files(".antt"):
        text = open(p, encoding="utf-8").read()
        write(p, text, re.sub(r"(?<![\w.'-])(" + "|".join(DASHED) + r")(?![\w'-])", lambda m: DASHED[m[1]], text))
    names, fields = choose()
    with open(MAP, "w", encoding="utf-8") as f:
        f.writelines(f"{a}\t{b}\t{'field' if a in fields else ''}\n" for a, b in sorted(names.items()))
    for p in files(".antt", ".rt"):
        text = open(p, encoding="utf-8").read()
        write(p, text, turn_rt(text, names) if p.endswith(".rt") else turn_antt(text, names, fields))
    print(f"{len(names)} names")


main(sys.argv[1:])
