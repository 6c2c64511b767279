#!/usr/bin/env python3
"""Spells this repository's own definitions and lemmas in snake case: a dash inside a name becomes an underscore.

usage: tools/respell.py [--check]

Run once, at the top, after /opt/rattle/port/port.py. A name is this repository's own where a file of specs/ or of proofs/
(but for the files Proof.antt, whose names are those of generated goals) declares it and no library does that such a file
imports it from. A lemma's name keeps the dash where it joins the names of two definitions, as padded-take does. Names of
src/, strings, inputs and outputs stay. It says which names fall together, and where a new spelling meets one that a file has.
In must-fail/*.edit it turns the lines old: and new:, in pages what stands in backquotes.
"""
import collections
import os
import re
import sys

NAME = r'[^\s(){}.;,@"«»\[\]\x60]+'
DECLARED = re.compile(r"(?m)^ *(?:(?:pub|abbrev|unfoldable|pattern|ruleset|record|data) +)*(" + NAME + r")(?: \{[^{}\n]*\})*(?: \([^()\n]*\))* [:=](?= |$)")
LOCAL = re.compile(r"\blet +(" + NAME + r") *[:=]")
WORD = re.compile(NAME)
USE = re.compile(r"(?m)^\s*(?:pub )?(?:ghost )?use ([^\s;{]+?)\.?\{([^}]*)\}")


def files(ending):
    for folder, dirs, names in os.walk("crates"):
        dirs[:] = sorted(d for d in dirs if d != "out")
        for name in sorted(names):
            if name.endswith(ending):
                yield os.path.join(folder, name)


def read(path):
    with open(path, encoding="utf-8") as f:
        return f.read()


def bare(text):
    """The text of an .antt file without its comments."""
    return re.sub(r"(?m)(?<![^\s(){}.;,@\"])--(?=\s|$|-).*$", "", text)


def declared():
    """The names with a dash that specs/ and proofs/ declare, and all names that specs/ declares or that come from a library."""
    dashed, words, lemmas = set(), set(), set()
    for path in files(".antt"):
        text = bare(read(path))
        for library, items in USE.findall(text):
            if not library.startswith("Rattle.") or library.startswith("Rattle.std"):
                words.update(re.split(r"[\s,]+", items))
        if path.endswith("/Proof.antt"):
            continue
        for name in DECLARED.findall(text) + LOCAL.findall(text):
            if "/specs/" in path:
                words.add(name)
                if "-" in name:
                    dashed.add(name)
            elif "-" in name:
                lemmas.add(name)
    return dashed, lemmas, words


def joined(name, words):
    """The name in snake case, but for a dash between two names of definitions."""
    parts = name.split("-")
    if parts[0][:1].isupper():  # a type at the head of a name keeps its dash
        return parts[0] + "-" + "_".join(parts[1:])
    best = None
    for at in range(1, len(parts)):
        left, right = "_".join(parts[:at]), "_".join(parts[at:])
        if left in words and right in words:
            best = left + "-" + right
    return best or "_".join(parts)


def table():
    definitions, lemmas, words = declared()
    libraries = set()
    for path in files(".antt"):
        for library, items in USE.findall(bare(read(path))):
            if not library.startswith("Rattle.") or library.startswith("Rattle.std"):
                libraries.update(re.split(r"[\s,]+", items))
    known = {w.replace("-", "_") for w in words if re.match(r"[a-z]", w)} | {"append", "le", "lt"}
    rows = {}
    for name in definitions:
        if name not in libraries:
            rows[name] = name.replace("-", "_")
    for name in lemmas:
        if name not in libraries and name not in rows:
            rows[name] = joined(name, known)
    return {old: new for old, new in rows.items() if old != new}, definitions


def code(text, rows):
    return WORD.sub(lambda m: rows.get(m[0], m[0]), text)


def comment(text, rows, prose):
    """A comment: what stands in backquotes or alone in parentheses, and lemmas whose names no sentence has."""
    text = re.sub(r"\x60[^\x60\n]*\x60", lambda m: code(m[0], rows), text)
    text = re.sub(r"\((" + NAME + r"(?:, " + NAME + r")*)\)", lambda m: "(" + code(m[1], rows) + ")", text)
    return WORD.sub(lambda m: rows[m[0]] if m[0] in prose else m[0], text)


def antt(text, rows, prose):
    out = []
    for line in text.split("\n"):
        m = re.search(r"(?<![^\s(){}.;,@\"])--(?=\s|$|-)", line)
        at = m.start() if m else len(line)
        out.append(code(line[:at], rows) + comment(line[at:], rows, prose))
    return "\n".join(out)


def rust(text, rows, prose):
    out = []
    for line in text.split("\n"):
        m = re.search(r"//", line)
        at = m.start() if m else len(line)
        body = line[:at]
        parts = re.split(r'("(?:\\.|[^"\\])*")', body)
        body = "".join(p if p.startswith('"') else code(p, rows) for p in parts)
        out.append(body + comment(line[at:], rows, prose))
    return "\n".join(out)


def main(check):
    rows, definitions = table()
    prose = {n for n in rows if n not in definitions and re.match(r"(computed|rule[23]|told|exact|edition|free|first|answers|program|serve|spent|floor|half)-", n)} - {"half-move", "half-width"}
    met = collections.defaultdict(list)
    for old, new in rows.items():
        met[new].append(old)
    for new, olds in met.items():
        if len(olds) > 1:
            print("fall together:", new, olds)
    clashes = 0
    for path in list(files(".antt")) + list(files(".rt")):
        text = read(path)
        text = bare(text) if path.endswith(".antt") else re.sub(r"//.*", "", text)
        have = set(WORD.findall(text))
        bareword = set(re.findall(r"(?<![.\w-])" + NAME, text))
        for old in have & set(rows):
            if rows[old] in bareword:
                lines = [l.strip()[:150] for l in text.split("\n") if re.search(r"(?<![\w.-])" + re.escape(rows[old]) + r"(?![\w'-])", l)]
                print("meets:", path, old, "->", rows[old], "|", lines[:2])
                clashes += 1
    print(len(rows), "names;", clashes, "meetings")
    if check:
        return 0
    for path in files(".antt"):
        write(path, antt(read(path), rows, prose))
    for path in files(".rt"):
        write(path, rust(read(path), rows, prose))
    for path in files(".edit"):
        write(path, re.sub(r"(?m)^(?:old|new): .*", lambda m: code(m[0], rows), read(path)))
    for folder, dirs, names in os.walk("."):
        dirs[:] = sorted(d for d in dirs if d not in (".git", "target", "out", "build", "second", "rust", "bench", "examples", "include", "crates"))
        for name in sorted(names):
            path = os.path.join(folder, name)
            if name.endswith(".md"):
                write(path, re.sub(r"\x60[^\x60\n]*\x60", lambda m: code(m[0], rows), read(path)))
    return 0


def write(path, text):
    if text != read(path):
        with open(path, "w", encoding="utf-8") as f:
            f.write(text)


if __name__ == "__main__":
    sys.exit(main("--check" in sys.argv[1:]))
