#!/usr/bin/env python3
"""Spells the repository's own definitions and lemmas as today's Rattle spells its own: words in snake case, a dash only between two names.

usage: tools/respell.py            at the top of the repository, once, after the kit's port.py: turns every whole name by tools/respell.tsv
       tools/respell.py --table    writes tools/respell.tsv anew from the names that the crates declare

Only whole names turn, the same in every crate, so that what stood for one thing stands for one thing. Comments and documents turn in code spans,
and wherever a name has a capital inside.
"""
import collections
import os
import re
import sys

NAME = r"[^\s(){}.;,@\"«»`\[\]]+"
TABLE = os.path.join(os.path.dirname(os.path.abspath(__file__)), "respell.tsv")
# Where another thing has the plain name already.
OTHERWISE = {
    "addTerm": "plus_term", "generatorLimit": "generator_count_limit", "goesOn": "keeps_going", "lastLine": "final_line", "noRoom": "without_room",
    "numbersOf": "numbers_in", "outOfRange": "beyond_range", "pairRow": "pair_row_of", "refusedAs": "refused_so", "setBody": "body_of_set",
    "termLimit": "term_count_limit", "tooWide": "is_too_wide", "countBytes": "bytes_of_count", "noInput": "without_input", "noOutput": "without_output",
    "wrongCounts": "miscounted",
}
HUMP = re.compile(r"(?<=[a-z0-9])(?=[A-Z])|(?<=[a-z])(?=[ℤℚℕ])")


def files(*ends):
    for folder, dirs, names in os.walk("crates"):
        dirs[:] = sorted(d for d in dirs if d not in ("out", "must-fail", "data"))
        for name in sorted(names):
            if name.endswith(ends):
                yield os.path.join(folder, name)


def read(path):
    with open(path, encoding="utf-8") as f:
        return f.read()


def declared():
    """Each declared name with what it is: a word that others cite, or a lemma."""
    found = collections.defaultdict(set)
    for path in files(".antt"):
        proof = path.endswith("/Proof.antt")
        for line in read(path).splitlines():
            if line.lstrip().startswith(("--", "use ", "mod ", "pub mod ")):
                continue
            m = re.match(r"\s*((?:(?:pub|abbrev|unfoldable|data|record|ruleset) +)*)([^:(){}=]+?)(?: [({].*)? :(?: |$)| *where$|(?<=ruleset )", line)
            if not m:
                m = re.match(r"\s*((?:(?:pub|abbrev|unfoldable|data|record|ruleset) +)+)(\S+)", line)
            if not m or not m.group(2) or proof and re.search(r": tie\.|-spec :", line):
                continue
            word = re.search(r"abbrev|unfoldable|data|record|ruleset", m.group(1))
            for name in m.group(2).split():
                if re.fullmatch(NAME, name) and not re.search(r"[=→λ|]|^(let|in|where|module|_|unfolding|infix[lr]?|\d+)$", name.replace("→", "", 1)):
                    found[name].add("word" if word else "lemma")
    return found


def library():
    """The words of the kit's library that are names of their own."""
    words = set()
    kit = "/opt/rattle/rattle"
    for path in ("core/specs/Prelude.antt", "std/specs/Prelude.antt", "std/proofs/Common.antt"):
        for names in re.findall(r"\{([^}]*)\}", read(os.path.join(kit, path))):
            words |= {n.split(" as ")[-1].strip() for n in names.split(",")}
    return words


def respelled(name, words):
    name = HUMP.sub("_", name) if name[:1].islower() or not name[:1].isalpha() or "-" in name else name
    parts = name.split("-")
    # the humps of a type stay as they are, the rest is in small letters
    parts = [p if p[:1].isupper() and re.fullmatch(r"[A-Z][A-Za-z0-9']*", p.replace("_", "")) else re.sub(r"[A-Z]", lambda m: m.group().lower(), p) for p in parts]
    parts = [p.replace("_", "") if p[:1].isupper() else p for p in parts]
    if "" in parts:
        return "-".join(parts)
    is_name = lambda p: p in words or p[:1].isupper() or bool(re.search(r"[^a-z0-9_']", p))
    text = parts[0]
    left = parts[0]
    for at, p in enumerate(parts[1:], 1):
        right = ["_".join(parts[at:end]) for end in range(at + 1, len(parts) + 1)]
        loud = lambda n: n[:1].isupper() or bool(re.search(r"[^a-z0-9_']", n))
        if loud(left) or loud(p) or is_name(left) and any(is_name(r) for r in right):
            text, left = text + "-" + p, p
        else:
            text, left = text + "_" + p, left + "_" + p
    return text


def table():
    found = declared()
    everything = set()
    for path in files(".antt"):
        everything |= set(re.findall(rf"(?<![.\w]){NAME}", re.sub(r"(?m)--.*$", "", read(path))))
    # of the code a clause sees parameters, fields, constants and what it brings in
    for path in files(".rt"):
        code = re.sub(r"(?m)//.*$", "", read(path))
        everything |= set(re.findall(r"\b(\w+):(?!:)|\bconst (\w+)", code) and [a or b for a, b in re.findall(r"\b(\w+):(?!:)|\bconst (\w+)", code)])
        for names in re.findall(r"ghost use [^;]*\{([^}]*)\}", code):
            everything |= {n.strip() for n in names.split(",")}
    own = {n for n, kinds in found.items() if "word" in kinds}
    words = library() | own | {respelled(n, own) for n in own if "-" not in n}
    rows, taken = [], set()
    for name in sorted(found, key=lambda n: ("word" not in found[n], n)):
        new = respelled(name, words)
        if "word" in found[name] and re.fullmatch(r"[\w'-]+", new) and new[:1].islower():
            new = new.replace("-", "_")
        new = OTHERWISE.get(name, new)
        if new == name:
            continue
        if new in everything or new in taken:
            print(f"stays, as another is called {new}: {name}")
            continue
        rows.append((name, new))
        taken.add(new)
    with open(TABLE, "w", encoding="utf-8") as f:
        f.writelines(f"{o}\t{n}\n" for o, n in sorted(rows))
    print(len(rows), "names")


def turned(text, rows, everywhere):
    return re.sub(NAME, lambda m: rows[m.group()] if m.group() in rows and (everywhere or re.search(r"[a-z][A-Z]", m.group())) else m.group(), text)


def spans(text, rows):
    """A comment or a document: what stands between backticks, and humps anywhere."""
    parts = text.split("`")
    return "`".join(turned(p, rows, at % 2 == 1) for at, p in enumerate(parts))


def turn():
    rows = dict(line.split("\t") for line in read(TABLE).splitlines())
    for path in files(".antt", ".rt"):
        mark = "--" if path.endswith(".antt") else "//"
        lines = []
        for line in read(path).split("\n"):
            m = re.match(rf'((?:[^"]|"(?:[^"\\]|\\.)*")*?)((?<![^\s(){{}};,]){re.escape(mark)}(?![^\s/-]).*)$', line)
            code, comment = m.groups() if m else (line, "")
            code = "".join(p if p.startswith('"') else turned(p, rows, True) for p in re.split(r'("(?:[^"\\]|\\.)*")', code))
            lines.append(code + spans(comment, rows))
        text = "\n".join(lines)
        if text != read(path):
            with open(path, "w", encoding="utf-8") as f:
                f.write(text)
    for folder, _, names in [(".", None, ["README.md"])] + list(os.walk("docs")):
        for name in names:
            if name.endswith(".md"):
                path = os.path.join(folder, name)
                text = spans(read(path), rows)
                with open(path, "w", encoding="utf-8") as f:
                    f.write(text)


if __name__ == "__main__":
    table() if sys.argv[1:] == ["--table"] else turn()
