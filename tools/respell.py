#!/usr/bin/env python3
"""Brings the repository's own definitions, lemmas and fields to today's spelling, once, after port.py.

usage: python3 tools/respell.py [--show]      at the top of the repository; --show prints the names and changes nothing

Words are in snake case (`hasBit` is `has_bit`, `has-with-bit` is `has_with_bit`). A dash stays where it joins the names
of two definitions (`length-row_bytes`), after a type (`Fits-word`), and where its name would fall together with another.
Types, modules, functions of src/, made names (`loop-i-preserved`) and the library's names stay as they are.
Comments and pages are turned inside backticks alone. Must-fail edits follow; port.py leaves those to be mended by hand.
"""

import collections
import glob
import os
import re
import sys

WORD = r"[A-Za-z0-9_'₀-₉ₐ-ₜ⁰-⁹²³¹ℕ]"
TOKEN = re.compile(rf"(?<![\w'·-])[a-z]{WORD}*(?:-{WORD}+)*(?![\w'-])")
SIGNATURE = re.compile(rf"(?:(?:unfoldable|abbrev) )?(?:pub )?([A-Za-z]{WORD}*(?:[-·]{WORD}+)*) :(?: |$)")
# Below a `module` line or a `where`.
INNER = re.compile(rf" {{2,8}}(?:pub )?(?:(?:unfoldable|abbrev) )?(?:pub )?([a-z]{WORD}*(?:-{WORD}+)*) : ")
FIELD = re.compile(rf"  (?:pub )?((?:[a-z]{WORD}*(?:-{WORD}+)*)(?: [a-z]{WORD}*(?:-{WORD}+)*)*) : ")
LIBRARY_WORDS = set("length map take drop append set replicate get_or sum add mul sub div mod pow cond not min max".split())


def antt_files():
    return sorted(f for f in glob.glob("crates/*/specs/**/*.antt", recursive=True) + glob.glob("crates/*/proofs/**/*.antt", recursive=True))


def own_names():
    """Names that the repository defines; those among them that are definitions of specs/; fields and constructors; made names."""
    names, definitions, fields, made = set(), set(), set(), set()
    for path in antt_files():
        block = inside = False
        for line in open(path, encoding="utf-8"):
            if line.strip() == "where":
                inside = True
            if line[:1] not in (" ", "\n", "-", ""):
                block = bool(re.match(r"(pub )?(record|data) ", line))
                inside = line.startswith("module ")
                m = SIGNATURE.match(line)
                if m and m.group(1) != "use":
                    if re.search(r": (tie|goal)\.", line):
                        made.add(m.group(1))
                    else:
                        names.add(m.group(1))
                        if "/specs/" in path:
                            definitions.add(m.group(1))
            elif block:
                m = FIELD.match(line)
                if m:
                    fields.update(m.group(1).split())
            elif inside:
                m = INNER.match(line)
                if m:
                    names.add(m.group(1))
    return names, definitions, fields, made


def library_names():
    """Names that some file takes from the library."""
    crates = {os.path.basename(p) for p in glob.glob("crates/*")}
    found = set()
    for path in antt_files() + glob.glob("crates/*/src/**/*.rt", recursive=True):
        for m in re.finditer(r"^(?:ghost )?use ([\w.◌'-]+)\.\{([^}]*)\}", open(path, encoding="utf-8").read(), re.M):
            head = m.group(1).split(".")
            if head[0] == "Rattle" and head[1] in crates:
                continue
            found.update(n.strip().split(" as ")[0] for n in m.group(2).split(","))
    return found


# Names that the rule would leave halfway, with a dash in their midst.
WHOLE = "answer_of length_image_bytes length_list_at length_list_bytes minus_zero_written over_length_fits take_list_at".split()


def snake(part):
    part = part.replace("NaN", "Nan")
    part = re.sub(r"(?<=[a-z])(?=\d+$)", "_", part) if part[:1].islower() and re.search("[A-Z]", part) else part
    return re.sub(r"(?<=[a-z0-9])([A-Z])", lambda m: "_" + m.group(1).lower(), part) if part[:1].islower() else part


def respelled(name, known):
    parts = name.split("-")
    if parts[-1] == "spec":
        return "_".join(snake(p) for p in parts)
    text = snake(parts[0])
    for before, part in zip(parts, parts[1:]):
        joins = before[:1].isupper() or part[:1].isupper() or (before in known and part in known)
        text += ("-" if joins else "_") + snake(part)
    whole = text.replace("-", "_")
    return whole if whole in WHOLE else text


def table(names, definitions, fields, made, library):
    known = definitions | LIBRARY_WORDS
    functions = {m for p in glob.glob("crates/*/src/**/*.rt", recursive=True) for m in re.findall(r"\bfn (\w+)", open(p, encoding="utf-8").read())}
    every = names | fields
    wanted = {n: respelled(n, known) for n in every if n not in library and (n not in made or respelled(n, known) in WHOLE)}
    # Nor does a name become one of the library's.
    wanted = {n: to for n, to in wanted.items() if n != to and (to not in library or to in WHOLE)}
    taken = collections.defaultdict(set)
    for n in every:
        taken[wanted.get(n, n)].add(n)
    kept = []
    for to, group in sorted(taken.items()):
        if len(group) > 1:
            # A definition comes first; a lemma beside it keeps its dash.
            for n in sorted(group):
                if "-" in n and n in wanted:
                    wanted[n] = "-".join(snake(p) for p in n.split("-"))
                    kept.append(n)
                    if wanted[n] == n:
                        del wanted[n]
                elif n == to and n not in definitions | functions and any(re.search("[A-Z]", other) for other in group):
                    # port.py wrote it so, since the library has a name that it was.
                    wanted[n] = n.replace("_", "-")
                    kept.append(n)
    left = collections.defaultdict(set)
    for n in every:
        left[wanted.get(n, n)].add(n)
    together = sorted(sorted(g) for g in left.values() if len(g) > 1)
    return wanted, kept, together


def turn(text, wanted, fields):
    def one(m):
        n = m.group(0)
        if n not in wanted:
            return n
        before = text[: m.start()]
        owner = re.search(rf"({WORD}+)\.$", before)
        if before.endswith(").") or (owner and not owner.group(1)[:1].isupper()):
            if n not in fields:
                return n
        return wanted[n]

    return TOKEN.sub(one, text)


def turn_ticks(text, wanted, fields):
    return re.sub(r"`[^`\n]+`", lambda m: turn(m.group(0), wanted, fields), text)


def turn_file(path, wanted, fields):
    old = open(path, encoding="utf-8").read()
    if path.endswith(".md"):
        new = turn_ticks(old, wanted, fields)
    else:
        comment = {".rt": "//", ".antt": "--", ".edit": "#"}[os.path.splitext(path)[1]]
        lines = []
        for line in old.split("\n"):
            at = len(line) if comment == "#" and not line.startswith("#") else line.find(comment)
            if at < 0 or (comment == "#" and not line.startswith("#")):
                lines.append(turn(line, wanted, fields))
            else:
                lines.append(turn(line[:at], wanted, fields) + turn_ticks(line[at:], wanted, fields))
        new = "\n".join(lines)
    if new != old:
        with open(path, "w", encoding="utf-8") as f:
            f.write(new)
    return new != old


def main():
    names, definitions, fields, made = own_names()
    wanted, kept, together = table(names, definitions, fields, made, library_names())
    print(f"respell: {len(wanted)} of {len(names | fields)} names change; {len(kept)} keep a dash so as not to fall together with another")
    for n in sorted(kept):
        print("keeps its dash:", n)
    for group in together:
        print("fall together:", " ".join(group))
    if "--show" in sys.argv[1:]:
        # A name that a file has already, of a parameter or a variable, may hide the new one there.
        for path in antt_files() + sorted(glob.glob("crates/*/src/**/*.rt", recursive=True)):
            have = set(re.findall(rf"(?<![\w'·-])[a-z]{WORD}*(?:-{WORD}+)*(?![\w'-])", open(path, encoding="utf-8").read()))
            for n in sorted(have & set(wanted)):
                if wanted[n] in have and wanted[n] not in wanted:
                    print(f"stands there already: {path}: {n} -> {wanted[n]}")
        for n, to in sorted(wanted.items()):
            print(f"{n} -> {to}")
        return
    files = antt_files() + glob.glob("crates/*/src/**/*.rt", recursive=True) + glob.glob("crates/*/must-fail/*.edit")
    files += ["README.md"] + [p for p in glob.glob("docs/**/*.md", recursive=True) if os.path.basename(p) != "PORT.md"]
    changed = sum(turn_file(p, wanted, fields) for p in sorted(files))
    print(f"respell: {changed} files changed")


main()
