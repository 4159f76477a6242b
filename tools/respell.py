#!/usr/bin/env python3
"""Brings the definitions and lemmas of this repository to the spelling of today's Rattle: words in snake case.

usage: tools/respell.py      at the top of the repository, once, after the kit's port.py

tools/respell.txt lists the names, old and new. A name is turned in the proof language (crates/*/specs, crates/*/proofs, the clauses and comments of
crates/*/src, must-fail edits), in documents and in the tests' scripts: names in camel case anywhere but in a string, names with a dash in the proof
language, and between backquotes elsewhere. Names of functions, strings, inputs and outputs stay.
"""
import os
import re
import sys

TOP = os.path.dirname(os.path.dirname(os.path.realpath(__file__)))
# What a generated name is called in the folder of a function's proof.
GENERATED = re.compile(r"(?:^|/)proofs/(?:.*/)?(?:\+[^/]*/.*|Proof)\.antt$")
WORD = re.compile(r"(?<![\w'′-])([a-zμ][\w'′]*(?:-[\w'′]+)*)(?![\w'′-])")


def names():
    """The new name of each old one, and those that are turned in the files with one of these endings alone."""
    with open(os.path.join(TOP, "tools/respell.txt"), encoding="utf-8") as f:
        lines = [line.split() for line in f if line.strip()]
    return {l[0]: l[1] for l in lines if len(l) == 2}, [(l[0], l[1], tuple(l[2:])) for l in lines if len(l) > 2]


USE = re.compile(r"(?m)^\s*(pub )?(?:ghost |unfoldable )?(pub )?use ([^\s{;]+?)\.\{([^}]*)\}")


def module_of(at):
    """The path by which a file of the proof language is imported."""
    parts = at[: -len(".antt")].split(os.sep)
    return ".".join(["Rattle"] + parts[1:])


def of_the_library(text, own, passed_on):
    """The names that a file has from elsewhere than this repository's own files."""
    found = set()
    for _, _, path, items in USE.findall(text):
        ours = path.startswith("Rattle.") and path.split(".")[1] in own
        for item in items.split(","):
            name = item.split(" as ")[0].strip()
            if not ours or name in passed_on.get(path, ()):
                found.add(name)
    return found


def passed_on_by(own):
    """For each file of the proof language the names that it passes on from the library."""
    found = {}
    for folder, _, files in os.walk(os.path.join(TOP, "crates")):
        for name in files:
            if name.endswith(".antt") and "/out/" not in folder:
                path = os.path.join(folder, name)
                with open(path, encoding="utf-8") as f:
                    text = f.read()
                for a, b, of, items in USE.findall(text):
                    if (a or b) and not (of.startswith("Rattle.") and of.split(".")[1] in own):
                        names = {i.split(" as ")[0].strip() for i in items.split(",")}
                        found.setdefault(module_of(os.path.relpath(path, TOP)), set()).update(names)
    return found


def turned(text, new):
    return WORD.sub(lambda m: new.get(m.group(1), m.group(1)), text)


def without_lemma(n):
    return n[:-4] if n.endswith("_lem") else n


def in_proofs(line, new, generated):
    code, dashes, comment = re.match(r"(.*?)((?:(?<=\s)|^)--(?=\s|$)|$)(.*)", line, re.S).groups()

    def one(m):
        word = m.group(1)
        if word not in new:
            return word
        behind = code[: m.start()].endswith(".")
        return without_lemma(new[word]) if behind and generated and "-" in word else new[word]

    return WORD.sub(one, code) + dashes + in_text(comment, new)


def camel(new):
    return {o: n for o, n in new.items() if "-" not in o}


def in_text(text, new):
    parts = re.split(r"(`[^`]*`)", text)
    some = camel(new)
    return "".join(turned(p, new if i % 2 else some) for i, p in enumerate(parts))


def in_code(text, new):
    """Clauses and `ghost` items of a .rt file in the proof language; of the rest the comments."""
    out = []
    inside = 0
    for line in text.split("\n"):
        code, slashes, comment = re.match(r"(.*?)((?<!:)//|$)(.*)", line, re.S).groups() if '"' not in line else (line, "", "")
        begins = re.match(r"\s*(pub )?(ghost\b|requires\b|ensures\b|decreases\b)", code)
        if inside or begins:
            code = turned(code, new)
            inside += code.count("{") - code.count("}")
        out.append(code + slashes + in_text(comment, new))
    return "\n".join(out)


def in_edit(text, new):
    """An edit: its lines of code by the file that they are of."""
    out, of = [], ""
    for line in text.split("\n"):
        head, rest = (line.split(" ", 1) + [""])[:2] if " " in line else (line, "")
        if head == "file:":
            of = rest
        if head in ("old:", "new:"):
            line = head + " " + (in_proofs(rest, new, bool(GENERATED.search(of))) if of.endswith(".antt") else turned(rest, camel(new)))
        elif head == "at:":
            line = head + " " + turned(rest, new)
        elif head == "#":
            line = in_text(line, new)
        out.append(line)
    return "\n".join(out)


def main():
    everywhere, somewhere = names()
    own = set(os.listdir(os.path.join(TOP, "crates")))
    passed_on = passed_on_by(own)
    for folder, dirs, files in os.walk(TOP):
        dirs[:] = sorted(d for d in dirs if d not in (".git", "out", "target", "tools", "src") or (d == "src" and "/crates/" in folder + "/"))
        rel = os.path.relpath(folder, TOP)
        for name in sorted(files):
            path = os.path.join(folder, name)
            at = os.path.join(rel, name)
            new = {**everywhere, **{o: n for o, n, ends in somewhere if at.endswith(ends)}}
            if not name.endswith((".antt", ".rt", ".edit", ".md")):
                continue
            with open(path, encoding="utf-8", newline="") as f:
                old = f.read()
            for gone in of_the_library(old, own, passed_on):
                new.pop(gone, None)
            if name.endswith(".antt"):
                turn = lambda t: "\n".join(in_proofs(l, new, bool(GENERATED.search(at))) for l in t.split("\n"))
            elif name.endswith(".rt"):
                turn = lambda t: in_code(t, new)
            elif name.endswith(".edit"):
                turn = lambda t: in_edit(t, new)
            else:
                turn = lambda t: in_text(t, new)
            text = turn(old)
            if text != old:
                with open(path, "w", encoding="utf-8", newline="") as f:
                    f.write(text)


if __name__ == "__main__":
    sys.exit(main())
