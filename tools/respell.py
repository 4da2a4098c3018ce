#!/usr/bin/env python3
"""Spells the repository's own definitions and lemmas in snake case, by names.tsv (old name, new name) and lemmas.tsv beside this file.

usage: tools/respell.py            at the top of the repository; once, files are rewritten in place

Definitions, lemmas, antt's constructors and fields were in camel case or had dashes. Types keep their capitals. Where a lemma would have met a
definition, or a name of the library, it has `_lem` at its end; four definitions that would have met another have a new word (has_bad_length,
is_beyond_counts, lowest_empty_set, without_table). Functions of src/, exported names and strings keep their names.

In .antt and .rt files all of the text is respelled but strings, names that a file imports from the library, and, in the answers and invariants
of a function, names that Rattle makes. In comments and pages a name with a dash is respelled between backticks only, since it may be two words
of English, and `nC` and `nA` stay, as the rules' symbols. It stops, having written nothing, where two names have one new name, or where a file
of specs/ has a new name beside the old one.
"""

import os
import re
import sys

HERE = os.path.dirname(os.path.realpath(__file__))
APART = r"\s(){}.;,@\"«»\[\]`"
NAME = re.compile(rf"(?<![^{APART}])[A-Za-z][^{APART}]*")
IN_PAGE = re.compile(r"[A-Za-z][\w'-]*")
USE = re.compile(r"^ *(?:pub )?(?:ghost )?use ([\w.]+?)(?:\.\{([^}]*)\})?(?: as (\w+))?;?$", re.M)
STRING = re.compile(r'b?"(?:[^"\\\n]|\\.)*"')
ANSWERS = re.compile(r"/proofs/(.*/)?(Answers|Invariants)\.antt$")
SYMBOLS = {"nC", "nA"}
# Steps of goals, which Rattle names after a function and a local.
MADE = {"rest-left", "best-is", "n-is", "row-is", "answer-is", "part-is", "x-is", "fair-is", "turn-made"}


def lemmas():
    """Lemmas that port.py has spelled like a definition, by file: they get `_lem` first, where old names still stand beside them."""
    out = {}
    with open(os.path.join(HERE, "lemmas.tsv"), encoding="utf-8") as f:
        for line in f:
            path, name = line.rstrip("\n").split("\t")
            out.setdefault(path, []).append(name)
    return out


def table():
    with open(os.path.join(HERE, "names.tsv"), encoding="utf-8") as f:
        return dict(line.rstrip("\n").split("\t") for line in f)


def crates():
    with open("crates.txt", encoding="utf-8") as f:
        return {line.split()[0].rstrip(":") for line in f if line.strip() and line[0] != "#"}


def files():
    for top in ("crates", "docs", "README.md"):
        if os.path.isfile(top):
            yield top
        for folder, dirs, names in os.walk(top):
            dirs[:] = sorted(d for d in dirs if d != "out")
            for name in sorted(names):
                if name.endswith((".antt", ".rt", ".edit", ".md")):
                    yield os.path.join(folder, name)


def foreign(text, ours):
    """The names that a file imports from the library, and those of the library's modules there."""
    found = set()
    for path, names, module in USE.findall(text):
        steps = path.split(".")
        if steps[0] != "Rattle" or len(steps) < 2 or steps[1] not in ours:
            found |= {it.split(" as ")[0].strip() for it in names.split(",")} | {module or steps[-1]}
    return found


def in_comment(text, new):
    new = {old: name for old, name in new.items() if old not in SYMBOLS}
    text = IN_PAGE.sub(lambda m: new.get(m[0], m[0]) if "-" not in m[0] else m[0], text)
    return re.sub(r"`[^`\n]*`", lambda b: IN_PAGE.sub(lambda m: new.get(m[0], m[0]), b[0]), text)


def in_code(text, new, answers, left):
    def one(m):
        name = m[0]
        behind = re.search(r"([\w'-]+)\.$", text[max(0, m.start() - 60) : m.start()])
        if behind and (behind[1] in left or answers and behind[1] in ("c", "w") and name in MADE):
            return name
        return new.get(name, name)

    return NAME.sub(one, text)


def respelled(path, text, new, ours):
    if path.endswith(".md"):
        return in_comment(text, new)
    left = foreign(text, ours)
    new = {old: name for old, name in new.items() if old not in left}
    if path.endswith(".edit"):
        return "".join(in_code(line, new, False, left) if line.startswith(("old:", "new:")) else in_comment(line, new) for line in text.splitlines(True))
    mark = "//" if path.endswith(".rt") else "--"
    out = []
    for line in text.splitlines(True):
        code, comment = line, ""
        for m in re.finditer(rf"(?:^|(?<=\s)){re.escape(mark)}", STRING.sub(lambda s: "_" * len(s[0]), line)):
            code, comment = line[: m.start()], line[m.start() :]
            break
        pieces, at = [], 0
        for s in STRING.finditer(code):
            pieces += [in_code(code[at : s.start()], new, ANSWERS.search(path), left), s[0]]
            at = s.end()
        pieces.append(in_code(code[at:], new, ANSWERS.search(path), left))
        out.append("".join(pieces) + in_comment(comment, new))
    return "".join(out)


def main():
    new, ours, again = table(), crates(), lemmas()
    if len(set(new.values())) != len(new):
        sys.exit("respell: two names would become one")
    made, met = {}, []
    for path in files():
        with open(path, encoding="utf-8") as f:
            text = f.read()
        if not set(NAME.findall(text)).isdisjoint(new):
            for name in again.get(path, ()):
                text = re.sub(rf"(?<![\w.-]){name}(?![\w-])", name + "_lem", text)
        if path.endswith(".antt") and "/specs/" in path:
            there = set(NAME.findall(re.sub(r"--.*", "", text)))
            met += [f"{path}: {old} would meet {new[old]}" for old in there & set(new) if new[old] in there and old not in foreign(text, ours)]
        made[path] = respelled(path, text, new, ours)
    if met:
        sys.exit("\n".join(met))
    for path, text in made.items():
        with open(path, "w", encoding="utf-8") as f:
            f.write(text)


main()
