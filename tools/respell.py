#!/usr/bin/env python3
"""Brings the repository's own definitions and lemmas to today's spelling, after port.py.

usage: python3 tools/respell.py [--check]

Words are in snake case: `bytesOf` is `bytes_of`. A dash joins two names, as in `length-words_of`, and stays only
between such; a plain word is added with `_`, as in `not_whole_words`. Types, modules, facts and names of the kit stay.
Code of src/ outside clauses, comments' plain words, strings, and whatever is not a name of an .antt file stay.
It rewrites crates/*/{src,specs,proofs,must-fail} in place and prints the names that fall together. --check writes
nothing, and with --list it prints what each name becomes.
"""

import collections
import os
import re
import subprocess
import sys

# The kit's library, beside the page that `rt doc` names.
GUIDE = subprocess.run(["rt", "doc"], capture_output=True, text=True, check=True).stdout.strip()
KIT = os.path.join(os.path.dirname(GUIDE), "rattle")
CRATES = "crates"
NAME = re.compile(r"[^\W\d][\w'′″₀-₉]*(?:-[\w'′″₀-₉]+)*")
DECLARED = re.compile(
    r"^\s*(?:(?:pub|abbrev|unfoldable|opaque)\s+)*([^\s:(){}=]+(?:\s+[^\s:(){}=]+)*)\s+:\s"
)
# Words of the library that a dash may join to others.
JOINED = set(
    """length take drop append set sets get_or map add sub mul div mod suc pow le lt eqb leb ltb and or not true false
    zero one pos neg mag cons nil snoc reverse values digits decimal hex lines pieces paste lookup cond max min""".split()
)


def files(folder, endings):
    for at, dirs, names in os.walk(folder):
        dirs[:] = sorted(d for d in dirs if d not in ("out", ".git"))
        for name in sorted(names):
            if name.endswith(endings):
                yield os.path.join(at, name)


def read(path):
    with open(path, encoding="utf-8", errors="replace", newline="") as it:
        return it.read()


def uncommented(line):
    return re.sub(r"(^|(?<=[\s(){},;]))--(\s|$).*", "", line)


def snake(word):
    return re.sub(r"(?<=[a-z0-9])([A-Z])", lambda it: "_" + it[1].lower(), word) if word[:1].islower() else word


def respelled(name, functions):
    parts = name.replace("′", "'").replace("″", "''").split("-")
    parts = [snake(it) for it in parts]
    new = parts[0]
    for k in range(1, len(parts)):
        is_joined = parts[k - 1] in functions and parts[k] in functions
        new += ("-" if is_joined else "_") + parts[k]
    return new


def kit_names():
    """The kit's names that are not in plain snake case."""
    found = set()
    for path in files(KIT, ".antt"):
        if "/examples/" not in path:
            found.update(it for it in NAME.findall(read(path)) if "-" in it or snake(it) != it)
    return found


def is_of_a_function(path):
    """Whether the file is the proof of one function, whose names are goals."""
    return path.count("/proofs/") == 1 and "/" in path.split("/proofs/")[1]


def own_names():
    """The names of the .antt files, and those that specs/ and shared files of proofs/ declare."""
    declared, seen = set(), set()
    for path in files(CRATES, ".antt"):
        for line in read(path).split("\n"):
            line = uncommented(line)
            seen.update(NAME.findall(line))
            if not is_of_a_function(path) and (found := DECLARED.match(line)):
                declared.update(found[1].split())
    return declared, seen


def table():
    """What each name becomes. A lemma that would have its function's name gets `_lem`."""
    declared, seen = own_names()
    kit = kit_names() - declared
    functions = JOINED | {snake(it) for it in declared if "-" not in it}
    made = {}
    for name in seen:
        is_lemma = "-" in name and name in declared
        is_word = "-" not in name and snake(name) != name
        if name not in kit and not name[:1].isupper() and (is_lemma or is_word):
            new = respelled(name, functions)
            while new != respelled(new, functions):
                new = respelled(new, functions)
            made.update({name: new} if new != name else {})
    words = {new for old, new in made.items() if "-" not in old}
    for name in declared:
        if name in words:
            made[name] = name + "_lem"
    for name, new in list(made.items()):
        if "-" in name and new in words:
            made[name] = new + "_lem"
    return made, seen


def turned(text, made):
    return NAME.sub(lambda it: made.get(it[0], it[0]), text)


def in_source(text, made):
    """Turns the clauses and ghost imports of a source."""
    out, at = [], 0
    for it in re.finditer(r"\bghost use [^;]*;|\b(?:requires|ensures|ghost)\b[^{};/]*\{", text):
        if it.start() < at:
            continue
        end = it.end()
        if text[end - 1] == "{":
            depth = 1
            while depth:
                depth += (text[end] == "{") - (text[end] == "}")
                end += 1
        out += [text[at : it.start()], turned(text[it.start() : end], made)]
        at = end
    return "".join(out) + text[at:]


def in_comment(text, made):
    """In a comment only a name that no plain word could be is turned: one with a capital inside, or one in backquotes."""
    text = re.sub(r"`[^`\n]*`", lambda it: turned(it[0], made), text)
    return NAME.sub(lambda it: made.get(it[0], it[0]) if snake(it[0]) != it[0] and "-" not in it[0] else it[0], text)


def in_antt(text, made):
    lines = []
    for line in text.split("\n"):
        code = uncommented(line)
        lines.append(turned(code, made) + in_comment(line[len(code) :], made))
    return "\n".join(lines)


def in_edit(text, made):
    out = []
    for line in text.split("\n"):
        if line.startswith(("old:", "new:")):
            head, rest = line[:4], line[4:]
            is_source = "src/" in re.search(r"(?m)^file: (.*)$", text)[1]
            out.append(head + (NAME.sub(lambda it: made.get(it[0], it[0]) if snake(it[0]) != it[0] or "-" in it[0] and not is_source else it[0], rest)))
        else:
            out.append(in_comment(line, made))
    return "\n".join(out)


def main(argv):
    made, seen = table()
    by_new = collections.defaultdict(set)
    for old, new in made.items():
        by_new[new].add(old)
    for new, olds in sorted(by_new.items()):
        olds = sorted(olds | ({new} if new in seen else set()))
        if len(olds) > 1:
            print("fall together:", ", ".join(olds))
    print(len(made), "names")
    if "--list" in argv:
        for a, b in sorted(made.items()):
            print(a, b)
    if "--check" in argv:
        return 0
    for path in files(CRATES, (".antt", ".rt", ".edit")):
        text = read(path)
        if path.endswith(".antt"):
            new = in_antt(text, made)
        elif path.endswith(".rt"):
            new = re.sub(r"(?m)//.*$", lambda it: in_comment(it[0], made), in_source(text, made))
        else:
            new = in_edit(text, made)
        if new != text:
            with open(path, "w", encoding="utf-8", newline="") as it:
                it.write(new)
    return 0


if __name__ == "__main__":
    sys.exit(main(sys.argv[1:]))
