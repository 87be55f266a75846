#!/usr/bin/env python3
"""Spells the names of this repository's definitions and lemmas in snake case: `settingsOf` and `fits-put` become `settings_of` and `fits_put`.

usage: tools/snake_names.py [--say]     at the top of the repository, once, after the Rattle port script

A name turns where its file declares it or takes it from a crate of this repository, and behind a dot. Names of functions, of goals and of the
library stay. In the papers a code span turns whose name is declared in the new spelling. The crate `log`, which the library has too, becomes
`sensor_log`. --say writes nothing, and shows the names that would fall together.
"""
import collections
import os
import re
import sys

WORD = r'[^\s(){}.;,@"«»`]+'
MARKS = r"(?:(?:pub|abbrev|unfoldable)\s+)*"
DECLARED = re.compile(rf"^\s*{MARKS}((?:{WORD} +)*?{WORD})\s*(?:\{{[^{{}}\n]*\}}\s*)*:(?=\s|$)")
ALONE = re.compile(rf"^\s*{MARKS}({WORD})\s*$")
NOT_NAMES = {"use", "module", "record", "data", "let", "in", "where", "unfolding", "mod", "open", "=", "→", "×"}
# a lemma that would have its definition's name, in a file that speaks of both
LEMMAS = {"norm-of", "is-minus-zero", "is-nought", "with-offset", "with-settings", "is-level", "in-turn", "size-at", "in-float", "is-nan", "locked-out"}
# the same of a lemma that the port script spelled so already
BESIDE = {
    "crates/apart/proofs/Rows.antt": "other_row",
    "crates/vector/proofs/Determinant.antt": "is_one",
    "crates/tally/proofs/Lining.antt": "begun_lines",
}
CRATE = ("log", "sensor_log")


def files(folder, endings):
    for place, folders, names in os.walk(folder):
        folders[:] = sorted(f for f in folders if f not in ("out", ".git"))
        for name in sorted(names):
            if name.endswith(endings):
                yield os.path.join(place, name)


def text_of(path):
    with open(path, encoding="utf-8") as f:
        return f.read()


def code(text):
    return re.sub(r"(?m)(^|\s)--.*$", r"\1", text)


def declared(text):
    """The names that a file declares, but for those that answer a goal of the same name."""
    found = set()
    lines = code(text).split("\n")
    for line, below in zip(lines, lines[1:] + [""]):
        m = DECLARED.match(line)
        if m and not NOT_NAMES & set(m[1].split()):
            goal = re.search(r": tie\.Need-(\S+)", line)
            found |= {n for n in m[1].split() if not (goal or re.match(r"(returns|loop)(-|$)", n))}
        elif re.match(r"\s+:\s", below):
            m = ALONE.match(line)
            if m and m[1] not in NOT_NAMES:
                found.add(m[1])
    return found


def snake(name):
    return re.sub(r"(?<=[a-z0-9])([A-Z])", lambda m: "_" + m[1].lower(), name).replace("-", "_")


def turned(name):
    return snake(name) + ("_lem" if name in LEMMAS else "")


def turns(name):
    return re.match(r"[a-z]", name) and snake(name) != name


def crates():
    return sorted(os.listdir("crates"))


def foreign(text):
    """The names that a file takes from the library."""
    own = "|".join(crates())
    found = set()
    for m in re.finditer(r"\buse ([^\s;{]+?)\.?\{([^}]*)\}", text):
        if not re.match(rf"(Rattle\.)({own})\.", m[1]):
            found |= {w for part in m[2].split(",") for w in part.split()}
    return found


def rename(text, table, mark):
    """Renames in the code, and in a comment's code spans."""
    stays = foreign(text)

    def words(s):
        return re.sub(WORD, lambda m: table[m[0]] if m[0] in table and m[0] not in stays else m[0], s)

    def line(s):
        at = re.search(rf"(^|\s){mark}( |$)", s)
        at = at.end() if at else len(s)
        return words(s[:at]) + re.sub(r"`[^`]+`", lambda m: "`" + words(m[0][1:-1]) + "`", s[at:])

    return "\n".join(map(line, text.split("\n")))


def beside(path, text):
    name = BESIDE.get(path)
    return re.sub(rf"(?<![\w.-]){name}(?![\w-])", name + "_lem", text) if name else text


def rename_crate(text):
    old, new = CRATE
    text = re.sub(rf"\bRattle\.{old}\.", f"Rattle.{new}.", text)
    text = re.sub(rf"(?<![\w.])use {old}::", f"use {new}::", text)
    return re.sub(rf"(?<![\w.:]){old}::", f"{new}::", text)


def main(say):
    antt = list(files("crates", ".antt"))
    names = collections.defaultdict(set)
    for path in antt:
        for name in declared(text_of(path)):
            names[name].add(path)
    table = {n: turned(n) for n in names if turns(n)}
    if say:
        for path in antt:
            words = set(re.findall(WORD, code(beside(path, text_of(path)))))
            stays = foreign(text_of(path))
            meets = collections.defaultdict(set)
            for w in words:
                meets[table[w] if w in table and w not in stays else w].add(w)
            for new, olds in sorted(meets.items()):
                if len(olds) > 1:
                    print(path, new, sorted(olds))
        return
    for path in antt + list(files("crates", ".rt")):
        old = text_of(path)
        new = rename_crate(rename(beside(path, old), table, "--" if path.endswith(".antt") else "//"))
        if new != old:
            with open(path, "w", encoding="utf-8") as f:
                f.write(new)
    spoken = {turned(n) for n in names}
    for path in [*files("docs", ".md"), "README.md", *files("tools", ""), "gateweave"]:
        if path.endswith("snake_names.py") or os.path.basename(path).startswith("."):
            continue
        old = text_of(path)
        new = re.sub(r"`([^`\n]+)`", lambda m: "`" + re.sub(WORD, lambda w: turned(w[0]) if turns(w[0]) and turned(w[0]) in spoken else w[0], m[1]) + "`", old)
        if path.endswith(".md"):
            new = re.sub(rf"`{CRATE[0]}(?=[:/`])", f"`{CRATE[1]}", new)
        if new != old:
            with open(path, "w", encoding="utf-8") as f:
                f.write(new)
    text = text_of("crates.txt")
    text = re.sub(rf"(?m)^(\w+:.*)$", lambda m: re.sub(rf"\b{CRATE[0]}\b", CRATE[1], m[1]), text)
    with open("crates.txt", "w", encoding="utf-8") as f:
        f.write(text)
    os.rename(f"crates/{CRATE[0]}", f"crates/{CRATE[1]}")


if __name__ == "__main__":
    main("--say" in sys.argv[1:])
