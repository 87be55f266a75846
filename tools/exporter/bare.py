#!/usr/bin/env python3
"""Holds an exported crate to the text that it was written from, by another way than rules.py, with which it shares no code: both texts
are cut to bare words and signs, which must be the same.

usage: tools/exporter/bare.py REPOSITORY TOOLCHAIN CRATE

From the Rattle go comments, tactics, clauses, what is ghost and the word `final`; `std::num::` is `num::` and any other `std::` is `core::`;
a type derives no Drop, and Debug last where it lacked; a field that all may see, beside an invariant, only the crate may; and of `fmt` the sink is no
parameter. From the Rust go comments and `crate::`, and `in crate::NAME` is `crate`. Of the toolchain's libraries each function is held to the
one of its name.
"""
import pathlib
import re
import sys

LIBRARIES = {"num": ("core/src/num.rt", "core/src/num/casts.rt"), "io": ("io/src/number.rt",)}


def words(text):
    return re.findall(r"""b?"(?:\\.|\\\n|[^"\\])*"|b'(?:\\.|[^'])'|\w+(?:\.\d\w*)?|[^\s\w]""", text)


def without_comments(text):
    return re.sub(r"//[^\n]*", "", text)


def without_clauses(text):
    kept, at = "", 0
    for clause in re.finditer(r"(?m)^\s*(?:requires|ensures)\b[^{\n]*\{", text):
        if clause.start() < at:
            continue
        kept += text[at:clause.start()]
        depth, at = 1, clause.end()
        while depth:
            depth += (text[at] == "{") - (text[at] == "}")
            at += 1
    return kept + text[at:]


def without_ghosts(text):
    """A text without its ghost lines, of which the last ends in a comma or a semicolon outside braces."""
    kept, inside, depth = [], False, 0
    for line in text.split("\n"):
        inside = inside or bool(re.match(r" *(?:pub(?:\(crate\))? )?ghost ", line))
        if not inside:
            kept.append(line)
            continue
        depth += line.count("{") - line.count("}")
        inside = depth > 0 or not line.endswith((",", ";"))
    return "\n".join(kept)


def closed(struct):
    """A type beside whose fields a fact stands: they are the crate's."""
    return re.sub(r"(?m)^ +pub (?=\w+:)", "pub(crate) ", struct[0]) if re.search(r"\bghost\b", struct[0]) else struct[0]


def derives(line):
    names = re.findall(r"\b(?!derive|Drop)[A-Z]\w+", line[0])
    return f"#[derive({', '.join(names if 'Debug' in names else [*names, 'Debug'])})]"


def rattle(text):
    """A Rattle text without what is the prover's."""
    text = re.sub(r"(?m)^ *#!?\[tactic\(.*?\)\]$", "", without_comments(text), flags=re.S)
    text = re.sub(r"(?ms)^(?:pub\S* )?struct \w+[^;{]*\{.*?^\}", closed, text)
    text = without_clauses(without_ghosts(text))
    text = re.sub(r"(?m)^ *#\[derive\(.*\)\]$", derives, text)
    text = text.replace("fn fmt<W: fmt::Write>(&self, f: &mut fmt::Formatter<W>)", "fn fmt(&self, f: &mut fmt::Formatter<'_>)")
    text = re.sub(r"\bfinal fn\b", "fn", text.replace("std::num::", "num::"))
    return re.sub(r"\bstd::", "core::", text)


def rust(text):
    """A Rust text without what the export adds."""
    return re.sub(r"\bcrate::", "", re.sub(r"\bin crate::\w+", "crate", without_comments(text)))


def functions(text):
    """Each function at the left margin by its name."""
    return {m[1]: words(m[0]) for m in re.finditer(r"(?ms)^(?:pub )?(?:const )?fn (\w+).*?^\}", text)}


def compared(name, ours, theirs):
    if ours != theirs:
        at = next((i for i, (a, b) in enumerate(zip(ours, theirs)) if a != b), min(len(ours), len(theirs)))
        sys.exit(f"{name} differs: {' '.join(ours[max(at - 5, 0):at + 5])} | {' '.join(theirs[max(at - 5, 0):at + 5])}")
    return len(ours)


def main(repository, toolchain, crate):
    repository, toolchain, source = pathlib.Path(repository), pathlib.Path(toolchain), pathlib.Path(crate) / "src"
    made = {p.relative_to(source).with_suffix("") for p in source.rglob("*.rs")} - {pathlib.Path("lib")}
    modules = set(re.findall(r"(?m)^(?:pub )?mod (\w+);$", (source / "lib.rs").read_text("utf-8")))
    folders = {m: repository / "crates" / m / "src" for m in modules - LIBRARIES.keys()}
    expected = {pathlib.Path(m, *([] if p.stem == "lib" else [p.stem])) for m, folder in folders.items() for p in folder.glob("*.rt")}
    expected |= {pathlib.Path(m) for m in modules & LIBRARIES.keys()}
    if odd := made ^ expected:
        sys.exit(f"a file on one side alone: {sorted(map(str, odd))[0]}")
    count = 0
    for path in sorted(made):
        name, text = path.parts[0], rust((source / path).with_suffix(".rs").read_text("utf-8"))
        if name in LIBRARIES:
            theirs = functions(rattle("".join((toolchain / "rattle" / file).read_text("utf-8") for file in LIBRARIES[name])))
            ours = functions(text)
            count += compared(path, words(text), sum(ours.values(), []))
            count += sum(compared(f"{name}::{f}", ours[f], theirs[f]) for f in ours) - len(words(text))
        else:
            stem = path.stem if len(path.parts) > 1 else "lib"
            count += compared(path, words(text), words(rattle((folders[name] / f"{stem}.rt").read_text("utf-8"))))
    print(f"{len(made)} files, {count:,} words and signs: the same")


if __name__ == "__main__":
    main(*sys.argv[1:])
