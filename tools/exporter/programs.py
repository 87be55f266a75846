"""The proved programs as Rust over the exported crate, by the same rules: only to hold the crate to the inputs and outputs that are stored
for the gate. What they use of the system is written here, for this machine (host.rs) or for a device without Rust's library (device.rs)."""
import pathlib
import re

import command
import rules

HERE = pathlib.Path(__file__).resolve().parent
# What is no crate of the export: where a program finds it.
PATHS = {"verdict": "crate::", "stored": "crate::", "io": "crate::system::kit::"}
# Crates that are a file of each program that stands on them.
BESIDE = ("verdict", "stored")
# What `verdict` says of an error of the system has macros, and is written here.
FAILED = re.compile(r"(?s)// In what std prints of an error.*|use std::[^;]*;\n|// As the shell[^\n]*\nconst READER_GONE[^;]*;\n")


def names(project):
    """The programs that have a stored input and output."""
    folder = project.top / "crates"
    return [c for c in project.rows if "main" in project.files(c) and (folder / c / "stdin").is_file() and (folder / c / "stdout").is_file()]


def with_host(text):
    """A file of a program as Rust has it: `HostRuntime` is brought in, and `main` makes it."""
    text = re.sub(r"fn main\(rt: HostRuntime\)(.*) \{", r"fn main()\1 {\n    let rt = HostRuntime;", text)
    uses = ["crate::system::HostRuntime"] * ("HostRuntime" in text)
    return text.replace("\n\n", "\n\n" + "".join(f"use {use};\n" for use in uses), 1)


def found(project, text):
    """Where the paths of a file begin: `io` is std's where that is brought in, and else the toolchain's library."""
    paths = {c: "gateweave::" for c in project.crates} | PATHS
    return {c: at for c, at in paths.items() if f"use std::{c};" not in text}


def rust(project, text, methods):
    """A file of a program as Rust."""
    try:
        return rules.rust("", text, found(project, text), methods, rules.PROGRAMS, rules.functions(text))
    except rules.Unknown as unknown:
        command.stop(f"the rules of the export do not cover a program: {unknown}")


def write(project, name, into, device=False):
    """Writes a program's files; the path of its first."""
    texts = project.files(name)
    apart = {crate: project.files(crate)["lib"] for crate in BESIDE if crate in project.rows[name]}
    if "verdict" in apart:
        apart["verdict"] = FAILED.sub("", apart["verdict"])
    methods = project.methods | rules.SYSTEM | {m for t in (*texts.values(), *apart.values()) for m in rules.METHOD.findall(t)}
    made = {stem: rust(project, t, methods) for stem, t in {**texts, **apart}.items()}
    wanted = {lib: functions for lib, functions in project.wanted([*texts.values(), *apart.values()]).items() if lib != "io"}
    for lib, functions in wanted.items():
        made[lib] = project.module(lib, "lib", rules.library(project.kit, lib, functions))
    made = {stem: with_host(text) for stem, text in made.items()}
    if "verdict" in apart:
        made["verdict"] += "\npub use crate::system::tell_failed;\n"
    made["main"] = "#![no_std]\n#![no_main]\n" * device + made["main"] + "".join(f"mod {m};\n" for m in ("libc", "system", *apart, *wanted))
    made["libc"], made["system"] = ((HERE / file).read_text("utf-8") for file in ("device.rs" if device else "host.rs", "system.rs"))
    into.mkdir(parents=True)
    for stem, text in made.items():
        (into / f"{stem}.rs").write_text(text, "utf-8")
    return into / "main.rs"
