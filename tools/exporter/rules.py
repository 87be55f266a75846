"""The rules by which the text of the proved crates is written as one Rust crate: docs/EXPORT.md has each of them.

Every token is known here or an error: nothing is passed on that was not looked at. No expression, no name and no literal is changed.
"""
import itertools
import pathlib
import re
import shutil

# Crates that are no part of the Rust crate: one says on standard error what the lines of a run say, one reads stored logs from standard
# input, one has loops for the counter.
APART = ("verdict", "stored", "cost")
# The toolchain's libraries, of which the functions that are called go along; they ask something of their callers, so they stay private.
KIT = {"num": ("core/src/num.rt", "core/src/num/casts.rt"), "io": ("io/src/number.rt",)}

KEYWORDS = set("""use pub mod crate super fn struct enum impl trait type const static let mut if else return match while loop for in break as
    self Self true false""".split())
TYPES = set("u8 u16 u32 u64 usize i8 i16 i32 i64 isize f32 f64 bool".split())
# What a built-in type has under the same name and with the same meaning in both languages, off a NaN.
ASSOCIATED = {f"{t}::{n}" for t in ("f32", "f64") for n in ("to_bits", "from_bits")}
ASSOCIATED |= {f"{t}::{n}" for t in ("u8", "u16", "u32", "u64", "usize") for n in ("leading_zeros", "MAX")}
ASSOCIATED |= {f"{t}::{n}" for t in ("i32", "i64") for n in ("MIN", "MAX")}
# From a narrower type nothing is lost, and what does not fit is an error.
ASSOCIATED |= {f"{t}::from" for t in ("u16", "u32", "u64", "usize")} | {f"{t}::try_from" for t in ("u8", "u64")}
# What is a method of a whole number in both: the sum modulo 2^n, the sum or the difference up to an end of the type, the distance, the first
# zeros.
METHODS = {"wrapping_add", "saturating_add", "saturating_sub", "abs_diff", "leading_zeros"}
# The smaller, the larger, and what lies between two, which a float has too, as another function in Rust: they are asked of what a file declares
# to be a whole number, and in the toolchain's text of what rustc finds to have an order (ordered.py).
ORDERED = {"min", "max", "clamp"}
WHOLE = TYPES - {"f32", "f64", "bool"}
# Of a slice or an array: its length, an element or none, all elements, one after another and with their places, whether it begins with another,
# what is copied into it or within it.
METHODS |= {"len", "get", "iter", "enumerate", "starts_with", "copy_from_slice", "copy_within"}
# Of a float its bits, off a NaN. Of an option or a result: which of the two it is, what it holds or else a value, what it points to. `unwrap`
# is proved to find what it asks for.
METHODS |= {"to_bits", "is_ok", "is_err", "unwrap", "unwrap_or", "copied"}
# Macros of both: whether a pattern fits, a value written as text, and where no call comes, which is proved.
MACROS = {"matches", "write", "unreachable"}
# Where a text may stand.
WRITTEN = re.compile(r"\bwrite!\(f, $|\bwriteln!\(\s*Out,\s+$")
# Traits that are derived, field by field in both; the export adds Debug where it lacks.
DERIVED = {"Clone", "Copy", "Debug", "PartialEq", "Eq"}
# Of std, what is core's in Rust, by the same names.
CORE = {"std::fmt", "std::error::Error", "std::array::from_fn", "std::ops::ControlFlow"}
# Names that Rust has in every file; those that mean the same in both languages, where no text declares them anew.
PRELUDE = set("""Some None Ok Err Option Result Box String Vec ToString ToOwned drop Drop Fn FnMut FnOnce AsRef AsMut Clone Copy Iterator
    IntoIterator Extend DoubleEndedIterator ExactSizeIterator From Into TryFrom TryInto FromIterator Default Send Sync Sized Unpin PartialEq
    Eq PartialOrd Ord""".split())
SHARED = {"Some", "None", "Ok", "Err", "Option", "Result", "Copy", "From", "TryFrom"}
# Words of Rust or of Rattle for which these crates have no use: a text that has one is not understood.
RESERVED = set("""abstract async await become box continue do dyn ensures extern final gen ghost macro macro_rules move override priv proof ref
    requires try typeof union unsafe unsized virtual where yield""".split())
DECLARES = {"struct", "enum", "trait", "type", "fn", "const", "static", "mod", "as"}
# Signs that are one to Rust; the first are known here too.
KNOWN = ("::", "->", "=>", "..", "==", "!=", "<=", ">=", "<<", ">>", "+=", "-=", "/=")
JOINED = {"&&", "||", "/*", "//", "*=", "%=", "^=", "&=", "|=", "..=", "...", "<<=", ">>=", "<-"}
# What the programs have beside that, which are written only to be run on their stored inputs; bytes are a number by the order in the name.
PROGRAMS = {"&&", "||", "..=", "writeln", "Fn", "FnOnce", "u32::from_le_bytes", "i32::from_le_bytes"}
# A sink of their own, and what is written to it.
PROGRAMS |= {"fmt::", "fmt::Write", "fmt::Result", "fmt::Error"}
# Their methods of built-in types and of what they have of the system, and the parts of std that this is.
SYSTEM = {"stdin", "reader", "read", "read_exact", "write_all", "arg", "is_ascii_digit", "trim_ascii_end", "is_empty", "split_at", "chunks",
          "as_chunks", "as_bytes", "map", "map_err", "fold", "is_break", "min", "to_le_bytes", "wrapping_sub", "as_slice"}
STD = {"io", "env", "process"}

TOKEN = re.compile(r"""(?P<space>\n|[ ]+)|(?P<comment>//[^\n]*)
    |(?P<lifetime>'(?:static|a|_))(?![\w'])|(?P<text>"(?:[\x20\x21\x23-\x5b\x5d-\x7a|~]|\{(?:[a-z_0-9]*|:08x)\})*")
    |(?P<bytes>b"(?:\\[\\"n\n]|\\x[0-9a-fA-F]{2}|[\x20\x21\x23-\x5b\x5d-\x7e])*"|b'(?:\\[n'\\]|[\x20-\x26\x28-\x5b\x5d-\x7e])')
    |(?P<number>0x[0-9a-fA-F_]+(?:u8|u16|u32|u64)?|0b[01_]+|[0-9][0-9_]*(?:\.[0-9][0-9_]*)?(?:u8|u16|u32|u64|usize|i32|i64|f32|f64)?)(?![A-Za-z0-9_])
    |(?P<word>[A-Za-z_][A-Za-z0-9_]*)|(?P<sign>""" + "|".join(map(re.escape, KNOWN)) + r"""|[(){}\[\],;:=<>+\-*/%&|^!.?])""", re.X)
CLAUSE = re.compile(r"[ ]+(?:requires|ensures)(?: [a-z_]+)? \{")
# An import of the prover's, a fact that holds of every value of a type, or what a trait or an impl says by terms.
GHOST = re.compile(r"[ ]*(?:pub(?:\(crate\))? )?ghost (use |[a-z_]+(?::| =) \{)")
# What a crate or a function asks of the prover.
TACTIC = re.compile(r"[ ]*#!?\[tactic\([^\]]*\)\]\n")
DERIVE = re.compile(r"( *)#\[derive\(([A-Za-z, ]*)\)\]\n")
# How a value is written as text: Rattle has the sink as a parameter, and Rust's Formatter hides it.
FMT = "fn fmt<W: fmt::Write>(&self, f: &mut fmt::Formatter<W>) -> fmt::Result"
RUST_FMT = "fn fmt(&self, f: &mut fmt::Formatter<'_>) -> fmt::Result"
ITEM = re.compile(r" *(pub(?:\(.*?\))? )?(?:const (?=fn ))?(fn|struct|enum|trait|const|static) ")
# What may have ghost items of its own.
OWNER = re.compile(r"(pub(?:\(.*?\))? )?(struct|trait|impl)\b.* \{$")
FUNCTION = re.compile(r"(?:pub(?:\(crate\))? )?(?:const )?fn ([a-z_0-9]+)")
METHOD = re.compile(r"(?m)^    (?:pub(?:\(crate\))? )?(?:final )?fn ([a-z_0-9]+)(?:<[^(]*>)?\(\s*(?:&(?:mut )?)?(?:mut )?self\b")

LIB = """//! The proved core of Gateweave, an attitude filter, as Rust: a module for each of its crates. The text is the proved text; what
//! rustc makes of it is not proved. What each function promises stands in its comment, in the words of the proofs.
#![no_std]
#![forbid(unsafe_code)]
#![allow(clippy::all)]

#[cfg(all(target_arch = "x86", not(target_feature = "sse2")))]
compile_error!("the x87's floats are rounded twice");

"""
CARGO = """[package]
name = "gateweave"
version = "0.1.0"
edition = "2024"
description = "An attitude filter, written from a text that is proved"
license-file = "NOTICE"

[dependencies]
"""


class Unknown(Exception):
    """A text that the rules do not cover."""


def clause_end(text, at):
    """Where the brace that opens at `at` closes: what stands between is the prover's."""
    depth = 0
    for i in range(at, len(text)):
        depth += {"{": 1, "}": -1}.get(text[i], 0)
        if depth == 0:
            return i + 1
    raise Unknown("a clause without its end")


def ghost_end(text, at):
    """Where a ghost item that begins at `at` ends, behind its comma or semicolon and the end of that line."""
    depth = 0
    for i in range(at, len(text) - 1):
        depth += {"{": 1, "}": -1}.get(text[i], 0)
        if depth == 0 and text[i] in ",;" and text[i + 1] == "\n":
            return i + 2
    raise Unknown("a ghost item without its end")


def derived(pad, names):
    """What a type derives, and Debug; that it is dropped Rust knows by itself."""
    names = [name for name in names.split(", ") if name != "Drop"]
    if odd := set(names) - DERIVED:
        raise Unknown(f"a derive of {sorted(odd)[0]}")
    return f"{pad}#[derive({', '.join(names + ['Debug'] * ('Debug' not in names))})]\n"


def special(text, at):
    """A token that begins a line and is not as it stands, or none: its kind, what it is, and its end."""
    if tactic := TACTIC.match(text, at):
        return "", "", tactic.end()
    if ghost := GHOST.match(text, at):
        end = ghost_end(text, at)
        # The line that is left empty behind a member goes with it.
        return ("" if ghost[1] == "use " else "ghost"), text[at:end], end + (text[end:end + 1] == "\n" and ghost[1] != "use ")
    if derive := DERIVE.match(text, at):
        return "derive", derived(*derive.groups()), derive.end()
    if clause := CLAUSE.match(text, at):
        end = clause_end(text, clause.end() - 1)
        return "clause", text[at:end], end
    return None


def scan(text):
    """The tokens of a text, as pairs of a kind and what stands there. A clause or a ghost item is one token, and a ghost import or a tactic
    none."""
    at, found = 0, []
    while at < len(text):
        if (at == 0 or text[at - 1] == "\n") and (begun := special(text, at)):
            kind, what, at = begun
            found += [(kind, what)] * (kind != "")
        elif text.startswith(FMT, at):
            found.append(("fmt", RUST_FMT))
            at += len(FMT)
        elif token := TOKEN.match(text, at):
            found.append((token.lastgroup, token.group()))
            at = token.end()
        else:
            raise Unknown(f"no token begins with {text[at:at + 30]!r}")
    return found


def solid(tokens, i, step):
    """The next token, or with -1 the one before, that is neither space nor comment."""
    i += step
    while 0 <= i < len(tokens) and tokens[i][0] in ("space", "comment"):
        i += step
    return tokens[i][1] if 0 <= i < len(tokens) else ""


def path_at(tokens, i):
    """The path that begins at a word."""
    parts = itertools.takewhile(lambda token: token[0] == "word" or token[1] == "::", tokens[i:])
    return "".join(t for _, t in parts)


def is_whole(tokens, i):
    """Whether the method at a token is asked of a name that its file declares as a whole number, and nowhere as anything else: behind the colon
    of a field, a parameter or a local stands its type, and one that is bound without a type is none. rustc finds the rest (ordered.py)."""
    asked = solid(tokens, max(j for j in range(i) if tokens[j][1] == "."), -1)
    solids = [t for kind, t in tokens if kind not in ("space", "comment")]
    found = set()
    for before, name, after, of in zip(solids, solids[1:], solids[2:], solids[3:]):
        if name != asked:
            continue
        if after == ":" and (of in TYPES or of[0].isupper() or of in "&[("):
            found.add(of)
        elif before in ("let", "mut", "for", "|"):
            found.add("")
    return bool(found) and found <= WHOLE


def judge_word(tokens, i, methods, allowed):
    word, before, after = tokens[i][1], solid(tokens, i, -1), solid(tokens, i, 1)
    # A method that no impl may replace is one of its trait's here; that nobody outside replaces it is for the caller.
    if word in (RESERVED | PRELUDE) - SHARED - allowed and not (word == "final" and after == "fn"):
        raise Unknown(f"the word {word}")
    if word in SHARED and before in DECLARES:
        raise Unknown(f"{word} declared anew")
    if after == "!" and word not in KEYWORDS | MACROS | allowed:
        raise Unknown(f"a macro {word}!")
    if before == "." and after == "(" and word not in METHODS | methods:
        if word not in ORDERED:
            raise Unknown(f"a method {word} that no type here has")
        if not is_whole(tokens, i):
            raise Unknown(f"{word} of what is no whole number here")
    if word in TYPES and after == "::":
        if (name := path_at(tokens, i)) not in ASSOCIATED | allowed:
            raise Unknown(name)
    if word == "fmt" and after == "::" and path_at(tokens, i) not in {"fmt::Display"} | allowed:
        raise Unknown(path_at(tokens, i))


def is_range(tokens, i, opened):
    """Whether the two points at a token are a range outside an index: no rest of a value or of a pattern, not what a `for` goes over, and not
    what is copied within a slice."""
    if opened[-1:] == ["["] or solid(tokens, i, -1) in (",", "{"):
        return False
    here = (t for _, t in reversed(tokens[:i]) if t in ("in", "copy_within", "{", "}", ";"))
    return next(here, "") not in ("in", "copy_within")


def sign(tokens, i):
    """The sign of Rust that is two here, where one begins at this token."""
    run = "".join(t for _, t in itertools.takewhile(lambda token: token[0] == "sign", tokens[i:i + 3]))
    return next((j for j in sorted(JOINED, key=len) if run.startswith(j)), "")


def judge(tokens, methods, allowed):
    """Refuses what is not in the subset that both languages read alike."""
    opened = []
    for i, (kind, t) in enumerate(tokens):
        if kind == "word":
            judge_word(tokens, i, methods, allowed)
        if kind == "word" and t == "type" and not opened and not allowed:
            raise Unknown("a type of another name")
        if kind == "text" and not WRITTEN.search("".join(t for _, t in tokens[max(i - 10, 0):i])) and ("{" in t or not allowed):
            raise Unknown("a text that is not written")
        if kind == "lifetime" and not allowed:
            raise Unknown("a lifetime")
        if kind != "sign":
            continue
        if (joined := sign(tokens, i)) and joined not in allowed:
            raise Unknown(f"a sign {joined}")
        if t == "|" and (solid(tokens, i, -1) in ("=", "{", "return", ";", "=>") or "".join(t for _, t in tokens[i - 2:i]) in (" (", "((", "=(")):
            raise Unknown("a closure that is no argument, or a pattern that begins with a bar")
        if t == ".." and is_range(tokens, i, opened) and not allowed:
            raise Unknown("a range outside an index")
        if t in "([{":
            opened.append(t)
        if t in ")]}":
            opened.pop()


def of_std(path, name):
    """Where that of std which a path names stands here."""
    if path in CORE or not name and path == "std::fmt::":
        return "core"
    part = path.split("::")[1]
    if part != "num" and (name or part not in STD):
        raise Unknown(f"a part of std other than num: {path}")
    return "crate" if part == "num" else "crate::system"


def renamed(tokens, name, paths):
    """The tokens as Rust: where a path begins at another crate, and what a crate is here. Each clause is a line `\\0` by itself, and each
    ghost item a line `\\1`."""
    out, clauses = [], []
    for i, (kind, t) in enumerate(tokens):
        before, after = solid(tokens, i, -1), solid(tokens, i, 1)
        if kind in ("clause", "ghost"):
            clauses.append(t)
            t = "\0" if kind == "clause" else "\1\n"
        elif kind == "word" and t == "final":
            t = ""
        elif kind == "space" and t == " " and tokens[i - 1][1] == "final":
            t = ""
        elif kind == "word" and t == "std" and after == "::":
            t = of_std(path_at(tokens, i), name)
        elif kind == "word" and t == "crate":
            if before != "(":
                raise Unknown("crate outside pub(crate)")
            t = f"in crate::{name}" if name else t
        elif kind == "word" and t in paths and after == "::" and before not in ("::", "."):
            t = paths[t] + t
        elif kind == "comment":
            t = re.sub(r"^// ([a-z_]+)\.rt\b", r"// \1.rs", t)
        out.append(t)
    return "".join(out), clauses


def comment(out, pad):
    """Makes the comment that ends here the doc comment of what follows."""
    for i in range(len(out) - 1, -1, -1):
        if not out[i].startswith(pad + "//"):
            break
        out[i] = out[i].replace("//", "///", 1)


def contract(pad, clauses, commented):
    """The clauses of a contract as lines of a doc comment, behind another or by themselves."""
    parts = [part.strip() for clause in clauses for part in clause.rstrip("\n").split("\n")]
    return [pad + "///"] * commented + [f"{pad}/// {part}" for part in ("```text", *parts, "```")]


class Written:
    """The lines of a file as they come, each comment above an item as its doc comment, and behind it what the prover is told of it: the
    clauses of a function, the ghost items of a type, a trait or an impl. Of the public functions those that are named may ask something of
    their callers."""

    def __init__(self, clauses, asks):
        self.out, self.clauses, self.asks = [], iter(clauses), asks
        # Of a function whose body has not begun: where its signature stands, whether it may ask nothing, and its clauses.
        self.item, self.plain, self.own = None, False, []
        # Of what is open at the margin and may have ghost items: where it begins, its first line, and its items.
        self.owner, self.first, self.ghosts = None, "", []

    def tell(self, at, pad, clauses):
        """Puts what the prover is told into the comment above a line."""
        self.out[at:at] = contract(pad, clauses, at > 0 and self.out[at - 1].startswith(pad + "///"))

    def begins(self, line, pad):
        if line.startswith(pad + "#[derive("):
            comment(self.out, pad)
        if match := ITEM.match(line):
            comment(self.out, pad)
            name = re.match(r"\w+", line[match.end():])[0]
            offered = match[1] == "pub " or pad and (self.first.startswith("pub trait") or re.match(r"impl\b.* for ", self.first))
            self.item, self.plain, self.own = len(self.out) if match[2] == "fn" else None, offered and name not in self.asks, []
        if match := OWNER.match(line):
            derives = bool(self.out) and self.out[-1].startswith("#[derive(")
            self.owner, self.first, self.ghosts = len(self.out) - derives, line, []

    def ends_signature(self, pad, end):
        if self.plain and any(clause.lstrip().startswith("requires") for clause in self.own):
            raise Unknown("a public function that asks something of its caller")
        self.out[-1] += end
        self.tell(self.item, pad, self.own)
        self.item, self.own = None, []

    def ends_owner(self):
        if self.ghosts and re.search(r"\bstruct ", self.first):
            # What holds of every value is for no caller to break, so none outside may make one by its fields.
            for i in range(self.owner, len(self.out)):
                self.out[i] = re.sub(r"^    pub (?=[a-z_])", "    pub(crate) ", self.out[i])
        if self.ghosts:
            self.tell(self.owner, "", self.ghosts)
        self.owner, self.first, self.ghosts = None, "", []

    def ghost(self, text):
        if self.owner is None or not re.match("    (?! )", text):
            raise Unknown("a ghost item outside a struct, a trait or an impl")
        if re.match(r" *ghost can_", text):
            raise Unknown("an operator that asks something of its caller")
        self.ghosts.append(text)

    def line(self, line):
        pad = " " * (len(line) - len(line.lstrip()))
        self.begins(line, pad)
        if line == "\1":
            self.ghost(next(self.clauses))
        elif line in ("\0", "\0;"):
            if self.item is None:
                raise Unknown("a clause outside a signature")
            self.own.append(next(self.clauses))
            if line == "\0;":
                self.ends_signature("    ", ";")
        elif line == pad + "{" and self.own:
            self.ends_signature(pad, " {")
        else:
            self.out.append(line)
            self.item = None if line.endswith(("{", ";")) else self.item
            if line == "}" and self.owner is not None:
                self.ends_owner()


def documented(text, clauses, asks):
    """The lines of a file with its comments where Rust's tools look for them."""
    written = Written(clauses, asks)
    for line in text.split("\n"):
        written.line(line)
    if written.own or next(written.clauses, None):
        raise Unknown("a signature without a body")
    return "\n".join(written.out)


def headed(text):
    """A file's first comment as the module's."""
    head = re.match(r"(?://[^\n]*\n)+", text)
    if not head:
        raise Unknown("a file without its first comment")
    rest = re.sub(r"\n\n\n+", "\n\n", text[head.end():])
    return "".join(f"//!{line[2:]}\n" for line in head.group().splitlines()) + ("" if rest.startswith("\n") else "\n") + rest


def rust(name, text, paths, methods, allowed=frozenset(), asks=frozenset()):
    """One file of a crate as a file of the module `name`, or of a crate by itself where it has none."""
    tokens = scan(text)
    judge(tokens, methods, allowed)
    head = re.match(r"(?://[^\n]*\n)*", text).end()
    # The first comment is the file's own, and no item's.
    body, clauses = renamed(scan(text[head:]), name, paths)
    return headed(text[:head] + documented(body, clauses, asks))


def functions(text):
    """The functions of a library's file by their names, each with the comment above it."""
    found, above, inside = {}, [], None
    for line in text.split("\n"):
        if inside:
            found[inside].append(line)
        elif match := FUNCTION.match(line):
            inside = match[1]
            found[inside] = [*above, line]
        above = [*above, line] if line.startswith("//") else []
        if line == "}":
            inside = None
    return {name: "\n".join(lines) for name, lines in found.items()}


def called(text, names):
    """Which of the names a text calls."""
    tokens = scan(text)
    return {t for i, (kind, t) in enumerate(tokens) if kind == "word" and t in names and solid(tokens, i, 1) == "(" and solid(tokens, i, -1) != "fn"}


def library(kit, name, wanted):
    """The functions of a library that are wanted, and those that they call, in the library's order."""
    known = functions("".join((kit / "rattle" / file).read_text("utf-8") for file in KIT[name]))
    if missing := wanted - known.keys():
        raise Unknown(f"{name} has no function {sorted(missing)[0]}")
    found, new = set(), set(wanted)
    while new:
        found |= new
        new = set().union(*(called(known[n], known.keys()) for n in new)) - found
    text = f"// Of the toolchain's library `{name}`, the functions that are called here.\n\n"
    return text + "\n\n".join(known[n] for n in known if n in found) + "\n"


class Project:
    """The repository's crates and the toolchain's libraries, as they are read for the export."""

    def __init__(self, top, kit):
        self.top, self.kit = pathlib.Path(top), pathlib.Path(kit)
        self.rows = {c: set(r.split()) for c, r in re.findall(r"(?m)^([a-z_]+):(.*)$", (self.top / "crates.txt").read_text("utf-8"))}
        self.crates = [c for c in self.rows if c not in APART and self.has_code(c)]
        # Crates of laws alone: no text can call what they do not have.
        self.laws = [c for c in self.rows if "lib" in self.files(c) and not self.has_code(c)]
        self.texts = {(c, stem): t for c in self.crates for stem, t in self.files(c).items()}
        self.methods = {m for t in self.texts.values() for m in METHOD.findall(t)}
        for crate in self.crates:
            # A path that begins with the name would be either's.
            if clash := {stem for c, stem in self.texts if c == crate} & {*self.rows[crate], *KIT}:
                raise Unknown(f"a module and a crate of one name, {sorted(clash)[0]}")
            if missing := self.rows[crate] - {*self.crates, *self.laws, *KIT}:
                raise Unknown(f"{crate} stands on {sorted(missing)[0]}, which is not exported")

    def files(self, crate):
        return {p.stem: p.read_text("utf-8") for p in sorted((self.top / "crates" / crate / "src").glob("*.rt"))}

    def has_code(self, crate):
        files = self.files(crate)
        return "lib" in files and any(re.search(r"(?m)^ *(pub(\(crate\))? )?fn ", t) for t in files.values())

    def wanted(self, texts):
        """The functions of each library that some texts call."""
        found = {name: set() for name in KIT}
        for text in texts:
            bare = "".join(t for kind, t in scan(text) if kind not in ("clause", "comment"))
            for name in KIT:
                path = "std::num" if name == "num" else name
                found[name] |= set(re.findall(rf"(?<![:\w.]){path}::(\w+)", bare))
        return {name: names for name, names in found.items() if names}

    def module(self, crate, stem, text):
        """A file of a crate as a file of its module."""
        paths = {c: "crate::" for c in self.rows.get(crate, set())}
        try:
            methods = self.methods | ORDERED if crate in KIT else self.methods
            return rust(crate, text, paths, methods, asks=functions(text) if crate in KIT else ())
        except Unknown as unknown:
            raise Unknown(f"{crate}/src/{stem}.rt: {unknown}") from None

    def write(self, into):
        """Writes the crate."""
        made = {crate if stem == "lib" else f"{crate}/{stem}": self.module(crate, stem, text) for (crate, stem), text in self.texts.items()}
        wanted = self.wanted(self.texts.values())
        made |= {name: self.module(name, "lib", library(self.kit, name, names)) for name, names in wanted.items()}
        made["lib"] = LIB + "".join(f"{'' if c in KIT else 'pub '}mod {c};\n" for c in sorted([*self.crates, *wanted]))
        shutil.rmtree(into / "src", ignore_errors=True)
        for name, text in made.items():
            path = into / "src" / f"{name}.rs"
            path.parent.mkdir(parents=True, exist_ok=True)
            path.write_text(text, "utf-8")
        (into / "Cargo.toml").write_text(CARGO, "utf-8")
        shutil.copy(self.top / "NOTICE", into / "NOTICE")
