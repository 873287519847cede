#!/usr/bin/env python3
# Counts the places in crates/*/src that the design pass looks at, by point: `python3 tools/places.py [COMMIT] [-v]`.
# What it prints are candidates: a form is told by its text alone, so some of them are as they should be.
import difflib
import os
import re
import subprocess
import sys

COMMIT = next((a for a in sys.argv[1:] if not a.startswith("-")), None)
VERBOSE = "-v" in sys.argv


def git(*words):
    return subprocess.run(["git", *words], capture_output=True, text=True, check=True).stdout


def sources():
    if COMMIT:
        names = git("ls-tree", "-r", "--name-only", COMMIT, "crates").split("\n")
    else:
        names = [os.path.join(d, f) for d, _, fs in os.walk("crates") for f in fs]
    for name in sorted(names):
        if re.fullmatch(r"crates/\w+/src/.*\.rt", name):
            yield name, git("show", f"{COMMIT}:{name}") if COMMIT else open(name).read()


def code(text):
    """The text with comments, `ghost use` lines and clauses blanked, line for line."""
    lines = []
    for line in text.split("\n"):
        bare = line.strip()
        if bare.startswith(("//", "ghost", "ensures", "requires")):
            line = ""
        lines.append(line)
    return "\n".join(lines)


SOURCES = [(name, text, code(text)) for name, text in sources()]


def functions():
    for name, text, bare in SOURCES:
        for m in re.finditer(r"^( *)(?:pub(?:\(crate\))? |final )*fn (\w+)", bare, re.M):
            end = bare.find(f"\n{m.group(1)}}}", m.start())
            whole = bare[m.start():end if end >= 0 else len(bare)]
            if re.search(r"\n *(?:pub )?fn ", whole.partition("{")[0]):
                continue  # a trait's function without a body
            head, _, body = whole.partition("{")
            line = bare.count("\n", 0, m.start()) + 1
            yield f"{name}:{line}", m.group(2), head, body, text.split("\n")[line - 1:line + whole.count("\n")]


def matches(pattern, texts=None):
    for name, text, bare in SOURCES:
        for m in re.finditer(pattern, texts(text) if texts else bare, re.M):
            line = bare.count("\n", 0, m.start()) + 1
            yield f"{name}:{line}: {m.group(0).strip()[:90]!r}"


def tokens(body):
    seen = {}
    out = []
    for t in re.findall(r"[A-Za-z_]\w*|\d+|\S", body):
        if re.match(r"[A-Za-z_]", t) and t not in ("if", "else", "match", "for", "in", "while", "let", "return", "mut", "self", "Ok", "Err", "Some", "None"):
            t = seen.setdefault(t, f"x{len(seen)}")
        out.append(t)
    return out


def twins():
    bodies = [(at, name, tokens(body)) for at, name, _, body, _ in functions()]
    bodies = [b for b in bodies if len(b[2]) >= 14]
    for i, (at, name, a) in enumerate(bodies):
        for at2, name2, b in bodies[i + 1:]:
            if abs(len(a) - len(b)) <= 0.15 * len(a):
                m = difflib.SequenceMatcher(None, a, b, autojunk=False)
                if m.real_quick_ratio() >= 0.9 and m.quick_ratio() >= 0.9 and m.ratio() >= 0.9:
                    yield f"{at} {name} ~ {at2} {name2}"


def repeated_constants():
    seen = {}
    for name, _, bare in SOURCES:
        for m in re.finditer(r"const (\w+): \w+ = (\d{3,}\w*);", bare):
            seen.setdefault(m.group(2), []).append(f"{name} {m.group(1)}")
    return [f"{v}: {', '.join(ns)}" for v, ns in seen.items() if len(ns) > 1]


def returning_loops():
    for at, name, _, body, _ in functions():
        if re.search(r"\bfor .*\{\n(?:.*\n)?\s+(if|return)[^\n]*\n\s+return", body):
            yield f"{at} {name}"


def number_tables():
    for at, name, _, body, _ in functions():
        if len(re.findall(r"=> (?:Some\()?\(?\d+[,)]", body)) >= 2 or len(re.findall(r"^\s+\d+ (?:if .*)?=>", body, re.M)) >= 2:
            yield f"{at} {name}"


def travelling():
    seen = {}
    for at, name, head, _, _ in functions():
        ps = sorted(set(re.findall(r"(\w+: &?(?:'\w+ )?(?:mut )?[\w\[\]<>']+)", head.partition("(")[2])))
        for i, p in enumerate(ps):
            for q in ps[i + 1:]:
                crate = at.split("/")[1]
                seen.setdefault((crate, p, q), []).append(name)
    return [f"{c}: {p}, {q}: {', '.join(ns)}" for (c, p, q), ns in sorted(seen.items()) if len(ns) >= 3]


def repeated_facts():
    seen = {}
    for name, text, _ in SOURCES:
        for clause in re.findall(r"^\s*requires(?: \w+)? \{ (.*) \}$", text, re.M):
            for fact in re.split(r" × ", clause):
                fact = fact.strip("() ")
                seen.setdefault((name.split("/")[1], fact), []).append(name)
    return [f"{c}: {f} ({len(ns)} clauses)" for (c, f), ns in seen.items() if len(ns) >= 3]


POINTS = [
    ("1 a match, or a let-else, that does what `?`, `map`, `ok_or` or `copied` does",
     lambda: list(matches(r"Err\(\w+\) => (?:return |Err\()|None => (?:return |None\b)|^\s*Some\(\w+\) => (?:Some\(|\*\w+,|\w+,$)|Ok\((\w+)\) => (?:Ok\(\1|\1,)"))
     + list(matches(r"else \{\n\s+return (?:Err|None)"))),
    ("1 a flag or a sentinel", lambda: list(matches(r"\bfull: bool|pub differs: bool")) + list(matches(r"or else the count of rows", lambda t: t))),
    ("1 numbers for kinds or refusals", lambda: list(matches(r"const \w*TAG: u8|\b(?:tag|last|operator): u8")) + list(number_tables())),
    ("2 functions that are nearly one text", lambda: list(twins())),
    ("2 constants of one value", repeated_constants),
    ("3 while", lambda: list(matches(r"^\s*while .*"))),
    ("3 for over numbers, or with an index", lambda: list(matches(r"for .* in 0\.\..*|for \(\w+, \w+\) in .*"))),
    ("3 for that looks for one item", lambda: list(returning_loops())),
    ("3 counted by hand", lambda: list(matches(r".*\+= 1;|.*\.saturating_add\(1\);|count = .*"))),
    ("4 conversions", lambda: list(matches(r"fn (?:refusal|number)\(self\).*|\* 256 \+|/ 256|% 256|fn (?:type_of|boolean_of|type_number|type_row|held|is_same)\(.*"))),
    ("4 printing", lambda: list(matches(r"fn \w+\([^{}]*?\)\s*-> (?:Result<String, AllocError>|&'static str|char)"))),
    ("4 zeros written out", lambda: list(matches(r"(?:start|positive): 0,"))),
    ("5 parameters that travel together", travelling),
    ("5 facts in three clauses or more", repeated_facts),
    ("6 a length beside a buffer", lambda: list(matches(r"\b(?:count|height|at): usize,?"))),
    ("7 a switch", lambda: list(matches(r"match (?:self|sort|kind|half|measure|comparison) \{"))),
]

for label, find in POINTS:
    found = list(find())
    print(f"{len(found):4}  {label}")
    if VERBOSE:
        for f in found:
            print(f"        {f}")
