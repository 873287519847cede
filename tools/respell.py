#!/usr/bin/env python3
"""Brings the repository's own definitions and lemmas to the spelling of today's Rattle: words in snake case, facts in camel case.

usage: python3 tools/respell.py [--say]      once, at the top of the checkout, after the kit's port.py

A name that specs/ or proofs/ declares and that has a dash, or capitals inside, is respelled wherever it stands as a word of its own
in specs/, proofs/ and the clauses of src/. Comments, strings, the names of goals and the functions of src/ keep their spelling.
With --say nothing is written, and names that would fall together in one file are listed.
"""

import glob
import re
import sys

RECURSIVE = "AllByRecursion as All"
SPECIAL = {"Digit1-9": "DigitOneToNine"}
# what the kit's script left half turned, and the names that bind a value or a module in one place
MORE = {
    "Laid_out": "LaidOut", "is-above-zero": "is_above_zero", "turned-row": "turned_row", "name-parts": "name_parts", "mask-parts": "mask_parts",
    "pattern-refusal": "pattern_refusal", "book-refusal": "book_refusal", "clearing-refusal": "clearing_refusal",
    "start-ts": "start_ts", "start-text": "start_text", "now-ts": "now_ts", "now-text": "now_text",
    "mid-ts": "mid_ts", "mid-text": "mid_text", "end-ts": "end_ts", "end-text": "end_text",
}
DECLARED = re.compile(
    r"^\s*(?:abbrev pub |abbrev |unfoldable pub |unfoldable |pub data |pub record |data |record |pub ruleset |ruleset |pub )?"
    r"([^\s(){}\[\],.;:]+)(?:\s+[^:\n]*?)?\s+:\s(.*)$"
)
ALIAS = re.compile(r"(?<![^\s{,])([^\s{},.;]+) as ([a-z]+(?:[A-Z]\w*|-[\w-]+))(?=[,}])")


def antt_files():
    return sorted(glob.glob("crates/*/specs/**/*.antt", recursive=True) + glob.glob("crates/*/proofs/**/*.antt", recursive=True))


def source_files():
    return sorted(glob.glob("crates/*/src/**/*.rt", recursive=True))


def snake(word):
    return re.sub(r"(?<=[a-z])([A-Z])(?=[a-z])", lambda m: "_" + m.group(1).lower(), word)


def respelled(name):
    if name in SPECIAL:
        return SPECIAL[name]
    parts = name.split("-")
    if name[0].isupper():
        return "".join(p[0].upper() + p[1:] for p in parts)
    return "_".join(snake(p) if i == 0 or not p[:1].isupper() else p.lower() for i, p in enumerate(parts))


def declared():
    """The repository's own names, without the answers to goals, which go by the names that the check gives them."""
    own, goals = set(), set()
    for path in antt_files():
        with open(path, encoding="utf-8") as f:
            for line in f:
                m = DECLARED.match(line)
                if m and not line.lstrip().startswith("--"):
                    (goals if re.match(r"(goal|need)\.", m.group(2)) else own).add(m.group(1))
    return {n for n in own - goals if ("-" in n or re.match(r"[a-z]+[A-Z]", n)) and not n.startswith(("invariant-", "decreases-"))}


def code_parts(line, comment):
    """The line as pairs (text, whether it is code): strings and the comment are not."""
    parts, i, start = [], 0, 0
    while i < len(line):
        if line.startswith(comment, i) and (i == 0 or line[i - 1] in " \t"):
            parts += [(line[start:i], True), (line[i:], False)]
            return parts
        if line[i] == '"' and not line[i - 1 : i + 2] == "'\"'":
            j = i + 1
            while j < len(line) and line[j] != '"':
                j += 2 if line[j] == "\\" else 1
            parts += [(line[start:i], True), (line[i : j + 1], False)]
            start = i = j + 1
            continue
        i += 1
    return parts + [(line[start:], True)]


def words(text):
    return re.split(r"([ \t\n(){}\[\],.;]+)", text)


def turned(line, comment, names):
    return "".join("".join(names.get(w, w) for w in words(t)) if code else t for t, code in code_parts(line, comment))


def imported_once(line):
    """An import without 'x as x', and each name once."""
    m = re.match(r"(.*\{)([^{}]*)(\}.*)$", line, re.S)
    if not m:
        return line
    items = [re.sub(r"^(\S+) as \1$", r"\1", i.strip()) for i in m.group(2).split(",")]
    return m.group(1) + ", ".join(dict.fromkeys(items)) + m.group(3)


def main():
    say = "--say" in sys.argv[1:]
    names = {n: respelled(n) for n in declared()} | MORE
    for path in antt_files() + source_files():
        comment = "//" if path.endswith(".rt") else "--"
        with open(path, encoding="utf-8") as f:
            text = found = f.read()
        here = dict(names)
        if RECURSIVE in text:
            # `All` is kept for the library's own, which goes by index
            text = text.replace(RECURSIVE, "AllByRecursion")
            here["All"] = "AllByRecursion"
        if path.endswith(".rt"):
            for m in ALIAS.finditer("\n".join(l for l in text.splitlines() if l.lstrip().startswith("ghost use "))):
                here[m.group(2)] = snake(m.group(2)).replace("-", "_")
        before = {w for line in text.splitlines() for t, code in code_parts(line, comment) if code for w in words(t)}
        if say:
            for old in sorted(before & here.keys()):
                others = [o for o in before & here.keys() if o != old and here[o] == here[old]]
                if here[old] in before or others:
                    print(f"{path}: {old} -> {here[old]}" + (" stands there" if here[old] in before else "") + (f" as {others}" if others else ""))
            continue
        lines = [turned(line, comment, here) for line in text.splitlines(keepends=True)]
        if path.endswith(".rt"):
            lines = [imported_once(l) if l.lstrip().startswith("ghost use ") else l for l in lines]
        after = "".join(lines)
        if after != found:
            with open(path, "w", encoding="utf-8") as f:
                f.write(after)


if __name__ == "__main__":
    main()
