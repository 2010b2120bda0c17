#!/usr/bin/env python3
"""Respells the repository's own definitions, lemmas and fields as today's Rattle spells names: words in snake case, a dash only between two
names. It runs once, after the kit's port.py, at the top of the repository. What Rust code calls something keeps its name, and so do strings,
inputs and outputs.

usage: tools/respell.py [--dry]
"""
import collections
import glob
import os
import re
import sys

WORD = r"[A-Za-zℕℤ𝓤-𝓩][A-Za-z0-9_'\-₀-₉ℕℤᶻᴰ]*"
INNER = r"A-Za-z0-9_'\-₀-₉ℕℤᶻᴰ◌#·"
TOKEN = re.compile(rf"(?<![{INNER}])({WORD})(?![{INNER}])")
DEFINED = re.compile(rf"^(\s*)((?:abbrev |unfoldable |opaque |irreducible |pub )*)({WORD})((?: {WORD})*) :(?:\s|$)")
SPECIAL = {"getD": "get_or"}
# Where a plain respelling would give a name that means something else already, the name is chosen by hand.
CHOSEN = {}
# Local names that would stand in the way of a definition's new name in the same file, with what they are called instead.
ASIDE = {
    "crates/repacker/proofs/Readback.antt": {"at_a": "a_stands", "at_b": "b_stands", "at_c": "c_stands", "at_label": "label_stands"},
    "crates/running/proofs/Runs.antt": {"left_by": "by_left"},
    "crates/theory/proofs/Theorems.antt": {"moves_from": "from_moves"},
    "crates/book/proofs/OneLabel.antt": {"walk_before": "walked_before"},
}


def files(*patterns):
    for p in patterns:
        yield from sorted(glob.glob(p, recursive=True))


def snake(word):
    """A word in camel case that begins small, in snake case."""
    if word in SPECIAL:
        return SPECIAL[word]
    if not re.match(r"[a-z]", word) or not re.search(r"[a-z0-9][A-Z]", word):
        return word
    out = re.sub(r"([a-z0-9])([A-Z])", lambda m: m.group(1) + "_" + m.group(2).lower(), word)
    return re.sub(r"([A-Z])", lambda m: m.group(1).lower(), out)


def definitions():
    """Names that this repository's specs/ and proofs/ define, and fields and cases of its records."""
    found = set()
    for f in files("crates/*/specs/**/*.antt", "crates/*/proofs/*.antt"):
        for line in open(f, encoding="utf-8"):
            if line.lstrip().startswith("--"):
                continue
            m = DEFINED.match(line)
            if m:
                found.add(m.group(3))
                found.update(m.group(4).split())
    return found


def code_names():
    """Names of functions, fields, parameters and locals of Rust code."""
    functions, others = set(), set()
    for f in files("crates/*/src/**/*.rt"):
        text = open(f, encoding="utf-8").read()
        functions.update(re.findall(r"\bfn (\w+)", text))
        others.update(re.findall(r"\b(\w+)\s*:(?!:)", text))
        others.update(re.findall(r"\blet (?:mut )?(\w+)", text))
    return functions, others


def imported():
    found = set()
    for f in files("crates/*/**/*.antt", "crates/*/src/**/*.rt"):
        for names in re.findall(r"use [\w.·«»]+\.\{([^}]*)\}", open(f, encoding="utf-8").read()):
            for n in names.split(","):
                found.update(n.strip().split(" as "))
    return found


def mapping():
    own = definitions()
    functions, others = code_names()
    aliases = set()
    for f in files("crates/*/**/*.antt", "crates/*/src/**/*.rt"):
        aliases.update(re.findall(rf" as ({WORD})[,}}]", open(f, encoding="utf-8").read()))
    std = imported() - own - aliases
    plain = {n for n in own | std | functions | aliases if "-" not in n}
    names = {snake(p) for p in plain} | plain
    renamed = {}
    taken = collections.Counter()
    for n in sorted(own | {a for a in aliases if re.match("[a-z]", a)}):
        if n in CHOSEN:
            renamed[n] = CHOSEN[n]
            continue
        parts = n.split("-")
        new = [snake(p) for p in parts]
        out = new[0]
        for i in range(1, len(parts)):
            joins = out_is_name(out, names) and new[i] in names
            out += ("-" if joins else "_") + new[i]
        if out != n:
            renamed[n] = out
    old = own | std | aliases | others
    for n, new in renamed.items():
        if "-" not in n:
            taken[new] += 1
    clash = {}
    for n, new in sorted(renamed.items()):
        if "-" in n and (taken[new] or new in old):
            clash[n] = new
        elif "-" not in n and taken[new] > 1:
            clash[n] = new
        elif "-" in n:
            taken[new] += 1
    return renamed, clash


def out_is_name(out, names):
    """The part of a name before a dash is a name if its last dash-joined piece is one."""
    return out.split("-")[-1] in names


def turn_words(text, renamed):
    return TOKEN.sub(lambda m: renamed.get(m.group(1), m.group(1)), text)


def turn_comment(text, renamed):
    camel = {a: b for a, b in renamed.items() if "-" not in a}
    return turn_words(text, camel)


def turn_antt(text, renamed):
    out = []
    for line in text.split("\n"):
        code, mark, comment = line.partition("-- ") if not line.startswith("--") else ("", "", line)
        out.append(turn_words(code, renamed) + mark + turn_comment(comment, renamed))
    return "\n".join(out)


def turn_rt(text, renamed):
    """Ghost imports and clauses; comments where they name what is in camel case."""
    out, depth = [], 0
    for line in text.split("\n"):
        stripped = line.strip()
        if stripped.startswith("//"):
            out.append(turn_comment(line, renamed))
            continue
        if depth == 0 and re.match(r"(pub )?(ghost use|requires|ensures|ghost )", stripped):
            depth = None
        if depth is None or depth > 0:
            opened = (depth or 0) + line.count("{") - line.count("}")
            out.append(turn_words(line, renamed))
            depth = opened if opened > 0 else 0
        else:
            out.append(line)
    return "\n".join(out)


def turn_edit(text, renamed):
    out = []
    for line in text.split("\n"):
        ghost = re.match(r"(old|new):\s*(ghost |requires|ensures)", line)
        in_antt = re.search(r"(?m)^file: (specs|proofs)/", text)
        if line.startswith(("old:", "new:")) and (ghost or in_antt):
            out.append(turn_words(line, renamed))
        else:
            out.append(line)
    return "\n".join(out)


def turn_page(text, renamed, own):
    """Names between back quotes, those too that port.py has respelled."""

    def turned(m):
        name = m.group(1)
        if name in renamed:
            return renamed[name]
        for other in (snake(name), name.replace("-", "_"), "-".join(snake(p) for p in name.split("-"))):
            if name not in own and other in own:
                return other
        return name

    return re.sub(r"`[^`\n]+`", lambda m: TOKEN.sub(turned, m.group(0)), text)


def main():
    if not os.path.isdir("crates"):
        raise SystemExit("run it at the top of the repository")
    for f, names in ASIDE.items():
        text = open(f, encoding="utf-8").read()
        if "--dry" not in sys.argv:
            open(f, "w", encoding="utf-8").write(turn_words(text, names))
    own = definitions()
    renamed, clash = mapping()
    if "--dry" in sys.argv:
        for a, b in sorted(renamed.items()):
            print(a, b, "left" if a in clash else "")
        return
    for a in clash:
        if a not in CHOSEN:
            del renamed[a]
            print("left:", a, "since", clash[a], "is taken")
    for f in files("crates/*/**/*.antt", "crates/*/src/**/*.rt", "crates/*/must-fail/*.edit", "docs/*.md", "README.md"):
        text = open(f, encoding="utf-8").read()
        turn = turn_antt if f.endswith(".antt") else turn_rt if f.endswith(".rt") else turn_edit
        new = turn_page(text, renamed, own) if f.endswith(".md") else turn(text, renamed)
        if new != text:
            open(f, "w", encoding="utf-8").write(new)
    # Rattle makes a module `specs.contracts` of its own, so the page of promises of the typed rules has another name.
    old, new = "crates/typed_rules/specs/Contracts.antt", "crates/typed_rules/specs/Promises.antt"
    if os.path.exists(old):
        os.rename(old, new)
        for f in files("crates/*/**/*.antt", "crates/*/src/**/*.rt"):
            text = open(f, encoding="utf-8").read()
            turned = text.replace("typed_rules.specs.Contracts", "typed_rules.specs.Promises")
            if f == "crates/typed_rules/specs/Lib.antt":
                turned = turned.replace("mod Contracts", "mod Promises")
            if turned != text:
                open(f, "w", encoding="utf-8").write(turned)
    print("respelled:", len(renamed))


if __name__ == "__main__":
    main()
