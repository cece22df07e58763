#!/usr/bin/env python3
"""Brings the names of this repository's own definitions and lemmas to today's spelling: words in snake case, types and facts in camel case.

usage: tools/respell.py            in the repository, once, right after the kit's port.py
       tools/respell.py --clashes  only say which new names fall together with another word of a file

A name is respelled where it is declared in a crate's specs/ or proofs/, and wherever it is used: in .antt files, in the clauses and `ghost use` items
of .rt files, in must-fail edits, and between backticks in comments and pages. Names of src/, exported names, strings, inputs and outputs stay. A word
that a file imports from a library is left alone there.
"""

import collections
import glob
import os
import re
import sys

WORD = re.compile(r"[A-Za-zμ][\w']*(?:-[\w']+)*")
DECLARED = re.compile(r"^\s*(?:(?:unfoldable|abbrev|pub|open|opaque) )*([A-Za-zμ][\w'-]*) :(?: |$)")
KIND = re.compile(r"^\s*(?:(?:unfoldable|abbrev|pub) )*(?:record|data) ([A-Za-z][\w'-]*)")
CASE = re.compile(r"^\s+([A-Za-z][\w'-]*) :(?: |$)")
# Lemmas whose new spelling would fall together with a definition or another word: as in the kit's library, they end in _lem.
CHOSEN = {
    "address-outcome": "address_outcome_lem",
    "after-number": "after_number_lem",
    "argument-or": "argument_or_lem",
    "bool-byte": "bool_byte_lem",
    "child-in": "child_in_lem",
    "first-held": "first_held_lem",
    "first-text": "first_text_lem",
    "five-flags": "five_flags_lem",
    "if-so": "if_so_lem",
    "memory-outcome": "memory_outcome_lem",
    "no_start": "no_start_lem",
    "one-outcome": "one_outcome_lem",
    "one_more": "one_more_lem",
    "opcode-or": "opcode_or_lem",
    "read_at": "read_at_lem",
    "size-or": "size_or_lem",
    "size-outcome": "size_outcome_lem",
    "text-outcome": "text_outcome_lem",
    "three-flags": "three_flags_lem",
    "to-index": "to_index_lem",
    "two-outcome": "two_outcome_lem",
    "value-said": "value_said_lem",
    "verdict-outcome": "verdict_outcome_lem",
    "view_in": "view_in_lem",
}


def snake(name):
    name = re.sub(r"^getD", "get_or", name)
    name = re.sub(r"([a-z0-9])([A-Z])", r"\1_\2", name)
    name = re.sub(r"([A-Za-z])-([A-Za-z0-9'])", r"\1_\2", name).replace("-", "_")
    name = re.sub(r"([a-z])(\d{2,})$", r"\1_\2", name) if re.search(r"[A-Z]", name) else name
    return name.lower()


def spelled(name):
    if name in CHOSEN:
        return CHOSEN[name]
    if name[0].isupper():
        return "".join(p[:1].upper() + p[1:] for p in name.split("-")) if "-" in name else name
    return snake(name)


def antt_files():
    return sorted(glob.glob("crates/*/specs/**/*.antt", recursive=True) + glob.glob("crates/*/proofs/**/*.antt", recursive=True))


def declared():
    """Each declared name that wants a new spelling: those that a function's proof takes from its goals (`tie.`) keep theirs. And all that are declared."""
    found, every = {}, set()
    for path in antt_files():
        for line in open(path, encoding="utf-8"):
            code = line.split("--")[0] if line.lstrip().startswith("--") else line
            m = DECLARED.match(code) or KIND.match(code)
            if not m:
                continue
            name = m.group(1)
            every.add(name)
            if re.search(r" : tie\.", code) or name.startswith("Need-"):
                continue
            new = spelled(name)
            if new != name:
                found.setdefault(name, new)
    return found, every


USE = re.compile(r"^(?:ghost )?use ([\w.·'-]+)\.\{([^}]*)\}", re.M)


def outside(text):
    """The words that a file imports from libraries that are not of this repository."""
    own = {c.split("/")[1] for c in glob.glob("crates/*")}
    words = set()
    for module, names in USE.findall(text):
        parts = module.split(".")
        if parts[0] == "Rattle" and len(parts) > 1 and parts[1] in own:
            continue
        words |= {n.strip().split(" as ")[-1].strip() for n in names.split(",")}
    return words


def turn(text, names, skip):
    return WORD.sub(lambda m: names[m.group(0)] if m.group(0) in names and m.group(0) not in skip else m.group(0), text)


def ticked(text, names):
    return re.sub(r"`[^`\n]+`", lambda m: turn(m.group(0), names, ()), text)


def told(text, names, every):
    """Of a page or an edit: also the names that port.py respelled itself."""
    more = {w: spelled(w) for w in set(WORD.findall(text)) if w not in every and w not in names and spelled(w) != w and spelled(w) in every}
    return dict(more, **names)


def antt(text, names):
    skip = outside(text)
    out = []
    for line in text.split("\n"):
        if line.lstrip().startswith("--"):
            out.append(ticked(line, names))
        else:
            code, mark, comment = line.partition(" -- ")
            out.append(turn(code, names, skip) + mark + ticked(comment, names))
    return "\n".join(out)


CLAUSE = re.compile(r"^\s*(ghost|requires|ensures|invariant|decreases)\b")


def rt(text, names):
    """Only ghost items and clauses: a clause begins at its word and ends where its braces close."""
    skip = outside(text)
    out, depth = [], 0
    for line in text.split("\n"):
        if depth or CLAUSE.match(line):
            out.append(turn(line, names, skip))
            depth = max(0, depth + line.count("{") - line.count("}"))
        elif "//" in line:
            code, mark, comment = line.partition("//")
            out.append(code + mark + ticked(comment, names))
        else:
            out.append(line)
    return "\n".join(out)


def edit(text, names):
    out = []
    for line in text.split("\n"):
        file = line if line.startswith("file:") else None
        if re.match(r"(old|new):", line):
            out.append(turn(line, {k: v for k, v in names.items() if not k[0].isupper()}, ()))
        else:
            out.append(line if file else ticked(line, names))
    return "\n".join(out)


def clashes(names):
    seen = collections.defaultdict(set)
    for path in antt_files() + glob.glob("crates/*/src/**/*.rt", recursive=True):
        text = open(path, encoding="utf-8").read()
        lines = [l for l in text.split("\n") if not l.lstrip().startswith(("--", "//"))]
        words = set(WORD.findall("\n".join(lines)))
        skip = outside(text)
        for w in words:
            if w in names and w not in skip and names[w] in words:
                seen[(w, names[w])].add(path)
    by_new = collections.defaultdict(set)
    for old, new in names.items():
        by_new[new].add(old)
    for new, olds in sorted(by_new.items()):
        if len(olds) > 1:
            print(f"together: {sorted(olds)} -> {new}")
    for (old, new), paths in sorted(seen.items()):
        print(f"clash: {old} -> {new}: {len(paths)} files, as {sorted(paths)[:3]}")


def main():
    names, every = declared()
    if "--clashes" in sys.argv:
        clashes(names)
        return
    jobs = [(p, antt) for p in antt_files()]
    jobs += [(p, rt) for p in glob.glob("crates/*/src/**/*.rt", recursive=True)]
    jobs += [(p, edit) for p in glob.glob("crates/*/must-fail/*.edit")]
    pages = ["README.md"] + [p for p in glob.glob("docs/**/*.md", recursive=True)]
    jobs += [(p, lambda t, n: ticked(t, n)) for p in pages]
    for path, how in jobs:
        text = open(path, encoding="utf-8").read()
        new = how(text, told(text, names, every) if path.endswith((".md", ".edit")) else names)
        if new != text:
            open(path, "w", encoding="utf-8").write(new)
    print(f"respelled {len(names)} names")


if __name__ == "__main__":
    main()
