#!/usr/bin/env python3
"""Spells the repository's own definitions and lemmas in snake case, as `verdictOf` to `verdict_of` and `cut-full` to `cut_full`.

usage: tools/respell.py, once, at the top, right after the toolchain's own script.

Own is what specs/ and proofs/ of a crate declare: definitions, lemmas, constructors, fields and variables of theirs that have a dash or
a capital behind a small letter. A name that a file brings in from a library stays in that file, and so do the names that the checker
makes for a function's proof: tie.x, c.x and the like. Types, modules, DATA, ACK and PROBE keep their capitals. It turns .antt files,
clauses and `ghost use` lines of .rt files, must-fail edits, and code spans of pages; it says which new names meet one that is there.
"""
import collections
import glob
import re

NAME = r"[^\s(){}.;,@\"«»`]+"
OWN = re.compile(r"Rattle\.(%s)\." % "|".join(sorted(line.split(":")[0] for line in open("crates.txt") if ":" in line)))
DECLARED = re.compile(rf"^\s*(?:(?:pub|abbrev|unfoldable|ruleset) )*({NAME})(?: [^:=\n]*)? (?::|=)(?= |$)", re.M)
USE = re.compile(r"^use ([^\s;{]+)(?:\{([^}]*)\})?(?: as (\S+))?", re.M)
COMMENT = re.compile(r"--.*")


# Names that would meet another: `ackOf` is a definition and `ack-of` its lemma.
APART = {
    **{name: snake_of + "_lem" for name, snake_of in ((n, n.replace("-", "_")) for n in (
        "ack-of acks-among all-bytes asks-among bit-or bit-xor common-size common-words hear-answer interval-most numbers-among opened-row ring-put "
        "scalars-words sends-size sends-words sent-in window-size").split())},
    "nearArrivals": "near_arrivals_of",
    "farArrivals": "far_arrivals_of",
    "nearCalls": "near_calls_of",
    "farCalls": "far_calls_of",
}


def snake(name):
    return APART.get(name) or re.sub(r"(?<=[a-z0-9])[A-Z]", lambda m: "_" + m[0].lower(), name).replace("-", "_")


def turns(name):
    return (re.search(r"[a-z0-9][A-Z]", name) or "-" in name.strip("-")) and name[0].islower() and "◌" not in name


def brought(text):
    """What a file brings in from libraries, by its name there."""
    return {w for where, items, _ in USE.findall(text) if not OWN.match(where) for item in items.split(",") for w in item.split(" as ")[0].split()}


def is_proof(path):
    return re.search(r"/proofs/.+/Proof\.antt$", path)


def main():
    texts = {p: open(p, encoding="utf-8").read() for p in glob.glob("crates/*/specs/**/*.antt", recursive=True) + glob.glob("crates/*/proofs/**/*.antt", recursive=True)}
    own = set()
    for path, text in texts.items():
        bare = COMMENT.sub("", text)
        names = set(DECLARED.findall(bare))
        if not is_proof(path):
            names |= set(re.findall(rf"(?<![^\s(){{}};,@]){NAME}", USE.sub("", bare))) - brought(bare)
            names |= {alias for items in re.findall(r" as ([^\s,}]+)", bare) for alias in [items]}
        else:
            names = {n for n in names if not re.search(rf"^{re.escape(n)} : (?:tie|goal)\.", bare, re.M) and not n.endswith("-spec")}
        own |= {n for n in names if turns(n)}
    spelled = collections.defaultdict(set)
    every = {w for text in texts.values() for w in re.findall(NAME, text)}
    for name in own:
        spelled[snake(name)].add(name)
    for new, olds in sorted(spelled.items()):
        if len(olds) > 1 or new in every:
            print(f"meet: {' '.join(sorted(olds))} and {new}{' that is there' if new in every else ''}")

    declared = {snake(n) for text in texts.values() for n in DECLARED.findall(COMMENT.sub("", text))}

    def turn(text, stays=(), page=False, proof=False):
        def one(m):
            word, at = m[0], m.start()
            if page and turns(word) and snake(word) in declared:
                return snake(word)
            if word not in own or word in stays:
                return word
            head = re.search(r"([^\s(){};,]+)\.$", text[:at])
            if head and head[1].split(".")[0] in ("tie", "goal", "lib", "borrow", "native", "mathlib", "Prim", "Memᴰ") or head and head[1].startswith("Rattle.std"):
                return word
            if proof and head and head[1].split(".")[0] in ("c", "w", "l") and re.search(r"-(is|requires|spec)$", word):
                return word
            return snake(word)

        return re.sub(NAME, one, text)

    changed = 0
    for path, text in texts.items():
        stays = brought(text)
        if is_proof(path):
            stays |= {n for n in DECLARED.findall(text) if re.search(rf"^{re.escape(n)} : (?:tie|goal)\.", text, re.M) or n.endswith("-spec")}
        new = turn(text, stays, proof=is_proof(path)).replace("◌orElse◌", "◌or_else◌")
        if new != text:
            open(path, "w", encoding="utf-8").write(new)
            changed += 1
    for path in glob.glob("crates/*/src/**/*.rt", recursive=True) + glob.glob("crates/*/must-fail/*.edit"):
        text = open(path, encoding="utf-8").read()
        new = turn(text)
        if new != text:
            open(path, "w", encoding="utf-8").write(new)
            changed += 1
    for path in glob.glob("*.md") + glob.glob("docs/**/*.md", recursive=True) + glob.glob("host/*.md"):
        text = open(path, encoding="utf-8").read()
        new = re.sub(r"`[^`\n]+`", lambda m: turn(m[0], page=True), text)
        if new != text:
            open(path, "w", encoding="utf-8").write(new)
            changed += 1
    print(f"{len(own)} names, {changed} files")


if __name__ == "__main__":
    main()
