#!/usr/bin/env python3
"""Brings this repository's own definitions and lemmas to snake case, and its own fact types to camel case.

usage: respell.py [FOLDER] [--list]     once, right after the toolchain's port.py, at the top of the repository

A name is the repository's own if a file of specs/ or proofs/ gives it: a definition, a lemma, a field, a constructor, a
local name. Names that a file takes from the kit's library, and those that Rattle makes (behind `tie.`, `goal.`, `c.` and
the like), stay. So do the words of .rt code, strings and comments.
"""
import collections, glob, os, re, sys

NAME = r"[^\W\d][\w'′]*"
WORD = re.compile(r"(?<![\w'′\-◌.])" + r"([^\W\d_][\w'′]*(?:-[\w'′]+)+|[^\W\d_][\w]*′+)(?![\w'′\-◌])")
FIELD = re.compile(r"(?<=\.)([^\W\d_][\w'′]*(?:-[\w'′]+)+)(?![\w'′\-◌])")
USE = re.compile(r"(?ms)^\s*(?:ghost |pub )*use ([^\s{};]+)\.\{([^}]*)\}")
MADE = ("Need-", "invariant-", "decreases-")


def new_name(n):
    n = n.replace("′", "'")
    parts = n.split("-")
    if parts[0][0].isupper():
        return "".join(p[:1].upper() + p[1:] for p in parts)
    return "_".join(parts)


def is_proof(f):
    return os.path.basename(f) in ("Proof.antt", "Invariants.antt", "Answers.antt")


def read(f):
    with open(f, encoding="utf-8") as it:
        return it.read()


def split(text, rust):
    """(code, other) pieces: comments and strings are other."""
    mark = r"//[^\n]*" if rust else r"--[^\n]*"
    return re.split(r"(" + mark + r"|\"(?:\\.|[^\"\\\n])*\")", text)


def main(root):
    os.chdir(root)
    antt = sorted(glob.glob("crates/*/specs/**/*.antt", recursive=True) + glob.glob("crates/*/proofs/**/*.antt", recursive=True))
    rust = sorted(glob.glob("crates/*/src/**/*.rt", recursive=True))
    crates = set(os.listdir("crates"))
    foreign = set()          # names that come from the kit
    for f in antt + rust:
        for path, names in USE.findall(read(f)):
            parts = path.split(".")
            own = parts[0] == "Rattle" and len(parts) > 1 and parts[1] in crates
            if not own:
                for n in names.split(","):
                    foreign.add(n.strip().split(" as ")[0])
    given = collections.Counter()
    for f in antt:
        if is_proof(f):
            continue
        for i, piece in enumerate(split(read(f), False)):
            if i % 2 == 0:
                for n in WORD.findall(piece) + FIELD.findall(piece):
                    given[n] += 1
    for f in antt + rust:    # what is imported under another name
        for path, names in USE.findall(read(f)):
            for n in names.split(","):
                m = re.match(r"\s*\S+ as (\S+)\s*$", n)
                if m and "-" in m.group(1):
                    given[m.group(1)] += 1
    table = {n: new_name(n) for n in given if n not in foreign and not n.startswith(MADE)}
    olds = collections.defaultdict(list)
    for a, b in table.items():
        olds[b].append(a)
    for b, a in sorted(olds.items()):
        if len(a) > 1:
            print("falls together:", b, a)
    clash = 0
    for f in antt + rust:
        text = read(f)
        pieces = split(text, f.endswith(".rt"))
        words = set(re.findall(r"[^\W\d][\w'′]*", " ".join(pieces[::2])))
        used = set()
        local = set(re.findall(r"(?m)^(?:abbrev |pub )*([^\W\d_][\w'′-]*) :", text)) if is_proof(f) else set()

        def word(m):
            n = m.group(1)
            if n in table and not (n in local and n not in own_lemmas):
                used.add(n)
                return table[n]
            return n

        own_lemmas = {n for n in local if re.search(r"(?m)^(?:abbrev |pub )*" + re.escape(n) + r" : (?!tie\.|goal\.)", text)}
        for i in range(0, len(pieces), 2):
            pieces[i] = FIELD.sub(lambda m: m.group(1) if is_proof(f) and made(m) else table.get(m.group(1), m.group(1)), WORD.sub(word, pieces[i]))
        for n in used:
            if table[n] in words:
                clash += 1
                print(f"both in {f}: {n} and {table[n]}")
        out = "".join(pieces)
        if out != text:
            with open(f, "w", encoding="utf-8") as it:
                it.write(out)
    print(f"{len(table)} names, {clash} places to look at")
    if "--list" in sys.argv:
        for a in sorted(table):
            print(f"{a}\t{table[a]}")


def made(m):
    """Behind a name that Rattle makes: tie.x, goal.x, c.x."""
    before = re.search(r"([\w'.-]+)\.$", m.string[max(0, m.start() - 200):m.start()])
    if not before:
        return False
    head = before.group(1).split(".")[0]
    return head in ("tie", "goal", "c", "l")


if __name__ == "__main__":
    main(next((a for a in sys.argv[1:] if not a.startswith("--")), "."))
