#!/usr/bin/env python3
"""Renames this repository's own `if b then x else y` to `when b then x else y`.

usage: when.py [FOLDER]     once, after respell.py, at the top of the repository

The toolchain keeps the name `if◌then◌else◌` for its own, which computes both values first: a definition by recursion
that chooses by it goes on without end. Ours waits. In .antt files every `if` is ours; in .rt files and in edits of
them, those with a `then`; and the sense stays.
"""
import glob, os, re, sys

HOLE = "if◌then◌else◌"


def antt(text):
    parts = re.split(r"(--[^\n]*|\"(?:\\.|[^\"\\\n])*\")", text)
    return "".join(p if i % 2 else re.sub(r"(?<![\w'.\-◌])if(?![\w'\-◌])", "when", p.replace(HOLE, "when◌then◌else◌")) for i, p in enumerate(parts))


def rust(text):
    out = []
    for line in text.split("\n"):
        line = line.replace(HOLE, "when◌then◌else◌")
        if re.search(r"\bif\b.*\bthen\b", line) and not line.lstrip().startswith(("//", "#")):
            line = re.sub(r"\bif\b", "when", line)
        out.append(line)
    return "\n".join(out)


def edit(text):
    where = re.search(r"(?m)^file: (\S+)", text)
    turn = rust if where and where.group(1).endswith(".rt") else antt
    lines = text.split("\n")
    return "\n".join(turn(l) if l.startswith(("old:", "new:")) else l for l in lines)


def main(root):
    os.chdir(root)
    for pattern, turn in (("crates/*/specs/**/*.antt", antt), ("crates/*/proofs/**/*.antt", antt), ("crates/*/src/**/*.rt", rust), ("crates/*/must-fail/**/*.edit", edit)):
        for f in sorted(glob.glob(pattern, recursive=True)):
            with open(f, encoding="utf-8") as it:
                text = it.read()
            new = turn(text)
            if new != text:
                with open(f, "w", encoding="utf-8") as it:
                    it.write(new)


if __name__ == "__main__":
    main(sys.argv[1] if len(sys.argv) > 1 else ".")
