#!/usr/bin/env python3
"""Spells the repository's own definitions, fields and lemmas as today's Rattle spells names: words in snake case, facts and types in
camel case. Run once at the top of the repository, on files that the port of the toolchain's kit has turned.

    respell.py           rewrites the .antt and .rt files below crates/
    respell.py --list    prints what would be renamed, and what falls together, and writes nothing

Names that the toolchain makes (goals, steps, choices of a proof) and names that come from outside keep their spelling.
"""
import os
import re
import sys

TOKEN = r"[^\s(){}.,;«»\[\]⌜⌝⟦⟧]+"
HEAD = re.compile(r"^\s*(?:module _.*|(?:(?:abbrev|unfoldable|pub|record|data)\s+)*(" + TOKEN + r")((?:\s+[({][^(){}]*(?:\([^()]*\)[^(){}]*)*[)}])*)\s*:(?=\s|$)(.*))$")
OUTSIDE = re.compile(r"^(?:ghost )?use (?!Rattle\.(?:CRATES)\.)[^{]*\.\{([^}]*)\}")
MADE = re.compile(r"^\s*(?:goal|given|need)\.")


def files(top):
    for folder, dirs, names in os.walk(os.path.join(top, "crates")):
        dirs[:] = sorted(d for d in dirs if not (d == "out" and os.path.dirname(folder).endswith("crates")))
        for name in sorted(names):
            if name.endswith((".antt", ".rt")):
                yield os.path.join(folder, name)


def respelt(name):
    parts = name.split("-")
    if re.match(r"[A-Z]", name):
        return "".join(p[:1].upper() + p[1:] for p in parts)
    parts = [re.sub(r"(?<=[a-z])([A-Z])(?=[a-z]|$)", lambda m: "_" + m.group(1).lower(), p) for p in parts]
    return "_".join(p[:1].lower() + p[1:] if p[:1].isupper() and not p.isupper() else p for p in parts)


def pieces(line, mark):
    """The line's code and its comment; text between quotes counts as comment."""
    out, at, i, quoted = [], 0, 0, False
    while i < len(line):
        if line[i] == '"':
            out.append((quoted, line[at:i]))
            at, quoted = i, not quoted
        elif not quoted and line.startswith(mark, i) and (i == 0 or line[i - 1].isspace()):
            out.append((False, line[at:i]))
            out.append((True, line[i:]))
            return out
        i += 1
    out.append((quoted, line[at:]))
    return out


def main():
    top = os.getcwd()
    crates = [c for c in os.listdir(os.path.join(top, "crates"))]
    outside_use = re.compile(OUTSIDE.pattern.replace("CRATES", "|".join(map(re.escape, crates))))
    texts = {p: open(p, encoding="utf-8").read() for p in files(top)}
    own, outside = {}, set()
    for path, text in texts.items():
        for line in text.splitlines():
            m = outside_use.match(line)
            if m:
                outside |= {w.strip().split(" as ")[0] for w in m.group(1).split(",")}
            if path.endswith(".antt"):
                m = HEAD.match(line)
                if m and m.group(1) and not MADE.match(m.group(3) or "") and m.group(1) != "module":
                    own.setdefault(m.group(1), set()).add(path)
            for w in re.findall(r" as (" + TOKEN + r")", line.split("{", 1)[1] if re.match(r"(ghost )?use .*\{", line) else ""):
                own.setdefault(w, set()).add(path)
    names = {n: respelt(n) for n in own if respelt(n) != n and re.match(r"[A-Za-z]", n)}
    clash = sorted(n for n in names if n in outside)
    for n in clash:
        print(f"keeps its spelling, since the library has it too: {n}: {', '.join(sorted(own[n]))}")
    tokens = {}
    for path, text in texts.items():
        for t in re.findall(TOKEN, text):
            tokens.setdefault(t, set()).add(path)
    seen = {}
    for n, to in sorted(names.items()):
        if to in tokens:
            print(f"falls together: {n} and {to}, which stands in {', '.join(sorted(os.path.relpath(p, top) for p in tokens[to])[:4])}")
        if to in seen:
            print(f"falls together: {n} and {seen[to]}")
        seen[to] = n
    if "--list" in sys.argv:
        print("\n".join(f"{a} -> {b}" for a, b in sorted(names.items())))
        return
    for n in clash:
        del names[n]
    each = re.compile(r"(?<![^\s(){}.,;«»\[\]⌜⌝⟦⟧`←])(" + "|".join(sorted(map(re.escape, names), key=len, reverse=True)) + r")(?![^\s(){}.,;«»\[\]⌜⌝⟦⟧`])")
    for path, text in texts.items():
        answers = bool(re.search(r"/(Answers|Invariants|Choices|Proof)\.antt$", path))
        lines = []
        for line in text.split("\n"):
            done = []
            if outside_use.match(line):
                lines.append(line)
                continue
            for aside, piece in pieces(line, "--" if path.endswith(".antt") else "//"):
                def turn(m):
                    before = m.string[: m.start()]
                    if answers and re.search(r"(?<![\w'.-])[cl]\.$", before):
                        return m.group(0)
                    if aside and not (before.endswith("`")):
                        return m.group(0)
                    return names[m.group(1)]

                done.append(each.sub(turn, piece))
            lines.append("".join(done))
        new = "\n".join(lines)
        if new != text:
            with open(path, "w", encoding="utf-8") as f:
                f.write(new)


if __name__ == "__main__":
    main()
