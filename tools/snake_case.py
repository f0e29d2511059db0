#!/usr/bin/env python3
"""Gives the repository's own definitions and lemmas names in snake case: `lead-of` becomes `lead_of`.

usage: python3 tools/snake_case.py            at the top of the repository, once, after port.py
       python3 tools/snake_case.py --look     writes nothing, and lists the names

A name counts as own where an .antt file of specs/ or proofs/ declares it, and not as a goal that the check names.
Code, strings, comments and the goals' names stay. It stops, and writes nothing, where two turned names would be one.
A line `look:` names one that meets a name of the code, as a definition that is called like the function that it is of.
"""
import collections
import os
import re
import sys

DECLARED = re.compile(r"\s*(?:(?:pub|abbrev|unfoldable|opaque|record|data|let|syntax)\s+)*([^\s:(){},;]+)\s*:\s*(.*)")
BOUND = re.compile(r"[({]((?:[^\s:(){},;.]+\s+)*[^\s:(){},;.]+)\s*:\s")
LOCAL = re.compile(r"(?:\blet\s+|λ\s*)((?:[^\s:(){},;.=]+\s*)+?)(?=[.:=])")
GOAL = re.compile(r"(goals?|needs?|rules?|Goals|Given)\.")
IMPORT = re.compile(r"\buse\s+Rattle\.std\.[^{;]*\{([^}]*)\}", re.S)
NAME = r"(?<![\w'-])%s(?![\w'-])"


def files():
    for folder, dirs, names in os.walk("crates"):
        dirs[:] = sorted(d for d in dirs if d not in ("out", ".git"))
        for name in sorted(names):
            if name.endswith((".rt", ".antt")):
                yield os.path.join(folder, name)


def parts(path, text):
    """The text cut into pieces, each with whether names in it may be turned: not in comments, nor in strings."""
    rust = path.endswith(".rt")
    skip = r'//[^\n]*|"(?:\\.|[^"\\])*"' if rust else r'(?<!\S)--(?:\s[^\n]*)?(?=\n|$)|"(?:\\.|[^"\\])*"'
    at = 0
    for m in re.finditer(skip, text):
        yield text[at : m.start()], True
        yield m[0], False
        at = m.end()
    yield text[at:], True


def dashed(name):
    return bool(re.fullmatch(r"[A-Za-z_][\w']*(?:-[\w']+)+", name))


def main():
    texts = {}
    for path in files():
        with open(path, encoding="utf-8") as f:
            texts[path] = f.read()
    own, library, seen = set(), set(), collections.defaultdict(set)
    for path, text in texts.items():
        code = "".join(piece if turn else "" for piece, turn in parts(path, text))
        for m in IMPORT.finditer(code):
            library.update(n.strip() for n in m[1].split(","))
        for word in re.findall(r"[A-Za-z_][\w']*(?:-[\w']+)*", code):
            seen[word].add(path)
        if path.endswith(".antt"):
            for line in code.split("\n"):
                m = DECLARED.match(line)
                if m and dashed(m[1]) and not GOAL.match(m[2]):
                    own.add(m[1])
                for m in list(BOUND.finditer(line)) + list(LOCAL.finditer(line)):
                    own.update(n for n in m[1].split() if dashed(n))
    own -= library
    to = {name: name.replace("-", "_") for name in own}
    both = [n for n, t in to.items() if list(to.values()).count(t) > 1]
    taken = [(n, t, sorted(seen[t] & seen[n])) for n, t in sorted(to.items()) if t in seen]
    if both:
        print("these fall together: " + ", ".join(sorted(both)))
        return 1
    for n, t, where in taken:
        print(f"look: {n} becomes {t}, which stands already in {', '.join(sorted(seen[t])[:4])}" + (f"; both in {', '.join(where)}" if where else ""))
    if "--look" in sys.argv:
        print("\n".join(sorted(to)))
        return 0
    turn_name = re.compile(NAME % ("(" + "|".join(sorted(map(re.escape, to), key=len, reverse=True)) + ")")) if to else None
    for path, text in texts.items():
        new = "".join(turn_name.sub(lambda m: to[m[1]], piece) if turn else piece for piece, turn in parts(path, text))
        if new != text:
            with open(path, "w", encoding="utf-8") as f:
                f.write(new)
    print(f"{len(to)} names turned")
    return 0


if __name__ == "__main__":
    raise SystemExit(main())
