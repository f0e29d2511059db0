#!/usr/bin/env python3
"""Lists the places of the code that may have a plainer form, by seven points, each as file:line and what stands there.

usage: python3 tools/places.py [FOLDER]        FOLDER: the top of a checkout, here by default

It reads crates/*/src/*.rt by patterns alone, so that two versions can be counted alike. A place is a question and no
fault: many stay as they are for a reason that stands beside them.
"""
import collections
import itertools
import os
import re
import sys

POINTS = {
    1: "own enums, flags and codes",
    2: "twins: bodies alike but for names, constants alike",
    3: "loops by an index, a condition or a counter",
    4: "equality, order, copying, conversion and printing by hand",
    5: "facts and parameters that stand together in three or more contracts or signatures",
    6: "buffers with a length beside them, slices side by side",
    7: "macros, enums that select a step, function pointers",
}
KEYWORDS = set("as break const continue else false fn for if impl in let loop match mut return self Self true while".split())
LITERAL = re.compile(r"//[^\n]*|b?\"(?:\\.|[^\"\\])*\"|(?<![\w'])b?'(?:\\[^']+|[^\\'\n])'")
EMPTY = re.compile(r"(Absent|Empty|None|No[A-Z]\w*|Nothing|Nought|Missing|Free|Idle|Unset)$")
TRAITS = "PartialEq|Eq|PartialOrd|Ord|Clone|Copy|Default|From|TryFrom|Display|Debug"
BY_HAND = re.compile(r"(from|to|into)_\w+|is_before|(same|less|equal|compare)(_\w+)?")
LENGTH = re.compile(r"(\w+_)?(count|used|len|length|size|end)$")
SLICE = re.compile(r"&(?:'\w+\s+)?(?:mut\s+)?\[|\[")
OPEN, SHUT = "([{", ")]}"

Function = collections.namedtuple("Function", "crate file line name params result clauses body at")
found = {point: [] for point in POINTS}


def blank(m):
    """A comment as spaces, and a literal as a number: the text keeps its length and its lines."""
    text = m.group()
    return re.sub(r"[^\n]", " ", text) if text.startswith("//") else "0".ljust(len(text))


def shut(text, at):
    """The end of the bracket that opens at this place."""
    depth = 0
    for i in range(at, len(text)):
        depth += (text[i] in OPEN) - (text[i] in SHUT)
        if depth == 0:
            return i + 1
    return len(text)


def shut_angle(text, at):
    """The end of the generics that may begin at this place."""
    depth = 0
    for m in re.finditer(r"->|[<>]", text[at:]):
        depth += {"<": 1, ">": -1}.get(m.group(), 0)
        if depth == 0:
            return at + m.end()
    return at


def split(text):
    """The parts between the commas that stand in no bracket."""
    parts, depth, last = [], 0, 0
    for m in re.finditer(r"->|[\[\](){}<>,]", text):
        depth += (m.group() in "([{<") - (m.group() in ")]}>")
        if m.group() == "," and depth == 0:
            parts.append(text[last : m.start()])
            last = m.end()
    return [" ".join(p.split()) for p in parts + [text[last:]] if p.strip()]


def typed(part):
    """The name and the type of a parameter or a field."""
    name, _, of = re.sub(r"^(#\[[^\]]*\]\s*)*(pub(\([^)]*\))?\s+)?(mut\s+)?", "", part).partition(":")
    return name.strip(), of.strip()


def functions(crate, file, text):
    """Each function: its parameters, its clauses and its body."""
    for m in re.finditer(r"\bfn\s+(\w+)\s*", text):
        at = m.end()
        at = shut_angle(text, at) if text[at] == "<" else at
        end = shut(text, at)
        params = [typed(p) for p in split(text[at + 1 : end - 1])]
        head = re.compile(r"((?:(?!\b(?:where|requires|ensures|ghost)\b)[^{;\[]|\[[^\]]*\])*)(where[^{;]*?(?=\brequires|\bensures|\bghost|[{;]))?").match(text, end)
        clauses, at = [], head.end()
        while clause := re.compile(r"\s*(requires|ensures|ghost)\*?[^{]*").match(text, at):
            at = shut(text, clause.end())
            clauses.append(" ".join(text[clause.end() + 1 : at - 1].split()))
        start = re.compile(r"\s*").match(text, at).end()
        body = text[start : shut(text, start)] if text[start : start + 1] == "{" else ""
        result = head.group(1).strip().removeprefix("->").strip()
        yield Function(crate, file, text.count("\n", 0, m.start()) + 1, m.group(1), params, result, clauses, body, start)


def blocks(text, word):
    """Each struct or enum: where it is, its name, and the parts of its body."""
    for m in re.finditer(r"\b%s\s+(\w+)\s*" % word, text):
        at = shut_angle(text, m.end()) if text[m.end() : m.end() + 1] == "<" else m.end()
        at += len(text[at:]) - len(text[at:].lstrip())
        if text[at : at + 1] in ("{", "("):
            yield m.start(), m.group(1), split(text[at + 1 : shut(text, at) - 1])


def look_at_types(put, text, enums, vecs):
    """Points 1 and 6 at enums and structs; notes each enum, and the names of the fields that are a Vec."""
    for at, name, variants in blocks(text, "enum"):
        names = [re.match(r"\w+", re.sub(r"#\[[^\]]*\]\s*", "", v)).group() for v in variants]
        bare = [n for n, v in zip(names, variants) if not re.search(r"[({]", v)]
        payloads = [len(split(v[re.search(r"[({]", v).start() + 1 : -1])) for v in variants if re.search(r"[({]", v)]
        shape = ""
        if bare and len(variants) <= 2 and payloads:
            shape = ", shaped like Option"
        elif len(variants) == 2 and payloads == [1, 1]:
            shape = ", shaped like Result"
        none = [n for n in bare if EMPTY.match(n)]
        put(1, at, f"enum {name}, {len(variants)} variants{shape}" + (f", bare {' '.join(none)}" if none else ""))
        enums[name] = (put, at)
        for v in variants:
            if re.search(r"\bbool\b", v):
                put(1, at, f"bool in the variant {v}")
    for at, name, fields in blocks(text, "struct"):
        fields = [typed(f) if ":" in f else ("", f) for f in fields if not f.startswith("ghost")]
        for field, of in fields:
            if re.search(r"\bbool\b", of):
                put(1, at, f"bool in struct {name}: {field}")
            if re.match(r"Vec\b", of):
                vecs.add(field)
        rows = [f for f, of in fields if SLICE.match(of)]
        lengths = [f for f, of in fields if of == "usize" and LENGTH.match(f)]
        if rows and lengths:
            put(6, at, f"struct {name}: {' '.join(rows)} with {' '.join(lengths)}")


def look_at_loops(put, text, base):
    """Point 3 in a body, which begins at the place base."""
    for m in re.finditer(r"\bfor\s+(\w+)\s+in\s+([^{};]*?\.\.[^{};]*)\{", text):
        body = text[m.end() - 1 : shut(text, m.end() - 1)]
        if m.group(1).startswith("_"):
            put(3, base + m.start(), f"for {m.group(1)} in {m.group(2).strip()}")
        elif re.search(r"\[[^\[\]]*\b%s\b[^\[\]]*\]|\bget(_mut)?\(%s\)" % (m.group(1), m.group(1)), body):
            put(3, base + m.start(), f"for {m.group(1)} in {m.group(2).strip()}, an index")
    for m in re.finditer(r"\b(while|for|loop)\b[^{};]*\{", text):
        if m.group(1) == "while":
            put(3, base + m.start(), " ".join(m.group()[:-1].split()))
        body = text[m.end() - 1 : shut(text, m.end() - 1)]
        for count in re.finditer(r"([\w.]+) (?:\+= 1\b|= \1(?:\.\w+_add\(1\)| \+ 1\b))", body):
            put(3, base + m.end() - 1 + count.start(), f"counter {count.group()}")


def look_at_function(put, f):
    """Points 1, 3, 4 and 6 at one function."""
    for name, of in f.params:
        if of == "bool":
            put(1, f.at, f"bool parameter of {f.name}: {name}")
    if re.search(r"^(Option<)?u(8|32)>?$|,\s*u(8|32)>$", f.result):
        put(1, f.at, f"{f.name} answers {f.result}")
    if BY_HAND.fullmatch(f.name):
        put(4, f.at, f"fn {f.name}")
    rows = [name for name, of in f.params if SLICE.match(of)]
    lengths = [name for name, of in f.params if of == "usize" and LENGTH.match(name)]
    if rows and lengths:
        put(6, f.at, f"{f.name}: {' '.join(rows)} with {' '.join(lengths)}")
    if len(rows) > 1:
        put(6, f.at, f"{f.name}: slices {' '.join(rows)}")
    look_at_loops(put, f.body, f.at)


def alike(f):
    """The body with each name and each number as one sign."""
    words = re.findall(r"\w+|[^\w\s]", f.body)
    return " ".join(w if w in KEYWORDS or not re.match(r"\w", w) else "n" for w in words)


def look_at_twins(all_functions, constants):
    """Point 2: bodies of two statements or three lines that are one but for names, and constants of one value."""
    groups = collections.defaultdict(list)
    for f in all_functions:
        if f.body.count(";") > 1 or len([l for l in f.body.split("\n") if l.strip("{} ")]) > 2:
            groups[alike(f)].append(f)
    for group in groups.values():
        if len(group) > 1:
            found[2].append((group[0].file, group[0].line, "alike: " + ", ".join(f"{f.name} ({f.file}:{f.line})" for f in group)))
    for (of, value), places in constants.items():
        if len(places) > 1:
            found[2].append((*places[0][:2], f"{of} = {value}: " + ", ".join(f"{n} ({p}:{l})" for p, l, n in places)))


def look_at_clauses(all_functions):
    """Point 5, crate by crate."""
    for crate, group in itertools.groupby(all_functions, lambda f: f.crate):
        group = list(group)
        terms, sets = collections.defaultdict(set), [frozenset(p for p in f.params if p[1]) for f in group]
        for k, f in enumerate(group):
            for clause in f.clauses:
                for at in (i for i, c in enumerate(clause) if c == "("):
                    term = clause[at + 1 : shut(clause, at) - 1]
                    if len(term) > 12 and " " in term and not re.match(r"[^()]*? : ", term):
                        terms[term].add(k)
        for term, users in terms.items():
            if len(users) > 2:
                first = group[min(users)]
                found[5].append((first.file, first.line, f"({term}) in {len(users)} contracts"))
        common = {a & b for a, b in itertools.combinations(sets, 2) if len(a & b) > 2}
        often = {c: [k for k, s in enumerate(sets) if c <= s] for c in common}
        often = {c: users for c, users in often.items() if len(users) > 2}
        for c, users in often.items():
            if not any(c < other and often[other] == users for other in often):
                first = group[users[0]]
                names = ", ".join(f"{n}: {of}" for n, of in first.params if (n, of) in c)
                found[5].append((first.file, first.line, f"({names}) in {len(users)} signatures"))


def look_at_steps(all_functions, enums):
    """Point 7: an enum whose variants are arms in one function alone."""
    for name, (put, at) in enums.items():
        arm = re.compile(r"\b%s::\w+\s*(\([^()]*\)|\{[^{}]*\})?\)*\s*(\||=>|if\b)" % name)
        users = [f for f in all_functions if arm.search(f.body)]
        if len(users) == 1:
            put(7, at, f"enum {name} is matched in {users[0].name} ({users[0].file}:{users[0].line}) alone")


def main():
    os.chdir(sys.argv[1] if len(sys.argv) > 1 else ".")
    all_functions, constants, enums, vecs, texts = [], collections.defaultdict(list), {}, set(), []
    for crate in sorted(os.listdir("crates")):
        for folder, _, names in sorted(os.walk(f"crates/{crate}/src")):
            for file in sorted(os.path.join(folder, n) for n in names if n.endswith(".rt")):
                raw = open(file, encoding="utf-8").read()
                text = LITERAL.sub(blank, raw)
                texts.append((file, text))

                def put(point, at, what, file=file, text=text):
                    found[point].append((file, text.count("\n", 0, at) + 1, what))

                look_at_types(put, text, enums, vecs)
                for f in functions(crate, file, text):
                    all_functions.append(f)
                    look_at_function(put, f)
                for m in re.finditer(r"\bconst\s+(\w+)\s*:\s*([^=;]+?)\s*=\s*([^;]+);", text):
                    value = " ".join(raw[m.start(3) : m.end(3)].split())
                    constants[m.group(2), value].append((file, text.count("\n", 0, m.start()) + 1, m.group(1)))
                for m in re.finditer(r"\bimpl\b(<.*?>)?\s+(?:\w+::)*(%s)(<[^{]*?>)?\s+for\s+([^{]+)\{" % TRAITS, text):
                    put(4, m.start(), f"impl {m.group(2)} for {m.group(4).strip()}")
                for m in re.finditer(r"push\(b'", raw):
                    put(4, m.start(), "a byte pushed by hand")
                for m in re.finditer(r"\bmacro_rules!\s*\w+|(?<!\w)fn\s*\(", text):
                    put(7, m.start(), m.group())
    for file, text in texts:
        for field in vecs:
            for m in re.finditer(r"\.%s\[" % re.escape(field), text) if field else []:
                found[6].append((file, text.count("\n", 0, m.start()) + 1, f"Vec {field} by index"))
    look_at_twins(all_functions, constants)
    look_at_clauses(all_functions)
    look_at_steps(all_functions, enums)
    for point, title in POINTS.items():
        places = sorted(set(found[point]))
        print(f"{point}. {title}: {len(places)}")
        for file, line, what in places:
            print(f"   {file}:{line}: {what}")


main()
