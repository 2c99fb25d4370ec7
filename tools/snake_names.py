#!/usr/bin/env python3
"""Gives the repository's own definitions, lemmas, fields and local names in .antt files today's spelling: snake case.
usage: python3 tools/snake_names.py     once, at the top of the repository, after port.py

Names of types, records and modules keep their capitals; names of the kit's library keep their spelling, and so do the
functions of src/, strings, and the generated names in Proof.antt files (goals, and steps behind a dot).
A lemma or field whose name falls together with a definition's gets `_law` behind it."""
import collections, os, re, sys

TOKEN = re.compile(r"[A-Za-zα-ωΑ-Ω_ℕℤ][\w'₀-₉′ℤ]*(?:-[\w'₀-₉′ℤ]+)*")
HEAD = re.compile(r"^(\s*)((?:abbrev|unfoldable|pub|private|opaque|axiom|data|record|mod)\s+)*([^\s:(]+)((?:\s*\([^)]*\))*|(?:\s+[\w'-]+)*)\s*:(?:\s|$)")
# Names that would fall together with a field of a struct or with a name of the kit.
GIVEN = {"in-float": "machine_converts", "lineStep": "line_step_of", "blockRows": "block_rows_of", "blockColumns": "block_columns_of"}


def snake(name):
    name = name.replace("-", "_")
    out = ""
    for i, c in enumerate(name):
        if c.isascii() and c.isupper():
            if i and (name[i - 1].islower() or name[i - 1].isdigit()):
                out += "_"
            out += c.lower()
        else:
            out += c
    return out


def read(path):
    with open(path, encoding="utf-8") as f:
        return f.read()


files = []
for folder, dirs, names in os.walk("crates"):
    dirs[:] = sorted(d for d in dirs if d != "out")
    files += [os.path.join(folder, n) for n in sorted(names) if n.endswith((".rt", ".antt"))]
is_proof = lambda p: os.path.basename(p) == "Proof.antt"
text = {p: read(p) for p in files}
crates = set(os.listdir("crates"))

declared, fields, types = set(), set(), set()
for p in files:
    if p.endswith(".antt") and not is_proof(p):
        for line in text[p].splitlines():
            m = HEAD.match(line)
            if m and TOKEN.fullmatch(m.group(3)):
                declared.add(m.group(3))
                if m.group(1):
                    fields.add(m.group(3))

turned = {n: GIVEN.get(n) or snake(n) for n in declared if not n[0].isupper() and (GIVEN.get(n) or snake(n)) != n}
# Names that fall together: the definition (in camel case until now, or without a dash) has the plain name, the other one
# gets `_law`.
by_new = collections.defaultdict(set)
for n in declared:
    by_new[turned.get(n, n)].add(n)
together = set()
for new, olds in by_new.items():
    if len(olds) > 1:
        camel = [n for n in olds if re.match(r"^[a-z]\w*[A-Z]", n) and "-" not in n]
        definition = camel or [n for n in olds if "-" not in n]
        if len(olds) != 2 or len(definition) != 1:
            sys.exit(f"names fall together: {sorted(olds)}")
        for n in olds - set(definition):
            turned[n] = new + "_law"
            together.add(n)

functions = set()
for p in files:
    if p.endswith(".rt"):
        functions |= {f.replace("_", "-") for f in re.findall(r"\bfn\s+(\w+)", text[p])}


def kit_imports(path):
    """Where a file imports from the kit's library, and the names that it has from there: one of the repository's may be spelled alike."""
    spans, found = [], set()
    for m in re.finditer(r"^(?:ghost )?use ([^{\s;]+)\.\{(.*?)\}", text[path], re.M | re.S):
        parts = m.group(1).split(".")
        if parts[0] != "Rattle" or parts[1] not in crates:
            spans.append(m.span())
            for it in m.group(2).split(","):
                if " as " not in it:
                    found |= set(TOKEN.findall(it))
    return spans, found


def local_names(path):
    """Names with a dash or in camel case that are bound within a file: neither declared nor imported."""
    body = re.sub(r"--.*", "", text[path])
    imported = set()
    for m in re.finditer(r"^use [^{\n]*\{(.*?)\}", body, re.M | re.S):
        imported |= set(TOKEN.findall(m.group(1)))
    body = re.sub(r"^use .*?$(?:\n .*$)*", "", body, flags=re.M)
    found = {}
    for n in set(TOKEN.findall(body)):
        if n in declared or n in imported or n.startswith("Need-"):
            continue
        if "-" in n or re.match(r"^[a-wyz]\w*[A-Z]", n):
            found[n] = snake(n)
    return found


def turn(path):
    t = text[path]
    spans, kits = kit_imports(path)
    names = {n: new for n, new in turned.items() if n not in kits}
    bound = local_names(path) if path.endswith(".antt") and not is_proof(path) else {}
    names |= bound

    def one(m):
        n = m.group(0)
        new = names.get(n)
        if new is None:
            return n
        if any(a <= m.start() < b for a, b in spans):
            return n
        before = t[: m.start()]
        if n in bound and before.endswith("."):
            return n
        if n in together and path.endswith(".rt"):
            return n
        if is_proof(path):
            line = before[before.rfind("\n") + 1 :]
            if before.endswith(".") and not line.startswith("use ") and (n not in fields or n in functions):
                return n
        if n in together and not (re.search(r"-", n)) and is_proof(path) and before.endswith("."):
            return n
        return new

    return TOKEN.sub(one, t)


for p in files:
    new = turn(p)
    if new != text[p]:
        with open(p, "w", encoding="utf-8") as f:
            f.write(new)
print(f"{len(turned)} names turned, {len(together)} of them with _law behind: {' '.join(sorted(together))}")
