#!/usr/bin/env python3
"""Places of the older forms in crates/*/src at a commit, as docs/DESIGN-PASS.md counts them.

    python3 tools/design_counts.py [COMMIT] [--list]

Points 1, 3, 4, 5, 6 and 7 are counted by text; a row says what is counted. With --list each place is named.
"""
import collections
import itertools
import re
import subprocess
import sys


def sources(commit):
    names = subprocess.run(["git", "ls-tree", "-r", "--name-only", commit, "crates"], capture_output=True, text=True, check=True)
    for name in names.stdout.split():
        if re.search(r"/src/.*\.rt$", name):
            yield name, subprocess.run(["git", "show", f"{commit}:{name}"], capture_output=True, text=True, check=True).stdout


def line_of(text, position):
    return text.count("\n", 0, position) + 1


FUNCTION = re.compile(r"fn (\w+)(?:<[^>]*>)?\(([^{]*?)\)(?:\s*->\s*[^\n{]+)?\n((?:[ ]*(?:requires|ensures|≡|[ ]{8,})[^\n]*\n)*)", re.S)


def functions(text):
    for found in FUNCTION.finditer(text):
        clauses = re.sub(r"\s+", " ", found.group(3))
        parameters = [re.sub(r"\s+", " ", part).strip() for part in found.group(2).split(",") if part.strip()]
        yield found.group(1), line_of(text, found.start()), parameters, clauses


def by_pattern(pattern, flags=re.M):
    pattern = re.compile(pattern, flags)

    def places(files):
        for name, text in files:
            for found in pattern.finditer(text):
                yield f"{name}:{line_of(text, found.start())}: {found.group(0).strip().splitlines()[0]}"

    return places


def own_enums(files):
    """An enum with a case that holds a refusal, or with two cases of which one holds nothing and the other something."""
    for name, text in files:
        for found in re.finditer(r"^(?:pub )?enum (\w+)[^{]*\{(.*?)^\}", text, re.M | re.S):
            cases = [case for case in re.findall(r"^    (\w+(?:\([^)]*\))?),$", found.group(2), re.M)]
            bare = [case for case in cases if "(" not in case]
            if any("(Refusal)" in case for case in cases) or (len(bare) == 1 and len(cases) > 1 and found.group(1) != "Macro"):  # document 01 names the form of `Macro`
                yield f"{name}:{line_of(text, found.start())}: enum {found.group(1)}"


def facts(files):
    """Conjuncts of `requires` that stand in three functions or more."""
    where = collections.defaultdict(list)
    for name, text in files:
        for function, line, _, clauses in functions(text):
            for clause in re.findall(r"requires (?:\w+ )?\{ (.*?) \}(?= requires| ensures|$| *$)", clauses):
                for part in clause.split(" × "):
                    part = re.sub(r"\.(old|now)\b", "", part).strip()
                    while part.startswith("(") and part.endswith(")"):
                        part = part[1:-1]
                    where[part].append(f"{name}:{line}: {function}")
    for fact, places in sorted(where.items()):
        if len(places) >= 3:
            yield f"`{fact}` in {len(places)}: " + ", ".join(place.split(": ")[1] for place in places)


def groups(files):
    """Three parameters or more that the same four functions or more take, largest groups first."""
    takes = collections.Counter()
    for name, text in files:
        for _, _, parameters, _ in functions(text):
            plain = sorted({re.sub(r"&(mut )?", "", p) for p in parameters if ":" in p})
            for size in range(3, min(len(plain), 8) + 1):
                for group in itertools.combinations(plain, size):
                    takes[group] += 1
    large = [(group, count) for group, count in takes.items() if count >= 4]
    for group, count in sorted(large, key=lambda row: (-len(row[0]), -row[1])):
        if not any(set(group) < set(other) for other, more in large):
            yield f"({', '.join(group)}) in {count}"


ROWS = [
    ("1", "own enums of the shape of Option or Result", own_enums),
    ("1", "records with an outcome beside a value", by_pattern(r"^    pub outcome: .*$")),
    ("1", "kinds of words as literals", by_pattern(r"(?:word_outcome|test_word)\(\s*words,\s*[\w +]+,\s*\d|(?:word_of|value_word)\(\d")),
    ("1", "parameters that are a number for a pass", by_pattern(r"\bpass: usize")),
    ("1", "parameters that are a number for a task", by_pattern(r"\btask: usize|\bnumber: usize,\n\s+block")),
    ("3", "loops that count by hand, or `loop`", by_pattern(r"^\s*(?:'\w+: )?(?:while|loop)\b.*$")),
    ("4", "own functions for what std has", by_pattern(r"^\s*(?:pub )?fn (?:is_zero|lesser|one_if|if_below|if_equal|residue|signed|mul|size_from|number_from|decode_signed\d+|encode_signed\d+|print_refusal|one_if_accepted|grid_of|refused)\b.*$")),
    ("5", "facts in the contracts of three functions or more", facts),
    ("5", "groups of three parameters or more that four functions or more take", groups),
    ("6", "a start beside a buffer, and a count", by_pattern(r"\b(?:\w+_)?start: usize")),
    ("7", "matches on a number or a stage for the step to run", by_pattern(r"match (?:task|stage|source) \{")),
]


def main():
    arguments = [argument for argument in sys.argv[1:] if not argument.startswith("--")]
    commit = arguments[0] if arguments else "HEAD"
    files = list(sources(commit))
    for point, what, count in ROWS:
        places = list(count(files))
        print(f"point {point}  {len(places):4}  {what}")
        if "--list" in sys.argv:
            for place in places:
                print("            ", place)


main()
