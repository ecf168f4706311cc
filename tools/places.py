#!/usr/bin/env python3
"""Lists the places in crates/*/src that an older form of Rattle would have left: places to look at, not a verdict.

usage: python3 tools/places.py [POINT..]      at the top of a checkout; with no POINT all of them, 1 to 8

1 answers by a flag, errors and kinds that are numbers, matches that pass an answer on, plain types without comparison
2 functions of one crate whose bodies have one shape
3 loops, and counts that are kept by hand
4 equality, conversion and printing written by hand
5 clauses that stand in three functions or more, and parameters that stand together in three or more
6 arrays, and numbers that say a length
7 matches on a step, and functions handed over
8 files and lines of proofs
"""

import collections
import glob
import re
import sys

FUNCTION = re.compile(r"fn (\w+)(?:<[^(]*?>)?\(([^)]*)\)\s*(?:-> ([^\n{]+))?")


def sources():
    for path in sorted(glob.glob("crates/*/src/**/*.rt", recursive=True)):
        with open(path) as f:
            yield path, f.read()


def is_test(path):
    return "_tests/" in path or "/tapes/" in path


def line_of(text, at):
    return text.count("\n", 0, at) + 1


def show(title, places):
    print(f"  {title}: {len(places)}")
    for place in places:
        print(f"    {place}")


def matches(pattern, tests=True):
    found = []
    for path, text in sources():
        if not tests and is_test(path):
            continue
        for i, line in enumerate(text.split("\n"), 1):
            if re.search(pattern, line) and not line.lstrip().startswith(("//", "ghost use", "requires", "ensures")):
                found.append(f"{path}:{i}: {line.strip()}")
    return found


def functions(tests=False):
    for path, text in sources():
        if is_test(path) and not tests:
            continue
        for m in FUNCTION.finditer(text):
            brace = re.compile(r"^[ ]*\{$|\{$", re.M).search(text, m.end())
            yield path, line_of(text, m.start()), m.group(1), m.group(2), (m.group(3) or "").strip(), body(text, m.end())


def body(text, at):
    """What stands between the braces of the function whose head ends at the place."""
    while True:
        stop = re.compile(r"\n(\s*)\{\n|\{\n|\{\}|;").search(text, at)
        if not stop or stop.group(0).endswith(";"):
            return ""
        line = text[text.rfind("\n", 0, stop.end() - 2) + 1 : stop.end()]
        if re.match(r"\s*(ensures|requires|ghost)", line):
            at = stop.end()
            continue
        depth, i = 1, stop.end()
        if stop.group(0) == "{}":
            return ""
        while depth and i < len(text):
            depth += {"{": 1, "}": -1}.get(text[i], 0)
            i += 1
        return text[stop.end() : i - 1]


def point_1():
    bools = [f"{p}:{l}: {n}" for p, l, n, a, r, b in functions() if r == "bool" and ("&mut" in a)]
    show("functions that may write and answer a bool", bools)
    show("errors that are bare numbers", [f"{p}:{l}: {n} -> {r}" for p, l, n, a, r, b in functions() if re.search(r"Result<.*, (u8|u16|u32|u64|usize)>$", r)])
    show("functions that give a number for a case", matches(r"fn number\b"))
    show("kinds told by a bool", [f"{p}:{l}: {n}({a})" for p, l, n, a, r, b in functions() if re.search(r"\b(multi|extended|decimal|down|indirect): bool", a)])
    passed = []
    for path, text in sources():
        for m in re.finditer(r"\b(Ok|Some)\((\w*|\(\))\) => \1\(\2\)|(Ok|Some)\(_\) => Ok\(\(\)\)|None => Err\(|Some\((\w+)\) => \{?\s*Ok\(|if [^{]*\{\s*Ok\(\(\)\)\s*\} else", text):
            passed.append(f"{path}:{line_of(text, m.start())}: {' '.join(m.group(0).split())}")
    show("matches that pass an answer on", passed)
    plain = []
    for path, text in sources():
        if is_test(path):
            continue
        for m in re.finditer(r"#\[derive\(([^)]*)\)\]\n\s*(?:pub )?(?:enum|struct) (\w+)", text):
            if "Copy" in m.group(1) and "PartialEq" not in m.group(1):
                plain.append(f"{path}:{line_of(text, m.start())}: {m.group(2)}")
    show("plain types that can not be compared", plain)


def shape(code):
    code = re.sub(r"//[^\n]*", "", code)
    code = re.sub(r'b?"[^"]*"|b?\'[^\']*\'|\b\d\w*\b', "0", code)
    code = re.sub(r"\b(?!match\b|if\b|else\b|for\b|in\b|let\b|mut\b|return\b|self\b|Ok\b|Err\b|Some\b|None\b)[A-Za-z_]\w*\b", "x", code)
    return " ".join(code.split())


def point_2():
    found = collections.defaultdict(list)
    for path, line, name, args, result, code in functions(tests=True):
        s = shape(code)
        if len(s) >= 24:
            found[s].append((path, line, name))
    groups = []
    for s, places in found.items():
        if len(places) > 1:
            groups.append("; ".join(f"{p}:{l} {n}" for p, l, n in places))
    show("groups of functions of one shape", sorted(groups))


def point_3():
    show("loops", matches(r"^\s*(for|while|loop)\b"))
    show("of these, with a count by hand", matches(r"for (\(_i, |_?[ijkn]\b)|^\s*while |\bat = put|= \w+\.wrapping_add\(1\);|\bleft -= "))


def point_4():
    show("comparisons field by field", matches(r"==.*&&.*=="))
    show("conversions by hand", matches(r"fn (byte\(self|of_byte|clear|bit\b|number|pc\b)"))
    show("pairs taken apart or put together", matches(r"(from|to)_le_bytes"))
    show("a type's fields copied one by one", matches(r"^\s*(\w+): \w+\.\1,"))
    show("printing by hand", matches(r"^(pub )?fn put|^fn (hex|spaced)|    pub fn put"))


def point_5():
    clauses = collections.Counter()
    for path, text in sources():
        crate = path.split("/")[1]
        for m in re.finditer(r"^\s*(?:requires|ensures)(?: \w+)? (\{.*\})$", text, re.M):
            clauses[crate, m.group(1)] += 1
    show("clauses that stand three times or more", [f"{c}: {k} times {t}" for (c, t), k in sorted(clauses.items()) if k >= 3])
    pairs = collections.defaultdict(set)
    for path, line, name, args, result, code in functions():
        crate = path.split("/")[1]
        names = [re.sub(r"\bmut\b", "", a.split(":")[0]).strip() for a in args.split(",") if ":" in a]
        for i, a in enumerate(names):
            for b in names[i + 1 :]:
                pairs[crate, a, b].add((path, line, name))
    show("parameters together in three functions or more", [f"{c}: {a}, {b}: {', '.join(sorted({n for _, _, n in s}))}" for (c, a, b), s in sorted(pairs.items()) if len(s) >= 3])
    show("functions that ask something (requires)", matches_requires())


def matches_requires():
    found = []
    for path, text in sources():
        for m in re.finditer(r"^\s*requires.*$", text, re.M):
            found.append(f"{path}:{line_of(text, m.start())}: {m.group(0).strip()}")
    return found


def point_6():
    show("fields and locals that are arrays", matches(r"^\s*(pub )?\w+: \[.*; *\w+\]|= \[[^\]]*; *\w+\];", tests=False))
    show("lengths beside", matches(r"^\s*(pub )?(len|size|wrote|count): usize|let mut size\b", tests=False))


def point_7():
    show("matches on a step", matches(r"match (op|link|mark|unit)\b"))
    show("functions handed over", matches(r"\bdyn\b|\bFn(Once|Mut)?\("))


def point_8():
    lines, files = 0, []
    for path in sorted(glob.glob("crates/*/proofs/**/*.antt", recursive=True)):
        n = sum(1 for _ in open(path))
        lines += n
        files.append((path, n))
    print(f"  lines of proofs: {lines} in {len(files)} files, of which Answers.antt: {sum(p.endswith('Answers.antt') for p, _ in files)}")
    by_crate = collections.Counter()
    for path, n in files:
        by_crate[path.split("/")[1]] += n
    for crate, n in by_crate.items():
        print(f"    {crate}: {n}")


def main():
    points = sys.argv[1:] or list("12345678")
    for point in points:
        print(f"point {point}")
        globals()[f"point_{point}"]()


main()
