#!/usr/bin/env python3
"""Counts the places of docs/DESIGN-PASS.md in src/: `python3 tools/places.py` writes a line for each point, `python3 tools/places.py N` lists the places of point N.

It goes by text: a place that it lists may be right as it is, and the page says which are kept and why.
"""
import re
import sys
from collections import defaultdict
from pathlib import Path

TOP = Path(__file__).resolve().parent.parent
NAME = re.compile(r"[A-Za-z_][A-Za-z_0-9]*")
KEYWORDS = set("if else while for in loop match return let mut fn pub as true false break continue const".split())


def files():
    for path in sorted((TOP / "crates").glob("*/src/**/*.rt")):
        yield path.relative_to(TOP / "crates"), path.read_text()


def code_of(text):
    """The text with comments, strings and contracts blanked, so that what is left is code."""
    text = re.sub(r"//[^\n]*", "", text)
    text = re.sub(r'b?"(?:\\.|[^"\\])*"', '""', text, flags=re.S)
    return re.sub(r"^(\s*)(requires|ensures|ghost)\b[^\n]*(\n\s+×[^\n]*)*", "", text, flags=re.M)


def functions(text):
    """Each function: its name, its parameters, its result, its body and its line."""
    for m in re.finditer(r"^( *)(pub(?:\([a-z]+\))? )?(?:extern \"C\" )?fn (\w+)", text, re.M):
        indent = m.group(1)
        end = text.find("\n" + indent + "}", m.end())
        whole = text[m.start() : end]
        open_body = whole.find("\n" + indent + "{")
        head, body = (whole[:open_body], whole[open_body + 1 :]) if open_body >= 0 else (whole.split("{", 1) + [""])[:2]
        head = code_of(head)
        params = head[head.find("(") + 1 : head.rfind(")")]
        result = head.split("->", 1)[1].strip() if "->" in head else ""
        yield m.group(3), bool(m.group(2)), params, result, code_of(body), text.count("\n", 0, m.start()) + 1


def enums():
    """Own enums with a variant that holds nothing or a number, beside one that holds a value: of the shape of Option or Result."""
    for path, text in files():
        for m in re.finditer(r"enum (\w+) \{(.*?)\n\}", re.sub(r"//[^\n]*", "", text), re.S):
            variants = re.findall(r"(\w+)(\([^)]*\))?\s*(?:=\s*\d+)?,", re.sub(r"\n\s*", " ", m.group(2)))
            if 1 < len(variants) < 4 and any(v[1] for v in variants):
                yield f"{path}: enum {m.group(1)} {{ {', '.join(a + b for a, b in variants)} }}"


def sentinels():
    """Functions that answer a refusal or a kind as a bare u8, or a position that stands for none."""
    for path, text in files():
        for name, _, _, result, body, line in functions(text):
            if result == "u8" and not re.fullmatch(r"\{?\s*[\w.\[\] ]+ as u8\s*\}?", body.strip()):
                yield f"{path}:{line}: fn {name} -> u8"
            elif result == "usize" and re.search(r"return 0;|return \d\d;|\n    \d\d\s*$|usize::MAX", body):
                yield f"{path}:{line}: fn {name} -> usize, with a number for none"


def twins():
    """Functions whose parameters and bodies are the same but for names, types and constants; of each group all but one."""
    groups = defaultdict(list)
    for path, text in files():
        for name, _, params, result, body, line in functions(text):
            tokens = re.findall(r"[A-Za-z_0-9']+|[^\sA-Za-z_0-9]", body)
            shape = " ".join(t if t in KEYWORDS or not (NAME.fullmatch(t) or t[0].isdigit()) else "_" for t in tokens)
            shape = shape.replace(", )", ")").replace(", }", "}")
            groups[(params.count(":"), shape)].append(f"{path}:{line}: fn {name}")
    for (_, shape), places in sorted(groups.items(), key=lambda g: g[1]):
        if len(places) > 1 and len(shape) > 30:
            yield from (f"{p}, as {places[0]}" for p in places[1:])


def loops():
    """`while` loops whose condition's variable goes up or down by 1 at each turn."""
    for path, text in files():
        code = code_of(text)
        for m in re.finditer(r"^( *)while ([^\n{]*)\{\n(.*?)\n\1\}", code, re.M | re.S):
            for var in set(NAME.findall(m.group(2))) - KEYWORDS:
                steps = re.findall(rf"\b{var} (?:\+|-)= ([^;]+);|\b{var} = {var} (?:\+|-) (\d+);", m.group(3))
                if steps and all("".join(s) == "1" for s in steps):
                    line = text.count("\n", 0, text.find(m.group(2).strip() + " {")) + 1
                    yield f"{path}: while {m.group(2).strip()} (by {var})"
                    break


def by_hand():
    """Functions that only convert, take the less of two, or say `and` and `or` over; comparisons and copies written by hand."""
    for path, text in files():
        for name, _, params, result, body, line in functions(text):
            inner = body.strip().strip("{}").strip()
            if re.fullmatch(r"\w+(\.\w+)? as \w+", inner) or re.fullmatch(r"if (\w+) < (\w+) \{ *(\1|\2|\w+) *\} else \{ *(\1|\2|\w+) *\}", re.sub(r"\s+", " ", inner)):
                yield f"{path}:{line}: fn {name}"
            elif re.fullmatch(r"if (\w+) \{ (true|\w+) \} else \{ (false|\w+) \}", re.sub(r"\s+", " ", inner)) and result == "bool":
                yield f"{path}:{line}: fn {name}"
        for m in re.finditer(r"impl (?:\w+::)?(PartialEq|Eq|Ord|PartialOrd|Clone|Copy|Hash|Debug|Default)\b[^\n]*", text):
            yield f"{path}: {m.group(0)}"


def together():
    """Three parameters or more, of the same names and types, in three functions or more of a crate; and facts in three requires or more."""
    for crate in sorted({p.parts[0] for p, _ in files()}):
        runs, facts = defaultdict(set), defaultdict(set)
        for path, text in files():
            if path.parts[0] != crate:
                continue
            for name, _, params, _, _, line in functions(text):
                items = [re.sub(r"\s+|'\w+ ?", "", p) for p in params.split(",") if ":" in p]
                for a in range(len(items)):
                    for b in range(a + 3, len(items) + 1):
                        runs[tuple(items[a:b])].add(name)
            for m in re.finditer(r"fn (\w+)[^{;]*?(requires[^\n]*\{.*?)\n(?=\s*(?:ensures|\{))", text, re.S):
                for fact in re.sub(r"requires \w* ?\{|\}\s*$", "", m.group(2)).split("×"):
                    facts[fact.strip(" ()\n{}")].add(m.group(1))
        best = {r: f for r, f in runs.items() if len(f) > 2}
        for r, f in sorted(best.items()):
            if not any(len(q) > len(r) and any(q[i : i + len(r)] == r for i in range(len(q))) and best[q] >= f for q in best):
                yield f"{crate}: ({', '.join(r)}) in {len(f)} functions"
        for fact, f in sorted(facts.items()):
            if len(f) > 2 and len(fact) > 3:
                yield f"{crate}: requires {fact} in {len(f)} functions"


def beside():
    """An array or a slice with its length, or the count of what it holds, as another parameter or field beside it."""
    for path, text in files():
        for name, _, params, _, _, line in functions(text):
            if re.search(r"\[[^\]]*\],?\s*(n|count|left|held|size|len|end|most|items|kept): (usize|u32)", re.sub(r"\s+", " ", params)):
                yield f"{path}:{line}: fn {name}"


def switches():
    """Chains of tests of one variable against numbers, each of which goes to another function."""
    for path, text in files():
        for name, _, _, _, body, line in functions(text):
            tests = re.findall(r"if (\w+) == \d+ \{\s*return \w+\(", body)
            if len(tests) > 2 and len(set(tests)) == 1:
                yield f"{path}:{line}: fn {name}"


def proofs():
    """Files of proofs and their lines, crate by crate."""
    for crate in sorted((TOP / "crates").iterdir()):
        found = list(crate.glob("proofs/**/*.antt"))
        if found:
            yield f"{crate.name}: {len(found)} files, {sum(len(f.read_text().splitlines()) for f in found)} lines"


POINTS = {
    "1a": (enums, "own enums of the shape of Option or Result"),
    "1b": (sentinels, "numbers for kinds, refusals or none"),
    "2": (twins, "twins of another function"),
    "3": (loops, "loops that count an index by hand"),
    "4": (by_hand, "conversions, comparisons and the like by hand"),
    "5": (together, "parameters that travel together, facts in three requires"),
    "6": (beside, "buffers with a length beside"),
    "7": (switches, "switches on which step to run"),
    "8": (proofs, "crates with proofs"),
}

if __name__ == "__main__":
    if len(sys.argv) > 1:
        for place in POINTS[sys.argv[1]][0]():
            print(place)
    else:
        for point, (find, what) in POINTS.items():
            print(f"{point}: {len(list(find()))} {what}")
        code = sum(len(text.splitlines()) for _, text in files())
        lines = sum(len(f.read_text().splitlines()) for f in (TOP / "crates").glob("*/proofs/**/*.antt"))
        print(f"lines: {code} in src/, {lines} in proofs/")
