#!/usr/bin/env python3
"""Brings the repository's own definitions and lemmas to today's spelling: words in snake case, types in camel case. Run once, after port.py, at the top.

A name is own where a file of specs/ or proofs/ declares it. In a file it is respelled unless the file has it from another library (std, the logic);
in a Proof.antt the goals' own names stay, since Rattle names those. The library `json` is renamed to `grammar`, since Rattle has a library of that name.
"""
import collections
import glob
import os
import re
import sys

TOKEN = re.compile(r"[^\s(){}\[\],;.:`\"]+")
SIGNATURE = re.compile(r"^(\s*)((?:(?:pub|abbrev|unfoldable)\s+)*)((?:[^\s(){}\[\],;.:]+\s+)+):\s")
USE = re.compile(r"^\s*(?:ghost |pub )*use ([^\s{;]+?)(?:\.\{([^}]*)\})?(?: as (\S+?))?;?\s*$", re.M)
# Two names that would fall together: the lemma gets `_lem`, as std spells it; of two definitions one gets a name of its own.
OVERRIDES = {
    "as-text": "text_tree", "as_number": "number_tree", "as-word": "literal_tree", "as-array": "array_tree", "as-object": "object_tree",
    "sync-to": "sync_to_fields", "trace-time": "trace_time_fields", "items-of": "list_of_trees", "namesIn": "name_places",
    "is-text": "text_stands", "no-text-is": "no_text_stands",
    "sources-at": "sources_placed", "snapshots-at": "snapshots_placed", "events-at": "events_placed",
}
OVERRIDES |= {n: n.replace("-", "_") + "_lem" for n in (
    "code-of entry-cells entry-at events-in far-in file-in file-number first-or integer-in kind-at length-in machine-given machine-met name-cells name-at "
    "next-by offset-in or-guess other-shared own-shared part-named path-at path-print place-of private-clock seen-row several-at short-at snapshot-of "
    "source-number tie-by trace-cites tried-in").split()}
# The same for lemmas that have the plain spelling already, each with the module that declares it.
LEMMAS = {
    ("manifest", "specs.laws.Members"): "any_at", ("finds", "specs.laws.Bases"): "cited_at", ("written", "specs.Theorems"): "digits_in",
    ("clocks", "specs.laws.Walk"): "placed_by", ("prints", "specs.laws.Walks"): "text_in",
}


def snake(name):
    if name[0].isupper():
        return "".join(p[0].upper() + p[1:] for p in name.split("-"))
    name = name.replace("-", "_")
    name = re.sub(r"(?<=[a-z0-9])([A-Z])", lambda m: "_" + m.group(1).lower(), name)
    return name


def odd(name):
    return bool(re.match(r"[A-Za-z]", name)) and ("-" in name or (name[0].islower() and re.search("[A-Z]", name) is not None)) and not re.search(r"[^\w'-]", name)


def own_modules():
    return sorted(c for c in os.listdir("crates"))


def texts(pattern):
    return sorted(f for f in glob.glob(pattern, recursive=True) if "/out/" not in f)


def imports(text, crates):
    """Names that a file has from its own repository, and names that it has from elsewhere."""
    own, other = set(), set()
    for m in USE.finditer(text):
        path, names = m.group(1), m.group(2)
        parts = path.split(".")
        mine = parts[0] == "Rattle" and parts[1] in crates and not re.search(r"\.(Tie|Statement|Lts|Goals|Given)$", path)
        for n in re.split(r",\s*", names or ""):
            n = n.strip()
            for w in n.split(" as "):
                (own if mine else other).add(w.strip())
    return own, other


def main():
    crates = set(own_modules())
    specs = texts("crates/*/specs/**/*.antt") + texts("crates/*/proofs/**/*.antt")
    sources = texts("crates/*/src/**/*.rt")
    declared = collections.defaultdict(set)
    fields = set()
    goals = collections.defaultdict(set)
    for f in specs:
        record = None
        for line in open(f, encoding="utf-8"):
            line = line.rstrip("\n")
            m = re.match(r"^(\s*)(?:pub |abbrev |unfoldable )*(record|data) (\S+)", line)
            if m:
                declared[m.group(3)].add(f)
                record = len(m.group(1))
                continue
            if record is not None and line.strip() and not line.startswith(" " * (record + 1)):
                record = None
            m = SIGNATURE.match(line)
            if m:
                names = m.group(3).split()
                if f.endswith("/Proof.antt") and (re.search(r": tie\.(Need|invariant|decreases)", line) or (len(names) == 1 and names[0].replace("-", "_").endswith("_spec"))):
                    goals[f].update(names)
                    continue
                for n in names:
                    declared[n].add(f)
                    if record is not None:
                        fields.add(n)
    new = {n: OVERRIDES.get(n, snake(n)) for n in declared if odd(n) or n in OVERRIDES}
    # names that fall together
    back = collections.defaultdict(set)
    for n in declared:
        back[new.get(n, n)].add(n)
    clashes = {k: v for k, v in back.items() if len(v) > 1}
    said = []
    done = {}
    for f in specs + sources:
        text = open(f, encoding="utf-8").read()
        own, other = imports(text, crates)
        here = {n for n in declared if f in declared[n]}
        proof = f.endswith("/Proof.antt")
        source = f.endswith(".rt")
        words = set(TOKEN.findall(text))

        def mine(tok):
            if tok not in new or tok in other and tok not in own or tok in goals[f]:
                return False
            if source:
                return tok in own
            if proof:
                return tok in own or tok in here or tok in fields
            return True

        for k, v in clashes.items():
            both = [n for n in v if n in words and (n == k or mine(n))]
            if len(both) > 1:
                said.append(f"clash: {f}: {both} -> {k}")

        plain = {}
        for (crate, module), name in LEMMAS.items():
            if f == f"crates/{crate}/" + module.replace(".", "/") + ".antt" or re.search(r"Rattle\." + crate + r"\." + re.escape(module) + r"\.\{[^}]*(?<![\w-])" + name + r"(?![\w-])", text):
                plain[name] = name + "_lem"

        def sub(m):
            tok = m.group(0)
            return plain.get(tok) or (new[tok] if mine(tok) else tok)

        def comment(m):
            tok = m.group(0)
            return new[tok] if tok in new and (tok in own or tok in here) and (not source or tok in own) else tok

        lines = []
        for line in text.split("\n"):
            parts = re.split(r'("(?:[^"\\]|\\.)*")', line)
            out, said_comment = [], False
            for k, part in enumerate(parts):
                if said_comment:
                    out.append(re.sub(r"`[^`]*`", lambda m: TOKEN.sub(comment, m.group(0)), part))
                elif k % 2:
                    out.append(part)
                else:
                    mark = re.search(r"(^|\s)(--|//)(\s|$)", part)
                    if mark:
                        out.append(TOKEN.sub(sub, part[: mark.start()]) + re.sub(r"`[^`]*`", lambda m: TOKEN.sub(comment, m.group(0)), part[mark.start():]))
                        said_comment = True
                    else:
                        out.append(TOKEN.sub(sub, part))
            lines.append("".join(out))
        done[f] = "\n".join(lines)
        for tok in words:
            if mine(tok) and new[tok] in words and new[tok] not in clashes:
                said.append(f"taken: {f}: {tok} -> {new[tok]}")
    if "--try" in sys.argv:
        print("\n".join(said))
        print(len(new), "names,", len(said), "to look at")
        return
    for f, text in done.items():
        text = re.sub(r"Rattle\.json(?=\.)", "Rattle.grammar", text)
        text = re.sub(r"(?<![\w:])json(?=::)", "grammar", text)
        open(f, "w", encoding="utf-8").write(text)
    os.rename("crates/json", "crates/grammar")
    lines = [re.sub(r"(?<![\w])json(?![\w])", "grammar", l) if not l.startswith("#") else l for l in open("crates.txt", encoding="utf-8")]
    open("crates.txt", "w", encoding="utf-8").writelines(lines)


if __name__ == "__main__":
    main()
