#!/usr/bin/env python3
"""Counts the places of docs/DESIGN-PASS.md: python3 tools/places.py [COMMIT]. With no commit, in the files as they stand.

Points 1, 2, 4, 6 and 7 are listed in tools/places.tsv (point, file of crates/, pattern, what it is); a place is there while its
pattern is, and one that moved names both files. Point 3 counts the loops that move a number of their own condition, point 5 what stands in many signatures."""
import re
import subprocess
import sys
from pathlib import Path

TOP = Path(__file__).resolve().parent.parent


def sources(commit):
    if commit is None:
        return {str(p.relative_to(TOP / "crates")): p.read_text() for p in sorted((TOP / "crates").glob("*/src/*.rt"))}
    names = subprocess.run(["git", "ls-tree", "-r", "--name-only", commit, "crates"], cwd=TOP, capture_output=True, text=True, check=True)
    found = [n for n in names.stdout.split() if re.fullmatch(r"crates/\w+/src/\w+\.rt", n)]
    show = lambda n: subprocess.run(["git", "show", f"{commit}:{n}"], cwd=TOP, capture_output=True, text=True, check=True).stdout
    return {n.removeprefix("crates/"): show(n) for n in found}


def listed(files):
    for line in (TOP / "tools" / "places.tsv").read_text().splitlines():
        point, name, pattern, what = line.split("\t")
        # a parameter list is one line here
        text = re.sub(r"\(\n\s+([^()]*?),?\n\)", lambda m: "(" + re.sub(r"\s+", " ", m[1]) + ")", "\n".join(files.get(n, "") for n in name.split()))
        if re.search(pattern, text, re.M):
            yield int(point), name, what, pattern


def counted_loops(files):
    for name, text in files.items():
        lines = text.split("\n")
        for at, line in enumerate(lines):
            head = re.fullmatch(r"(\s*)while (.*) \{", line)
            if not head:
                continue
            end = next(k for k in range(at + 1, len(lines)) if lines[k].startswith(head[1] + "}"))
            body = "\n".join(lines[at + 1 : end])
            if any(re.search(rf"\b{v} [+-]= ", body) for v in set(re.findall(r"[a-z_]+", head[2]))):
                yield 3, name, f"line {at + 1}", f"while {head[2]}"


def repeated(files):
    """Facts of three `requires` clauses or more, and pairs of parameters that stand in five signatures or more, the one never without the other."""
    facts, pairs, alone = {}, {}, {}
    for name, text in files.items():
        for head in re.finditer(r"\bfn (\w+)[^{]*?\((.*?)\)(?: -> [^{]*?)?((?:\n\s+(?:requires|ensures)[^\n]*)*)\n\s*\{", text, re.S):
            params = [p.strip().replace("mut ", "") for p in re.split(r",\s*(?![^\[(]*[\])])", head[2]) if ":" in p]
            for a in params:
                alone[a] = alone.get(a, 0) + 1
            for a, b in {(a, b) for a in params for b in params if a < b}:
                pairs.setdefault((a, b), []).append(f"{name} {head[1]}")
            for fact in re.findall(r"requires (?:\w+ )?\{ (.*) \}", head[3]):
                for part in re.split(r" × ", fact.replace("(", "").replace(")", "")):
                    facts.setdefault(part.strip(), []).append(f"{name} {head[1]}")
    for (a, b), uses in sorted(pairs.items()):
        if len(uses) >= 5 and len(uses) in (alone[a], alone[b]):
            yield 5, f"{len(uses)} signatures", f"{a}, {b}", ""
    for fact, uses in sorted(facts.items()):
        if len(uses) >= 3:
            yield 5, f"{len(uses)} contracts", fact, ""


def main():
    commit = sys.argv[1] if len(sys.argv) > 1 else None
    files = sources(commit)
    places = [*listed(files), *counted_loops(files), *repeated(files)]
    for point, name, what, pattern in sorted(places, key=lambda p: p[0]):
        print(f"{point}\t{name}\t{what}\t{pattern}")
    for point in sorted({p[0] for p in places}):
        print(f"point {point}: {sum(1 for p in places if p[0] == point)}")


main()
