#!/usr/bin/env python3
"""Respells the repository's own definitions and lemmas: words in snake case, types in camel case.

    python3 tools/respell.py

Run once, at the top of the checkout, after the kit's port.py. `respelled.tsv` has the old and new names.
Functions of src/, exported names, strings, inputs and outputs keep theirs.
"""
import functools
import pathlib
import re
import subprocess

HERE = pathlib.Path(__file__).resolve().parent
TOKEN = re.compile(r"[A-Za-z_][\w'′₀-₉⁺⁻\-→≢≡≤∷ℕ]*")
COMMENT = {".antt": "--", ".rt": "//", ".edit": "# "}
# A lemma whose name would fall together with its definition's, in these files alone.
LEMMAS = {
    "crates/curve/proofs/sort/Order.antt": "put_first",
    "crates/curve/proofs/sort/put_first/Proof.antt": "put_first",
    "crates/files/proofs/book_session/Connectors.antt": "has_code",
}


def table(docs):
    """Old to new. A row marked `docs` is a name that port.py turns in the crates, so it is left for the documents."""
    rows = [line.split("\t") for line in (HERE / "respelled.tsv").read_text().splitlines()]
    return {row[0]: row[1] for row in rows if docs or len(row) == 2}


def respell(text, names):
    return TOKEN.sub(lambda m: names.get(m.group(0), m.group(0)), text)


def quoted(text, names):
    """In a document or a comment, only what stands between backticks."""
    return re.sub(r"`[^`\n]*`", lambda m: respell(m.group(0), names), text)


def respell_code(text, names, comment):
    """Code, line by line; of a comment only what it quotes."""
    lines = []
    for line in text.split("\n"):
        code, mark, rest = line.partition(comment)
        lines.append(respell(code, names) + mark + quoted(rest, names))
    return "\n".join(lines)


def main():
    names, in_documents = table(False), table(True)
    listed = subprocess.check_output(["git", "ls-files", "-co", "--exclude-standard"], text=True)
    for name in sorted(set(listed.splitlines())):
        path = pathlib.Path(name)
        if not path.exists() or path.is_symlink():
            continue
        if name.startswith("crates/") and path.suffix in COMMENT:
            turn = functools.partial(respell_code, comment=COMMENT[path.suffix])
            words = names
        elif path.suffix == ".md" and (name.startswith("docs/") or name == "README.md"):
            turn, words = quoted, in_documents
        else:
            continue
        old = path.read_text()
        new = old
        if name in LEMMAS and f"{LEMMAS[name]}_lem" not in old:
            word = LEMMAS[name]
            new = re.sub(rf"(?<![\w.:'-]){word}(?![\w.'-])", f"{word}_lem", new)
        new = turn(new, words)
        if new != old:
            path.write_text(new)


if __name__ == "__main__":
    main()

