#!/usr/bin/env python3
"""Brings this repository's own definitions and lemmas to one spelling: words in snake case.

usage: python3 tools/respell.py [FOLDER]     rewrites crates/*/{specs,proofs,src} below FOLDER in place

A name with hyphens or humps that this repository declares (a definition, a lemma, a field, a
name bound in a proof) is respelled wherever it stands. Names of the standard library, and those that the
checker makes of a function's code, keep their spelling. Prints the names that fall together with another
name in a file. Run once, right after the toolchain's own port.py.
"""

from __future__ import annotations

import re
import sys
from pathlib import Path

#: A word as the proof language reads it, where it may need another spelling.
WORD = re.compile(r"(?<![\w◌·⊎'′-])([a-z][\w]*(?:-[\w]+)*['′]*)(?![\w-])")
USE = re.compile(r"^(?:ghost )?use ([\w.]+?)\.\{([^}]*)\};?$", re.M)
FIELD = re.compile(r"^\s+(?:pub )?([a-z][\w]*(?:-[\w]+)*['′]*) :", re.M)

#: Names that would fall together with another, and what they are called instead.
OTHERWISE = {
    "classCount": "number_of_classes",
    "stateCount": "number_of_states",
    "isBelow": "word_is_below",
    "word-back": "word_back_is_a_word",
}


def wants(word: str) -> bool:
    """A name that is not in snake case."""
    return "-" in word or re.search(r"[a-z0-9][A-Z]", word) is not None


def snake(word: str) -> str:
    if word in OTHERWISE:
        return OTHERWISE[word]
    word = re.sub(r"(?<=[a-z0-9])([A-Z])", r"_\1", word)
    return word.replace("-", "_").lower()


def imports(text: str) -> tuple[set[str], set[str]]:
    """The names that a file imports from the library, and from the crates of this repository."""
    library: set[str] = set()
    own: set[str] = set()
    for path, names in USE.findall(text):
        words = {re.split(r" as ", n.strip())[-1] for n in names.split(",") if n.strip()}
        made = path.endswith((".Goals", ".Given")) or ".declared." in path
        (library if path.startswith("Rattle.std.") or made else own).update(words)
    return library, own


def code_only(line: str) -> tuple[str, str]:
    """A line of a proof, divided where its comment begins."""
    found = re.search(r"(?:^|\s)--(?:\s|$)", line)
    return (line[: found.start()], line[found.start() :]) if found else (line, "")


def respell(text: str, lemma: bool, source: bool, fields: set[str], declared: set[str]) -> tuple[str, set[str]]:
    library, own = imports(text)
    changed: set[str] = set()

    def change(found: re.Match[str], before: str) -> str:
        word = found.group(1)
        if not wants(word):
            return word
        if before.endswith(".") and not before.endswith(". ") and not before.endswith("{"):
            right = word in fields or (lemma and word in declared and word not in library)
        elif lemma:
            right = word not in library
        else:
            right = word in own
        if not right:
            return word
        changed.add(word)
        return snake(word)

    def whole(line: str) -> str:
        code, comment = (line, "") if source else code_only(line)
        if source and code.lstrip().startswith("//"):
            return line
        done = WORD.sub(lambda m: change(m, code[: m.start()]), code)
        return done + comment

    lines = []
    for line in text.split("\n"):
        use = USE.match(line)
        if use is not None and (use.group(1).startswith("Rattle.std.") or ".declared." in use.group(1) or use.group(1).endswith((".Goals", ".Given"))):
            lines.append(line)
        else:
            lines.append(whole(line))
    return "\n".join(lines), changed


def main() -> int:
    top = Path(sys.argv[1] if len(sys.argv) > 1 else ".")
    crates = sorted(p for p in (top / "crates").iterdir() if p.is_dir())
    lemma_files = [f for c in crates for f in [*sorted((c / "specs").glob("**/*.antt")), *sorted((c / "proofs").glob("*.antt"))]]
    walk_files = [f for c in crates for f in sorted((c / "proofs").glob("*/**/*.antt"))]
    source_files = [f for c in crates for f in sorted((c / "src").glob("**/*.rt"))]
    fields: set[str] = set()
    declared: set[str] = set()
    for f in lemma_files:
        text = f.read_text(encoding="utf-8")
        fields |= {w for w in FIELD.findall(text) if wants(w)}
        declared |= {w for w in re.findall(r"^\s*(?:pub |abbrev |unfoldable )*([a-z][\w]*(?:-[\w]+)*['′]*) :", text, re.M) if wants(w)}
    renamed: dict[str, str] = {}
    for f in [*lemma_files, *walk_files, *source_files]:
        text = f.read_text(encoding="utf-8")
        done, changed = respell(text, f in lemma_files, f.suffix == ".rt", fields, declared)
        words = set(WORD.findall("\n".join(code_only(l)[0] for l in text.split("\n"))))
        for word in sorted(changed):
            new = snake(word)
            if new in words or sum(snake(w) == new for w in changed) > 1:
                print(f"together: {f}: {word} and {new}")
            renamed[word] = new
        if done != text:
            f.write_text(done, encoding="utf-8")
    print(f"{len(renamed)} names respelled")
    return 0


if __name__ == "__main__":
    sys.exit(main())
