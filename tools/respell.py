#!/usr/bin/env python3
"""Brings the names of this repository's own definitions, lemmas, fields and constructors to snake case.

usage: python3 tools/respell.py [--list]     at the top, once, after /opt/rattle/port/port.py

A name of specs/ or proofs/ (Proof.antt aside) that begins with a small letter and has a capital or a dash in it is written with underscores and
small letters: isAbove and is-above are is_above. What the files import from the kit keeps its name, and so does what Rattle generates. Files of
specs/, proofs/ and src/ are rewritten, comments in backquotes alone and strings not at all; must-fail edits too; and in the pages what stands in
backquotes. --list prints the names and writes nothing. It stops where two names that are declared in one file would fall together.
"""

import os
import re
import sys

TOKEN = re.compile(r"[^\s(){}\[\],.;:\"`λ→∷⟦⟧×≡≤<>+*/%&|=\\@#!?]+")
DECLARED = re.compile(r"^\s*(?:(?:abbrev|unfoldable|pub|instance)\s+)*(?:(?:record|data)\s+)?([^\s:(){}λ→∷,;.\"⟦=]+)\s*(?:\([^=]*\)\s*|\{[^=]*\}\s*)*:(?=\s|$)", re.M)
# Rattle's own words for the parts of a function's proof, and of a contract.
MADE = re.compile(r"^(invariant-|decreases-|loop-|returns-|In-|At-|After-|Start|Then|Else|Joined|Need-|in-|if-|the-|a-|c-)")
PAGES = ["README.md", "docs"]
# Names that would fall together with a definition's in a file that has both.
OTHERWISE = {
    "arrival-of": "arrival_of_lem", "call-added": "call_added_lem", "call-bytes": "call_bytes_lem", "class-row": "class_row_length",
    "edition-put": "edition_put_lem", "gap-of-calls": "gap_of_calls_lem", "is-at": "is_at_lem", "key-bytes": "key_bytes_lent",
    "latest-offset": "latest_offset_is", "line-added": "line_added_lem", "line-bytes": "line_bytes_lem", "own-gap": "own_gap_is",
    "period-of": "period_at", "rated-by-row": "rated_by_row_is", "same_line": "same_line_at", "so-far": "read_so_far",
    "weight-row": "weight_row_length", "weighted-rating": "weighted_rating_lem",
}
# A field of the kit's that no `use` line names.
KEPT = {"not-nil"}
IN_FILE = {"Laws/Archive.antt": {"edition-bytes": "edition_bytes_lem"}, "network/proofs/Demands.antt": {"edition-bytes": "edition_length"}}


def read(path):
    with open(path, encoding="utf-8") as f:
        return f.read()


def below(folder, endings):
    for place, folders, files in os.walk(folder):
        folders[:] = sorted(d for d in folders if d not in ("out", ".git", "target"))
        for name in sorted(files):
            if name.endswith(endings):
                yield os.path.join(place, name)


def parts(text, comment):
    """The text in pieces: (is code, piece). Comments and strings are no code."""
    at, piece = 0, []
    for m in re.finditer(r'"(?:[^"\\\n]|\\.)*"|' + comment + r"[^\n]*", text):
        yield True, text[at:m.start()]
        yield False, m.group(0)
        at = m.end()
    yield True, text[at:]


def code_of(text, comment):
    return "".join(p for is_code, p in parts(text, comment) if is_code)


def spelled(name):
    name = name.replace("-", "_")
    name = re.sub(r"(?<=[a-z0-9_'₀-₉])([A-Z])", lambda m: "_" + m.group(1).lower(), name)
    return re.sub(r"__+", "_", name)


def is_older(word):
    return bool(re.match(r"[a-z]", word)) and (bool(re.search(r"[^\W]-[^\W]", word)) or bool(re.search(r"[a-z0-9'][A-Z]", word)))


def kit_names(files, crates):
    """What the files import from elsewhere than this repository."""
    found = set()
    for path in files:
        for m in re.finditer(r"^\s*(?:ghost )?(?:pub )?use ([\w.'-]+?)\.\{([^}]*)\}", read(path), re.M):
            first = m.group(1).split(".")
            if not (first[0] == "Rattle" and len(first) > 1 and first[1] in crates):
                found |= {w.strip().split(" as ")[0] for w in m.group(2).split(",")}
    return found


def names_of(root):
    crates = set(os.listdir(os.path.join(root, "crates")))
    antt = [p for p in below(os.path.join(root, "crates"), ".antt")]
    rt = [p for p in below(os.path.join(root, "crates"), ".rt")]
    kit = kit_names(antt + rt, crates)
    names, declared = dict(OTHERWISE), {}
    for path in antt:
        if path.endswith(("/Proof.antt", "/Answers.antt", "/Invariants.antt")):
            continue
        code = code_of(read(path), "--")
        for word in set(TOKEN.findall(code)):
            if is_older(word) and word not in kit and word not in KEPT and not MADE.match(word):
                names.setdefault(word, spelled(word))
        declared[path] = {m.group(1) for m in DECLARED.finditer(code)}
    names[""] = {names.get(w, w) for words in declared.values() for w in words}
    for path, words in declared.items():
        seen = {}
        here = names | next((more for end, more in IN_FILE.items() if path.endswith(end)), {})
        for word in words:
            other = seen.setdefault(here.get(word, word), word)
            if other != word:
                print(f"respell: {path}: {other} and {word} fall together")
    return names


def turned(text, names):
    return TOKEN.sub(lambda m: names.get(m.group(0), m.group(0)), text)


def quoted(text, names):
    """The text with the names in backquotes turned, also those that port.py has turned in the files already."""

    def now(word):
        return names.get(word) or (spelled(word) if is_older(word) and spelled(word) in names.get("", ()) else word)

    return re.sub(r"`([^`\n]+)`", lambda m: "`" + TOKEN.sub(lambda w: now(w.group(0)), m.group(1)) + "`", text)


def respelled(path, names):
    text = read(path)
    names = names | next((more for end, more in IN_FILE.items() if path.endswith(end)), {})
    if path.endswith((".antt", ".rt")):
        comment = "--" if path.endswith(".antt") else "//"
        if path.endswith("/Proof.antt"):
            # What a hand-written proof names by itself may be Rattle's word for a part of it.
            own = {m.group(1) for m in DECLARED.finditer(code_of(text, comment))}
            names = {a: b for a, b in names.items() if a not in own}
        if path.endswith(".rt"):
            names = {a: b for a, b in names.items() if a != "same_line"}
        return "".join(turned(p, names) if is_code else quoted(p, names) if p.startswith(comment) else p for is_code, p in parts(text, comment))
    if path.endswith(".edit"):
        return "".join(turned(l, names) if re.match(r"(old|new):", l) else quoted(l, names) for l in text.splitlines(keepends=True))
    return quoted(text, names)


def main(argv):
    root = os.path.dirname(os.path.dirname(os.path.abspath(__file__))) if not os.path.isdir("crates") else "."
    names = names_of(root)
    if argv == ["--list"]:
        for a in sorted(names):
            if a:
                print(a, names[a])
        return
    files = list(below(os.path.join(root, "crates"), (".antt", ".rt", ".edit")))
    for page in PAGES:
        files += [page] if os.path.isfile(page) else list(below(page, ".md"))
    count = 0
    for path in files:
        new = respelled(path, names)
        if new != read(path):
            with open(path, "w", encoding="utf-8") as f:
                f.write(new)
            count += 1
    print(f"respell: {len(names) - 1} names, {count} files")


main(sys.argv[1:])
