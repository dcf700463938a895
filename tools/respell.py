#!/usr/bin/env python3
"""Respells the names that this repository declares in specs/, in lemma files and as ghost members:
definitions, lemmas, fields and ghost members in snake case, facts and types in camel case, a dash in neither.

usage: python3 tools/respell.py [--dry]     at the top, once, after the toolchain's own script

Functions of src/, constructors, goals that the checker names, strings, inputs and outputs keep their names.
"""
import os
import re
import sys

TOKEN = re.compile(r"[^\s(){}\[\],:;.@\"|`]+")
DECLARED = re.compile(r"^\s*(?:abbrev |unfoldable )?(?:pub )?(?:abbrev |unfoldable )?(?:data |record )?(?:pub )?([^\s:(){}.,]+)\s*(?:[({].*)?:(?:\s|$)")
MEMBER = re.compile(r"^\s*(?:pub )?ghost ([A-Za-z_][\w'-]*)\s*[:=]")
# Names that would otherwise fall together with a function's or a definition's: a lemma named as its function gets `_lem`.
LEMMAS = (
    "board-after",
    "calls-given",
    "codes-read-back",
    "dealt-shares-open",
    "drawn-up",
    "draws-up",
    "drew-up",
    "has-answered",
    "if-passes",
    "in-ceremony",
    "is-qualified",
    "kind-number",
    "left-of",
    "letters-read-back",
    "logarithms-interpolate",
    "logarithms-unique",
    "openings-differ",
    "openings-interpolate",
    "owed-in",
    "product-is-remainder",
    "records-after",
    "records-read-back",
    "records-write-back",
    "serving-seats",
    "share-below",
    "sheet-passes",
    "sheets-read-back",
    "starts-phase",
    "taken-by",
)
CHOSEN = {name: name.replace("-", "_") + "_lem" for name in LEMMAS} | {
    "in-phase": "in_that_phase",
    # The toolchain's script has turned these lemmas already.
    "same_bytes": "same_bytes_lem",
    "owes_nothing": "owes_nothing_lem",
}

# Module parameters and local names, which the pattern of a declaration does not find.
LOCAL = {
    "encodedA": "encoded_a",
    "encodedB": "encoded_b",
    "wA": "w_a",
    "wB": "w_b",
    "refusalA": "refusal_a",
    "refusalB": "refusal_b",
    "decodedA": "decoded_a",
    "decodedB": "decoded_b",
    "wide-root": "wide_root",
    "records-back": "records_back",
    "letters-back": "letters_back",
    "inG": "in_g",
    "inH": "in_h",
    "code-layer": "code_layer",
    "code-report": "code_report",
    "entry-is": "entry_is",
    "i-is": "i_is",
    "j-is": "j_is",
    "area-size": "area_size",
    "bytes-are": "bytes_are",
    "low-i": "low_i",
    "low-j": "low_j",
    "n-same": "n_same",
    "n-is": "n_is",
    "scaled-by": "scaled_by",
    "everything": "Everything",
}


def files(*ends):
    for folder, dirs, names in os.walk("crates"):
        dirs[:] = sorted(d for d in dirs if d not in ("out", "data"))
        for name in sorted(names):
            if name.endswith(ends):
                yield os.path.join(folder, name)


def made_by_checker(path):
    return os.path.basename(path) in ("Answers.antt", "Invariants.antt", "Proof.antt")


def respelled(name):
    if name in CHOSEN:
        return CHOSEN[name]
    if name[0].isupper():
        return "".join(part[0].upper() + part[1:] for part in name.split("-")) if "-" in name else name
    name = re.sub(r"(?<=[a-z0-9])([A-Z])", lambda m: "_" + m.group(1).lower(), name)
    return name.replace("-", "_")


def declared():
    found = {}
    for path in files(".antt"):
        with open(path, encoding="utf-8") as f:
            for line in f:
                m = DECLARED.match(line)
                if m and not line.lstrip().startswith("--"):
                    name = m.group(1)
                    goal = re.match(r"(returns|loop|invariant|decreases|overflow|bounds|unreachable|requires)\b", name) or name.endswith("-requires")
                    if re.match(r"[A-Za-z]", name) and not (made_by_checker(path) and goal):
                        found.setdefault(name, path)
    for path in files(".rt"):
        with open(path, encoding="utf-8") as f:
            for line in f:
                m = MEMBER.match(line)
                if m:
                    found.setdefault(m.group(1), path)
    return found


def turned(text, names):
    return TOKEN.sub(lambda m: names.get(m.group(0), m.group(0)), text)


def turned_source(text, names):
    """Clauses, ghost items and ghost members alone."""
    out, depth = [], 0
    for line in text.split("\n"):
        starts = re.match(r"\s*(pub )?(ghost |requires|ensures)", line)
        if starts or depth > 0:
            code = line.split("//")[0]
            depth = max(0, (0 if starts and depth == 0 else depth) + code.count("{") - code.count("}"))
            out.append(turned(line, names))
        else:
            out.append(line)
    return "\n".join(out)


def main():
    dry = "--dry" in sys.argv
    found = declared()
    if "code_at" in found and "codeAt" not in found and "same_bytes_lem" in found:
        print("this tree is respelled already")
        return
    names = {n: respelled(n) for n in found if respelled(n) != n} | LOCAL
    used = set()
    for path in files(".antt", ".rt"):
        with open(path, encoding="utf-8") as f:
            used.update(TOKEN.findall(f.read()))
    for name, new in sorted(names.items()):
        if new in used or list(names.values()).count(new) > 1:
            print(f"falls together: {name} and {new}")
    if dry:
        return
    for path in files(".antt", ".rt", ".edit"):
        with open(path, encoding="utf-8") as f:
            text = f.read()
        if path.endswith(".rt"):
            new = turned_source(text, names)
        else:
            new = turned(text, names)
        if new != text:
            with open(path, "w", encoding="utf-8") as f:
                f.write(new)


main()
