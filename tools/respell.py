#!/usr/bin/env python3
"""Brings the names of the repository's own definitions and lemmas to snake case: usage: tools/respell.py [FOLDER]

A name is the repository's own where a file of specs/ or of proofs/ declares it, as a definition, a lemma, a field, a
constructor, or as a helper beside the answers of a function's proof. The names of goals and invariants are made by
Rattle and stay; so do types, modules, and all names of the code. Run once, on a tree that port.py has turned.
Prints the names that would fall together with another name, and changes nothing then.
"""
import os
import re
import sys

NAME = r"[^\s(){}\[\];,.:«»\"]+"
DECLARED = re.compile(rf"(?m)^(?:abbrev |unfoldable |pub )*({NAME})(?: [^:=\n]*)? : (.*)$")
FIELD = re.compile(rf"(?m)^\s+(?:pub )?({NAME}) : ")
BINDERS = re.compile(r"(?m)^(?:pub )?(?:record|data) .*$")
GHOST = re.compile(rf"(?:ensures|requires)\*? ({NAME}) \{{")
TOKEN = re.compile(NAME)
# A lemma that would have its function's name, and a definition that only a test's function shares its name with.
CHOSEN = {
    "bit-and": "bit_and_lem",
    "bit-or": "bit_or_lem",
    "from-class": "from_class_lem",
    "from-mark": "from_mark_lem",
    "row-line": "row_line_lem",
    "struckRows": "struck_rows",
}
OF_PROOFS = ("Answers.antt", "Invariants.antt", "Choices.antt", "Proof.antt")


def texts(root):
    for folder, dirs, files in os.walk(os.path.join(root, "crates")):
        dirs[:] = sorted(d for d in dirs if d != "out")
        for f in sorted(files):
            if f.endswith((".antt", ".rt", ".edit")):
                yield os.path.join(folder, f)


def snake(name):
    if name in CHOSEN:
        return CHOSEN[name]
    spelled = name.replace("-", "_")
    if spelled[:1].islower():
        spelled = re.sub(r"(?<=[a-z0-9])([A-Z])(?=[a-z])", lambda m: "_" + m[1].lower(), spelled)
    return spelled


def own_names(path, text):
    bare = re.sub(r"--.*", "", text)
    base = os.path.basename(path)
    if path.endswith(".rt"):
        yield from (m[1] for m in GHOST.finditer(re.sub(r"//.*", "", text)))
    elif path.endswith(".antt"):
        for m in DECLARED.finditer(bare):
            made = base in OF_PROOFS and (m[2].startswith("goal.") or base != "Answers.antt")
            if m[1] not in ("use", "mod") and not made:
                yield m[1]
        if base not in OF_PROOFS:
            yield from (m[1] for m in FIELD.finditer(bare))


def main(root):
    held = {p: open(p, encoding="utf-8").read() for p in texts(root)}
    names = {n for p, t in held.items() for n in own_names(p, t)}
    turned = {n: snake(n) for n in names if snake(n) != n}
    tokens = {m[0] for t in held.values() for m in TOKEN.finditer(t)}
    clashes = sorted(n for n, to in turned.items() if (to in tokens and n not in CHOSEN) or list(turned.values()).count(to) > 1)
    for n in clashes:
        print(f"falls together: {n} -> {turned[n]}")
    if clashes:
        return 1
    for p, t in held.items():
        new = TOKEN.sub(lambda m: turned.get(m[0], m[0]), t)
        if new != t:
            with open(p, "w", encoding="utf-8") as f:
                f.write(new)
    print(f"{len(turned)} names respelled")
    return 0


if __name__ == "__main__":
    raise SystemExit(main(sys.argv[1] if len(sys.argv) > 1 else "."))
