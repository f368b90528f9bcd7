#!/usr/bin/env python3
"""Respells the repository's own definitions and lemmas in snake case.

usage: python3 tools/respell.py [FOLDER]     FOLDER has crates/; the current folder by default

A name that a file of specs/ or proofs/ declares, as `verdictOf` or `left-all`, becomes `verdict_of` and `left_all`, wherever
it is cited: in specs/, in proofs/, in the clauses and ghost items of src/, and in must-fail edits of those. Types and modules
keep their camel case, operators their signs. Names of the library stay as the library has them, and so do the names of goals
and steps, which are made from the code. Run it once; a second run changes nothing.
"""

import collections
import os
import re
import sys

WORD = r"[A-Za-z_\u0370-\u03ff][A-Za-z0-9_'\u0370-\u03ff\-]*"
SIGNATURE = re.compile(r"(\s*)((?:pub |abbrev |unfoldable )*)(" + WORD + r"(?:\s+" + WORD + r")*)\s+:\s+(.*)")
NO_SIGNATURE = ("use", "mod", "module", "let", "in", "infixl", "infixr")
USE = re.compile(r"^(?:ghost )?use\s+([\w.'\-]+)\.\{([^}]*)\}", re.M)


# lemmas whose new names would fall together with definitions that they speak of
APART = {
    "crates/job/proofs/Encodings.antt": {"field-at": "field_there", "move-at": "move_there", "position_at": "position_there", "position-fits": "position_fitting"},
    "crates/motion/proofs/Blocking.antt": {"first-blocked": "first_blocked_first"},
    "crates/plan/proofs/Junctions.antt": {"first-blocked": "first_blocked_first"},
}
NEW = {"getD-again": "get_or_again", "laid-getD": "laid_get_or"}


def files(root):
    for folder, dirs, names in os.walk(os.path.join(root, "crates")):
        dirs[:] = sorted(d for d in dirs if d != "out")
        for name in sorted(names):
            if name.endswith((".antt", ".rt", ".edit")):
                yield os.path.join(folder, name)


def is_old(name):
    return name[0].islower() and ("-" in name or re.search(r"[a-z0-9][A-Z]", name) is not None)


def snake(name):
    return NEW.get(name) or re.sub(r"([a-z0-9])([A-Z])", r"\1_\2", name).replace("-", "_").lower()


def apart(path, text):
    for old, new in APART.get(path, {}).items():
        if new in text:
            break
        text = re.sub(r"(?<![\w.'\-])" + re.escape(old) + r"(?![\w'\-])", new, text)
    return text


def declared(text):
    """The names that a file declares: (name, is a field of a record)."""
    record = None
    for line in text.split("\n"):
        bare = line.strip()
        if not bare or bare.startswith("--"):
            continue
        indent = len(line) - len(line.lstrip())
        if re.match(r"\s*(?:pub |abbrev |unfoldable )*record\b", line):
            record = indent
            continue
        if record is not None and indent <= record:
            record = None
        found = SIGNATURE.match(line)
        if not found or "let " in line.split(" : ")[0]:
            continue
        names = found[3].split()
        if names[0] in NO_SIGNATURE or found[4].startswith("goal."):
            continue
        for name in names:
            yield name, record is not None


def foreign(text):
    """The names that a file takes from elsewhere than this repository's crates."""
    for path, names in USE.findall(text):
        if path.startswith("Rattle.") and not path.startswith("Rattle.std."):
            continue
        for name in names.split(","):
            yield name.split(" as ")[-1].strip()


def pieces(path, text):
    """The text cut into (is to be respelled, piece): comments and strings, and in .rt files the code, stay."""
    if path.endswith(".antt"):
        for line in re.split(r"(?<=\n)", text):
            at = re.search(r"(?:^|\s)--(?:\s|$)", line)
            if at:
                yield True, line[: at.start()]
                yield False, line[at.start() :]
            else:
                yield True, line
    else:
        for line in re.split(r"(?<=\n)", text):
            bare = line.strip()
            ghost = re.match(r"(?:(?:old|new): )?\s*(?:pub )?(?:ghost|requires|ensures)\b", bare) is not None
            yield ghost and not bare.startswith("//"), line


def respell(path, text, words, fields):
    kept = set(foreign(text))
    token = re.compile(r"(\.?)(" + WORD + r")")

    def one(found):
        dot, name = found[1], found[2]
        if name in kept and not dot:
            return found[0]
        if dot and name in fields:
            return dot + snake(name)
        if not dot and (name in words or name in fields):
            return snake(name)
        return found[0]

    return "".join(token.sub(one, piece) if turn else piece for turn, piece in pieces(path, text))


def main(argv):
    root = argv[0] if argv else "."
    words, fields, all_names = set(), set(), collections.Counter()
    texts = {}
    for path in files(root):
        with open(path, encoding="utf-8") as f:
            texts[path] = apart(os.path.relpath(path, root), f.read())
        if path.endswith(".antt"):
            for name, is_field in declared(texts[path]):
                all_names[name] += 1
                if is_old(name):
                    (fields if is_field else words).add(name)
            all_names.update(foreign(texts[path]))
    turned = {n: snake(n) for n in words | fields}
    together = collections.defaultdict(set)
    for old, new in turned.items():
        together[new].add(old)
        if new in all_names:
            together[new].add(new)
    for new, olds in sorted(together.items()):
        if len(olds) > 1:
            print(f"look: {', '.join(sorted(olds))} fall together as {new}")
    for path, text in texts.items():
        out = respell(path, text, words, fields)
        with open(path, encoding="utf-8") as f:
            before = f.read()
        if out != before:
            with open(path, "w", encoding="utf-8") as f:
                f.write(out)
    print(f"{len(words)} definitions and lemmas, {len(fields)} fields")


if __name__ == "__main__":
    main(sys.argv[1:])
