#!/usr/bin/env python3
"""Lists the places of the source that may have an older form, a heading for each point.

    tools/places.py [COMMIT] [--lines]

counts them in the checkout, or at a commit; --lines prints each with its file and line. A line is a place to look at,
and no verdict: docs/DESIGN-PASS.md says which of them were places, and what became of them.
"""
import re
import subprocess
import sys
from collections import defaultdict


def files(commit, suffix, folder):
    """The texts of the files below crates/*/FOLDER/ with that ending, by path."""
    what = ["git", "ls-tree", "-r", "--name-only", commit] if commit else ["git", "ls-files"]
    names = subprocess.run(what + ["crates"] if not commit else what, capture_output=True, text=True, check=True)
    found = {}
    for name in names.stdout.split("\n"):
        if not re.match(rf"crates/\w+/{folder}/.*\.{suffix}$", name):
            continue
        if commit:
            shown = subprocess.run(["git", "show", f"{commit}:{name}"], capture_output=True, text=True, check=True)
            found[name] = shown.stdout
        else:
            try:
                found[name] = open(name, encoding="utf-8").read()
            except FileNotFoundError:
                continue
    return found


def code_lines(text):
    """The lines that are code, with their numbers: no comment and no line of a contract's imports."""
    for number, line in enumerate(text.split("\n"), 1):
        bare = line.strip()
        if bare and not bare.startswith("//") and not bare.startswith("ghost use "):
            yield number, bare


def matching(sources, pattern, but=None):
    places = []
    for path, text in sorted(sources.items()):
        for number, line in code_lines(text):
            if re.search(pattern, line) and not (but and re.search(but, line)):
                places.append((path, number, line))
    return places


FUNCTION = re.compile(r"^( *)(pub(\([a-z]+\))? )?(extern \"C\" )?fn (\w+)", re.M)


def functions(text):
    """Each function with a body: its name, the line where it stands, its head and its body."""
    for found in FUNCTION.finditer(text):
        start = found.start()
        indent = found.group(1)
        opening = text.find("\n" + indent + "{\n", start)
        inline = re.compile(r"\{\n").search(text, start)
        semicolon = text.find(";\n", start)
        if inline is None or (0 <= semicolon < inline.start()):
            continue
        begin = opening if 0 <= opening else inline.start()
        head_end = inline.end() if opening < 0 or inline.start() < opening and "ensures" not in text[start:opening] and "requires" not in text[start:opening] else opening
        end = text.find("\n" + indent + "}\n", head_end - 1)
        if end < 0:
            continue
        yield found.group(5), text[:start].count("\n") + 1, text[start:head_end], text[head_end:end]


WORD = re.compile(r"\"[^\"]*\"|b?'.'|\b\d[\d_]*\b|\b[A-Za-z_]\w*\b")
KEYWORDS = set("fn let mut match if else for while loop in return self Self Some None Ok Err true false as ref move break continue".split())


def shape(body):
    """The body with each name, number and string by the order in which it first stands."""
    seen = {}
    lines = [line.strip() for line in body.split("\n") if line.strip() and not line.strip().startswith("//")]
    text = "\n".join(lines)

    def token(found):
        word = found.group(0)
        return word if word in KEYWORDS else seen.setdefault(word, f"_{len(seen)}")

    return WORD.sub(token, text), len([line for line in lines if re.search(r"\w", line)])


def twins(sources):
    by_shape = defaultdict(list)
    for path, text in sorted(sources.items()):
        for name, number, _, body in functions(text):
            form, lines = shape(body)
            if lines >= 3:
                by_shape[form].append((path, number, name))
    return [group for group in by_shape.values() if len(group) > 1]


CLAUSE = re.compile(r"^\s*(requires|ensures)( \w+)? \{ (.*) \}$")


def clauses(sources):
    """The clauses that stand word by word in three functions or more."""
    by_text = defaultdict(list)
    for path, text in sorted(sources.items()):
        for number, line in enumerate(text.split("\n"), 1):
            found = CLAUSE.match(line)
            if found:
                by_text[f"{path.split('/')[1]}: {found.group(1)} {found.group(3)}"].append((path, number))
    return {text: places for text, places in by_text.items() if len(places) >= 3}


def parameters(sources):
    """The pairs of parameters that stand in three functions of a file or more."""
    by_pair = defaultdict(set)
    for path, text in sorted(sources.items()):
        for name, number, head, _ in functions(text):
            inner = head[head.find("(") + 1:]
            named = re.findall(r"\b(\w+): (&?(?:mut )?[\w:<>\[\], ']+?)(?=,|\)|\n)", inner.split(") ->")[0].split("\n    requires")[0] + ")")
            names = sorted({f"{n}: {t.strip()}" for n, t in named})
            for i, first in enumerate(names):
                for second in names[i + 1:]:
                    by_pair[(path, first, second)].add((number, name))
    return {pair: places for pair, places in by_pair.items() if len(places) >= 3}


def main():
    words = [word for word in sys.argv[1:] if word != "--lines"]
    spell = "--lines" in sys.argv
    commit = words[0] if words else None
    sources = files(commit, "rt", "src")

    def tell(title, places):
        print(f"{title}: {len(places)}")
        if spell:
            for place in places:
                print("   ", *place)

    print(f"{len(sources)} files, {sum(len(list(code_lines(t))) for t in sources.values())} lines of code")
    tell("1a enums", matching(sources, r"^(pub(\(\w+\))? )?enum "))
    tell("1b functions that answer a flag or a number of 8 or 64 bits", matching(sources, r"\) -> (bool|u8|u64)\b"))
    groups = twins(sources)
    tell("2 groups of functions of one shape (three lines or more)", [
        (", ".join(f"{path}:{number} {name}" for path, number, name in group),) for group in groups])
    tell("3a loops", matching(sources, r"^('\w+: )?(for|while|loop)\b"))
    tell("3b loops over a range of numbers, or with no iterator", matching(sources, r"^(for \w+ in [^{]*\.\.|while|loop\b)", r"while let Some"))
    tell("4a impls of std's traits", matching(sources, r"^impl.* (fmt::Display|fmt::Debug|PartialEq|Eq|Ord|PartialOrd|Clone|Copy|From<.*>|TryFrom<.*>|Default) for "))
    tell("4b casts by `as`", matching(sources, r" as (u|i)\w+\b", r"^use |^#"))
    tell("4c functions from a number or a byte to a value, and back", matching(sources, r"fn \w*(_of|code|from_\w+)\(\w+: (u|i)\d+|fn \w+\(.*\) -> Option<[A-Z]\w+>", r"rows"))
    tell("5a clauses that stand word by word in three functions of a crate or more", [
        (text, ", ".join(f"{path}:{number}" for path, number in places)) for text, places in sorted(clauses(sources).items())])
    tell("5b pairs of parameters in three functions of a file or more", [
        (f"{path}: {first}; {second}", ", ".join(name for _, name in sorted(places))) for (path, first, second), places in sorted(parameters(sources).items())])
    tell("6 arrays and slices that are written, and links by number", matching(sources, r"&mut \[|\[\w+(\(\))?; \w+\]|: Option<u16>", r"^impl"))
    tell("7a matches on a call, a tag or a mix", matching(sources, r"match (\*?self|call|tag|mix|hand)\b", r"self\."))
    tell("7b closures, and bounds on them", matching(sources, r"[(,=] *(move )?\|[\w, &*()]*\| |\b(Fn|FnMut|FnOnce)\(|\bdyn\b"))
    proofs = files(commit, "antt", "proofs")
    answers = {p: t for p, t in proofs.items() if p.count("/") > 3}
    lemmas = {p: t for p, t in proofs.items() if p not in answers}
    print(f"8 proofs: {len(answers)} files of answers and invariants, {sum(t.count(chr(10)) for t in answers.values())} lines; "
          f"{len(lemmas)} files of lemmas, {sum(t.count(chr(10)) for t in lemmas.values())} lines")


if __name__ == "__main__":
    main()
