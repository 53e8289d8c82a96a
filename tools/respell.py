#!/usr/bin/env python3
"""Respells the repository's own definitions, lemmas and fields as today's library is spelled: words in snake case, types and modules in camel case.

usage: tools/respell.py        at the top of a checkout that the kit's port.py has been over; once

The names are those that a file of specs/ or a file of laws in proofs/ declares. A lemma whose name would be a definition's gets `_lem`. Proof files of
functions, clauses, wrong programs, tools and pages follow. Strings of programs, functions of src/ and names that C sees stay.
"""
import pathlib
import re
import sys

ROOT = pathlib.Path.cwd()
TOKEN = r"[^\s(){}.;,@\"\[\]`:|]+"
DECLARED = re.compile(rf"\s*(?:abbrev |unfoldable |opaque )*(?:pub )?(?:abbrev |unfoldable )*((?:{TOKEN})(?: {TOKEN})*) :(?: |$)")
BOUND = re.compile(rf"\blet ({TOKEN})(?: [^=:]*?)? [=:]")
ARGUMENT = re.compile(r"[({λ]\s*([a-z]+[A-Z]\w*)\b[^:)]*:|\b([a-z]+[A-Z]\w*) ◌")
# Names that the library or the toolchain makes, as they stand there.
THEIRS = re.compile(r"-(spec|requires)(-\d+)?$|^(the|loop|overflow|returns|enum|array|cast|add|sub|mul|div)-")


def files(*patterns):
    for pattern in patterns:
        for path in sorted(ROOT.glob(pattern)):
            if path.is_file() and "/out/" not in str(path):
                yield path


def of_a_function(path):
    return path.name in ("Proof.antt", "Answers.antt", "Invariants.antt")


def declared():
    """Each name that is declared in a definition's or a law's file, and those that are definitions."""
    names, definitions = set(), set()
    for path in files("crates/*/specs/**/*.antt", "crates/*/proofs/**/*.antt"):
        if of_a_function(path):
            continue
        found = set()
        for line in path.read_text().split("\n"):
            line = re.sub(r"(^|\s)--.*", "", line)
            match = DECLARED.match(line)
            if match:
                found.update(match[1].split())
            found.update(match[1] for match in BOUND.finditer(line))
            found.update(match[1] or match[2] for match in ARGUMENT.finditer(line))
        names |= found
        if "specs" in path.parts:
            definitions |= found
    return names, definitions


def snake(name):
    name = re.sub(r"([a-z0-9])([A-Z])|(?<=[A-Z])([A-Z])(?=[a-z])", lambda m: f"{m[1]}_{m[2]}" if m[1] else f"_{m[3]}", name).lower() if re.match(r"[a-z]", name) and re.search(r"[A-Z]", name) and "-" not in name else name
    return name.replace("-", "_")


def spelled():
    names, definitions = declared()
    new = {}
    for name in sorted(names):
        if not re.match(r"[a-z]", name) or not re.fullmatch(r"[\w'-]+", name) or THEIRS.search(name):
            continue
        if snake(name) != name:
            new[name] = snake(name)
    taken = {snake(name) for name in definitions if name not in new or "-" not in name}
    plain = {name for name in names if name not in new}
    for name in [name for name in new if "-" in name]:
        camel = [other for other in new if "-" not in other and new[other] == new[name]]
        if camel or new[name] in plain:
            new[name] += "_lem"
    return new


def respelled(text, new, hyphens):
    def one(match):
        word = match[0]
        if "-" in word and not hyphens:
            return word
        return new.get(word, word)

    return re.sub(TOKEN, one, text)


def in_backticks(text, new):
    text = re.sub(r"`[^`\n]+`", lambda match: respelled(match[0][1:-1], new, True).join("``"), text)
    return respelled(text, new, False)


def main():
    new = spelled()
    by = {}
    for old, name in new.items():
        by.setdefault(name, []).append(old)
    for name, olds in by.items():
        if len(olds) > 1:
            print(f"fall together: {', '.join(olds)} -> {name}", file=sys.stderr)
    for path in files("crates/*/specs/**/*.antt", "crates/*/proofs/**/*.antt", "crates/*/must-fail/*.edit", "tools/pins.edits", "tools/pins.same"):
        path.write_text(respelled(path.read_text(), new, True))
    for path in files("crates/*/src/**/*.rt"):
        path.write_text(respelled(path.read_text(), new, False))
    for path in files("README.md", "docs/*.md", "tools/*", "reference/**/*.rs", "comparison/**/*.rs", "drives/**/*.rs"):
        if path.suffix in (".edits", ".same") or path.name == "respell.py":
            continue
        try:
            text = path.read_text()
        except UnicodeDecodeError:
            continue
        path.write_text(in_backticks(text, new) if path.suffix == ".md" else respelled(text, new, False))
    print(f"{len(new)} names")


main()
