#!/usr/bin/env python3
"""Lists what of the promises reads otherwise than at a commit, as the end of docs/DESIGN-PASS.md has it: tools/changed.py COMMIT

Public functions whose signature or clauses differ, those that are gone and those that are new; and of specs/ and of the types' own ghost members what
differs, is gone or is new. The old text stands in a line that begins with -, the new one in a line with +. The texts are read by the toolchain's own
reader of contracts, which compares them by text alone. An old text's `none` and `some`, the model's own option, count as the language's `None` and `Some`."""
import os
import re
import subprocess
import sys
import tempfile

ROOT = os.path.dirname(os.path.dirname(os.path.abspath(__file__)))


def run(*words):
    return subprocess.run(words, capture_output=True, text=True, check=True, cwd=ROOT).stdout


def reader():
    sys.path.insert(0, os.path.join(os.path.dirname(run("rt", "doc").strip()), "port"))
    import contracts

    return contracts


def public(functions):
    """By crate, then by place and name: the signature and the clauses of each public function."""
    found = {}
    for (crate, file, place, name), them in functions.items():
        for it in them:
            if it["pub"] and not it["test"] and not it["in tests"]:
                clauses = [" ".join(part for part in (c[0], c[1], "{ " + c[2] + " }") if part) for c in it["requires"] + it["ensures"]]
                found.setdefault(crate, {})[".".join(part for part in (place, name) if part)] = [f"fn {name}{it['sign']}", *clauses]
    return found


def by_crate(items):
    found = {}
    for (crate, *names), texts in items.items():
        found.setdefault(crate, {})[".".join(names)] = sorted(texts)
    return found


def respelled(items):
    spell = lambda text: re.sub(r"(?<!fn )\b(none|some)\b(?!:)", lambda it: it[0].title(), text)
    return {crate: {name: [*map(spell, texts)] for name, texts in them.items()} for crate, them in items.items()}


def show(title, old, new):
    print(f"\n### {title}\n")
    for crate in sorted({*old, *new}):
        was, now = old.get(crate, {}), new.get(crate, {})
        names = [name for name in sorted({*was, *now}) if was.get(name) != now.get(name)]
        if not names:
            continue
        print(f"`{crate}`\n\n```diff")
        for name in names:
            for sign, texts in (("-", was.get(name, [])), ("+", now.get(name, []))):
                for text in texts:
                    print(sign, text)
        print("```\n")


def main(words):
    if len(words) != 1:
        sys.exit(__doc__)
    contracts = reader()
    with tempfile.TemporaryDirectory() as folder:
        archive = subprocess.run(["git", "archive", words[0], "crates"], capture_output=True, check=True, cwd=ROOT).stdout
        subprocess.run(["tar", "-x", "-C", folder], input=archive, check=True)
        _, functions, ghosts, specs, *_ = contracts.read(folder)
    _, functions_now, ghosts_now, specs_now, *_ = contracts.read(ROOT)
    show("Public functions", respelled(public(functions)), public(functions_now))
    show("Constants, and ghost members of types and traits", respelled(by_crate(ghosts)), by_crate(ghosts_now))
    show("Definitions", respelled(by_crate(specs)), by_crate(specs_now))


main(sys.argv[1:])
