#!/usr/bin/env python3
"""Counts the places of each point of docs/DESIGN-PASS.md in crates/*/src, and lists them.

    tools/places.py            the counts, a line each
    tools/places.py POINT ..   the places of these points (1 to 7), a line each
    tools/places.py --of COMMIT ..    the same of a commit of this repository

The lists are what a text search finds: the page says which of them are places. A comment line that begins `// Kept: ` marks a place that
stays, and is listed with it."""
import collections
import re
import subprocess
import sys

FLAG = r"ok|found|granted|code|one|whole|ended|more|other|on"


def sources(commit):
    """Each source file and its text, of a commit or of the folder."""
    said = lambda *words: subprocess.run(words, capture_output=True, text=True, check=True).stdout
    listed = said("git", "ls-tree", "-r", "--name-only", commit, "crates") if commit else said("git", "ls-files", "-co", "--exclude-standard", "crates")
    for path in listed.split():
        if re.fullmatch(r"crates/\w+/src/[\w/]+\.rt", path):
            yield path, said("git", "show", f"{commit}:{path}") if commit else open(path).read()


def matches(files, pattern, group=0):
    for path, text in files:
        for it in re.finditer(pattern, text, re.M):
            yield path, text.count("\n", 0, it.start()) + 1, it[group].strip().split("\n")[0]


def functions(files):
    for path, text in files:
        for it in re.finditer(r"^( *)(?:pub )?fn (\w+).*?^\1\}", text, re.M | re.S):
            yield path, text.count("\n", 0, it.start()) + 1, it[2], it[0]


def shape(body):
    """A function's text with its names and numbers taken out, and its clauses and comments."""
    plain = re.sub(r"^ *(//|requires|ensures|#\[).*\n", "", body, flags=re.M)
    plain = re.sub(r"\b(?!(?:fn|let|mut|if|else|match|return|for|in|while|pub|Some|None|Ok|Err)\b)[A-Za-z_]\w*\b", "x", plain)
    return re.sub(r"\b\d\w*|b'.'", "0", re.sub(r"\s+", " ", plain))


def twins(files):
    groups = collections.defaultdict(list)
    for path, line, name, body in functions(files):
        if body.count("\n") >= 5:
            groups[shape(body)].append((path, line, name))
    for group in groups.values():
        for path, line, name in group[1:]:
            yield path, line, f"{name}, as {group[0][2]} of {group[0][0]}"


def clauses(files):
    """Facts that three or more functions ask for, with names of parameters taken out."""
    where = collections.defaultdict(list)
    for path, line, said in matches(files, r"requires(?: \w+)? \{ (.*) \}$", 1):
        for fact in re.split(r"\) × \(|\) × | × \(", said):
            where[re.sub(r"\b\w+(\.bytes)?(\.now|\.old|\b$)", "x", fact.strip("() "))].append((path, line))
    for fact, places in sorted(where.items(), key=lambda it: -len(it[1])):
        if len(places) >= 3:
            yield places[0][0], places[0][1], f"{len(places)} times: {fact}"


POINTS = {
    "1": ("own enums, flags beside values, codes", lambda f: [
        *matches(f, r"^(pub )?enum \w+"),
        *matches(f, r"^(?:pub )?struct \w+[^{;]*\{[^}]*\b(?:" + FLAG + r"): (?:bool|u8),[^}]*\}"),
        *matches(f, r"^(?:pub )?struct \w+Read\b"),
        *matches(f, r"^(?:pub )?const (?!MAX_|LAST_|ABSORBED_LIMIT)[A-Z_0-9]+: u8 = \d+;")]),
    "2": ("functions of one shape", lambda f: list(twins(f))),
    "3": ("loops by hand", lambda f: list(matches(f, r"^ *(while|loop)\b.*"))),
    "4": ("equality, order, copying, conversion and printing by hand", lambda f: list(matches(f, r"^ *(?:pub )?fn (?:\w*same\w*|\w*equal\w*|compare|differ|\w*order|is_call|stands|copy_\w+|wide\w*|to_lower|digit|value|signed|bits_of|byte_of|kind|kind_of|case_of|bit|high|low|show|say)\(.*"))
        + list(matches(f, r"io::(?:write_all|print_decimal)\(.*"))),
    "5": ("facts asked for three times or more", lambda f: list(clauses(f))),
    "6": ("counts beside arrays", lambda f: list(matches(f, r"^(?:pub )?struct \w+[^{;]*\{[^}]*\b(?:count|out|have|length): \w+,[^}]*\}"))),
    "7": ("switches passed as arguments", lambda f: list(matches(f, r"\b(?:which|equal|above|look): (?:u8|bool)\b.*"))),
}


def main():
    words = sys.argv[1:]
    commit = words.pop(words.index("--of") + 1) if "--of" in words else None
    files = list(sources(commit))
    wanted = [it for it in words if it in POINTS]
    for point, (what, find) in POINTS.items():
        places = find(files)
        if not wanted:
            print(f"{point}  {len(places):4}  {what}")
        elif point in wanted:
            for path, line, said in places:
                print(f"{point}  {path}:{line}  {said}")
    kept = list(matches(files, r"// Kept: .*"))
    print(f"kept {len(kept)}") if not wanted else None


main()
