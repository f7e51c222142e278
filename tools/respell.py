#!/usr/bin/env python3
"""Spells the repository's own definitions, lemmas and fields as the library spells its own: words in snake case.

A name of specs/ or of a lemma file of proofs/ that has a dash, or a capital behind a small letter, becomes its words joined by '_':
waiting-count is waiting_count, stateBytes is state_bytes. Names of types, modules and functions of src/ stay. It was run once, right
behind the kit's own script port.py, and takes no words. Two names that would fall together in one file have a row in OTHER.
"""
import collections, glob, os, re
import usage

usage.words(__doc__)
os.chdir(os.path.join(os.path.dirname(os.path.abspath(__file__)), ".."))

DECLARED = re.compile(r"^\s*(?:(?:unfoldable|abbrev|pub|private)\s+)*([^\s(){}.;,@\"«»:]+)(?: \{[^{}\n]*\}| \([^()\n]*\))*\s*:(?=\s|$)", re.M)
WORD = re.compile(r"[^\s(){}.;,@\"«»\[\]`]+")
# the library has these names too
LIBRARY = {"and-false", "and-true", "append-nil", "length-map", "map-append", "not-false", "not-true", "or-false", "or-true"}
# a lemma that would have its definition's name, and two definitions that would have one: where, the old name, the new one
OTHER = [
    ("crates/sender_bytes/", "concat-map", "concat_map_lem"),
    ("crates/tables/", "cut-at", "cut_at_lem"),
    ("crates/", "entries-items", "entries_items_lem"),
    ("crates/", "entry-items", "entry_items_lem"),
    ("crates/", "key-items", "key_items_lem"),
    ("crates/", "our-items", "our_items_lem"),
    ("crates/", "their-items", "their_items_lem"),
    ("crates/", "find-from", "find_from_lem"),
    ("crates/", "got-case", "got_case_lem"),
    ("crates/", "skips-case", "skips_case_lem"),
    ("crates/", "judge-own", "judge_own_lem"),
    ("crates/", "judge-whole", "judge_whole_lem"),
    ("crates/frame/proofs/Stood", "no-event", "no_event_lem"),
    ("crates/frame/proofs/Stood", "no-page", "no_page_lem"),
    ("crates/frame/proofs/Stood", "no_fields", "no_fields_lem"),
    ("crates/frame/proofs/Stood", "no_text", "no_text_lem"),
    ("crates/", "only-zeros", "only_zeros_lem"),
    ("crates/", "ordered-from", "ordered_from_lem"),
    ("crates/", "unit-conflict", "unit_conflict_lem"),
    ("crates/waiting/", "slots-of", "slots_of_lem"),
    ("crates/wellformed/", "slots-of", "slots_of_lem"),
    ("crates/comparison/", "same_by", "same_by_lem"),
    ("crates/clerks_bytes/", "field-name", "field_name_lem"),
    ("crates/clerks_bytes/", "new-name", "new_name_lem"),
    ("crates/", "ownThere", "own_there_in"),
    # the places of the state's bytes, beside the sizes of a state's parts
    ("crates/", "stateBytes", "state_layout"),
    ("crates/", "partsBytes", "parts_layout"),
    ("crates/", "queuesBytes", "queues_layout"),
    ("crates/", "passBytes", "pass_layout"),
    ("crates/", "nameKey", "name_key_layout"),
    ("crates/", "numberKey", "number_key_layout"),
    ("crates/model/", "entryBytes", "entry_layout"),
    ("crates/layout/", "entryBytes", "entry_layout"),
]


def snake(name):
    return re.sub(r"(?<=[a-z0-9])[A-Z]", lambda m: "_" + m[0].lower(), name).replace("-", "_")


def declared():
    names = set()
    for path in glob.glob("crates/*/specs/*.antt") + glob.glob("crates/*/proofs/*.antt"):
        names.update(DECLARED.findall(re.sub(r"--[^\n]*", "", open(path).read())))
    return {n: snake(n) for n in names - LIBRARY if re.match("[a-z]", n) and snake(n) != n}


def files():
    for top, kinds in [("specs", "antt"), ("proofs", "antt"), ("src", "rt"), ("must-fail", "edit")]:
        yield from glob.glob(f"crates/*/{top}/**/*.{kinds}", recursive=True)


def main():
    names = declared()
    for path in sorted(files()):
        other = {old: new for where, old, new in OTHER if path.startswith(where)}
        text = open(path).read()
        new = WORD.sub(lambda m: other.get(m[0]) or names.get(m[0]) or m[0], text)
        if new != text:
            open(path, "w").write(new)


main()
