"""The words that a script of this folder is called with. Called wrongly, it says how it is used."""
import os, sys

def folder(word):
    if not os.path.isdir(word): raise ValueError
    return word

def seeds(word):
    """A..B"""
    first, last = map(int, word.split(".."))
    return range(first, last + 1)

def words(doc, *kinds, rest=None):
    """Each word as its kind makes it; more words than kinds only where `rest` makes them. The script's text `doc` says how it is used."""
    given = sys.argv[1:]
    try:
        if len(given) < len(kinds) or (len(given) > len(kinds) and not rest): raise ValueError
        return [kind(word) for kind, word in zip(kinds + (rest,) * (len(given) - len(kinds)), given)]
    except ValueError:
        print(doc.strip(), file=sys.stderr)
        sys.exit(2)
