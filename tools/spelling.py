#!/usr/bin/env python3
"""Brings this repository's own definitions and lemmas to the spelling of today's Rattle: words in snake case, a dash only where it joins
two names of definitions. Usage: spelling.py [--check] [ROOT]: rewrites the .antt, .rt and .edit files below ROOT/crates in place, once.

A name of a definition (camel case before) takes the plain word; a lemma that would then have a definition's name ends in _lem."""
import collections
import glob
import os
import re
import sys

CUT = " \t\n(){}[];:,.λ\"`|"
TOKEN = re.compile("[^" + re.escape(CUT) + "]+")
SIGN = re.compile(r"\s*(?:(abbrev|unfoldable) )?(?:pub )?(?:(abbrev|unfoldable) )?(?:(data|record|ruleset) )?([^\s:({]+)(?= :|\s*$| \(| \{| =)")
# words of the library that lemmas' names begin or end with
WORDS = set("length take drop set map get_or append replicate reverse sum min max not fold concat zip sub add mul div mod pow".split())


# names that an import gives, and constructors that share a line; `no_count` was taken
ALIASES = {
    "noCount": "uncounted",
    "aReal": "a_real",
    "aGivenReal": "a_given_real",
    "aWeight": "a_weight",
    "isK1": "is_k1",
    "isK2": "is_k2",
    "isM1": "is_m1",
    "isM2": "is_m2",
    "sheetBytes": "sheet_bytes",
    "ownershipOutcome": "ownership_outcome",
    "startTexts": "start_texts",
    "globalTexts": "global_texts",
    "lineNumber": "line_number",
    "saidType": "said_type",
    "valueType": "value_type",
    "sheetOfLines": "sheet_of_lines",
    "oneLine": "one_line",
    "directoryEntry": "directory_entry",
    "sheetOutcome": "sheet_outcome",
    "meaningOf": "meaning_of",
    "kindType": "kind_type",
    "sheets-textOf": "sheets-text_of",
    "sheets-startLines": "sheets-start_lines",
    "sheets-linesOf": "sheets-lines_of",
    "sheets-lineOf": "sheets-line_of",
    "sheets-globalLines": "sheets-global_lines",
    "records-inRange": "records-in_range",
    "owners-inRange": "owners-in_range",
    "model-sheetOf": "model-sheet_of",
    "directory-entryOf": "directory-entry_of",
    "columns-textOf": "columns-text_of",
    "cards-linesOf": "cards-lines_of",
    "sheets-sheetOf": "sheets-sheet_of",
    "sheets-entryOf": "sheets-entry_of",
    "model-startLines": "model-start_lines",
    "model-globalLines": "model-global_lines",
    "cards-lineOf": "cards-line_of",
}
# `first_of` is a tactic, `goes_on` a constructor beside the definition that had a capital; the library has lemmas of the two names with a dash
BY_HAND = {"and-false": "and-false", "or-false": "or-false", "first_of": "first_among", "first-of": "first_among_lem", "goes_on": "going_on", "last-given": "last_is_given"}


def texts(root, *kinds):
    for kind in kinds:
        for p in sorted(glob.glob(os.path.join(root, "crates", "*", kind), recursive=True)):
            if "/out/" not in p:
                yield p


def bare(line):
    """The line without a comment."""
    i = line.find("--")
    return line if i < 0 else line[:i]


def defined(root):
    """Each name that the repository declares in specs/ and proofs/, with whether it is a definition that unfolds."""
    found = {}
    for p in texts(root, "specs/**/*.antt", "proofs/**/*.antt"):
        for line in open(p, encoding="utf-8"):
            line = bare(line).rstrip("\n")
            if re.match(r"\s*(use|pub use|open|module|where|let|in|by|mod|pub mod|unfolding|infix\w*)\b", line):
                continue
            m = SIGN.match(line)
            if not m or not re.match(r".*( : | :$|^\s*(pub )?ruleset )", line):
                continue
            if m[4].startswith(("invariant-", "decreases-")):
                continue  # the check asks for these
            opens = bool(m[1] or m[2] or m[3] in ("data", "record"))
            found[m[4]] = found.get(m[4], False) or opens
    return found


def snake(name):
    if name[:1].isupper():
        return name
    name = re.sub("(?<=[a-z0-9])[A-Z](?=[A-Z][a-z])", lambda m: "_" + m[0].lower(), name)
    return re.sub("([a-z0-9])([A-Z])", lambda m: m[1] + "_" + m[2].lower(), name)


def word(name, defs):
    parts = name.split("-")
    out, left = snake(parts[0]), parts[0]
    for i in range(1, len(parts)):
        rest = "-".join(parts[i:])
        joins = (defs.get(left) or left in WORDS) and (defs.get(rest) or rest in WORDS)
        out += ("-" if joins else "_") + snake(parts[i])
        left += "-" + parts[i]
    return out


def table(root):
    defs = defined(root)
    used = set()
    for p in texts(root, "specs/**/*.antt", "proofs/**/*.antt"):
        for line in open(p, encoding="utf-8"):
            line = bare(line)
            if re.match(r"\s*(pub )?use ", line):
                line = line[line.find("{"):] if "{" in line else ""
            used |= {m[0] for m in TOKEN.finditer(line) if line[m.start() - 1:m.start()] != "."}
    groups = collections.defaultdict(list)
    for n in defs:
        groups[word(n, defs)].append(n)
    to = {}
    for t, names in groups.items():
        names.sort(key=lambda n: (not re.search("[a-z0-9][A-Z]", n) or "-" in n, "-" in n, not defs[n], n))
        for k, n in enumerate(names):
            new = t if k == 0 else t + "_lem" * k
            if new != n:
                to[n] = new
    to.update({n: w for n, w in BY_HAND.items() if n in defs})
    to.update(ALIASES)
    return defs, used, to


def respell(text, to):
    """A name in snake case is turned only where it is no part of a path, which may name a function of src/."""

    def one(m):
        w = m[0]
        if w in to and ("-" in w or re.search("[a-z0-9][A-Z]", w) or text[m.start() - 1 : m.start()] != "."):
            return to[w]
        return w

    return TOKEN.sub(one, text)


def main(argv):
    check = "--check" in argv
    root = next((a for a in argv if not a.startswith("-")), ".")
    defs, used, to = table(root)
    seen = collections.Counter(to.values())
    for old, new in sorted(to.items()):
        bad = []
        if seen[new] > 1:
            bad.append("twice")
        if new in defs and new not in to:
            bad.append("falls together with a name of the repository")
        elif new in used and new not in to:
            bad.append("is used already")
        if new.endswith(("_lem", "_word")) or bad:
            print(old, "->", new, *bad)
    print(len(to), "names")
    if check:
        return 0
    own = {n: w for n, w in to.items() if "-" in n or re.search("[a-z0-9][A-Z]", n)}
    for p in texts(root, "specs/**/*.antt", "proofs/**/*.antt", "src/**/*.rt", "must-fail/*.edit"):
        t = open(p, encoding="utf-8").read()
        n = respell(t, to if p.endswith(".antt") else own)
        if n != t:
            open(p, "w", encoding="utf-8").write(n)
    return 0


if __name__ == "__main__":
    sys.exit(main(sys.argv[1:]))
