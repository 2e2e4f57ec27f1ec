#!/usr/bin/env python3
"""respell.py [FOLDER]: brings the repository's own definitions and lemmas to today's spelling, after port.py and once.

A word is in snake case: `crcOf` becomes `crc_of`, in each word of a lemma's name too (`crcOf-append`, `crc_of-append`). A definition, a
constructor or a field of specs/ has no hyphen: `command-requests` becomes `command_requests`. The points in the names of crates/promises
become hyphens. Functions, strings, inputs and outputs keep their names. Comments, contracts, edits, papers and scripts follow.
"""

import os
import re
import sys

TOKEN = re.compile(r"(?<![\w'·#:-])[A-Za-z_\u0370-\u03ff][\w'·]*(?:-[\w'·]+)*")
CAMEL = re.compile(r"[a-z]+[0-9]*(?:[A-Z]+[a-z0-9]*)+")
DECLARED = re.compile(r"\s*(?:abbrev |unfoldable |pub |data |record |ruleset |module )*([^\s:(){};,.]+)\s+(?:\{[^}]*\}\s*|\([^)]*\)\s*)*:(?!=)")
# Names of ours that port.py respelled, for the edits and papers, which it does not read.
DONE = """
    add-a add-at add-is add-spec after-store agree-fresh all-hold all-none all-small all-sound and-left and-low and-right any-here apart-some
    as-number at-out at-place at-tail below-at below-none below-one between-none by-end by-last bytes-drop bytes-take close-spec copy-in-spec
    count-spec counted-spec digits-of enum-told find-spec finish-spec first-holds first-of first-past first-spec from-step give-spec goes-step
    half-spec held-low held-none held-small high-bit high-bits in-frame in-tail is-all is-f is-same is-sum is-word is-x is-y keep-spec
    kept-frame kept-out laid-more laid-none lead-is length-back length-found length-rest link-start look-spec low-bit low-bits mul-low new-meets
    new-spec new-walks no-kind no-room no-text no-value noised-at none-before none-over not-calm not-first not-sound number-is of-lt one-less
    one-list one-more one-spec open-is over-none pass-on passed-none passed-then payload-same plain-code power-16 put-is put-spec read-back
    read-spec rest-of rows-same run-holds run-inside run-sound run-spec same-length same-source same-step shl-lt step-small step-spec sub-row
    sub-word take-on to-same to-step too-long too-short trailing-odd turn-spec turned-none twice-half upper-lt whole-run write-spec writes-one
    written-stands xor-assoc
""".split()
# Names that would fall together with another of their file.
APART = {"wrongDirection": "has_wrong_direction", "wrongLength": "has_wrong_length", "overLimit": "is_over_limit", "all_sound": "all_sound-true"}
HEX = re.compile(r"x[0-9A-F]{2}|xLO")


def files(top, folders, endings):
    for folder in folders:
        start = os.path.join(top, folder)
        if os.path.isfile(start):
            yield start
        for here, dirs, names in os.walk(start):
            dirs[:] = sorted(d for d in dirs if d not in ("out", "target", ".git"))
            for n in sorted(names):
                if n.endswith(endings):
                    yield os.path.join(here, n)


def word(w):
    """One word of a name, in snake case."""
    if w in APART:
        return APART[w]
    if HEX.match(w) or not CAMEL.fullmatch(w):
        return w
    if w == "getD":
        return "get_or"
    return re.sub(r"([a-z0-9])([A-Z]+)", lambda m: m.group(1) + "_" + m.group(2).lower(), w)


def hyphened(top):
    """The names with a hyphen that specs/ declares."""
    found = set()
    for p in files(top, ["crates"], ".antt"):
        if "/specs/" not in p:
            continue
        for line in open(p, encoding="utf-8"):
            m = DECLARED.match(line)
            if m and "-" in m.group(1) and "·" not in m.group(1):
                found.add(m.group(1))
    return found


def name(t, flat):
    if "·" in t:
        return "-".join(part.replace("-", "_") for part in t.split("·"))
    if t in flat:
        return t.replace("-", "_")
    return "-".join(word(w) for w in t.split("-"))


def turned(text, flat):
    return TOKEN.sub(lambda m: name(m.group(0), flat), text)


def clauses(text, flat):
    """A .rt file: clauses and imports whole, comments and code by their camel case alone, no strings."""
    out, inside = [], False
    for line in text.split("\n"):
        bare = line.strip()
        ghost = bare.startswith(("ghost ", "requires ", "ensures ")) or bool(re.search(r"\b(requires|ensures)( \w+)? \{", line))
        if ghost:
            inside = line.count("{") > line.count("}")
        if ghost or inside:
            out.append(turned(line, flat))
            inside = inside and not (not ghost and bare.startswith("}"))
        else:
            out.append("".join(p if k % 2 else turned(p, set()) for k, p in enumerate(re.split(r"(\"(?:\\.|[^\"\\])*\")", line))))
    return "\n".join(out)


def paper(text, flat):
    """A page: what stands in backticks, and camel case of names that the repository declares."""
    return re.sub(r"`[^`\n]+`", lambda m: turned(m.group(0), flat) if not m.group(0).startswith(("`./", "`tools/")) else m.group(0), text)


def main():
    top = sys.argv[1] if len(sys.argv) > 1 else "."
    flat = hyphened(top)
    for p in files(top, ["crates", "tools/faults"], (".antt", ".rt", ".edit")):
        old = open(p, encoding="utf-8").read()
        new = clauses(old, flat) if p.endswith(".rt") else turned(old, flat if p.endswith(".antt") else flat | set(DONE) if re.search(r"^file: .*antt$", old, re.M) else set())
        if new != old:
            open(p, "w", encoding="utf-8").write(new)
    for p in files(top, ["docs", "README.md"], ".md"):
        old = open(p, encoding="utf-8").read()
        new = paper(old, flat | set(DONE))
        if new != old:
            open(p, "w", encoding="utf-8").write(new)
    print("hyphens of specs/: " + " ".join(sorted(flat)))


if __name__ == "__main__":
    main()
