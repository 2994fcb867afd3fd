#!/usr/bin/env python3
"""Respells this repository's own definitions and lemmas, and the pages and must-fail edits that name them.

usage: python3 tools/respell.py    at the top of a checkout in which the port.py of the kit has just run, once

A definition or lemma of specs/ or proofs/ gets the spelling of today's library: words in snake case, no dash between them. A lemma whose
name falls together with a definition's, a field's or a function's gets `_lem`. Functions of src/, strings, inputs and outputs stay.
"""

import collections
import os
import re

ROOT = "crates"
TOKEN = re.compile(r"(?<![\w'′-])[A-Za-zα-ω₀-₉][\w'′₀-₉-]*")
HEAD = re.compile(r"\s*(?:(?:abbrev|unfoldable|pub)\s+)*([^\s:(){};]+)\s+:(?:\s|$)")
RULESET = re.compile(r"\s*pub ruleset\s+(\S+)")

# Names that port.py respelled because a library has the same one, in pages and edits that it does not read.
TURNED = """above-within add-left after-first after-is after-list afterTest all-closed all-done all-more all-none and-no and-right apart-more
areaTo asked-by at-each at-first at-one at-onward back-found back-none back-step back-to backBy begun-opened below-by below-left below-next
below-none below-of below-right both-hold by-answer by-bool by-next by-out by-sign bytes-of bytes-read callAt calls-are calls-count callsOf
counted-start digits-decimal ended-is entryAt f-lt fieldOwn filled-more filled-put first-holds flowOf found-none from-at from-found full-is
fullOf goes-back goes-on goes-one going-on going-start good-start held-on high-taken in-order is-false is-none is-true is-view is-whole isCall
join-one kept-again kept-new kept-on kept-put le-parts less-equal less-none less-one lines-end lines-none lines-same linesOf map-more
markOf minus-is nameAt names-apart near-apart near-none next-low no-less no-more no-number no-table none-above none-before not-at not-back
not-negative not-none not-own number-is once-more one-fewer one-less one-more only-here only-none only-same only-zero opened-view or-left
or-right or-yes own-alone own-is pageOf part-small passed-over past-end past-units place-of place-same placeIn placeOf plus-none put-holds
put-other putAt raised-at range-at reads-end ready-of rest-below room-of runs-none same-length same-number same-of same-self same-sum
same-truth same-whole sameName second-holds signed-below stateOf sub-row sub-wide sum-fits sum-is sum-same sumOf sumTo summed-unit t-not
t-of table-at table-before table-filled table-more table-same tableOf takes-of through-fault to-same told-is turn-on unitAt unitBy unitOf
used-sound viewOf whole-by whole-out withLast written-behind enum-told one-told table-is""".split()

# Where the rule gives no good name.
GIVEN = {
    "getD-tabulate": "get_or_tabulate",
    "get_d_tabulate": "get_or_tabulate",
    "below-by": "below_by_lem",
    "in-order": "in_order_lem",
    "in_order": "in_order_lem",
}
KEPT = {"not-true"}


def paths(kinds):
    for folder, dirs, files in os.walk(ROOT):
        dirs[:] = sorted(d for d in dirs if d not in ("out", "data"))
        for f in sorted(files):
            if f.endswith(kinds):
                yield os.path.join(folder, f)


def read(path):
    with open(path, encoding="utf-8") as f:
        return f.read()


def snake(name):
    name = name.replace("getD", "get_or").replace("-", "_")
    if not name[0].islower():
        return name
    return re.sub(r"([a-z0-9])([A-Z])", lambda m: m.group(1) + "_" + m.group(2).lower(), name)


def owned():
    """Every name that a file of specs/ or a lemma file of proofs/ defines, in order."""
    names = {}
    for path in paths(".antt"):
        if path.split(os.sep)[2] == "specs" or len(path.split(os.sep)) == 4:
            for line in read(path).splitlines():
                m = HEAD.match(line) or RULESET.match(line)
                if m:
                    names[m.group(1)] = True
    return list(names)


def renamings():
    names = [n for n in owned() if n not in KEPT]
    used = collections.Counter()
    for path in paths((".antt", ".rt")):
        used.update(TOKEN.findall(read(path)))
    new = {}
    for n in names:
        if n not in GIVEN and "-" not in n and snake(n) != n:
            new[n] = snake(n)
    taken = set(new.values())
    for n in names:
        if n not in GIVEN and "-" in n:
            s = snake(n)
            new[n] = s + "_lem" if s in taken or s in used else s
            taken.add(new[n])
    for n in names:
        if n in GIVEN:
            new[n] = GIVEN[n]
    # below_by names the definition now; the lemma of this name was turned by port.py.
    return new


def turned(text, new):
    return TOKEN.sub(lambda m: new.get(m.group(0), m.group(0)), text)


def code(text, new, comment):
    """Turns code. In comments a name with a dash is turned only between backticks, as the dash may be a word's own."""
    plain = {n: s for n, s in new.items() if "-" not in n}
    out = []
    for line in text.split("\n"):
        at = line.find(comment)
        if at >= 0 and not line[:at].strip():
            line = re.sub(r"`[^`]*`", lambda m: turned(m.group(0), new), turned(line, plain))
        else:
            line = turned(line, new)
        out.append(line)
    return "\n".join(out)


def write(path, text):
    if text != read(path):
        with open(path, "w", encoding="utf-8") as f:
            f.write(text)


def main():
    new = renamings()
    lemma = "crates/reach/proofs/Ways.antt"
    write(lemma, re.sub(r"(?<![\w'-])below_by(?![\w'-])", "below_by_lem", read(lemma)))
    for path in paths((".antt", ".rt")):
        write(path, code(read(path), new, "//" if path.endswith(".rt") else "--"))
    both = {n: snake(n) for n in TURNED} | new
    both |= {n: GIVEN[n] for n in GIVEN if "-" in n}
    tight = re.compile(r"(?<=[\w)\]}]) \.(?=[\w«])")
    for path in paths(".edit"):
        lines = []
        for line in read(path).split("\n"):
            if line.startswith(("old:", "new:")):
                line = turned(line, both)
                if ".antt" in read(path).split("\n")[0]:
                    line = tight.sub(".", line)
            lines.append(line)
        write(path, "\n".join(lines))
    pages = ["README.md"] + [os.path.join(d, f) for d, _, fs in os.walk("docs") for f in fs if f.endswith(".md") and not f.startswith("PORT")]
    for path in pages:
        write(path, re.sub(r"`[^`\n]*`", lambda m: turned(m.group(0), both), read(path)))
    print(f"respell: {len(new)} names")


if __name__ == "__main__":
    main()
