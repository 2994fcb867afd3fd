#!/usr/bin/env python3
"""Says of every must-fail edit whether each `old:` text stands exactly once in the file that it names, as `rt must-fail` reads it.

usage: python3 tools/edits.py [--bad] [CRATE..]    at the top of a checkout; --bad lists only the edits whose text does not stand

The pairs of an edit are applied in order: a later pair's text is looked for in what the earlier ones made. Exit status 1 where a text
does not stand once, or an edit changes nothing. It proves nothing: whether the prover refuses an edit, `rt must-fail CRATE` says.
"""

import glob
import os
import sys


def said(edit):
    """A list of (path, old, times it stands there) for the pairs of an edit, and what is wrong with the whole, or None."""
    folder = os.path.dirname(os.path.dirname(edit))
    path, old, pairs, texts, was = "", None, [], {}, {}
    with open(edit, encoding="utf-8") as f:
        lines = f.read().split("\n")
    for line in lines:
        if line.startswith("file: "):
            path = line[len("file: ") :].strip()
        elif line.startswith("old: "):
            old = line[len("old: ") :]
        elif line.startswith("new:"):
            new = line[len("new:") :].removeprefix(" ")
            if not path or not old:
                return pairs, "a new: line before any file: or old: line"
            if path not in texts:
                if not os.path.isfile(os.path.join(folder, path)):
                    return pairs, f"no file {path}"
                with open(os.path.join(folder, path), encoding="utf-8") as f:
                    texts[path] = was[path] = f.read()
            times = texts[path].count(old)
            pairs.append((path, old, times))
            if times == 1:
                texts[path] = texts[path].replace(old, new)
            old = None
    if not pairs:
        return pairs, "no pair of old: and new:"
    return pairs, "it changes nothing" if texts == was else None


def main(words):
    only_bad = "--bad" in words
    crates = [w for w in words if not w.startswith("-")]
    good = bad = 0
    for edit in sorted(glob.glob("crates/*/must-fail/*.edit")):
        if crates and edit.split(os.sep)[1] not in crates:
            continue
        pairs, wrong = said(edit)
        stands = all(times == 1 for _, _, times in pairs) and not wrong
        good, bad = good + stands, bad + (not stands)
        if stands and only_bad:
            continue
        print(f"{edit}: {'stands' if stands else 'DOES NOT STAND'}")
        for path, old, times in pairs:
            print(f"    {times} {path}: {old}")
        if wrong:
            print(f"    {wrong}")
    print(f"edits: {good} stand, {bad} do not")
    return 1 if bad else 0


if __name__ == "__main__":
    sys.exit(main(sys.argv[1:]))
