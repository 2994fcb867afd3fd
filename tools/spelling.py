#!/usr/bin/env python3
"""Compares the definitions, lemmas and clauses of two checkouts word by word, as far as spelling does not matter.

usage: python3 tools/spelling.py OLD NEW    OLD is a checkout from before the port to today's Rattle, as it was; NEW one from after it

Every file of specs/ and every lemma file of proofs/ is read as a list of words, without comments, imports, parentheses and the dots of
projections; case, `_` and `-` inside a word do not count. Of the sources the clauses of each function are read, with `λ r. ⌜ .. ⌝`, `now`,
`.entry` and `.exit` turned to today's `result`, `.now`, `.old` and `.new`. What is printed is each word that has another one in its place, with
the number of places, each passage that only one side has, and each function whose clauses differ. Where parentheses stand is not compared:
the check of the types guards that.
"""

import collections
import difflib
import os
import re
import sys


def read(path):
    with open(path, encoding="utf-8") as f:
        return f.read()


def plain(word):
    turned = re.sub(r"[_-]", "", word).lower()
    return turned if turned and re.match(r"[\w'-]+$", word) and not word[0].isdigit() else word


def without_imports(text):
    lines, inside = [], False
    for line in re.sub(r"(?m)--.*$", "", text).split("\n"):
        if inside:
            inside = "}" not in line
        elif re.match(r"\s*(pub )?use ", line):
            inside = "{" in line and "}" not in line
        else:
            lines.append(line)
    return " ".join(lines)


def words(text):
    text = without_imports(text).replace("«", "").replace("»", "").replace("′", "'").replace("◌", "_")
    found = re.findall(r"[A-Za-zα-ωℕℤ0-9_'·ˢ-]+|[^\s\w()]+", text)
    return [plain(w) for f in found for w in f.split(".") if w.strip("_")]


def compare_files(old, new, folder, ones, passages):
    for crate in sorted(os.listdir(os.path.join(old, "crates"))):
        here = os.path.join(old, "crates", crate, folder)
        for name in sorted(os.listdir(here)) if os.path.isdir(here) else []:
            if not name.endswith(".antt"):
                continue
            there = os.path.join(new, "crates", crate, folder, name)
            if not os.path.exists(there):
                passages.append(f"{crate}/{folder}/{name} is gone")
                continue
            a, b = words(read(os.path.join(here, name))), words(read(there))
            for tag, i, j, k, l in difflib.SequenceMatcher(None, a, b, autojunk=False).get_opcodes():
                if tag == "replace" and j - i == l - k:
                    ones.update(zip(a[i:j], b[k:l]))
                elif tag != "equal":
                    passages.append(f"{crate}/{folder}/{name}\n  - {' '.join(a[i:j])}\n  + {' '.join(b[k:l])}")


FUNCTION = re.compile(r'(?ms)^\s*(?:pub(?:\(crate\))? )?(?:const )?(?:extern "C" )?fn (\w+)(.*?)^\s*\{\s*$')
CLAUSE = re.compile(r"(?ms)^\s*(requires|ensures)(?: \w+)? \{\s(.*?)\s\}\s*$")


def clause(text):
    text = " ".join(text.split())
    m = re.match(r"λ (\w+)\. ⌜ (.*) ⌝$", text)
    if m:
        text = re.sub(r"(?<![\w.·'-])" + m.group(1) + r"(?![\w'])", "result", m.group(2))
    text = re.sub(r"^⌜ (.*) ⌝$", r"\1", text)
    text = re.sub(r"now \((\w+) \.entry\)", r"\1 BEFORE", text)
    text = re.sub(r"now \((\w+) \.exit\)", r"\1 AFTER", text)
    text = re.sub(r"(?<![.\w])now (\w+)", r"\1 BEFORE", text)
    text = re.sub(r"(\w+)\.(now|old)\b", r"\1 BEFORE", text)
    text = re.sub(r"(\w+)\.new\b", r"\1 AFTER", text)
    text = re.sub(r"\w+·(?=\w)", "", text)
    text = re.sub(r"[«»]", "", text).replace("◌", "_")
    return " ".join(plain(w) for w in re.sub(r"[().]", " ", text).split())


def functions(text):
    found = collections.defaultdict(list)
    for m in FUNCTION.finditer(text):
        found[m.group(1)].append([(kind, clause(c)) for kind, c in CLAUSE.findall(m.group(2))])
    return found


def compare_clauses(old, new):
    same = 0
    for crate in sorted(os.listdir(os.path.join(old, "crates"))):
        here = os.path.join(old, "crates", crate, "src")
        for name in sorted(os.listdir(here)) if os.path.isdir(here) else []:
            there = os.path.join(new, "crates", crate, "src", name)
            a = functions(read(os.path.join(here, name)))
            b = functions(read(there)) if os.path.exists(there) else {}
            for f in a:
                if a[f] == b.get(f):
                    same += sum(map(len, a[f]))
                else:
                    print(f"clauses of {crate}/src/{name} {f}\n  - {a[f]}\n  + {b.get(f)}")
    print(f"{same} clauses are the same")


def main():
    old, new = sys.argv[1:3]
    for folder in ("specs", "proofs"):
        ones, passages = collections.Counter(), []
        compare_files(old, new, folder, ones, passages)
        print(f"{folder}/: words with another in their place")
        for (a, b), n in ones.most_common():
            print(f"  {a} -> {b}: {n}")
        print(f"{folder}/: passages of one side alone")
        for p in passages:
            print("  " + p)
    compare_clauses(old, new)


if __name__ == "__main__":
    main()
