#!/usr/bin/env python3
"""Brings the definitions and lemmas that port.py leaves in camel case to snake case: isNear becomes is_near.

usage: python3 tools/respell.py      once, at the top, after port.py

Names of Rattle's source are in snake case already, so each word that begins with a small letter and has a capital inside
is a name of specs/ or proofs/. Where the snake form falls together with another name, OTHER and LEMMAS give a new one.
"""
import glob
import re

# definitions whose snake form is a field's or a parameter's name
OTHER = {
    "checkWords": "check_words_of",
    "dataWords": "data_words_of",
    "modeWords": "mode_codewords",
    "getD": "get_or",
}
# lemmas that would have their definition's name, by the file that states them
LEMMAS = {
    "all_ones": "all_ones_lem",
    "bytes_bits": "bytes_bits_lem",
    "count_bits": "count_bits_lem",
    "item_by": "item_by_lem",
    "last_word": "last_word_lem",
    "get_d_tabulate": "get_or-tabulate",
}
CAMEL = re.compile(r"(?<![A-Za-z0-9_'])[a-z][a-z0-9]*(?:_[a-z0-9]+)*[A-Z][A-Za-z0-9_']*")
WORD = re.compile(r"(?<![A-Za-z0-9_'·-])[a-z_]+(?![A-Za-z0-9_'·-])")
QUOTED = {"aB"}


def snake(m):
    w = m.group()
    if w in OTHER:
        return OTHER[w]
    if w in QUOTED or not re.search(r"[a-z0-9][A-Z]", w):
        return w
    return re.sub(r"(?<=[a-z0-9])[A-Z]", lambda c: "_" + c.group().lower(), w)


def main():
    for kind in ("antt", "rt", "edit"):
        for path in sorted(glob.glob(f"crates/**/*.{kind}", recursive=True)):
            with open(path, encoding="utf-8") as f:
                text = f.read()
            new = text
            if kind == "antt":
                new = WORD.sub(lambda m: LEMMAS.get(m.group(), m.group()), new)
            new = CAMEL.sub(snake, new)
            if new != text:
                with open(path, "w", encoding="utf-8") as f:
                    f.write(new)


main()
