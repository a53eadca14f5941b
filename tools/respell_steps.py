#!/usr/bin/env python3
"""Respells, in answers and invariants, the names that the check makes from names of src/.

usage: python3 tools/respell_steps.py CRATE..        at the top of the repository

Today a name of src/ keeps its underscores in the name of a goal or a step, where a dash stood before: the step of a
call of `byte_at` is `c.byte_at`, and what it requires `byte_at-requires`.
"""

import glob
import re
import sys

WORD = re.compile(r"[^\s(){}.;,@\"«»`]+")
IDENTIFIER = re.compile(r"\b[A-Za-z][A-Za-z0-9]*(?:_[A-Za-z0-9]+)+\b")
STANDARD = {"extend_from_slice", "is_some", "is_none", "map_or", "is_empty", "to_vec", "split_at"}


def identifiers():
    found = set(STANDARD)
    for path in glob.glob("crates/*/src/**/*.rt", recursive=True):
        with open(path, encoding="utf-8") as file:
            for line in file:
                if not line.startswith("ghost use"):
                    found |= set(IDENTIFIER.findall(line.split("//")[0]))
    return sorted(found, key=len, reverse=True)


def library(text):
    names = re.findall(r"^use (?!Rattle\.(?!std\b))[^{]*\{([^}]*)\}", text, re.M)
    return {w.strip().split(" as ")[-1] for group in names for w in group.split(",")}


def main():
    rust = [(re.compile(rf"(?<![\w'])({'-'.join(map(re.escape, name.split('_')))})(?![\w'])"), name) for name in identifiers()]
    for crate in sys.argv[1:]:
        for path in glob.glob(f"crates/{crate}/proofs/**/*.antt", recursive=True):
            if not path.endswith(("/Answers.antt", "/Invariants.antt")):
                continue
            with open(path, encoding="utf-8") as file:
                old = file.read()
            kept = library(old)

            def one(found):
                word = found[0]
                if "-" in word and word not in kept:
                    for pattern, name in rust:
                        word = pattern.sub(name, word)
                return word

            lines = [line if line.startswith("use Rattle.std") else WORD.sub(one, line) for line in old.split("\n")]
            new = "\n".join(lines)
            if new != old:
                with open(path, "w", encoding="utf-8") as file:
                    file.write(new)
                print(f"respelled {path}")


if __name__ == "__main__":
    main()
