#!/usr/bin/env python3
"""Respells the definitions and lemmas of this repository as today's Rattle spells words.

usage: python3 tools/respell.py [--check]        at the top of the repository

A word that a file of specs/ or proofs/ declares is written with underscores where it had dashes, and one that names
a fact, a type or a record in upper camel case. Words of the library, names that the check makes (goals and steps) and
functions of src/ keep their spelling. In src/ only clauses and `ghost use` items have such words, and in pages and
comments only code spans turn. --check writes nothing. Words that fall together with another are named on a line 'look:'.
"""

import glob
import re
import sys

WORD = re.compile(r"[^\s(){}.;,@\"«»`]+")
DECLARED = re.compile(
    r"^\s*(?:(?:abbrev|unfoldable|pub|data|record)\s+)*(?P<name>[^\s(){}.;,@\"«»]+)(?:\s+[({].*)?\s:(?:\s|$)"
)
IMPORT = re.compile(r"^\s*(?:ghost )?use (?!Rattle\.(?!std\b))[^{]*\{(?P<names>[^}]*)\}", re.M)
SPAN = re.compile(r"`[^`\n]*`")
# variables of a `let`; one whose library word got another name; and one that would fall together with a type of src/
MORE = {
    "per-pixel": "per_pixel",
    "fed-x": "fed_x",
    "getD-stored": "get_or_stored",
    "Exclusive-or": "IsExclusiveOr",
}


def respelled(word):
    if word[0].isupper():
        return "".join(part[0].upper() + part[1:] for part in re.split(r"[-_]", word))
    return word.replace("-", "_")


def proof_files():
    return sorted(f for kind in ("specs", "proofs") for f in glob.glob(f"crates/*/{kind}/**/*.antt", recursive=True))


def table():
    words = {}
    for path in proof_files():
        with open(path, encoding="utf-8") as file:
            for line in file:
                found = DECLARED.match(line)
                # an answer is named as its goal is, and the check names that
                if found and " goal." not in line:
                    word = found["name"]
                    if "-" in word or (word[0].isupper() and "_" in word):
                        words[word] = respelled(word)
    words.update(MORE)
    return words


def turned(text, words):
    def one(found):
        word = found[0]
        made = text[max(0, found.start() - 5) : found.start()].endswith("goal.")
        return word if made else words.get(word, word)

    return WORD.sub(one, text)


def outside_comments(text, mark, words):
    lines = []
    for line in text.split("\n"):
        at = line.find(mark)
        while at > 0 and line[:at].count('"') % 2:
            at = line.find(mark, at + 1)
        code, comment = (line, "") if at < 0 else (line[:at], line[at:])
        pieces = re.split(r'("(?:\\.|[^"\\])*")', code)
        code = "".join(p if p.startswith('"') else turned(p, words) for p in pieces)
        lines.append(code + SPAN.sub(lambda s: turned(s[0], words), comment))
    return "\n".join(lines)


def main():
    words = table()
    news = set(words.values())
    for new in sorted(news):
        olds = sorted(old for old in words if words[old] == new)
        if len(olds) > 1:
            print(f"look: {', '.join(olds)} all become {new}")
    files = [(f, "--") for f in proof_files()]
    files += [(f, "//") for f in sorted(glob.glob("crates/*/src/**/*.rt", recursive=True))]
    files += [(f, None) for f in ["README.md", *sorted(glob.glob("docs/*.md"))]]
    changed = 0
    for path, mark in files:
        with open(path, encoding="utf-8") as file:
            old = file.read()
        library = {w.strip().split(" as ")[-1] for names in IMPORT.findall(old) for w in names.split(",")}
        here = {old_word: new for old_word, new in words.items() if old_word not in library}
        if mark:
            tokens = set(WORD.findall(old))
            for old_word, new in sorted(here.items()):
                if old_word in tokens and new in tokens:
                    print(f"look: {path}: {old_word} becomes {new}, which stands there already")
            new_text = outside_comments(old, mark, here)
        else:
            new_text = SPAN.sub(lambda s: turned(s[0], here), old)
        if new_text != old:
            changed += 1
            if "--check" not in sys.argv:
                with open(path, "w", encoding="utf-8") as file:
                    file.write(new_text)
    print(f"respell: {len(words)} words, {changed} files")


if __name__ == "__main__":
    main()
