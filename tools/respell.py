#!/usr/bin/env python3
"""Brings the definitions and lemmas of specs/ and proofs/ to the spelling of today's Rattle.

usage: tools/respell.py [--list]     at the top of the repository, once, after port.py; --list only prints the names

A word is in snake case (`layer-shown` becomes `layer_shown`, and `recordAt` becomes `record_at`), a fact keeps its capital and is in camel case
(`Runs-agree` becomes `RunsAgree`), and a lemma that says what one function gives of another keeps the dash between
the two (`length-markers`). Goals, whose names Rattle makes, are left alone, and so is a name that a file imports from
outside the repository. In a .rt file only ghost text is turned, never a string or a comment; in a must-fail edit the
texts that are to be replaced and put in; in a page of docs/ what stands between backticks.
It stops, and writes nothing, where two names would fall together.
"""
import collections
import glob
import os
import re
import sys

TOKEN = re.compile(r"[^\s(){}\[\],;.\"`⌜⌝:]+")
PROOF_OF_A_FUNCTION = re.compile(r"/(Answers|Invariants|Choices|Proof)\.antt$")
GOAL = re.compile(
    r"^(returns|invariant|decreases|loop|overflow|nonzero)([-_]|$)|^(bounds|prove)(-|$)|^(offset|slice)[-_]bounds"
    r"|-(requires|preserved|init|smaller|returns)(-|$)"
)
CAMEL = re.compile(r"[a-z]\w*[A-Z]")
HEADS = {"length", "take", "drop", "append", "map"}
# Names that would fall together with a function beside them, or with a word of the library.
GIVEN = {
    "getD_none": "get_or_none",
    "like_getD": "like_get_or",
    "bit-and": "bit-bit_and",
    "bit-or": "Bit-bit_or",
    "body-line": "line_of_body",
    "book-line": "line_of_book",
    "shown-symbols": "symbols_shown",
    "short-list": "fault_of_shortage",
    "chainOf": "chain_of_tok",
    "compareAnswer": "answer_of_compare",
    "doneAnswer": "answer_of_done",
    "mayEnd": "can_end",
    "mayFollow": "can_follow",
    "nextSet": "set_after",
    "trialAnswer": "answer_of_trial",
}
ENDS = {"append", "take", "drop", "set", "map", "replicate", "write", "front", "from"}


def antt():
    return sorted(
        f
        for part in ("specs", "proofs")
        for f in glob.glob(f"crates/*/{part}/**/*.antt", recursive=True)
    )


def read(path):
    with open(path, encoding="utf-8") as f:
        return f.read()


def no_comments(text):
    return re.sub(r"--.*", "", text)


def imports(text):
    """The names that a file takes from outside the repository."""
    taken = set()
    for path, names in re.findall(r"use\s+([\w.'-]+)\.\{([^}]*)\}", text):
        own = re.match(r"Rattle\.(\w+)\.", path)
        if not (own and os.path.isdir("crates/" + own.group(1))):
            taken |= set(re.split(r"[,\s]+", names))
    return taken


def declared():
    """The name of each definition, lemma, field and constructor, with whether some place defines it as a lemma."""
    lemma = collections.defaultdict(bool)
    line = re.compile(r"^(\s*)((?:(?:pub|abbrev|unfoldable|data|record|ruleset)\s+)*)([^\s:(){}\[\],;.|]+)\s*(?:[({][^=]*)?:(?:\s|$)")
    for path in antt():
        for text in no_comments(read(path)).split("\n"):
            m = line.match(text)
            if not m or m.group(3) in ("use", "where"):
                continue
            name = m.group(3)
            if PROOF_OF_A_FUNCTION.search(path) and GOAL.search(name):
                continue
            at_left = m.group(1) == "" and not re.search(r"abbrev|unfoldable|data|record", m.group(2))
            lemma[name] |= at_left
    return lemma


def new_name(name, is_lemma, words):
    if name in GIVEN:
        return GIVEN[name]
    parts = name.split("-")
    if CAMEL.match(name):
        return re.sub(r"[A-Z]", lambda m: "_" + m.group(0).lower(), name)
    if name[0].isupper():
        return parts[0] + "".join(p[:1].upper() + p[1:] for p in parts[1:])
    head, rest = parts[0], "_".join(parts[1:])
    if is_lemma and head in HEADS and (rest in words or rest in ENDS):
        return head + "-" + rest
    return "_".join(parts)


def tokens(text):
    """The names in a text, but for the modules of a path, which are no names in scope."""
    return set(TOKEN.findall(re.sub(r"use\s+[\w.'-]+(?=\.\{| as )", "", no_comments(text))))


def turn(text, names):
    return TOKEN.sub(lambda m: names.get(m.group(0), m.group(0)), text)


def turn_source(text, names):
    """Ghost text of a .rt file: all but strings and comments, where a dash between two names has no space beside it."""
    parts = re.split(r'("(?:[^"\\]|\\.)*"|//[^\n]*)', text)
    return "".join(p if i % 2 else turn(p, names) for i, p in enumerate(parts))


def main():
    lemma = declared()
    words = {n for n in lemma if "-" not in n}
    old = [n for n in lemma if CAMEL.match(n) or re.search(r"[A-Za-z]", n) and "-" in n]
    names = {n: new_name(n, lemma[n], words | {m.replace("-", "_") for m in old if not lemma[m]}) for n in old}
    names = {n: m for n, m in names.items() if n != m and n not in GIVEN.values()}
    if "--list" in sys.argv:
        for n, m in sorted(names.items()):
            print(n, m)
    together = collections.Counter(names.values())
    bad = [f"{n} and another both become {m}" for n, m in names.items() if together[m] > 1]
    files = antt() + sorted(glob.glob("crates/*/src/**/*.rt", recursive=True))
    for path in files:
        text = read(path)
        found = tokens(text)
        for n in found & set(names):
            if names[n] in found:
                bad.append(f"{path}: {n} becomes {names[n]}, which stands there already")
    for line in sorted(set(bad)):
        print("look:", line)
    if bad and "--anyway" not in sys.argv or "--list" in sys.argv:
        return 1 if bad else 0
    count = 0
    for path in files + sorted(glob.glob("crates/*/must-fail/*.edit") + glob.glob("docs/*.md") + ["README.md"]):
        text = read(path)
        if path.endswith(".md"):
            new = re.sub(r"`[^`\n]*`", lambda m: turn(m.group(0), names), text)
        elif path.endswith(".edit"):
            new = re.sub(r"(?m)^(old|new): .*$", lambda m: m.group(0)[:5] + turn_source(m.group(0)[5:], names), text)
        elif path.endswith(".rt"):
            new = turn_source(text, {n: m for n, m in names.items() if n not in imports(text)})
        else:
            new = turn(text, {n: m for n, m in names.items() if n not in imports(text)})
        if new != text:
            count += 1
            with open(path, "w", encoding="utf-8") as f:
                f.write(new)
    print(f"{len(names)} names, {count} files")
    return 0


if __name__ == "__main__":
    raise SystemExit(main())
