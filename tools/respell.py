#!/usr/bin/env python3
"""Respells the repository's own definitions and lemmas as today's Rattle spells names.

usage: python3 tools/respell.py        at the top of the repository, once, right after the kit's port.py
       python3 tools/respell.py --dry  prints the new names, and those that would fall together with another name of a file

Functions and values of specs/ and proofs/ go to snake case. In a name with dashes they become `_`,
but for those that join two names, as in `length-packed`. A lemma that would get the name of the function
that it speaks of gets `_lem` behind it. Functions of src/, strings, inputs, outputs and
the names that rattle makes (goals, invariants, measures) keep their spelling. A crate that has the name of a
library of the kit gets another, std's `AllByRecursion` stands under its own name, and a class of bytes is
named by its type alone.
"""

import collections
import glob
import os
import re
import sys

CLAUSE = re.compile(r"[^\s(){}\[\],;.λ@|]+")
# words of std and of the repository that a lemma's name joins to what follows by a dash
JOINED = {"length", "worth_after", "hex_digits", "hex_text", "nat_abs"}
OWN = {"natAbs": "nat_abs"}
# lemmas that port.py gave the name of the function that they speak of, by the file where they stand
EARLIER = {"crates/held/proofs/InMessage.antt": {"by_value": "by_value_lem", "rows_in": "rows_in_lem"}}
# names of std and of the repository that a lemma may not take
TAKEN = {"put_mid", "and_then", "run_row"}
# constructors and functions of different modules, which never meet
APART = {"in-name"}

# crates that the kit has libraries named as
CRATES = {"base64": "base64_texts", "hex": "hex_texts"}


def antt_files():
    return sorted(glob.glob("crates/*/specs/**/*.antt", recursive=True) + glob.glob("crates/*/proofs/**/*.antt", recursive=True))


def rt_files():
    return sorted(glob.glob("crates/*/src/**/*.rt", recursive=True))


def declared(text):
    """The names that a file declares, but for those whose statement rattle makes."""
    for m in re.finditer(r"^( *)(?:abbrev |unfoldable |pub )*((?:[^\s:({},;.\[\]]+ )*[^\s:({},;.\[\]]+) :(?= |$)(.*)$", text, re.M):
        if not re.match(r" *(?:goal|given)\.", m[3]):
            yield from (n for n in m[2].split() if n != "--")


def snake(name):
    return re.sub(r"(?<=[a-z0-9])([A-Z])", lambda m: "_" + m[1].lower(), OWN.get(name, name))


def respelt(name):
    if "-" not in name:
        return snake(name)
    parts = [snake(p) if not p[0].isupper() else p for p in name.split("-")]
    if parts[0] in JOINED:
        return parts[0] + "-" + "_".join(parts[1:])
    return "_".join(parts)


def names():
    made = set()
    own = set()
    for f in antt_files():
        with open(f, encoding="utf-8") as it:
            text = it.read()
        own |= set(declared(text))
        made |= set(re.findall(r"^(?:abbrev )?(?:pub )?(\S+) : (?:goal|given)\.", text, re.M))
    old = {n for n in own - made if re.fullmatch(r"[a-z][\w'-]*", n) and ("-" in n or re.search("[A-Z]", n))}
    new = {n: respelt(n) for n in old if respelt(n) != n}
    functions = {n for o, n in new.items() if "-" not in o} | TAKEN
    return {o: n + "_lem" if "-" in o and n in functions and o not in APART else n for o, n in new.items()}


def turned(text, new):
    return CLAUSE.sub(lambda m: new.get(m[0], m[0]), text)


def turned_rt(text, new):
    """Of a source file, the ghost lines and the clauses alone: the camel case and the dashes stand nowhere else."""
    pieces = re.split(r"""(b?'\\?.'|"(?:[^"\\]|\\.)*")""", text)
    return "".join(p if i % 2 else turned(p, new) for i, p in enumerate(pieces))


def renamed(text, rt):
    """With the crates' new names, and with library words under their own."""
    for old, new in CRATES.items():
        text = text.replace(f"Rattle.{old}.", f"Rattle.{new}.")
        if rt:
            text = re.sub(rf"(?<![\w:]){old}::(?!\{{?(?:decode|encode)\b)", f"{new}::", text)
    if re.search(r"AllByRecursion as All\b", text):
        text = re.sub(r"AllByRecursion as All\b", "@", text)
        text = re.sub(r"(?<![\w'-])All(?![\w'-])", "AllByRecursion", text).replace("@", "AllByRecursion")
    used = {a or b for a, b in re.findall(r"<texts::bytes::(\w+) as Class>::has|::<texts::bytes::(\w+)>", text)}
    if rt and used:
        text = re.sub(r"<texts::bytes::(\w+) as Class>::has", r"\1::has", text)
        text = re.sub(r"::<texts::bytes::(\w+)>", r"::<\1>", text)
        line = re.search(r"^use texts::bytes::(?:\{([^}]*)\}|(\w+));\n", text, re.M)
        names = sorted({n.strip() for n in (line[1] or line[2]).split(",")} | used)
        text = text.replace(line[0], "use texts::bytes::{" + ", ".join(names) + "};\n")
    return text


def rename_crates():
    for old, new in CRATES.items():
        if os.path.isdir(f"crates/{old}/src"):
            os.rename(f"crates/{old}", f"crates/{new}")
    with open("crates.txt", encoding="utf-8") as it:
        text = it.read()
    with open("crates.txt", "w", encoding="utf-8") as it:
        it.write(re.sub(rf"\b({'|'.join(CRATES)})\b", lambda m: CRATES[m[0]], text))


def main(argv):
    new = names()
    back = collections.defaultdict(set)
    for o, n in new.items():
        back[n].add(o)
    for n, os in sorted(back.items()):
        if len(os) > 1:
            print("together:", n, sorted(os))
    for f in antt_files() + rt_files():
        with open(f, encoding="utf-8") as it:
            text = it.read()
        words = set(CLAUSE.findall(re.sub(r'"(?:[^"\\]|\\.)*"', "", re.sub(r"^\s*(?:--|//).*$", "", text, flags=re.M))))
        for o in sorted(words & set(new)):
            if new[o] in words and f.endswith(".antt") and new[o] not in EARLIER.get(f, {}):
                print("falls together:", f, o, new[o])
        if "--dry" not in argv:
            was, text = text, turned(text, EARLIER.get(f, {}))
            turn = turned_rt(text, new) if f.endswith(".rt") else turned(text, new)
            turn = renamed(turn, f.endswith(".rt"))
            if turn != was:
                with open(f, "w", encoding="utf-8") as it:
                    it.write(turn)
    if "--dry" not in argv:
        rename_crates()
    else:
        print("\n".join(f"{o} -> {n}" for o, n in sorted(new.items())))
    return 0


if __name__ == "__main__":
    raise SystemExit(main(sys.argv[1:]))
