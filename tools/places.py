#!/usr/bin/env python3
"""Finds in crates/*/src what an older language would have asked for.

    tools/places.py [FOLDER]        a count for each point, and the places

Each point is a few patterns over the source with comments and clauses taken out, so that a place is
found by its form alone; whether the form is right where it stands is for a reader to say.
"""
import collections, os, re, sys

top = sys.argv[1] if len(sys.argv) > 1 else "."


def sources():
    for folder, _, files in sorted(os.walk(os.path.join(top, "crates"))):
        if "/src" in folder and "/out/" not in folder:
            for name in sorted(files):
                if name.endswith(".rt"):
                    path = os.path.join(folder, name)
                    yield os.path.relpath(path, top), open(path).read()


def code(text):
    """The text with comments and clauses blanked, line for line."""
    lines = []
    for line in text.split("\n"):
        bare = re.sub(r"//.*", "", line)
        if re.match(r"\s*(requires|ensures|ghost)\b", bare):
            bare = ""
        lines.append(bare)
    return "\n".join(lines)


PATTERNS = {
    "1 own options, flags, numbers": [
        r"\.number\(\)",
        r"fn from_number\b|fn number\(self\)|fn code\(",
        r"fn from_\w+\([^)]*\)\s*->\s*(Option|Result)",
        r"-> \(bool,",
        r"Result<bool,",
        r"else \{ 0 \}",
        r"enum \w+ \{\s*Read\([^}]*Refused",
        r"None => None|Err\(_\) => (None|Err)|None => Err|Err\(_\) => Ok\(None\)|None => Ok\(None\)",
        r"let (Some|Ok)\([^=]*\) = [^;]* else \{\s*return (None|Err\([^;]*\)|Ok\(None\)|Ok\(Outcome::Refused\));\s*\};",
        r"\bif [^{}\n]* \{\s*Some\([^{}]*\)\s*\} else \{\s*None\s*\}",
    ],
    "2 twins": [],  # by name, below
    "3 loops by hand": [
        r"\bwhile (?!let )",
        r"\bwhile let ",
        r"\bfor \w+ in [^{\n]*\.\.",
        r"\bfor \w+ in [^{]*\{[^}]*\b\w+ \+= 1;",
        r"\bfor [^{]*\{\s*(if [^{]*\{\s*)?(return|all &=|count \+=)",
    ],
    "4 equality, order, conversion, printing": [
        r"fn (same|same_\w+|name_order|characters_are)\b",
        r"fn (told|element|kind_of|token_of|code|from_number|number|from_line|from_spelling|say|encode)\b",
        r"^#\[derive\(Clone, Copy\)\]\n(pub(\(crate\))? )?(enum|struct) \w+( \{|;)",
    ],
    "5 facts and parameters together": [],  # computed, below
    "6 buffers, arrays, searches": [
        r"^\s+(pub )?\w+: \[[\w:]+; [\w_]+\],",
        r"let mut \w+ = \[[^;\]]*; [\w_]+\];",
        r"let mut low\b",
        r"^\s+(text|message): &'a \[u8\],\n\s+at: usize,",
        r"\w+: &mut \[\w+\], (len|n|at): usize",
    ],
    "7 switches on a step": [
        r"match self\.(next|held|mode)\b",
        r": fn\(",
        r"_ => \w+\(heap, text\)|=> \w+\(heap, text\)",
    ],
}

TWINS = [
    ("blank_rows", "blank_ink"),
    ("put_int", "put_double"),
    ("write_characters", "write_decoded"),
    ("same_characters", "characters_are"),
    ("one", "two"),
    ("int_run", "boolean_run", "double_run", "date_run", "base64_run", "method_run"),
    ("method", "int", "boolean", "double", "date", "base64", "string"),
    ("stored", "cut"),
    ("name", "fault"),
    ("digit", "digit"),
]


def functions(text):
    for m in re.finditer(r"fn (\w+)(<[^(]*>)?\(([^)]*)\)", text):
        yield m.group(1), re.sub(r"\s+", " ", m.group(3))


def main():
    found = collections.defaultdict(list)
    pairs = collections.defaultdict(set)
    facts = collections.defaultdict(set)
    names = collections.defaultdict(list)
    for path, text in sources():
        crate = path.split("/")[1]
        if crate.endswith("_checks") and crate != "hall_checks":
            continue
        bare = code(text)
        for point, patterns in PATTERNS.items():
            for p in patterns:
                for m in re.finditer(p, bare, re.M):
                    line = bare[: m.start()].count("\n") + 1
                    found[point].append((path, line, " ".join(m.group(0).split())[:60]))
        for name, args in functions(bare):
            names[name].append(path)
            plain = [a.strip() for a in args.split(",") if ":" in a]
            for i in range(len(plain)):
                for j in range(i + 1, len(plain)):
                    pairs[(crate, plain[i], plain[j])].add(name)
        for m in re.finditer(r"requires (?:\w+ )?\{ (.*) \}$", text, re.M):
            facts[(crate, m.group(1))].add((path, text[: m.start()].rfind("fn ")))
    for group in TWINS:
        files = [f for n in set(group) for f in names.get(n, [])]
        if len(files) > 1 and len([n for n in set(group) if n in names]) == len(set(group)):
            for n in sorted(set(group)):
                for f in names[n]:
                    found["2 twins"].append((f, 0, n))
    for (crate, a, b), users in sorted(pairs.items()):
        if len(users) >= 3:
            found["5 facts and parameters together"].append((crate, 0, f"{a}, {b} in {', '.join(sorted(users))}"))
    for (crate, fact), users in sorted(facts.items()):
        if len(users) >= 3:
            found["5 facts and parameters together"].append((crate, 0, f"requires {fact} x{len(users)}"))
    for point in PATTERNS:
        places = sorted(set(found[point]))
        print(f"{point}: {len(places)}")
        for path, line, what in places:
            print(f"    {path}{':' + str(line) if line else ''}  {what}")


main()
