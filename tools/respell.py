"""Turns the repository's own names in specs/ and proofs/ to today's spelling, after port.py has run.

usage: python3 tools/respell.py [TOP]

Words are in snake case: `fourBytes` and `four-bytes` become `four_bytes`. A word that is a type keeps its capital, and
constructors of antt lose theirs. Names of functions, types and fields in src/, names of the library and comments stay.
Only names that are written in specs/ or in lemma files are turned, wherever they are cited: in specs/, proofs/ and in
the clauses and `ghost use` lines of src/. It runs once; a second run changes nothing.
"""
import collections
import os
import re
import sys

WORD = re.compile(r"[^\s(){};,.\[\]\"@«»|]+")
# The plain rule doesn't serve these: constructors with capitals, and a relation that is a type.
OWN = {"AnyHit": "any_hit", "RowHit": "row_hit", "AnyMiss": "any_miss", "RowMiss": "row_miss", "from-to": "FromTo"}
# Lemmas that would take the name of the function that they are about: (the lemma, where it stands).
LEMMAS = {
    "every-pattern": ("meaning",),
    "over-miss": ("history",),
    "refused-read": ("demands",),
    "limit-in": ("sets",),
    "told-all": ("demands", "guard"),
    "refusal-text": ("printing",),
    "same-state": ("demands",),
    "four_bytes": ("night_log",),
}


def respelled(name):
    name = re.sub(r"(?<=[a-z0-9])([A-Z])(?![A-Z])", lambda m: "_" + m.group(1).lower(), name)
    return name.replace("-", "_")


def crates():
    lines = (line.split("#")[0].strip() for line in open("crates.txt"))
    return [re.split(r"[\s:]", line)[0] for line in lines if line]


def files(crate, folder, ending):
    for where, folders, names in os.walk(os.path.join("crates", crate, folder)):
        for name in sorted(names):
            if name.endswith(ending):
                yield os.path.join(where, name)


def of_function(path):
    return path.count("/") > 3 and os.path.basename(path) in ("Proof.antt", "Answers.antt", "Invariants.antt")


def code(line):
    at = re.search(r"(^|\s)--(\s|$)", line)
    return (line[: at.start()], line[at.start() :]) if at else (line, "")


def main():
    os.chdir(sys.argv[1] if len(sys.argv) > 1 else ".")
    names, library, fields = collections.Counter(), set(), set()
    antt = [(c, f) for c in crates() for d in ("specs", "proofs") for f in files(c, d, ".antt")]
    own = tuple(f"Rattle.{c}." for c in crates())
    for _, f in antt:
        text = open(f).read()
        for m in re.finditer(r"^\s*(?:pub )?use ([^\n{]*?)(?:\.\{([^}]*)\})?(?: as \S+)?\s*$", text, re.M):
            if not m.group(1).startswith(own):
                library.update(item.split(" as ")[0].strip() for item in re.split(r",\s*", m.group(2) or ""))
        if not of_function(f):
            for line in text.split("\n"):
                line = code(line)[0]
                names.update(WORD.findall(line))
                m = re.match(r"  pub (\S+) : ", line)
                if m:
                    fields.add(m.group(1))
    turned = {}
    for name in names:
        if re.match(r"[a-zµ-ÿα-ω]", name) and name not in library:
            if re.search(r"\w['₀-₉]*-\w|[a-z0-9][A-Z]", name):
                turned[name] = respelled(name)
    turned.update(OWN)

    def turn(text, crate, function):
        def word(m):
            name = m.group(0)
            after_dot = m.start() > 0 and text[m.start() - 1] == "."
            if function and after_dot and name not in fields:
                return name
            if name in LEMMAS and crate in LEMMAS[name] and not after_dot:
                return respelled(name) + "_lem"
            return turned.get(name, name)

        return WORD.sub(word, text)

    for crate, f in antt:
        lines = open(f).read().split("\n")
        new = [turn(code(line)[0], crate, of_function(f)) + code(line)[1] for line in lines]
        if new != lines:
            open(f, "w").write("\n".join(new))
    for crate in crates():
        for f in files(crate, "src", ".rt"):
            lines = open(f).read().split("\n")
            new, depth = [], 0
            for line in lines:
                clause = depth > 0 or re.match(r"\s*(ghost use|requires|ensures)\b", line)
                new.append(turn(line, crate, False) if clause and not line.lstrip().startswith("//") else line)
                if clause:
                    depth = depth + line.count("{") - line.count("}")
            if new != lines:
                open(f, "w").write("\n".join(new))


main()
