#!/usr/bin/env python3
"""Respells this repository's own definitions and lemmas: words in snake case, types and modules in camel case.

usage: python3 tools/respell.py [--list]     at the top of the repository; --list prints the new names and what falls together, and writes nothing

It is run once, after the scripts that turn an older Rattle's spelling. Names of the library, names that Rattle makes
(goals, steps, loops) and names of src/ keep their spelling. Words in comments are turned with the names.
"""
import os
import re
import sys

NAME = r"[A-Za-z_][A-Za-z0-9_'₀-₉]*(?:-[A-Za-z0-9_'<>≤₀-₉]+)+"
TOKEN = re.compile(r"(?<![A-Za-z0-9_'₀-₉·\-])" + NAME + r"(?![A-Za-z0-9_'₀-₉·])(?!-[A-Za-z0-9])")
# where a name is made: a signature, a field, a constructor, a parameter, a let, a λ, a renaming import
SIGNATURE = re.compile(r"^\s*(?:(?:abbrev|unfoldable|pub|data|record)\s+)*((?:" + NAME + r"|[A-Za-z_][\w']*)(?:\s+(?:" + NAME + r"|[A-Za-z_][\w']*))*)\s*(?=[:({])")
MADE = [
    re.compile(r"\blet\s+(" + NAME + r")\s*[:=]"),
    re.compile(r"[({]\s*((?:[A-Za-z_][\w'\-]*\s+)*[A-Za-z_][\w'\-]*)\s*:(?!:)"),
    re.compile(r"λ\s*((?:[A-Za-z_][\w'\-]*\s*)+)\."),
    re.compile(r"\bas\s+(" + NAME + r")"),
    re.compile(r"\bmod\s+(" + NAME + r")"),
]
OURS_AFTER = re.compile(r"Rattle\.([a-z_0-9]+)\.(?:specs|proofs)\.")
LIBRARY = re.compile(r"use\s+((?:borrow|native|lib|mathlib|Prim)\.[\w.']+|Rattle\.[a-z_0-9]+\.[\w.'+-]+)\.\{([^}]*)\}")


def files(root):
    for folder, dirs, names in os.walk(os.path.join(root, "crates")):
        dirs[:] = sorted(d for d in dirs if d != "out")
        for n in sorted(names):
            if n.endswith((".rt", ".antt")):
                yield os.path.join(folder, n)


def answers(path):
    return os.path.basename(path) in ("Answers.antt", "Invariants.antt", "Choices.antt", "Proof.antt")


# names that would fall together with a ghost member and with a type of src/
APART = {"nowhere-else": "nothing_elsewhere", "Not-made": "WhyNotMade"}

# arguments of a clause, whose making no form above shows
ARGUMENTS = {"no-s", "no-x", "no-held", "no-idle", "no-back", "yes-back", "yes-s", "yes-range", "may-go", "asking-of"}
LABEL = re.compile(r"\b(?:ensures\*?|requires\*?|ghost)\s+([a-z][a-z0-9_]*)\s*[:={]")


def respelled(name):
    """Facts, types and constructors in camel case, all else in snake case."""
    if name in APART:
        return APART[name]
    if name[0].isupper():
        return "".join(part[0].upper() + part[1:] for part in re.split(r"[-_]", name) if part)
    return name.replace("-", "_")


def collect(texts, crates):
    own, library = set(), set()
    for path, text in texts.items():
        for it in LIBRARY.finditer(text):
            module, words = it.group(1), it.group(2)
            crate = module.split(".")[1] if module.startswith("Rattle.") else None
            made = ".declared." in module + "." or module.endswith((".Goals", ".Given", ".TheVariants"))
            if crate not in crates or made:
                library |= set(re.findall(NAME, re.sub(r"[^\s,]+\s+as\s+", "", words)))
        if path.endswith(".rt"):
            continue
        for line in text.splitlines():
            code = line.split("--")[0] if "--" in line else line
            if answers(path) and re.match(r"\s*(?:abbrev )?(?:pub )?[\w'\-]+\s*:\s*goal\.", code):
                continue
            it = SIGNATURE.match(code)
            if it and not re.match(r"\s*use\b", code) and code[it.end():it.end() + 1] in (":", "(", "{"):
                words = it.group(1).split()
                if code.lstrip().startswith(("pub data", "pub record", "data", "record")) or code[it.end()] == ":":
                    own |= {w for w in words if "-" in w}
            for made in MADE:
                for found in made.finditer(code):
                    own |= {w for w in found.group(1).split() if "-" in w}
    return own | ARGUMENTS, library


def labels_of(texts):
    """The names of clauses and of ghost fields: they stand behind a dot or before a sign of equality in a proof file."""
    return {w for path, text in texts.items() if path.endswith(".rt") for w in LABEL.findall(text) if "_" in w}


def turn_labels(text, labels):
    def one(it):
        word = it.group(2).replace("-", "_")
        return it.group(1) + word if word in labels else it.group(0)

    return re.sub(r"(\.(?:ensures|requires|type_inv|type-inv)(?:\.[A-Za-z_0-9]+)*\.|(?:^|[;{])\s*)(" + NAME + r")(?=$|\W)(?!\s*:)", one, text, flags=re.M)


def fields_of(texts):
    """The fields of the repository's records: a name after a dot may be one of them."""
    found = set()
    for path, text in texts.items():
        if path.endswith(".rt"):
            continue
        for it in re.finditer(r"^( *)(?:pub )?record [^\n]*\bwhere[^\n]*\n((?:\1 +[^\n]*\n|\n)*)", text, re.M):
            for line in it.group(2).splitlines():
                field = re.match(r"\s*(?:pub )?((?:" + NAME + r"|[A-Za-z_][\w']*)(?:\s+(?:" + NAME + r"|[A-Za-z_][\w']*))*)\s*:", line.split("--")[0])
                if field:
                    found |= {w for w in field.group(1).split() if "-" in w}
    return found


def heads_of(text):
    """Modules that a file brings in whole: a name after a dot behind one of them is a definition."""
    found = set(re.findall(r"\bas\s+([A-Za-z_][\w'\-]*)", text))
    for it in re.finditer(r"^\s*(?:pub |ghost )*use\s+[\w.'+-]+\.([A-Za-z_][\w'\-]*);?\s*$", text, re.M):
        found.add(it.group(1))
    return found - {"goal", "given", "need"}


def turn(text, names, fields):
    heads = heads_of(text)

    def one(it):
        word = it.group(0)
        if word not in names:
            return word
        before = text[:it.start()]
        if before.endswith("."):
            chain = re.search(r"([A-Za-z_][\w'\-]*)((?:\.[\w'+\-]+)*)\.$", before)
            if chain is None:
                return names[word] if word in fields else word
            head = chain.group(1)
            if head == "Rattle" or head in heads:
                return names[word]
            # directly behind these stand steps and goals, whose names Rattle makes
            made = head in ("c", "l", "w", "goal", "given", "need") and not chain.group(2)
            return names[word] if word in fields and not made else word
        return names[word]

    return TOKEN.sub(one, text)


def main(argv):
    root = os.getcwd()
    crates = set(os.listdir(os.path.join(root, "crates")))
    texts = {}
    for p in files(root):
        with open(p, encoding="utf-8") as f:
            texts[p] = f.read()
    own, library = collect(texts, crates)
    names = {n: respelled(n) for n in sorted(own - library)}
    fields = fields_of(texts) & set(names)
    labels = labels_of(texts)
    if "--list" in argv:
        words = set()
        for p, t in texts.items():
            words |= set(re.findall(r"[A-Za-z_][A-Za-z0-9_']*", t))
        for n in sorted(own & library):
            print("library's too:", n)
        seen = {}
        for n, to in names.items():
            if to in seen:
                print("fall together:", n, seen[to], "->", to)
            seen[to] = n
            if to in words:
                print("there already:", n, "->", to)
        for n, to in names.items():
            print("turn:", n, to)
        return 0
    for p, t in texts.items():
        new = turn(t, names, fields)
        if answers(p):
            new = turn_labels(new, labels)
        if new != t:
            with open(p, "w", encoding="utf-8") as f:
                f.write(new)
    return 0


if __name__ == "__main__":
    sys.exit(main(sys.argv[1:]))
