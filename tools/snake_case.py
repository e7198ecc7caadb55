#!/usr/bin/env python3
"""Brings the repository's own definitions and lemmas to snake case. Run it once, from the root, after port.py.

Types, facts and modules keep their camel case. Names of src/ and what Rattle itself makes keep their spelling. Where two names would
fall together, ALONE says what each is called. It goes by whole names, over definitions, proofs, clauses and must-fail edits."""
import collections
import glob
import re
import sys

ALONE = {
    # a function on lists beside the parser of the same name
    "takeWhile": "list_take_while",
    "dropWhile": "list_drop_while",
    # of a value of src/ beside the definition's own
    "docBit": "doc_span_bit",
    "docWord": "doc_span_word",
    "spanWord": "word_of_span",
    "kindNumber": "struct_kind_number",
    "Well-formed": "WellFormed",
}
# lemmas that would have their function's name
LEMMAS = """lost-of many-within iter-within stop-at count-lost level-lost level-small command-head-within command-types-within extent-if
entry-lost event-qualities-small annotation-lost privileges-small grants-with grants-small shift-choice-head shift-struct-head
shift-event-head shift-command-head shift-command-types shift-cluster-head shift-device-type shift-endpoint shift-item""".split()
ALONE.update({name: name.replace("-", "_") + "_lem" for name in LEMMAS})

CHARS = r"[^\s(){}\[\],;.@`«»\"⌜⌝|:]"
TOKEN = re.compile(CHARS + "+")
DEFINED = re.compile(r"^\s*(?:(?:unfoldable|abbrev|pub|data|record|ruleset|opaque)\s+)*((?:%s+\s+)*%s+)\s*(?:\([^)]*\)\s*|\{[^}]*\}\s*)*:\s" % (CHARS, CHARS))


# a list of lemmas, a name that an import gives, and a parameter that stands with others
RULESET = re.compile(r"^\s*(?:pub )?ruleset (%s+) =" % CHARS)
ALIAS = re.compile(r" as (%s+)" % CHARS)
PARAMETERS = {"is-write", "unescapeOf"}


def files(*patterns):
    return sorted({f for p in patterns for f in glob.glob(p, recursive=True)})


def walk(file):
    """A function's proof, whose names Rattle makes."""
    return file.endswith(("/Proof.antt", "/Answers.antt", "/Invariants.antt"))


def own():
    names = set(PARAMETERS)
    for file in files("crates/*/specs/**/*.antt", "crates/*/proofs/**/*.antt"):
        if walk(file):
            continue
        for line in open(file):
            if line.lstrip().startswith("--"):
                continue
            if m := DEFINED.match(line):
                names.update(m[1].split())
            names.update(RULESET.findall(line))
            names.update(ALIAS.findall(line) if line.startswith("use ") else [])
    return names


IMPORT = re.compile(r"^\s*(?:ghost )?(?:pub )?use ([^\s{]+)\.\{([^}]*)\}", re.M)


def from_below(text, crates):
    """What a file imports from elsewhere than the repository's crates."""
    out = set()
    for path, names in IMPORT.findall(text):
        if path.split(".")[:2] not in crates:
            out.update(word for item in names.split(",") for word in item.split())
    return out


def snake(name):
    if name in ALONE:
        return ALONE[name]
    for old in ("takeWhile", "dropWhile"):
        if name.startswith(old + "-"):
            return ALONE[old] + name[len(old):].replace("-", "_")
    name = re.sub(r"(?<=[a-z0-9])([A-Z])", lambda m: "_" + m[1].lower(), name)
    return name.replace("-", "_")


def main():
    names = own()
    turned = {n: snake(n) for n in names if re.match(r"^[a-z][A-Za-z0-9'₀-₉-]*$", n) or n in ALONE}
    turned = {old: new for old, new in turned.items() if old != new}
    targets = collections.defaultdict(set)
    for name in names:
        targets[turned.get(name, name)].add(name)
    clash = {new: olds for new, olds in targets.items() if len(olds) > 1}
    if clash:
        sys.exit(f"these fall together: {clash}")
    everywhere = files("crates/*/specs/**/*.antt", "crates/*/proofs/**/*.antt", "crates/*/src/**/*.rt", "crates/*/must-fail/*.edit")
    crates = [["Rattle", folder.split("/")[1]] for folder in files("crates/*")]
    for file in everywhere:
        text = open(file).read()
        kept = from_below(text, crates)
        new = TOKEN.sub(lambda m: m[0] if m[0] in kept else turned.get(m[0], m[0]), text)
        if new != text:
            open(file, "w").write(new)
    print(f"{len(turned)} names")


main()
