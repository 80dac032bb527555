#!/usr/bin/env python3
"""Brings this repository's own names of definitions and lemmas to today's spelling.

Run once, at the top, right after port.py. Words are in snake case; a dash stands only
before a name that is defined somewhere, as in `marked-with`; a plain word is added with `_`.
Names of src/, exported names, strings and inputs stay as they are.
It stops, and changes nothing, where two names would fall together.
"""
import collections
import glob
import re
import sys

# Names of the library that a lemma's name may join by a dash.
LIBRARY = set("""append cons nil length take drop suc zero one true false eqb ltb leb eq lt le ne
    and or not bit get_or put mod add sub halves digits""".split())
# Old names of the library in names of our own, and what they are today.
TODAY = {"getD": "get_or"}
# Names that would fall together with another.
OTHERWISE = {"is-root": "root_is_one", "inState": "is_in_state", "in-way": "in_way_lem", "put-mid": "put_mid_lem"}
# Left to the proofs that are rewritten: names that the checker once made.
LEAVE = re.compile(r"^(of_T|.*_(Lawful|Tells|Makes|Meets))$")

TOKEN = re.compile(r"[^\s(){}\[\].,;:«»\"]+")
DEFINED = re.compile(
    r"^\s*(?:(?:abbrev|unfoldable|pub|data|record|ruleset)\s+)*([^\s:(){}\[\]]+)(?:\s+[({][^:]*:.*)?\s*:\s")


def snake(part):
    if part in TODAY:
        return TODAY[part]
    if LEAVE.match(part) or not re.match(r"^[a-z]\w*[A-Z]", part):
        return part
    return re.sub(r"([a-z0-9])([A-Z])", lambda m: m[1] + "_" + m[2].lower(), part)


def dashes(parts, known):
    name, i = parts[0], 1
    while i < len(parts):
        for j in range(len(parts), i, -1):
            run = "_".join(parts[i:j])
            if run in known or run[0].isupper() or not run[0].isalpha():
                name += "-" + run
                break
        else:
            name, j = name + "_" + parts[i], i + 1
        i = j
    return name


def antt_files():
    return sorted(glob.glob("crates/*/specs/**/*.antt", recursive=True)
                  + glob.glob("crates/*/proofs/**/*.antt", recursive=True))


def shared(path):
    return re.match(r"crates/\w+/(specs|proofs)/\w+\.antt$", path)


def definitions():
    words, lemmas = set(), set()
    for path in filter(shared, antt_files()):
        for line in open(path):
            m = DEFINED.match(line)
            if m and not line.startswith(("use ", "--")) and m[1] not in ("|", "let"):
                (words if "/specs/" in path else lemmas).add(m[1])
    return words, lemmas


def fields():
    """The fields of this repository's own records: Rust's spelling, with no dash."""
    found = set()
    for path in antt_files():
        within = False
        for line in open(path):
            if re.match(r"\s*(?:abbrev |pub )*record .* where", line):
                within = True
            elif within:
                m = re.match(r"\s+(?:pub )?([^\s:]+) : ", line)
                if m:
                    found.add(m[1])
                elif line.strip() and not line.startswith(" "):
                    within = False
    return found


def functions():
    """Each function of src/ under the name that a theorem of `unique` has for it."""
    found = {}
    for path in glob.glob("crates/*/src/**/*.rt", recursive=True):
        crate = path.split("/")[1]
        stem = path.split("/")[-1][:-3]
        module = [] if stem in ("lib", "main") else [stem]
        kind = None
        for line in open(path):
            m = re.match(r"impl (\w+)", line)
            kind = m[1].lower() if m else None if line.startswith("}") else kind
            m = re.match(r"\s*(?:pub(?:\([^)]*\))? )?(?:unsafe )?(?:extern \"C\" )?fn (\w+)", line)
            if m:
                for middle in (module, module + [kind] if kind else module, [kind] if kind else []):
                    for whole in ([crate, *middle, m[1]], [crate.split("_")[0], *middle, m[1]]):
                        found["-".join(whole).replace("_", "-")] = "-".join(whole)
                if m[1].startswith("dpe_"):
                    found[m[1].replace("_", "-")] = m[1]
    return found


def new_names():
    words, lemmas = definitions()
    known = {snake(w) for w in words if "-" not in w} | LIBRARY
    of_function = functions()
    names = {}
    own_fields = fields()
    for old in sorted(words | lemmas | own_fields):
        if old in OTHERWISE:
            new = OTHERWISE[old]
        elif old in own_fields:
            new = "_".join(snake(p) for p in old.split("-"))
        elif old in of_function:
            new = of_function[old]
        else:
            new = dashes([snake(p) for p in old.split("-")], known)
        names[old] = new
    # A lemma that would have its function's name gets `_lem`.
    for old in lemmas - words:
        if any(names[w] == names[old] for w in words):
            names[old] += "_lem"
    return {old: new for old, new in names.items() if new != old}, words | lemmas, own_fields


def respell(text, names, own_fields):
    def turned(m):
        token = m[0]
        behind_a_dot = m.start() and text[m.start() - 1] == "."
        if token in names and (not behind_a_dot or "-" not in token or token in own_fields):
            return names[token]
        return "-".join(snake(p) for p in token.split("-")) if names else token
    return TOKEN.sub(turned, text)


def main():
    names, every, own_fields = new_names()
    taken = collections.defaultdict(set)
    for old in every:
        taken[names.get(old, old)].add(old)
    for path in antt_files():
        text = re.sub(r"\.[\w+-]+", "", open(path).read())
        for token in TOKEN.findall(text):
            if token in names.values() and token not in every:
                taken[token].add(token + " in " + path)
    clashes = {new: olds for new, olds in taken.items() if len(olds) > 1}
    if clashes:
        for new, olds in sorted(clashes.items()):
            print(f"these fall together as {new}: {', '.join(sorted(olds))}")
        sys.exit(1)
    for path in antt_files() + sorted(glob.glob("crates/*/src/**/*.rt", recursive=True)):
        text = open(path).read()
        new = respell(text, names, own_fields)
        if new != text:
            open(path, "w").write(new)
    for old, new in sorted(names.items()):
        print(old, new)


main()
