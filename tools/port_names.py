#!/usr/bin/env python3
"""Brings the repository's own names in specs/ and proofs/ to snake case: definitions, lemmas, record fields and
constructors. A dash stays where it joins names of definitions, as in length-take. Run once, at the top, after the
kit's own script; it prints names that would fall together, and then writes nothing.

    python3 tools/port_names.py [--list]
"""
import os
import re
import sys

# Words of the library that a lemma's name may join by a dash.
LIBRARY = {"length", "take", "drop", "append", "map", "get_or", "set", "repeat", "sum", "reverse"}

# A name that would fall together with another one.
BY_HAND = {
    "content-of": "content_of_lem",
    "handed_out": "handed_out_lem",
    "low-of": "low_of_lem",
    "nonce-of": "nonce_of_lem",
    "rot-word": "rot_word_lem",
    "same-ip": "same_ip_lem",
    "sealed-of": "sealed_of_lem",
    "some_at": "some_at_lem",
}

# Names of different crates, neither above the other.
APART = {"in_one"}

DEFINITION = re.compile(r"^(\s*)((?:pub |abbrev |unfoldable |opaque |private )*)([a-z][\w'₀-₉-]*)((?:\s+[a-z][\w'₀-₉-]*)*)\s+:(?=\s|$)")
DECLARED = re.compile(r"^(?:abbrev |unfoldable |pub )*(?:data|record) ([A-Z]\w*)")
GENERATED = {"Answers.antt", "Invariants.antt"}


def files(root):
    for folder, dirs, names in os.walk(os.path.join(root, "crates")):
        dirs[:] = sorted(d for d in dirs if d != "out")
        for name in sorted(names):
            if name.endswith((".rt", ".antt")):
                yield os.path.join(folder, name)


def uncommented(path, text):
    return re.sub(r"//.*" if path.endswith(".rt") else r"(?m)(?:^|(?<=\s))--\s.*", "", text)


def snake(word):
    word = re.sub(r"(?<=[a-z0-9])(?=[A-Z])", "_", word)
    return word.lower()


def collect(root):
    """Names defined in lemma files and specs, and of these the definitions (not lemmas) and the files they stand in."""
    found, words = {}, set(LIBRARY)
    for path in files(root):
        if not path.endswith(".antt") or os.path.basename(path) in GENERATED:
            continue
        with open(path, encoding="utf-8") as f:
            lines = uncommented(path, f.read()).splitlines()
        for line in lines:
            m = DEFINITION.match(line)
            if not m:
                continue
            for name in [m.group(3)] + m.group(4).split():
                if name in ("let", "where", "pub", "abbrev", "unfoldable", "data", "record", "use", "in"):
                    continue
                found.setdefault(name, set()).add(path)
                if "abbrev" in m.group(2) or "unfoldable" in m.group(2):
                    words.add(snake(name))
    return found, words


def renamed(name, words):
    if name in BY_HAND:
        return BY_HAND[name]
    parts = [snake(p) for p in name.split("-")]
    if len(parts) > 1 and all(p in words for p in parts):
        return "-".join(parts)
    return "_".join(parts)


def aliased(text):
    """The names that an import of this file gives, as in 'digest as digestOf'."""
    for name, alias in re.findall(r"(\w+) as ([a-z]+[A-Z]\w*)", text):
        to = snake(alias)
        text = text.replace(f"{name} as {alias}", name if to == name else f"{name} as {to}")
        text = re.sub(rf"(?<![\w'₀-₉-]){alias}(?![\w'₀-₉-])", to, text)
    return text


def main(argv):
    root = "."
    found, words = collect(root)
    names = {n: renamed(n, words) for n in found if re.search(r"[A-Z-]", n) or n in BY_HAND}
    names = {n: to for n, to in names.items() if n != to}
    by_new = {}
    for n in found:
        by_new.setdefault(names.get(n, n), set()).add(n)
    together = {to: olds for to, olds in by_new.items() if len(olds) > 1 and to not in APART}
    if "--list" in argv:
        for n, to in sorted(names.items()):
            print(n, to, " ".join(sorted(os.path.relpath(p, "crates") for p in found[n])))
    for to, olds in sorted(together.items()):
        print("together:", to, {o: sorted(os.path.relpath(p, "crates") for p in found[o]) for o in olds})
    if together or "--list" in argv:
        return 1 if together else 0
    # A field of a step or of a goal has a name that the check made.
    token = re.compile(r"(?<![\w'₀-₉-])(" + "|".join(re.escape(n) for n in sorted(names, key=len, reverse=True)) + r")(?![\w'₀-₉-])") if names else None
    for path in files(root):
        with open(path, encoding="utf-8") as f:
            text = f.read()
        turned = aliased(token.sub(lambda m: names[m.group(1)], text) if names else text)
        if turned != text:
            with open(path, "w", encoding="utf-8") as f:
                f.write(turned)
    print(len(names), "names")
    return 0


if __name__ == "__main__":
    raise SystemExit(main(sys.argv[1:]))
