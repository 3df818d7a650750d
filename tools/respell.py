#!/usr/bin/env python3
"""Brings the project's own definitions, fields and lemmas to today's spelling: words in snake case, types in camel case.

usage: python3 tools/respell.py [--list]

Run once, at the top, behind the kit's port.py. What is declared in specs/ and proofs/ is renamed wherever it is named: in the crates, the must-fail
edits and the pages. Functions of src/, strings, inputs and outputs keep their names. It stops, and writes nothing, where two names would fall together.
--list prints the names, old and new.
"""
import collections
import os
import re
import sys

# Names that would otherwise fall together with another.
CHOSEN = {
    "all-below": "all_riders_below",
    "bad-request": "bad_request_read",
    "bad-town": "bad_town_read",
    "each_way": "each_way_says",
    "most-cost": "most_cost_is",
    "network-size": "network_size_told",
    "no_distance": "no_walk_no_distance",
    "plan-value": "plan_value_told",
    "request-value": "request_value_told",
    "request-verdict": "request_verdict_read",
    "seven-places": "seven_places_hold",
    "some-way": "some_way_says",
}

NAME = r"[^\s(){}\[\],;.:λ→«»|\"`]+"
TOKEN = re.compile(r"(?<![^\s(){}\[\],;.:λ→«»|\"`←])" + NAME)
DECLARED = re.compile(r"^\s*(?:(?:pub|abbrev|unfoldable)\s+)*((?:" + NAME + r"\s+)*?" + NAME + r")\s*(?:\{.*\}\s*)?:(?!=)(.*)")
GENERATED = re.compile(r"\s*(tie\.|\{M : Type 1\} → statement M)")


def snake(name):
    name = re.sub(r"(?<=[a-z0-9])([A-Z])", lambda m: "_" + m.group(1).lower(), name)
    return name.replace("-", "_")


def is_word(name):
    return bool(re.match(r"[a-z]", name)) and name != snake(name) and re.fullmatch(r"[A-Za-z0-9_'₀-₉-]+", name)


def files(top):
    for folder, inner, names in os.walk(top):
        inner[:] = sorted(x for x in inner if x not in ("out", ".git", "target"))
        for name in sorted(names):
            yield os.path.join(folder, name)


def code(line):
    return re.sub(r"--.*", "", line)


def declared(text):
    for line in text.splitlines():
        m = DECLARED.match(code(line))
        if m and not line.lstrip().startswith(("use ", "open ")) and not GENERATED.match(m.group(2)):
            for name in m.group(1).split():
                yield name


def of_library(text):
    """What a file takes from modules that are not the project's."""
    found = set()
    for module, names in re.findall(r"^(?:ghost )?use ([^\s;{]+)\.\{([^}]*)\}", text, re.M):
        own = re.match(r"Rattle\.(?!std\b)", module)
        if not own:
            found |= {w for n in names.split(",") for w in n.split()}
    return found


def renamed(text, names):
    skip = of_library(text)
    return TOKEN.sub(lambda m: m.group(0) if m.group(0) in skip else names.get(m.group(0), m.group(0)), text)


def plain_strings(text, names):
    """Rust-like text: strings keep their words."""
    parts = re.split(r'(b?"(?:[^"\\]|\\.)*")', text)
    return "".join(p if i % 2 else renamed(p, names) for i, p in enumerate(parts))


def main():
    texts = {}
    for path in files("crates"):
        if path.endswith((".antt", ".rt", ".edit")):
            with open(path) as f:
                texts[path] = f.read()
    all_names, where = set(), collections.defaultdict(set)
    for path, text in texts.items():
        if path.endswith(".antt"):
            for name in declared(text):
                all_names.add(name)
                where[name].add(path)
    names = {n: CHOSEN.get(n, snake(n)) for n in all_names if is_word(n) or n in CHOSEN}
    groups = collections.defaultdict(set)
    for n in all_names:
        groups[names.get(n, n)].add(n)
    bad = {new: old for new, old in groups.items() if len(old) > 1}
    if "--list" in sys.argv:
        for n in sorted(names):
            print(n, names[n])
        return 0
    for new, old in sorted(bad.items()):
        print(new, {o: sorted(where[o]) for o in sorted(old)})
    if bad:
        return 1
    for path, text in texts.items():
        if path.endswith(".rt"):
            new = plain_strings(text, names)
        elif path.endswith(".edit"):
            new = re.sub(r"^(old|new): .*", lambda m: plain_strings(m.group(0), names), text, flags=re.M)
        else:
            new = renamed(text, names)
        if new != text:
            with open(path, "w") as f:
                f.write(new)
    # A page may have a name as it was before port.py respelled it.
    today = {snake(n): names.get(n, n) for n in all_names}

    def on_a_page(word):
        name = word.group(0)
        return names.get(name) or (today.get(snake(name), name) if is_word(name) else name)

    for path in files("docs"):
        with open(path) as f:
            text = f.read()
        new = re.sub(r"`[^`\n]*`", lambda m: TOKEN.sub(on_a_page, m.group(0)), text)
        if new != text:
            with open(path, "w") as f:
                f.write(new)
    return 0


if __name__ == "__main__":
    raise SystemExit(main())
