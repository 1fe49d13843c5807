#!/usr/bin/env python3
"""Brings the names of the repository's own definitions and lemmas to today's spelling, after the toolchain's port.py.

usage: python3 tools/respell.py [--dry]      at the top of a checkout

A word is written in snake case, a type or a fact in camel case: `slot-answer` becomes `slot_answer`, `Reads-give-the-latest-write`
becomes `ReadsGiveTheLatestWrite`. Names that the toolchain makes (goals, steps, the fields behind a `.`) and names of the library stay.
It prints names that would fall together, and then writes nothing.
"""

import collections
import os
import re
import sys

CUT = r"\s(){}\[\];,.λ"
TOKEN = re.compile(rf"[^{CUT}]+")
WORDS = r"(?:abbrev|unfoldable|record|data|ruleset|pub|mutual|axiom)"
DECLARED = re.compile(rf"^\s*(?:{WORDS}\s+)*([^{CUT}:]+)(?:\s+[({{][^=]*)?\s*:(?:\s|$)")
LOCAL = re.compile(rf"\blet\s+([^{CUT}:=]+)")
# facts that began with a small letter, and facts named as a variant of an enum
BY_HAND = {
    "is-accepted": "IsAccepted",
    "Out-of-range": "IsOutOfRange",
    "Store-unfit": "IsStoreUnfit",
    "Index-or-supply-unfit": "IsIndexOrSupplyUnfit",
}


def files(root, *ends):
    for folder, dirs, names in os.walk(os.path.join(root, "crates")):
        dirs[:] = sorted(d for d in dirs if d != "out")
        for n in sorted(names):
            if n.endswith(ends):
                yield os.path.join(folder, n)


def read(path):
    with open(path, encoding="utf-8") as f:
        return f.read()


def camel(name):
    return "".join(p[:1].upper() + p[1:] for p in name.split("-"))


def respelled(name):
    if name in BY_HAND:
        return BY_HAND[name]
    return camel(name) if name[0].isupper() else name.replace("-", "_")


def declarations(text):
    for line in text.split("\n"):
        if line.lstrip().startswith(("--", "use ", "mod ", "pub mod ")) or re.search(r":\s*(?:goal|given|Goals|Given)\.", line):
            continue
        m = DECLARED.match(line)
        if m and "=" not in line[: m.end()]:
            yield m.group(1)


def is_dashed(name):
    return bool(re.fullmatch(r"[A-Za-z][A-Za-z0-9_']*(?:-[A-Za-z0-9_']+)+", name))


def imported(text, own):
    """Names that a file takes from elsewhere than this repository's definitions."""
    found = set()
    for m in re.finditer(r"(?:ghost )?use ([^\s{;]+?)\.?\{([^}]*)\}", text):
        path, names = m.group(1), m.group(2)
        parts = path.split(".")
        ours = parts[0] == "Rattle" and len(parts) > 1 and parts[1] in own and "declared" not in parts and "Goals" not in parts
        if not ours:
            found.update(n.strip().split(" as ")[-1] for n in names.split(","))
    return found


def main(root, dry):
    own = set(os.listdir(os.path.join(root, "crates")))
    texts = {p: read(p) for p in files(root, ".antt", ".rt")}
    names = collections.Counter()
    fields = set()
    goals = set()
    for p, t in texts.items():
        if not p.endswith(".antt"):
            continue
        names.update(n for n in declarations(t) if is_dashed(n))
        goals.update(m.group(1) for m in re.finditer(rf"^(?:abbrev )?(?:pub )?([^{CUT}:]+) :\s*(?:goal|given)\.", t, re.M))
        # fields of records, and what a module has of its own, stand indented
        fields.update(n for l in t.split("\n") if l.startswith("  ") for n in declarations(l) if is_dashed(n))
    both = sorted(set(names) & goals)
    if both:
        print("names of goals, too, which stay as goals:", *both)
    every = collections.Counter()
    for t in texts.values():
        every.update(TOKEN.findall(t))
    targets = collections.defaultdict(set)
    for n in names:
        targets[respelled(n)].add(n)
    together = [f"{t}: {' '.join(sorted(ns))}{' and the name itself, %d times' % every[t] if every[t] else ''}" for t, ns in sorted(targets.items()) if len(ns) > 1 or every[t]]
    if together:
        print("names that would fall together:", *together, sep="\n  ")
    if "--fields" in sys.argv:
        print(*sorted(fields))
    if dry or [t for t, ns in targets.items() if len(ns) > 1]:
        return 1
    for p, t in texts.items():
        kept = imported(t, own)
        local = {n for n in LOCAL.findall(t) if is_dashed(n)} if p.endswith(".antt") else set()

        def turn(m):
            n = m.group(0)
            if n in kept or (n not in names and n not in local):
                return n
            before = t[: m.start()]
            if before.endswith("."):
                line = before[before.rfind("\n") + 1 :]
                if not line.lstrip().startswith(("use ", "ghost use ")) and n not in fields:
                    return n
                if n in goals:
                    return n
            if re.match(r"\s*:\s*(?:goal|given)\.", t[m.end() :]) or n in goals and p.endswith("Answers.antt"):
                return n
            return respelled(n)

        new = TOKEN.sub(turn, t)
        if new != t:
            with open(p, "w", encoding="utf-8") as f:
                f.write(new)
    print(f"{len(names)} names")
    return 0


if __name__ == "__main__":
    raise SystemExit(main(".", "--dry" in sys.argv[1:]))
