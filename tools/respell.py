#!/usr/bin/env python3
"""Brings the repository's own definitions and lemmas to the spelling of today's Rattle; run once, after port.py, at the top.

usage: respell.py [--plan]     (--plan writes nothing, and prints old and new name, a line each)

Definitions are in snake case (`nextMark` -> `next_mark`), facts and modules in upper camel case, and of a lemma's dashes those stay that
join two names (`nth-append`, `least_over-le`); the others become underscores (`behind-newest` -> `behind_newest`). Names of src/, of the
library, and those that Rattle makes stay. It turns specs/, proofs/, the clauses of src/, the edits and the pages of docs/.
A new name that is taken already gets `_lem` if it is a lemma's, and else is listed in CHOSEN. What CHOSEN and KEEP say goes before the rule.
"""
import collections
import glob
import os
import re
import subprocess
import sys

OWN = r"Rattle\.(?:terms|number|grammar|kit|rules|ledger|replica|in_place|room|clock|validity|decide|carry_out|player|text|play_lines|room_lines|played|play_text|room_text|ritungkale_\w+|number_vectors|kit_cases|holds_cases|kit_plays|kitplay|kitroom)\."
# Names where the rule would not give what is meant.
CHOSEN = {"carryOut": "carried_out", "playLines": "lines_of_play", "playText": "text_of_play", "roomText": "text_of_room", "takeAt": "taken_at", "roomLines": "lines_of_room", "playFrom": "played_from_records"}
# Spelled so by the library or by Rattle.
KEEP = set()
# Words that stand for a name of the library or an operator, behind a dash and before one.
BEHIND = set("append take drop length set nil cons le lt eq zero suc add mul sub min max and or not none some true false snoc get_or refl trans sym".split())
BEFORE = set("nth holds once take drop length set pick get_or tab pad grid".split())
# The folders of rules/specs that are modules.
MODULES = {"agreement": "Agreement", "laws": "Laws", "examples": "Examples"}
WORD = re.compile(r"[A-Za-z_ℕ][^\s(){}.;,:@\"«»\[\]\\`|*/<>=…]*")


def read(path):
    with open(path, encoding="utf-8") as it:
        return it.read()


def antt():
    return sorted(p for part in ("specs", "proofs") for p in glob.glob(f"crates/*/{part}/**/*.antt", recursive=True))


def declared():
    """The names that the repository declares, each with a place and the text behind its colon; those that it takes from elsewhere."""
    own, other = {}, set()
    for path in antt():
        text = re.sub(r"--[^\n]*", "", read(path))
        for m in re.finditer(r"^use ([^\s{]+)\.\{([^}]*)\}", text, re.M):
            if not re.match(OWN, m[1] + "."):
                other |= {n.strip().split(" as ")[0] for n in m[2].split(",")}
        # what a function's own proof files declare is named by Rattle
        if re.search(r"/proofs/.+/(Proof|Answers|Invariants)\.antt$", path):
            continue
        for m in re.finditer(r"^ *(?:(?:pub|abbrev|unfoldable|mutual|data|record) )*([a-zA-Z][^\s(){}.;,:]*)(?: \{[^}]*\})*(?: \([^)]*\))*(?: :(?= |\n)|(?=\n +:))", text, re.M):
            own.setdefault(m[1], (path, text[m.end(): m.end() + 300].split("\n\n")[0]))
    return own, other


def snake(word):
    word = re.sub(r"([a-z0-9])([A-Z])", r"\1_\2", word)
    return word.lower()


def plan():
    own, other = declared()
    taken = set()
    for path in antt() + sorted(glob.glob("crates/*/src/**/*.rt", recursive=True)):
        taken |= set(WORD.findall(re.sub(r"(?m)(--|//).*", "", read(path))))
    rust = set()
    for path in glob.glob("crates/*/src/**/*.rt", recursive=True):
        rust |= set(re.findall(r"\bfn (\w+)", read(path)))
    is_lemma = lambda n: "-" in n
    long = {snake(n) for n in own if not is_lemma(n) and n[0].islower() and "_" in snake(n)}
    before, behind = long | BEFORE, long | BEHIND
    new = {}
    for n in sorted(own):
        # a type, also joined to a name by a dash; what has been turned
        if n in other or n in KEEP or n[0].isupper() or "-" in n and "_" in n:
            continue
        if n in CHOSEN:
            new[n] = CHOSEN[n]
            continue
        parts = [("get_or" if p == "getD" else p if p[:1].isupper() else snake(p)) for p in n.split("-")]
        to = parts[0]
        for a, b in zip(parts, parts[1:]):
            to += ("-" if a in before and b in behind else "_") + b
        if to != n:
            new[n] = to
    # a lemma that would have the name of another gets an ending
    count = collections.Counter(new.values())
    for n, to in list(new.items()):
        if is_lemma(n) and (count[to] > 1 or to in taken and to not in new):
            new[n] = to + "_lem" if not to.endswith("_lem") else to
    bad = []
    count = collections.Counter(new.values())
    for n, to in new.items():
        if count[to] > 1:
            bad.append(f"two names become {to}: {n}")
        elif to in taken and to not in new and to not in rust:
            bad.append(f"{n}: {to} is taken")
    return new, own, bad


def turned(text, new, only=lambda w: True):
    return WORD.sub(lambda m: new.get(m[0], m[0]) if only(m[0]) else m[0], text)


def is_sure(word):
    """A word that no sentence has by chance."""
    return bool(re.search(r"[a-z0-9][A-Z]", word))


def in_comment(text, new):
    text = re.sub(r"`[^`\n]+`", lambda m: turned(m[0], new), text)
    return turned(text, new, is_sure)


def modules(text):
    for a, b in MODULES.items():
        text = re.sub(rf"\bRattle\.rules\.specs\.{a}\b", f"Rattle.rules.specs.{b}", text)
        text = re.sub(rf"(rules/specs|specs)/{a}\b", rf"\1/{b}", text)
    return text


def antt_text(text, new):
    out = []
    for line in text.split("\n"):
        code, dash, said = line, "", ""
        m = re.search(r"(^|\s)--(?=\s|$)", line)
        if m:
            code, dash, said = line[: m.start()], line[m.start(): m.end()], line[m.end():]
        out.append(turned(code, new) + dash + in_comment(said, new))
    return modules("\n".join(out))


def rt_text(text, new):
    out = []
    for line in text.split("\n"):
        if line.lstrip().startswith("//"):
            out.append(in_comment(line, new))
        else:
            out.append(turned(line, new, lambda w: is_sure(w) or "-" in w))
    return modules("\n".join(out))


def main(argv):
    new, own, bad = plan()
    if "--plan" in argv:
        for n, to in sorted(new.items()):
            print(n, to, own[n][0], sep="\t")
    print("\n".join(bad), file=sys.stderr)
    if "--plan" in argv:
        return 0
    if bad:
        return 1
    for path in antt():
        text = antt_text(read(path), new)
        with open(path, "w", encoding="utf-8") as it:
            it.write(text)
    # the proof of a function F is F_spec
    for path in glob.glob("crates/*/proofs/*/Proof.antt"):
        function = os.path.basename(os.path.dirname(path)).lstrip("+")
        text = re.sub(rf"\b{function.replace('_', '-')}-spec\b", f"{function}_spec", read(path))
        with open(path, "w", encoding="utf-8") as it:
            it.write(text)
    for path in glob.glob("crates/*/src/**/*.rt", recursive=True):
        text = rt_text(read(path), new)
        with open(path, "w", encoding="utf-8") as it:
            it.write(text)
    for path in glob.glob("docs/*.md") + ["README.md", "kits/README.md", "tests/README.md"]:
        text = modules(in_comment(read(path), new))
        with open(path, "w", encoding="utf-8") as it:
            it.write(text)
    for a, b in MODULES.items():
        lib = "crates/rules/specs/Lib.antt"
        text = re.sub(rf"\bmod {a}\b", f"mod {b}", read(lib))
        with open(lib, "w", encoding="utf-8") as it:
            it.write(text)
        subprocess.run(["git", "mv", f"crates/rules/specs/{a}.antt", f"crates/rules/specs/{b}.antt"], check=True)
        subprocess.run(["git", "mv", f"crates/rules/specs/{a}", f"crates/rules/specs/{b}"], check=True)
    return 0


if __name__ == "__main__":
    sys.exit(main(sys.argv[1:]))
