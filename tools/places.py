#!/usr/bin/env python3
"""places: counts in src/ the places of docs/DESIGN-PASS.md, point by point; with -v it names them.

usage: python3 tools/places.py [-v] [FOLDER]     FOLDER: a checkout, by default this one
"""
import glob
import os
import re
import sys

args = [a for a in sys.argv[1:] if a != "-v"]
VERBOSE = "-v" in sys.argv[1:]
ROOT = args[0] if args else os.path.join(os.path.dirname(os.path.abspath(__file__)), "..")
FILES = sorted(glob.glob(os.path.join(ROOT, "crates/*/src/**/*.rt"), recursive=True))
TEXT = {os.path.relpath(f, ROOT): open(f, encoding="utf-8").read() for f in FILES}
CODE = {f: "\n".join(re.sub(r"//.*", "", line) for line in t.split("\n")) for f, t in TEXT.items()}

FN = re.compile(r"^( *)(?:pub )?(?:extern \"C\" )?fn (\w+)(?:<[^>(]*>)?\(((?:[^()]|\([^()]*\))*)\)[^{]*?((?:\s+(?:requires|ensures)[^\n]*\n)*)\1\{\n(.*?)\n\1\}",
                re.M | re.S)
# a variant of an enum of ours that stands for success beside refusals, or for a refusal beside what there is
SHAPED = [{"Refused"}, {"Refuse"}, {"Accepted"}, {"Taken"}, {"Number", "Cut"}, {"Next", "NoRoom"}]
BY_HAND = (r"number_of_\w+|numbers_of_\w+|content_of|kind_of|index|wide|long|narrow|lesser|is_same|is_accepted|is_running|is_closed|is_faulty|plus_one|"
           r"minus_one|leading|begins|digit|next_waiting|value|with_digit|is_digit|is_content|value_after|marks_active|marks_faulty")
PAIRS = [("ledger", "issued"), ("heads", "lists"), ("requests", "ticks"), ("noted", "marks"), ("roles", "table"), ("leader", "table"), ("table", "leader"),
         ("answers", "clocks"), ("clocks", "answers"), ("desk", "replicas"), ("holding", "held"), ("late", "due")]
LENGTHS = [("noted", "count"), ("requests", "submitted"), ("list", "n"), ("list", "k"), ("list", "j"), ("accepted", "size"), ("out", "at"), ("text", "at"),
           ("bytes", "at"), ("line", "at"), ("kit", "count"), ("ticks", "n"), ("lists", "n"), ("answers", "n"), ("lists", "histories")]


def functions():
    for f, t in CODE.items():
        for m in FN.finditer(t):
            params = [p.strip() for p in re.split(r",(?![^<(\[]*[>)\]])", m.group(3)) if p.strip()]
            yield f, t.count("\n", 0, m.start(2)) + 1, m.group(2), params, m.group(5)


FUNCTIONS = list(functions())


def lines(pattern):
    found = []
    for f, t in CODE.items():
        for m in re.finditer(pattern, t, re.M):
            found.append((f, t.count("\n", 0, m.start()) + 1, m.group(0).strip().split("\n")[0]))
    return found


def shaped():
    found = []
    for f, t in CODE.items():
        for m in re.finditer(r"^(?:pub )?enum (\w+) \{\n(.*?)\n\}", t, re.M | re.S):
            if any(s <= set(re.findall(r"^ +(\w+)", m.group(2), re.M)) for s in SHAPED):
                found.append((f, t.count("\n", 0, m.start()) + 1, "enum " + m.group(1)))
    return found


def shape(body):
    body = re.sub(r"b'.*?'|b?\".*?\"|\b0x[0-9a-f_]+\b|\b\d[\d_]*\b", "N", body)
    return re.sub(r"\b[a-zA-Z_]\w*\b(?:::\w+)*", lambda m: m.group(0) if m.group(0) in ("if", "else", "while", "for", "match", "return", "let", "mut", "true", "false") else "I", body)


def twins():
    groups = {}
    for f, n, name, params, body in FUNCTIONS:
        kinds = tuple(re.sub(r"^\w+: ", "", p) for p in params)
        if len(params) and not body.lstrip().startswith("let played"):
            groups.setdefault((re.sub(r"\s+", " ", shape(body)), len(kinds)), []).append((f, n, name))
    return [(f, n, f"{name} ~ {g[0][2]}") for g in groups.values() if len(g) > 1 for f, n, name in g[1:]]


def together():
    found = []
    for f, n, name, params, _ in FUNCTIONS:
        names = [p.split(":")[0].replace("mut ", "").strip() for p in params]
        if any(a in names and b in names for a, b in PAIRS) or len(params) > 7:
            found.append((f, n, f"{name}, {len(params)} parameters"))
    return found


def with_length():
    found = []
    for f, n, name, params, _ in FUNCTIONS:
        names = [p.split(":")[0].replace("mut ", "").strip() for p in params]
        if any((a, b) in zip(names, names[1:]) for a, b in LENGTHS):
            found.append((f, n, name))
    return found + lines(r"^    pub (?:noted|marks|requests|heads|ledger|list): [^\n]*\n    pub (?:count|pairs|ticks|lists|issued): ")


POINTS = [
    ("1 shapes of Option and Result", "own enums", shaped()),
    ("1 shapes of Option and Result", "a flag or an answer beside a value", lines(r"\b(?:holding|late|given): bool|\b(?:answer: KitAnswer|said: Said),$|^    pub late: bool")),
    ("1 shapes of Option and Result", "a number that stands for none, for a kind or for a refusal", lines(r"return (?:16|10|COUNTERS);|^ +(?:16|10)$|\b16 <= |d < 16\b|10 <= d|\(line\[i\]\) < 10|COUNTERS <= c|number == 0")),
    ("2 twins", "functions of one shape", twins()),
    ("3 index loops", "while and loop", lines(r"^\s*(?:while|loop)\b")),
    ("4 by hand", "conversion, equality, order", [(f, n, name) for f, n, name, _, _ in FUNCTIONS if re.fullmatch(BY_HAND, name)]),
    ("5 what travels together", "functions", together()),
    ("6 buffers with a length, parallel arrays", "functions and fields", with_length()),
    ("7 a switch on which step to run", "enums of steps", lines(r"^(?:pub )?enum View\b")),
]

for point, what, found in POINTS:
    print(f"{point}: {what}: {len(found)}")
    if VERBOSE:
        for f, n, text in found:
            print(f"    {f}:{n}: {text}")
answers = glob.glob(os.path.join(ROOT, "crates/*/proofs/**/*.antt"), recursive=True)
own = [f for f in answers if os.path.basename(f) in ("Answers.antt", "Invariants.antt")]
print(f"8 proofs: files of answers and invariants: {len(own)}, their lines: {sum(open(f, encoding='utf-8').read().count(chr(10)) for f in own)}")
