#!/usr/bin/env python3
"""Counts, in crates/*/src, the places that docs/DESIGN-PASS.md speaks of: tools/places.py [POINT ..]"""
import glob
import os
import re
import sys
from collections import defaultdict

ROOT = os.path.join(os.path.dirname(os.path.abspath(__file__)), "..", "crates")
WORDS = "if|while|loop|return|let|mut|match|else|as|for|in|true|false|Some|None|Ok|Err|Self|self"


def sources():
    for path in sorted(glob.glob(os.path.join(ROOT, "*", "src", "*.rt"))):
        with open(path, encoding="utf-8") as file:
            yield os.path.relpath(path, ROOT).replace("/src/", "/"), file.read()


def code(text):
    return re.sub(r"//.*", "", text)


def functions():
    """Where each function stands, its name, its head and its body."""
    for place, text in sources():
        for found in re.finditer(r"^( *)(?:pub )?(?:extern \"C\" )?fn (\w+)(.*?)^\1}", code(text), re.S | re.M):
            whole = found.group(3)
            start = re.search(r"^ *{$", whole, re.M) or re.search(r"{$", whole, re.M)
            if start:
                yield place, found.group(2), whole[: start.start()], whole[start.end():]


def shape(body):
    """A body with its own names, texts and numbers taken out."""
    body = re.sub(r'b?"[^"]*"|b\'.\'', "S", body)
    body = re.sub(r"\b(%s)\b" % WORDS, r"@\1", body)
    body = re.sub(r"(?<!@)\b[A-Za-z_]\w*(::\w+)*\b", "x", body)
    return re.sub(r"\s+", " ", re.sub(r"\d+", "0", body)).strip()


def point_1():
    """own enums with their variants, and functions that give a number for a kind"""
    for place, text in sources():
        for found in re.finditer(r"^(?:pub )?enum (\w+) \{(.*?)^\}", code(text), re.S | re.M):
            variants = re.findall(r"^    (\w+)", found.group(2), re.M)
            yield f"{place} enum {found.group(1)}: {', '.join(variants[:5])}{' ..' if variants[5:] else ''}"
    for place, name, _, body in functions():
        if re.match(r"\s*match \w+ \{(\s*\w[\w:]*(\([^)]*\))? => -?[\d_]+,)+\s*\}\s*$", body):
            yield f"{place} {name}: a number for each kind"
        if re.search(r"return (10|Offset\(0\));|Nothing => 0,", body):
            yield f"{place} {name}: a number that stands for nothing"


def point_2():
    """functions whose bodies, and structs whose fields, differ only in names and numbers"""
    alike = defaultdict(list)
    for place, name, _, body in functions():
        if len(shape(body)) > 30:
            alike[shape(body)].append(f"{place} {name}")
    for place, text in sources():
        for found in re.finditer(r"^(?:pub )?struct (\w+)(<.*?>)? \{(.*?)^\}", code(text), re.S | re.M):
            names = tuple(re.findall(r"(\w+): ", found.group(3)))
            if len(names) > 1:
                alike[names].append(f"{place} struct {found.group(1)}")
    for places in alike.values():
        if len(places) > 1:
            yield f"{len(places)} alike: {'; '.join(places)}"


def point_3():
    """loops that are no `for`"""
    for place, text in sources():
        for number, line in enumerate(code(text).split("\n"), 1):
            if re.match(r"\s*(while|loop)\b", line):
                yield f"{place}:{number} {line.strip()}"


def point_4():
    """conversions, comparisons and printing that are functions of their own"""
    for place, name, head, body in functions():
        if re.search(r"(^|_)(of|from|number|same|pack|unpack|signed|word|letter)$|^(put|to|from|is_same)_?", name):
            yield f"{place} {name}"


def point_5():
    """pairs of parameters that three or more functions have, and `requires` that three or more contracts have"""
    pairs, facts = defaultdict(list), defaultdict(list)
    for place, name, head, _ in functions():
        named = re.findall(r"(\w+): (&?(?:'\w+ )?(?:mut )?[\w\[\]<>:; ]+)", head.split("ensures")[0].split("requires")[0])
        for a, b in zip(named, named[1:]):
            if "&" in a[1] or "&" in b[1]:
                pairs[f"{a[0]}: {a[1].strip()}, {b[0]}: {b[1].strip()}"].append(f"{place} {name}")
        for clause in re.findall(r"requires(?: \w+)? \{ (.*?) \}$", head, re.M):
            for fact in re.split(r"\) × \(|\) × | × \(", clause):
                facts[re.sub(r"\d+", "N", fact.strip("( )"))].append(f"{place} {name}")
    for what, places in list(pairs.items()) + list(facts.items()):
        if len(places) > 2:
            yield f"{len(places)}: {what}"


def point_6():
    """a buffer with a length beside it, and fixed arrays"""
    for place, name, head, body in functions():
        if re.search(r"\[\w+\], (used|n|count|len): usize", head):
            yield f"{place} {name}: a buffer and a length"
        for array in re.findall(r"= \[[^\[\];]*; \w+\]", body):
            yield f"{place} {name}: {array[2:]}"


def point_7():
    """matches on a kind whose arms call one function each, function pointers and dyn"""
    for place, name, _, body in functions():
        arms = re.findall(r"=> (?:return )?([\w:.]+)\(", body)
        if len(set(arms) - {"Some", "Ok", "Err"}) > 2:
            yield f"{place} {name}"
    for place, text in sources():
        for found in re.finditer(r"\bdyn \w+|: fn\(", code(text)):
            yield f"{place} {found.group(0)}"


def point_8():
    """answers, and lemmas of the crates' own, by crate"""
    for crate in sorted(os.listdir(ROOT)):
        answers = lemmas = 0
        for folder, _, files in os.walk(os.path.join(ROOT, crate, "proofs")):
            for file in files:
                with open(os.path.join(folder, file), encoding="utf-8") as text:
                    count = len(re.findall(r"^ *(?:pub )?[\w\-']+ : ", text.read(), re.M))
                if file == "Answers.antt":
                    answers += count
                elif file.endswith(".antt") and file not in ("Lib.antt", "Invariants.antt"):
                    lemmas += count
        if answers or lemmas:
            yield f"{crate}: {answers} answers, {lemmas} lemmas"


def main():
    wanted = sys.argv[1:] or [str(n) for n in range(1, 9)]
    if not set(wanted) <= set("12345678"):
        asked = wanted == ["--help"]
        print(__doc__ + " A point is a number from 1 to 8; without one, all are counted.", file=sys.stdout if asked else sys.stderr)
        return 0 if asked else 2
    for n in wanted:
        count = globals()[f"point_{n}"]
        places = list(count())
        print(f"{n}. {count.__doc__}: {len(places)}")
        for place in places:
            print(f"    {place}")
    return 0


if __name__ == "__main__":
    sys.exit(main())
