#!/usr/bin/env python3
"""usage: respell.py [--force] [--table]

Brings the repository's own definitions and lemmas to the spelling of today's Rattle. Run once, at the root, after Rattle's port.py.

A name in camel case that begins with a small letter gets words joined by `_`. A dash between plain words becomes `_`; it stays where each side is a definition that the
statement names, or the right side is `append` and the statement has `++`. A file specs/Contracts.antt becomes specs/Calls.antt, as Rattle makes a module `specs.contracts`.
Names of functions in src/, exported names, strings, inputs and outputs stay as they are. It stops, and writes nothing, where two names of a file would fall together.
"""
import collections
import os
import re
import subprocess
import sys

PROOF_FILE = re.compile(r"/proofs/.*/(Proof|Answers|Invariants)\.antt$")
DECLARED = re.compile(r"^\s*(?:(?:pub|abbrev|unfoldable) )*(?:(?:record|data) )?([^\s():{}\[\],;|λ.\"]+)(?: [({].*?)? :(?: |$)")
RECORD = re.compile(r"^\s*(?:pub )?(?:record|data) ([^\s({]+)")
WORDS = {"let", "in", "module", "_", "use", "open", "elim"}
# a name, with the dot before it, if any
TOKEN = re.compile(r"\.?[\w'₀-₉-]*[^\W\d_][\w'₀-₉-]*")
# lemmas that would have the name of the function or definition that they are about
LEMMAS = {"other_length", "in-older", "in-younger", "in-active", "roles-by", "of-kind-byte", "of-kind", "full-count", "due-of", "numbers_of"}


def files(root, ending):
    for folder, folders, names in os.walk(os.path.join(root, "crates")):
        folders[:] = sorted(f for f in folders if f != "out")
        for name in sorted(names):
            if name.endswith(ending):
                yield os.path.join(folder, name)


def read(path):
    with open(path, encoding="utf-8") as f:
        return f.read()


def snake(name):
    name = re.sub(r"(?<=[a-z0-9])(?=[A-Z])", "_", name)
    name = re.sub(r"(?<=[a-z])(?=[0-9])", "_", name) if re.search(r"[A-Z]", name) else name
    return name.lower()


def own_names(root):
    """Each declared name, with the statements under which it is declared."""
    found = collections.defaultdict(list)
    for path in files(root, ".antt"):
        if PROOF_FILE.search(path):
            continue
        lines = read(path).split("\n")
        for at, line in enumerate(lines):
            if line.lstrip().startswith(("--", "use ")):
                continue
            m = DECLARED.match(line) or RECORD.match(line)
            if not m or m.group(1) in WORDS:
                continue
            statement = line
            for more in lines[at + 1:at + 12]:
                if not re.match(r"^\s+(→|×|⊎|\()", more):
                    break
                statement += more
            found[m.group(1)].append(statement)
    return found


def respelled(name, statements, definitions):
    if re.search(r"[A-Z]", name[0]):
        return "".join(p[0].upper() + p[1:] for p in name.split("-")) if "-" in name else name
    parts = [(snake(p), p) for p in name.split("-")]
    if len(parts) == 1:
        return parts[0][0]
    words = [set(t.lstrip(".") for t in TOKEN.findall(s.split(" : ", 1)[-1])) for s in statements]

    def named(piece):
        return piece in definitions and all(piece in w for w in words)

    out = parts[0][0]
    for at in range(1, len(parts)):
        left = "-".join(p[1] for p in parts[:at])
        right = "-".join(p[1] for p in parts[at:])
        joined = named(left) and (named(right) or right == "append" and all("++" in s for s in statements))
        out += ("-" if joined else "_") + parts[at][0]
    return out


def table(root):
    found = own_names(root)
    definitions = {n for n in found if "-" not in n}
    turned = {}
    for name, statements in found.items():
        if not re.search(r"[^\W\d_]", name) or re.search(r"[^\w'-]", name):
            continue
        new = respelled(name, statements, definitions) + ("_lem" if name in LEMMAS else "")
        if new != name:
            turned[name] = new
    return turned


def turn_names(text, turned, used=None):
    def one(m):
        word = m.group(0)
        dot = word.startswith(".")
        bare = word[1:] if dot else word
        if used is not None and not dot and text[m.end():m.end() + 1] != ".":
            used.add(bare)
        new = turned.get(bare)
        return word if new is None else ("." if dot else "") + new

    return TOKEN.sub(one, text)


def turn_antt(text, turned, used):
    """Code whole; in a comment what stands between backticks."""
    out = []
    for line in text.split("\n"):
        at = re.search(r"(?:^|\s)--(?:\s|$)", line)
        code, comment = (line[:at.start()], line[at.start():]) if at else (line, "")
        code = "".join(p if k % 2 else turn_names(p, turned, used) for k, p in enumerate(re.split(r'("[^"]*")', code)))
        comment = "".join(p if k % 2 == 0 else turn_names(p, turned) for k, p in enumerate(re.split(r"(`[^`]*`)", comment)))
        out.append(code + comment)
    return "\n".join(out)


CLAUSE = re.compile(r"(?m)^(?:\s*(?:pub )?ghost use [^;]*;|\s*(?:requires|ensures)\*?(?: \w+)? \{.*)$")


def turn_rt(text, turned, used):
    """Imports and clauses; in a comment what stands between backticks."""
    out, depth = [], 0
    for line in text.split("\n"):
        clause = depth > 0 or re.match(r"\s*(?:pub )?ghost use ", line) or re.match(r"\s*(?:requires|ensures)\*?(?: \w+)? \{", line)
        if clause:
            if not re.match(r"\s*(?:pub )?ghost use ", line):
                depth += line.count("{") - line.count("}")
            line = turn_names(line, turned, used)
        else:
            at = line.find("//")
            if at >= 0:
                line = line[:at] + "".join(p if k % 2 == 0 else turn_names(p, turned) for k, p in enumerate(re.split(r"(`[^`]*`)", line[at:])))
        out.append(line)
    return "\n".join(out)


def main():
    if not set(sys.argv[1:]) <= {"--force", "--table"}:
        asked = "--help" in sys.argv
        print(__doc__.strip() if asked else __doc__.strip().splitlines()[0], file=sys.stdout if asked else sys.stderr)
        return 0 if asked else 2
    root = subprocess.run(["git", "rev-parse", "--show-toplevel"], capture_output=True, text=True, check=True).stdout.strip()
    turned = table(root)
    written, bad = {}, []
    for path in [*files(root, ".antt"), *files(root, ".rt")]:
        text, used = read(path), set()
        new = (turn_antt if path.endswith(".antt") else turn_rt)(text, turned, used)
        falls = collections.defaultdict(set)
        for word in used:
            falls[turned.get(word, word)].add(word)
        bad += [f"{os.path.relpath(path, root)}: {', '.join(sorted(f))} -> {n}" for n, f in falls.items() if len(f) > 1]
        new = re.sub(r"(?<=\.specs\.)Contracts\b", "Calls", new)
        if path.endswith(os.path.join("specs", "Lib.antt")):
            new = re.sub(r"(?m)^((?:pub )?mod )Contracts$", r"\1Calls", new)
        if new != text:
            written[path] = new
    if bad and "--force" not in sys.argv:
        print("\n".join(bad))
        print(f"{len(bad)} names fall together: nothing was written")
        return 1
    for path, new in written.items():
        with open(path, "w", encoding="utf-8") as f:
            f.write(new)
    for path in list(files(root, ".antt")):
        if path.endswith(os.path.join("specs", "Contracts.antt")):
            subprocess.run(["git", "mv", path, os.path.join(os.path.dirname(path), "Calls.antt")], check=True)
    print(f"{len(turned)} names turned, {len(written)} files written")
    if "--table" in sys.argv:
        for a, b in sorted(turned.items()):
            print(a, b)
    return 0


if __name__ == "__main__":
    sys.exit(main())
