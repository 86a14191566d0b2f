#!/usr/bin/env python3
"""The present position's standing, document 02, point 4.

  standings.py [--lines]

Works out, from the cases of the definition as they stand in crates/history/specs/StateVariable.antt, what the program `played` prints of every standing and every step, and compares it with the
stored output. Compares, too, that the definition's cases and section 2's sentences stand in the order of section 2, in the definition and in the code, that Value, Mark and Close use this code, and that the
engine chooses or tests a standing nowhere else. With --lines it also writes the lines.
"""
import glob
import re
import sys

DEFINITION = "crates/history/specs/StateVariable.antt"
CODE = "crates/history/src/lib.rt"
STORED = "crates/played/stdout"
STANDINGS = ["None", "Unmarked", "Marked", "Closed"]

# the end of section 2 of source document 000, and then what document 01 adds: a sentence, the definition's cases for it, and the code's arm
ORDER = [
    (
        "Every time a Value command is issued this variable is set to the unmarked state, because the value of j changes.",
        [("Value", s) for s in STANDINGS],
        "(Event::Value, _) => allowing(Standing::Unmarked),",
    ),
    (
        "If a Mark command is processed when t is in this state then the sequence is valid, and t is set to marked.",
        [("Mark", "Unmarked")],
        "(Event::Mark, Standing::Unmarked) => allowing(Standing::Marked),",
    ),
    (
        "If t was already in the marked state then the sequence is invalid.",
        [("Mark", "Marked")],
        "(Event::Mark, Standing::Marked) => refusing(Refusal::AlreadyMarked, standing),",
    ),
    (
        "If the Close command is called with i = j this variable changes to the closed state.",
        [("CloseOfPresent", s) for s in STANDINGS],
        "(Event::CloseOfPresent, _) => allowing(Standing::Closed),",
    ),
    (
        "Hence if a Mark command is issued when j is in the closed state the sequence is also invalid.",
        [("Mark", "Closed")],
        "(Event::Mark, Standing::Closed) => refusing(Refusal::AlreadyClosed, standing),",
    ),
    (
        "Mark, when the standing is none.",
        [("Mark", "None")],
        "(Event::Mark, Standing::None) => refusing(Refusal::NothingToMark, standing),",
    ),
    (
        "the paper stays.",
        [("Other", s) for s in STANDINGS],
        "(Event::Other, _) => allowing(standing),",
    ),
]
SENTENCES = [sentence for sentence, _, _ in ORDER]
CASES = [case for _, those, _ in ORDER for case in those]

wrong = []


def text(path):
    with open(path, encoding="utf-8") as f:
        return f.read()


def body(source, name):
    """The text of a function."""
    start = source.index(f"fn {name}(")
    return source[start:source.index("\n}\n", start)]


def quoted(comment):
    """Which of the sentences a comment quotes; a quotation may begin before the sentence."""
    return [s for s in SENTENCES if re.search(f'"[^"]*{re.escape(s)}"', comment)]


def cases():
    """The definition's cases: for an event and a standing, the refusal's name or None, and the standing after. Each stands under its sentence."""
    source = text(DEFINITION)
    found, read = [], {}
    for line in source[source.index("\nabbrev pub by_section_2"):].splitlines():
        m = re.fullmatch(r"by_section_2 Event\.(\w+) Standing\.(\w+) = (?:allowing|refusing Refusal\.(\w+)) Standing\.(\w+)", line)
        if m:
            found.append((m[1], m[2]))
            read[m[1], m[2]] = (m[3], m[4])
        else:
            found += quoted(line)
    if found != [word for sentence, those, _ in ORDER for word in [sentence] + those]:
        sys.exit(f"{DEFINITION}: the sixteen cases do not stand each under its sentence, in section 2's order")
    return read


def code_in_order():
    """The code is one match, whose arms stand each under its sentence."""
    code = body(text(CODE), "by_section_2")
    arms, found = code.partition("\n{\n    match (event, standing) {\n")[2], []
    for line in arms.splitlines():
        found += quoted(line) if line.strip().startswith("//") else [line.strip()]
    if found != [word for sentence, _, arm in ORDER for word in [sentence, arm]] + ["}"]:
        wrong.append(f"{CODE}: the arms of `by_section_2` do not stand each under its sentence, in section 2's order")
    if "by_section_2 event standing }\n" not in code or "\nghost use Rattle.history.specs.StateVariable.{by_section_2};\n" not in text(CODE):
        wrong.append(f"{CODE}: the contract of `by_section_2` is not the definition of {DEFINITION}")


def numbers():
    return {name: int(n) for name, n in re.findall(r"^number_of Refusal\.(\w+) = (\d+)$", text("crates/history/specs/Replies.antt"), re.M)}


class Board:
    """An opening of 704 words, K = 3, and what follows; the standing goes by the definition alone."""

    def __init__(self, of, number_of):
        self.of, self.number_of = of, number_of
        self.values, self.active, self.standing = [], [], "None"
        self.said = ["open 704: 0"]
        self.settled = None

    def run(self, commands):
        for command in commands.split():
            self.command(command[0], int(command[1:] or 0))

    def command(self, letter, argument):
        present = len(self.values)
        close = "CloseOfPresent" if argument == present else "Other"
        event = {"V": "Value", "M": "Mark", "C": close, "Q": "Other"}[letter]
        due, after = self.of[event, self.standing]
        reply = self.reply(letter, argument, due)
        shown = f", {self.least(argument)}" if letter == "Q" and reply == 0 else ""
        self.said.append(f"{letter}{'' if letter == 'M' else f' {argument}'}: {reply}{shown}")
        # where the definition says what this step is told, or what follows it
        self.settled = (event, self.standing) if due or reply == 0 else None
        if reply == 0:
            self.standing = after
            if letter == "V":
                self.values.append(argument)
            if letter == "M":
                self.active.append(present)
            if letter == "C":
                self.active.remove(argument)
        elif due and after != self.standing:
            wrong.append(f"{DEFINITION}: {event} at {self.standing} is refused and leaves {after}")

    def reply(self, letter, argument, due):
        if due:
            return self.number_of[due]
        if letter == "M" and len(self.active) == 3:
            return 10
        if letter in "QC" and argument not in self.active:
            return 11
        return 0

    def least(self, i):
        value, place = min((v, p) for p, v in enumerate(self.values, 1) if p >= i)
        return f"{value} at {place}"

    def line(self):
        last = self.values[-1] if self.values else 0
        end = f"N 704, K 3, present {len(self.values)}, last {last}, active {len(self.active)}, {self.standing.lower()}"
        return "; ".join(self.said + [end])


def used():
    """`transition_of` is `by_section_2` and nothing else, and Value, Mark and Close call it, each once."""
    if not re.search(r"\npub fn transition_of\([^{]*\n\s+ensures [^\n]*\n\{\n    by_section_2\(event, standing\)\n\}\n", text(CODE)):
        wrong.append(f"{CODE}: the body of `transition_of` is not `by_section_2(event, standing)`")
    engine = text("crates/engine/src/lib.rt")
    for name in ["take_value", "take_mark", "take_close"]:
        if body(engine, name).count("history::transition_of(") != 1:
            wrong.append(f"crates/engine: `{name}` does not call `transition_of` once")
        if body(engine, name.removeprefix("take_")).count(f"{name}(s, area") != 1:
            wrong.append(f"crates/engine: `{name.removeprefix('take_')}` does not call `{name}` once")


def elsewhere():
    """The engine names a standing in `by_section_2` and in the unopened session, which has none; else it only hands standings on, by the type's own name."""
    stands_on = dict(line.split(":") for line in text("crates.txt").splitlines() if line and not line.startswith("#"))
    opening = 0
    for crate in ["engine"] + stands_on["engine"].split():
        for path in sorted(glob.glob(f"crates/{crate}/src/**/*.rt", recursive=True)):
            source = text(path)
            if crate == "history":
                source = source.replace(body(source, "by_section_2"), "")
            for line in source.splitlines():
                code = line.split("//")[0].strip()
                if crate == "engine" and code == "standing: Standing::None,":
                    opening += 1
                elif re.search(r"::(None|Unmarked|Marked|Closed)\b|\bStanding\s*(::|as\b)|\b(type\b.*|impl) Standing\b", code):
                    wrong.append(f"{path} chooses or tests a standing: {code}")
    if opening != 1:
        wrong.append(f"crates/engine: {opening} places have the standing none, and not the unopened session's one")


def main():
    code_in_order()
    of, number_of = cases(), numbers()
    lines, settled = [], set()

    def played(commands, put, step):
        board = Board(of, number_of)
        board.run(commands)
        if put:
            board.standing = put
        board.said.append(("put to " if put else "") + board.standing.lower())
        board.run(step)
        lines.append(board.line())
        if board.settled:
            settled.add(board.settled)
        elif put:
            wrong.append(f"{step} put to {put} is neither due a refusal nor accepted")

    for commands, close in [("", "C0"), ("V5 M V6", "C2"), ("V5 M V6 M", "C2"), ("V5 M V6 M C2", "C2")]:
        for step in ["V7", "M", close, "C1", "Q1"]:
            played(commands, None, step)
    for put in STANDINGS:
        for step in ["V7", "M", "C2", "C1", "Q1"]:
            played("V5 M V6 M", put, step)

    if settled != set(CASES):
        wrong.append(f"no line settles {sorted(set(CASES) - settled)}")
    stored = [l for l in text(STORED).splitlines() if l.startswith("open 704: ")]
    if stored != lines:
        for n, (a, b) in enumerate(zip(stored, lines), 1):
            if a != b:
                wrong.append(f"{STORED}, standing {n}: stored  {a}\n{' ' * 12}by the definition  {b}")
        if len(stored) != len(lines):
            wrong.append(f"{STORED}: {len(stored)} lines of standings, and not {len(lines)}")

    used()
    elsewhere()

    if "--lines" in sys.argv:
        print("\n".join(lines))
    for w in wrong:
        print(w, file=sys.stderr)
    return 1 if wrong else 0


sys.exit(main())
