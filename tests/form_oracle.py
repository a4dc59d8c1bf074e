#!/usr/bin/env python3
"""The form of circuit texts, read independently of the program that it tests.

    python3 tests/form_oracle.py FILE...      what the program must write for each file
    python3 tests/form_oracle.py --self-test  the hand-worked cases at the end of this file

The text is cut at its line ends and each line at its spaces. The pieces of a line
are compared with every shape that a line may have at that place of the text, and
the shape that goes furthest says where the fault is: at the first byte of a wrong
word; where a word, space, line end or the end is missing, at the byte that stands
there in its place, or just behind the last byte of the text.
"""

import re
import subprocess
import sys
from dataclasses import dataclass
from pathlib import Path

TEXT_LIMIT = 16_384
TOO_LONG, NOT_IN_THE_GRAMMAR, COUNT_OUT_OF_RANGE = 12, 13, 14

COUNT_RANGES = {
    b"qubits": range(1, 17),
    b"opens": range(0, 5),
    b"steps": range(0, 2001),
    b"reads": range(0, 101),
}

GATE_QUBITS = {
    b"x": 1, b"z": 1, b"h": 1, b"s": 1, b"t": 1, b"rx": 1, b"ry": 1,
    b"cx": 2, b"cz": 2, b"ccx": 3,
}

NUMBER = re.compile(rb"0|[1-9][0-9]{0,4}")
BIT = re.compile(rb"[01]")

DEFAULT_PROGRAM = Path(__file__).resolve().parent.parent / "crates/slicesim/out/slicesim"
TIME_LIMIT = 10


@dataclass(frozen=True)
class Counts:
    """A text of good form, by the counts of its sections."""

    qubits: int
    opens: int
    steps: int
    reads: int

    def __str__(self):
        return f"qubits {self.qubits} opens {self.opens} steps {self.steps} reads {self.reads}"

    def standard_output(self):
        """What the program writes for the text."""
        return (
            f"qubits {self.qubits}\n"
            f"form opens {self.opens} steps {self.steps} reads {self.reads}\n"
        ).encode()


@dataclass(frozen=True)
class Refusal:
    """The one fault of a text, with its offending value and its place, counted from 1."""

    number: int
    value: int
    line: int
    column: int

    def __str__(self):
        return f"refused {self.number} {self.value} {self.line} {self.column}"

    def standard_output(self):
        """What the program writes for the text; the value is not part of it."""
        return f"refused {self.number} {self.line} {self.column}\n".encode()


Verdict = Counts | Refusal


def word(literal):
    """The pattern of one fixed word."""
    return re.compile(re.escape(literal))


def line_shapes(qubits):
    """For each section the shapes of its lines, a shape being a pattern for each word."""
    index = re.compile(rb"[01]{%d}" % qubits)
    gates = [[word(gate)] + [NUMBER] * (1 + named) for gate, named in GATE_QUBITS.items()]
    return {
        b"opens": [[NUMBER, index]],
        b"steps": gates + [[word(b"copy"), NUMBER, NUMBER], [word(b"close"), NUMBER]],
        b"reads": [
            [word(b"amp"), NUMBER, index],
            [word(b"weight"), NUMBER, NUMBER, BIT],
            [word(b"same"), NUMBER, NUMBER],
        ],
    }


def fitting(pieces, shape):
    """How many of the first pieces fit the shape."""
    for fits, (piece, pattern) in enumerate(zip(pieces, shape)):
        if not pattern.fullmatch(piece):
            return fits
    return min(len(pieces), len(shape))


def misfit(line, shapes):
    """How many bytes of the line stand before its first fault, or None if it has a shape."""
    pieces = line.split(b" ")
    fits, length = max(((fitting(pieces, shape), len(shape)) for shape in shapes), default=(0, 0))
    if fits == length == len(pieces):
        return None
    before = len(b" ".join(pieces[:fits]))
    wrong_word = fits < length and fits < len(pieces)
    return before + 1 if wrong_word and fits > 0 else before


def count_in(line, section):
    """The count in the line of a section, whatever follows it, or None if it has none."""
    pieces = line.split(b" ")
    if len(pieces) > 1 and pieces[0] == section and NUMBER.fullmatch(pieces[1]):
        return int(pieces[1])
    return None


def verdict(data: bytes) -> Verdict:
    """The counts of a text of good form, or its one fault."""
    if len(data) > TEXT_LIMIT:
        return Refusal(TOO_LONG, len(data), 1, 1)
    lines = data.split(b"\n")
    wanted = [(section, [[word(section), NUMBER]]) for section in COUNT_RANGES]
    counts = {}
    start = 0
    for number, line in enumerate(lines, start=1):
        without_end = number == len(lines)
        if not wanted and without_end and line == b"":
            break
        section, shapes = wanted.pop(0) if wanted else (None, [])
        count = count_in(line, section)
        if count is not None and count not in COUNT_RANGES[section]:
            return Refusal(COUNT_OUT_OF_RANGE, count, number, len(section) + 2)
        before = misfit(line, shapes)
        if before is None and without_end:
            before = len(line)
        if before is not None:
            value = data[start + before] if start + before < len(data) else 0
            return Refusal(NOT_IN_THE_GRAMMAR, value, number, before + 1)
        if section is not None:
            counts[section] = count
            if section != b"qubits":
                wanted = [(None, line_shapes(counts[b"qubits"])[section])] * count + wanted
        start += len(line) + 1
    return Counts(*counts.values())


def program_path(given=None):
    """The absolute path of the program to be tested; ends the test if it is not there."""
    path = Path(given or DEFAULT_PROGRAM).resolve()
    if not path.is_file():
        sys.exit(f"{path} is not there; build the program first")
    return path


def complaint(command, expected: Verdict | None, **streams) -> str | None:
    """Runs the program and says what is wrong with the run, or None.

    Expected is the verdict on its input, or None where the input cannot be read.
    """
    try:
        run = subprocess.run(command, capture_output=True, timeout=TIME_LIMIT, **streams)
    except subprocess.TimeoutExpired:
        return f"no end within {TIME_LIMIT} seconds"
    good = isinstance(expected, Counts)
    output = expected.standard_output() if expected else b""
    if run.returncode != (0 if good else 1):
        return f"exit status {run.returncode}, standard output {run.stdout!r}, expected {output!r}"
    if run.stdout != output:
        return f"standard output {run.stdout!r}, expected {output!r}"
    if good and run.stderr != b"":
        return f"standard error {run.stderr!r}, expected nothing"
    if not good and not re.fullmatch(rb"[!-~]+( [!-~]+)+\n", run.stderr):
        return f"standard error {run.stderr!r}, expected one line of plain words"
    return None


HAND_WORKED = [
    (b"qubits 1\nopens 0\nsteps 0\nreads 0\n", "qubits 1 opens 0 steps 0 reads 0",
     "the smallest text"),
    (b"qubits 2\nopens 1\n0 00\nsteps 2\nh 0 0\ncx 0 0 1\nreads 3\namp 0 11\nweight 0 0 1\nsame 0 0\n",
     "qubits 2 opens 1 steps 2 reads 3", "lines in every section"),
    (b"", "refused 13 0 1 1", "the end stands where the first word is wanted"),
    (b"qubits", "refused 13 0 1 7", "the end stands where the space is wanted"),
    (b"qubits  2\n", "refused 13 32 1 8", "a space stands where the count is wanted"),
    (b"qubits 2 \n", "refused 13 32 1 9", "a space stands where the line end is wanted"),
    (b"qubits 2\r\n", "refused 13 50 1 8", "the word is 2 and a carriage return"),
    (b"qubits 17 x", "refused 14 17 1 8", "the count comes before what follows it"),
    (b"qubits 2\nopens 100000\n", "refused 13 49 2 7", "six digits are no number"),
    (b"qubits 2\nopens 1\n0 001\n", "refused 13 48 3 3", "the index word has three bits for two qubits"),
    (b"qubits 1\nopens 0\nsteps 1\ncx 0 1\n", "refused 13 10 4 7", "the line ends before the last number"),
    (b"qubits 1\nopens 0\nsteps 0\nreads 1\nweight 0 0 2\n", "refused 13 50 5 12", "2 is no bit"),
    (b"qubits 1\nopens 0\nsteps 0\nreads 1\nsame 0 0", "refused 13 0 5 9", "the last line end is missing"),
    (b"qubits 1\nopens 0\nsteps 0\nreads 0\n\n", "refused 13 10 5 1", "a line end stands after the end"),
    (b" " * 16_385, "refused 12 16385 1 1", "the length comes before everything else"),
]


def self_test():
    """Compares the hand-worked cases with the verdicts on them."""
    wrong = [
        f"{text[:40]!r}: {verdict(text)}, by hand {answer} ({reason})"
        for text, answer, reason in HAND_WORKED
        if str(verdict(text)) != answer
    ]
    print("\n".join(wrong + [f"{len(HAND_WORKED)} hand-worked cases, {len(wrong)} wrong"]))
    return 1 if wrong else 0


if __name__ == "__main__":
    if sys.argv[1:] == ["--self-test"]:
        sys.exit(self_test())
    for name in sys.argv[1:]:
        sys.stdout.write(verdict(Path(name).read_bytes()).standard_output().decode())
