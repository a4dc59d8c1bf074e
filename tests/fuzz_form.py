#!/usr/bin/env python3
"""Runs the built program on many random and damaged circuit texts and checks every run.

    python3 tests/fuzz_form.py [PROGRAM] [--count N] [--seed N]

PROGRAM is crates/slicesim/out/slicesim if not given. Each run must end in time, without a
crash, with standard output, exit status and standard error as form_oracle.py says.
A text depends only on the seed and its own number, so that a run can be repeated.
The first wrong run ends the test, and its text is kept in a file under /tmp.
"""

import argparse
import multiprocessing
import random
import re
import sys
import time
from collections import Counter
from pathlib import Path

from form_oracle import GATE_QUBITS, TEXT_LIMIT, Counts, complaint, program_path, verdict

BATCH = 250

STEP_NUMBERS = {gate: 1 + qubits for gate, qubits in GATE_QUBITS.items()} | {b"copy": 2, b"close": 1}
GRAMMAR_WORDS = [b"qubits", b"opens", b"steps", b"reads", b"amp", b"weight", b"same", *STEP_NUMBERS]
NEAR_WORDS = [
    b"y", b"c", b"cc", b"r", b"rz", b"ccz", b"cccx", b"hh", b"H", b"qubit", b"read", b"open", b"am", b"amps",
    b"weigh", b"copyx", b"clos", b"00", b"01", b"007", b"100000", b"4294967296", b"-1", b"+0", b"2", b"1x", b"",
]
NEAR_COUNTS = [
    b"0", b"1", b"4", b"5", b"16", b"17", b"100", b"101", b"255", b"256", b"257", b"2000", b"2001", b"65536",
    b"65537", b"99999", b"100000", b"00", b"01", b"016",
]
SPECIAL_BYTES = b"\x00\x01\t\n\n\n\x0b\r    !+,-./0122399:;AZ_acehmpqrstwxyz{\x7f\x80\xa0\xff"
GRAMMAR_BYTES = b"   \n\n0001112379qubitopensreadsampweightsamexzhstrycl"


# Texts of good form.


def number(rng):
    """A number as registers and qubits are written: mostly small, sometimes of any size."""
    if rng.random() < 0.85:
        return b"%d" % rng.randrange(17)
    return b"%d" % rng.choice([65_536, 99_999, rng.randrange(100_000)])


def bits(rng, length):
    """A word of bits."""
    return bytes(rng.choice(b"01") for _ in range(length))


def step_line(rng):
    """A step without its line end."""
    word = rng.choice(list(STEP_NUMBERS))
    return b" ".join([word] + [number(rng) for _ in range(STEP_NUMBERS[word])])


def read_line(rng, qubits):
    """A question without its line end."""
    word = rng.choice([b"amp", b"weight", b"same"])
    if word == b"amp":
        return b" ".join([word, number(rng), bits(rng, qubits)])
    if word == b"weight":
        return b" ".join([word, number(rng), number(rng), bits(rng, 1)])
    return b" ".join([word, number(rng), number(rng)])


def random_count(rng, usual, greatest):
    """A count of lines: mostly below the usual, sometimes any, sometimes the greatest."""
    chance = rng.random()
    if chance < 0.97:
        return rng.randrange(usual)
    return rng.randrange(greatest + 1) if chance < 0.99 else greatest


def circuit(rng):
    """A text of good form, unless its sections are so large that it is too long."""
    qubits = rng.choice([1, 2, 3, 16, rng.randint(1, 16)])
    openings = [number(rng) + b" " + bits(rng, qubits) for _ in range(rng.randrange(5))]
    steps = [step_line(rng) for _ in range(random_count(rng, 12, 2000))]
    reads = [read_line(rng, qubits) for _ in range(random_count(rng, 6, 100))]
    return b"".join(
        line + b"\n"
        for line in [
            b"qubits %d" % qubits,
            b"opens %d" % len(openings), *openings,
            b"steps %d" % len(steps), *steps,
            b"reads %d" % len(reads), *reads,
        ]
    )


def circuit_of_size(rng, size):
    """A text of good form of exactly that size, from 15,700 to 20,000 bytes."""
    steps = 1300
    head, tail = b"qubits 1\nopens 0\nsteps %d\n" % steps, b"reads 1\n" + read_line(rng, 1) + b"\n"
    missing = size - len(head) - len(tail) - steps * len(b"ccx 0 1 2 3\n")
    body = b""
    for left in range(steps, 0, -1):
        digits = rng.randint((missing + left - 1) // left, min(missing, 4))
        missing -= digits
        body += b"ccx 0 1 2 3" + b"7" * digits + b"\n"
    return head + body + tail


# Damage.


def byte_edit(rng, text):
    """The text with one byte inserted, deleted, replaced or exchanged with another."""
    kind = rng.randrange(4)
    byte = bytes([rng.choice(SPECIAL_BYTES) if rng.random() < 0.8 else rng.randrange(256)])
    at = rng.randrange(len(text) + 1)
    if kind == 0:
        return text[:at] + byte + text[at:]
    if kind == 1:
        return text[:at] + text[at + 1:]
    if kind == 2:
        return text[:at] + byte + text[at + 1:]
    return exchanged(rng, [bytes([other]) for other in text])


def exchanged(rng, pieces):
    """The pieces put together again, two of them, mostly neighbours, in each other's place."""
    if pieces:
        first = rng.randrange(len(pieces))
        second = min(first + 1, len(pieces) - 1) if rng.random() < 0.7 else rng.randrange(len(pieces))
        pieces[first], pieces[second] = pieces[second], pieces[first]
    return b"".join(pieces)


def line_edit(rng, text):
    """The text with one line doubled, dropped, emptied or exchanged with another."""
    lines = re.findall(rb"[^\n]*\n|[^\n]+", text)
    if not lines:
        return b"\n"
    at = rng.randrange(len(lines))
    kind = rng.randrange(4)
    if kind == 0:
        lines.insert(at, lines[at])
    elif kind == 1:
        del lines[at]
    elif kind == 2:
        lines.insert(at, b"\n")
    else:
        return exchanged(rng, lines)
    return b"".join(lines)


def count_edit(rng, text):
    """The text with the count of one section changed."""
    counts = list(re.finditer(rb"(?:qubits|opens|steps|reads) ([0-9]{1,5})", text))
    if not counts:
        return text
    found = rng.choice(counts)
    near = int(found[1]) + rng.choice([-1, 1])
    count = rng.choice([rng.choice(NEAR_COUNTS), b"%d" % max(near, 0), b"%d" % rng.randrange(100_000)])
    return text[:found.start(1)] + count + text[found.end(1):]


def token_edit(rng, text):
    """The text with one word, space or line end changed, doubled, dropped or exchanged with another."""
    tokens = re.findall(rb"[^ \n]+|[ \n]", text)
    if not tokens:
        return rng.choice(GRAMMAR_WORDS)
    at = rng.randrange(len(tokens))
    kind = rng.randrange(6)
    if kind == 0:
        tokens[at] = rng.choice([*GRAMMAR_WORDS, number(rng)])
    elif kind == 1:
        tokens[at] = rng.choice(NEAR_WORDS)
    elif kind == 2:
        tokens[at] = rng.choice([b"0" + tokens[at], tokens[at] + rng.choice([b"0", b"1", b"2"]), tokens[at][:-1]])
    elif kind == 3:
        tokens.insert(at, rng.choice([b" ", b"\n", tokens[at]]))
    elif kind == 4:
        del tokens[at]
    else:
        return exchanged(rng, tokens)
    return b"".join(tokens)


def damaged(rng, text, edits):
    """The text after one to four edits, each chosen among the given."""
    for _ in range(rng.choice([1, 1, 2, 3, 4])):
        text = rng.choice(edits)(rng, text)
    return text


# Whole texts, one kind each.


def bytewise_damaged(rng):
    """A circuit with damaged bytes, lines and counts."""
    return damaged(rng, circuit(rng), [byte_edit, byte_edit, line_edit, count_edit])


def tokenwise_damaged(rng):
    """A circuit with damaged words, spaces, line ends and counts."""
    return damaged(rng, circuit(rng), [token_edit, token_edit, token_edit, count_edit])


def cut(rng):
    """A circuit that stops early."""
    text = circuit(rng)
    return text[:rng.randrange(len(text) + 1)]


def beginning(rng):
    """Nothing or the beginning of a circuit, for random texts to go on from."""
    return b"" if rng.random() < 0.3 else cut(rng)


def random_bytes(rng):
    """Bytes of any value."""
    return beginning(rng) + rng.randbytes(rng.randrange(1, 200))


def random_letters(rng):
    """Letters, digits, spaces and line ends of the grammar in any order."""
    return beginning(rng) + bytes(rng.choices(GRAMMAR_BYTES, k=rng.randrange(1, 60)))


def random_words(rng):
    """Words of the grammar in any order, mostly with one space or line end between."""
    text = beginning(rng)
    for _ in range(rng.randrange(1, 40)):
        text += rng.choice([rng.choice(GRAMMAR_WORDS), number(rng), bits(rng, rng.randint(1, 3)), step_line(rng)])
        text += rng.choice([b" ", b" ", b"\n", b"\n", b"\n", b"  ", b"\n\n", b""])
    return text


def about_the_limit(rng):
    """A text of about the greatest size, good, damaged or without sense, or a much longer one."""
    size = rng.choice([TEXT_LIMIT, TEXT_LIMIT, TEXT_LIMIT + 1, TEXT_LIMIT + rng.randint(-5, 5)])
    chance = rng.random()
    if chance < 0.4:
        return circuit_of_size(rng, size)
    if chance < 0.8:
        return damaged(rng, circuit_of_size(rng, size), [byte_edit, token_edit])
    if chance < 0.9:
        return rng.choice([b"\n", b" ", b"0", b"\0", b"q"]) * size
    return circuit(rng) * rng.randint(2, 9) + b"x 0 0\n" * rng.randint(2500, 20_000)


KINDS = {
    circuit: 22, bytewise_damaged: 30, tokenwise_damaged: 26, cut: 4,
    random_bytes: 4, random_letters: 4, random_words: 5, about_the_limit: 5,
}


def text_number(seed, index):
    """The text of that number."""
    rng = random.Random(f"{seed} {index}")
    (kind,) = rng.choices(list(KINDS), weights=KINDS.values())
    return kind(rng)


def run_batch(task):
    """Runs a batch of texts; returns how often each kind of answer came, and a complaint or None."""
    program, seed, indices = task
    answers = Counter()
    for index in indices:
        text = text_number(seed, index)
        expected = verdict(text)
        wrong = complaint([program], expected, input=text)
        if wrong:
            kept = Path(f"/tmp/slicesim-fuzz-{seed}-{index}.in")
            kept.write_bytes(text)
            return answers, f"text {index} of seed {seed}, kept in {kept}, verdict {expected}: {wrong}"
        answers["good" if isinstance(expected, Counts) else f"refused {expected.number}"] += 1
    return answers, None


def main():
    """Runs all texts on all processors and prints progress and a summary."""
    parser = argparse.ArgumentParser(description="Tests the form check on random and damaged texts.")
    parser.add_argument("program", nargs="?")
    parser.add_argument("--count", type=int, default=100_000)
    parser.add_argument("--seed", type=int, default=random.randrange(1_000_000))
    options = parser.parse_args()
    program = program_path(options.program)
    print(f"{options.count} texts, seed {options.seed}", flush=True)
    began = time.monotonic()
    answers = Counter()
    tasks = [
        (program, options.seed, range(first, min(first + BATCH, options.count)))
        for first in range(0, options.count, BATCH)
    ]
    with multiprocessing.Pool() as pool:
        for done, (found, wrong) in enumerate(pool.imap_unordered(run_batch, tasks), start=1):
            answers += found
            if wrong:
                print(wrong)
                return 1
            if done % max(1, len(tasks) // 10) == 0:
                print(f"{answers.total()} texts, {time.monotonic() - began:.0f} s", flush=True)
    counts = ", ".join(f"{answers[kind]} {kind}" for kind in sorted(answers))
    took = time.monotonic() - began
    print(f"{answers.total()} texts, all answers right: {counts}; seed {options.seed}, {took:.0f} s")
    return 0


if __name__ == "__main__":
    sys.exit(main())
