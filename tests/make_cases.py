#!/usr/bin/env python3
"""Writes the cases of the form check: the circuit texts and what is to be printed for them.

    python3 tests/make_cases.py          writes crates/text_cases/data and crates/text_cases/stdout
    python3 tests/make_cases.py --check  writes nothing, fails if a file differs

The cases are the given circuits, which have a file in tests/answers with all that
the finished program writes for them, and the hand-made texts of this file. The
verdicts come from form_oracle.py. Before anything is written they are compared with
tests/answers and, for the hand-made texts, with the answers worked out by hand
beside them.
"""

import sys
from pathlib import Path

from form_oracle import Counts, verdict

TESTS = Path(__file__).resolve().parent
ANSWERS = TESTS / "answers"
CRATE = TESTS.parent / "crates/text_cases"
DATA = CRATE / "data"


def lines(*texts):
    """The texts as lines, each with its line end."""
    return "".join(text + "\n" for text in texts)


def opening(line):
    """A text of two qubits with one opening, in line 3."""
    return lines("qubits 2", "opens 1", line, "steps 0", "reads 0")


def step(line):
    """A text of two qubits with one step, in line 4."""
    return lines("qubits 2", "opens 0", "steps 1", line, "reads 0")


def read(line):
    """A text of two qubits with one question, in line 5, the last."""
    return lines("qubits 2", "opens 0", "steps 0", "reads 1", line)


def largest(last_line):
    """All counts at their greatest; 16,384 bytes if the last line, 2108, has nine.

    The counts and openings take 10 + 8 + 4 * 19 + 11 + 10 = 115 bytes, the steps
    561 * 12 + 9 + 1438 * 6 = 15369, the questions 99 * 9 = 891 without the last.
    """
    return (
        lines("qubits 16", "opens 4")
        + lines(*(f"{register} 0000111101010011" for register in range(4)))
        + lines("steps 2000")
        + lines("ccx 0 1 2 3") * 561
        + lines("h 0 1000")
        + lines("x 0 0") * 1438
        + lines("reads 100")
        + lines("same 0 1") * 99
        + last_line
    )


SMALLEST = lines("qubits 1", "opens 0", "steps 0", "reads 0")

# Name, text (a character is a byte), the answer worked out by hand, and why.
# Bytes in the answers: line end 10, space 32, digits from 48, small letters from 97.
HAND_MADE = [
    # Good texts, and sections at the ends of their ranges.
    ("good-smallest", SMALLEST, "qubits 1 opens 0 steps 0 reads 0", "nothing but the four counts"),
    ("good-every-word",
     lines("qubits 3", "opens 2", "0 010", "3 111", "steps 12", "x 0 0", "z 0 1", "h 0 2", "s 0 0",
           "t 0 1", "rx 0 2", "ry 0 0", "cx 0 0 1", "cz 0 2 1", "ccx 0 0 1 2", "copy 0 1", "close 0",
           "reads 3", "amp 1 000", "weight 1 2 1", "same 1 3"),
     "qubits 3 opens 2 steps 12 reads 3", "every gate, step and question once"),
    ("good-sixteen-qubits",
     lines("qubits 16", "opens 1", "0 0101010101010101", "steps 0", "reads 1", "amp 0 1111111111111111"),
     "qubits 16 opens 1 steps 0 reads 1", "the greatest number of qubits, index words of 16 bits"),
    ("good-four-openings", lines("qubits 1", "opens 4", "3 0", "2 1", "1 0", "0 1", "steps 0", "reads 0"),
     "qubits 1 opens 4 steps 0 reads 0", "the greatest number of openings"),
    ("good-hundred-reads", lines("qubits 1", "opens 0", "steps 0", "reads 100") + lines("amp 0 1") * 100,
     "qubits 1 opens 0 steps 0 reads 100", "the greatest number of questions"),
    ("good-five-digits",
     lines("qubits 1", "opens 1", "99999 0", "steps 4", "h 99999 10000", "ccx 12345 67890 99999 0",
           "copy 99999 99998", "close 10000", "reads 3", "amp 99999 1", "weight 65536 65537 0",
           "same 99999 10000"),
     "qubits 1 opens 1 steps 4 reads 3", "registers and qubits are any numbers of up to five digits"),
    ("good-nothing-opened", step("h 3 1"), "qubits 2 opens 0 steps 1 reads 0",
     "an empty register is no matter of form"),
    ("good-qubit-twice", step("ccx 0 1 1 1"), "qubits 2 opens 0 steps 1 reads 0",
     "a qubit named twice is no matter of form"),
    ("good-register-twice", lines("qubits 1", "opens 2", "0 0", "0 0", "steps 1", "copy 0 0", "reads 1", "same 0 0"),
     "qubits 1 opens 2 steps 1 reads 1", "a register filled twice is no matter of form"),
    ("good-outcome-0", read("weight 0 0 0"), "qubits 2 opens 0 steps 0 reads 1", "0 is a bit"),
    ("good-zeros", opening("0 00"), "qubits 2 opens 1 steps 0 reads 0", "an index word may begin with 0"),

    # The size of the text.
    ("size-16384-good", largest("same 0 0\n"), "qubits 16 opens 4 steps 2000 reads 100",
     "exactly the greatest size, and every count at its greatest"),
    ("size-16384-last-byte-space", largest("same 0 0 "), "refused 13 32 2108 9",
     "a space in place of the last line end"),
    ("size-16384-no-last-line-end", largest("same 0 10"), "refused 13 0 2108 10",
     "the end in place of the last line end"),
    ("size-16385-otherwise-good", largest("same 0 10\n"), "refused 12 16385 1 1", "one byte too many"),
    ("size-16385-line-end-too-many", largest("same 0 0\n\n"), "refused 12 16385 1 1",
     "the size comes before the fault in line 2109"),
    ("size-16384-one-word", "q" * 16384, "refused 13 113 1 1", "one long word, not the first word of a text"),
    ("size-16385-qubits-17", lines("qubits 17") + "\n" * 16375, "refused 12 16385 1 1",
     "the size comes before the count"),

    # No text, and texts that stop early.
    ("end-empty", "", "refused 13 0 1 1", "the end in place of the first word"),
    ("end-within-first-word", "qubi", "refused 13 113 1 1", "a wrong word"),
    ("end-after-first-word", "qubits", "refused 13 0 1 7", "the end in place of a space"),
    ("end-after-first-space", "qubits ", "refused 13 0 1 8", "the end in place of a count"),
    ("end-after-first-count", "qubits 2", "refused 13 0 1 9", "the end in place of a line end"),
    ("end-after-qubits", lines("qubits 2"), "refused 13 0 2 1", "the end in place of the second section"),
    ("end-after-opens", lines("qubits 2", "opens 0"), "refused 13 0 3 1", "the end in place of the third section"),
    ("end-after-opens-1", lines("qubits 2", "opens 1"), "refused 13 0 3 1", "the end in place of an opening"),
    ("end-after-steps", lines("qubits 2", "opens 0", "steps 0"), "refused 13 0 4 1",
     "the end in place of the last section"),
    ("end-after-steps-1", lines("qubits 2", "opens 0", "steps 1"), "refused 13 0 4 1", "the end in place of a step"),
    ("end-after-reads-1", lines("qubits 2", "opens 0", "steps 0", "reads 1"), "refused 13 0 5 1",
     "the end in place of a question"),
    ("end-no-last-line-end", lines("qubits 2", "opens 0", "steps 0") + "reads 0", "refused 13 0 4 8",
     "the end in place of the last line end"),
    ("end-within-opening", lines("qubits 2", "opens 1") + "0", "refused 13 0 3 2", "the end in place of a space"),
    ("end-within-opening-after-space", lines("qubits 2", "opens 1") + "0 ", "refused 13 0 3 3",
     "the end in place of an index word"),
    ("end-within-index", lines("qubits 2", "opens 1") + "0 0", "refused 13 48 3 3",
     "an index word of one bit is wrong, before the end counts"),
    ("end-within-step", lines("qubits 2", "opens 0", "steps 1") + "ccx 0 1", "refused 13 0 4 8",
     "the end in place of a space"),

    # Something after the end.
    ("after-end-line-end", SMALLEST + "\n", "refused 13 10 5 1", "an empty line after the end"),
    ("after-end-space", SMALLEST + " ", "refused 13 32 5 1", "a space after the end"),
    ("after-end-word", SMALLEST + "x", "refused 13 120 5 1", "a word after the end"),
    ("after-end-step", SMALLEST + lines("h 0 0"), "refused 13 104 5 1", "a line after the end"),
    ("after-end-nul", SMALLEST + "\0", "refused 13 0 5 1", "the byte 0 after the end is a word"),
    ("after-end-second-text", SMALLEST + SMALLEST, "refused 13 113 5 1", "a second text after the end"),

    # Bytes that are neither letters nor digits: all but 10 and 32 belong to words.
    ("byte-nul-alone", "\0", "refused 13 0 1 1", "a wrong word whose first byte is 0"),
    ("byte-nul-within-word", "qu\0bits 2\n", "refused 13 113 1 1", "a wrong word from q on"),
    ("byte-nul-for-space", "qubits\0" + "2\n", "refused 13 113 1 1", "one word as far as the line end"),
    ("byte-nul-after-count", lines("qubits 2\0", "opens 0"), "refused 13 50 1 8", "no number, from 2 on"),
    ("byte-255-first", "\xffqubits 2\n", "refused 13 255 1 1", "a wrong word whose first byte is 255"),
    ("byte-255-within-index", opening("0 0\xff"), "refused 13 48 3 3", "no index word, from 0 on"),
    ("byte-255-for-gate", step("\xff 0 0"), "refused 13 255 4 1", "no step"),
    ("byte-order-mark", "\xef\xbb\xbf" + SMALLEST, "refused 13 239 1 1", "a wrong word from the mark on"),
    ("byte-tab-for-space", lines("qubits\t2"), "refused 13 113 1 1", "one word as far as the line end"),
    ("byte-tab-after-word", step("h 0 1\t"), "refused 13 49 4 5", "no number, from 1 on"),
    ("byte-tab-before-word", read("\tamp 0 00"), "refused 13 9 5 1", "no question, from the tab on"),
    ("byte-vertical-tab-alone", lines("qubits 2", "\x0b", "opens 0"), "refused 13 11 2 1", "a wrong word"),
    ("byte-no-break-space", step("h\xa00 0"), "refused 13 104 4 1", "no gate, as far as the space"),
    ("byte-carriage-return-qubits", "qubits 2\r\nopens 0\r\nsteps 0\r\nreads 0\r\n", "refused 13 50 1 8",
     "no number, from 2 on"),
    ("byte-carriage-return-opens", lines("qubits 2", "opens 0\r"), "refused 13 48 2 7", "no number, from 0 on"),
    ("byte-carriage-return-index", opening("0 00\r"), "refused 13 48 3 3", "no index word, from 0 on"),
    ("byte-carriage-return-last", read("weight 0 0 1\r"), "refused 13 49 5 12", "no bit, from 1 on"),
    ("byte-carriage-return-for-line-end", "qubits 2\ropens 0\rsteps 0\rreads 0\r", "refused 13 50 1 8",
     "the count's word goes on as far as the next space"),
    ("byte-carriage-return-empty-line", lines("qubits 2", "\r"), "refused 13 13 2 1", "a wrong word of one byte"),

    # Words and order of the sections.
    ("section-capital", lines("Qubits 2"), "refused 13 81 1 1", "a capital letter"),
    ("section-word-short", lines("qubit 2"), "refused 13 113 1 1", "one letter too few"),
    ("section-word-long", lines("qubitss 2"), "refused 13 113 1 1", "one letter too many"),
    ("section-and-count-together", lines("qubits2"), "refused 13 113 1 1", "one word in place of two"),
    ("section-opens-first", lines("opens 0", "qubits 2", "steps 0", "reads 0"), "refused 13 111 1 1",
     "opens in place of qubits"),
    ("section-steps-second", lines("qubits 2", "steps 0", "opens 0", "reads 0"), "refused 13 115 2 1",
     "steps in place of opens"),
    ("section-reads-third", lines("qubits 2", "opens 0", "reads 0", "steps 0"), "refused 13 114 3 1",
     "reads in place of steps"),
    ("section-steps-missing", lines("qubits 2", "opens 1", "0 00", "reads 0"), "refused 13 114 4 1",
     "reads in place of steps, after an opening"),
    ("section-reads-missing", lines("qubits 2", "opens 0", "steps 1", "h 0 0"), "refused 13 0 5 1",
     "the end in place of reads"),
    ("section-qubits-twice", lines("qubits 2", "qubits 2", "opens 0", "steps 0", "reads 0"), "refused 13 113 2 1",
     "qubits in place of opens"),
    ("section-steps-twice", lines("qubits 2", "opens 0", "steps 0", "steps 0", "reads 0"), "refused 13 115 4 1",
     "steps in place of reads"),
    ("section-other-word", lines("qubits 2", "opens 0", "gates 0", "reads 0"), "refused 13 103 3 1",
     "gates in place of steps"),
    ("section-word-long-reads", lines("qubits 2", "opens 0", "steps 0", "reads: 0"), "refused 13 114 4 1",
     "a colon belongs to the word"),

    # Counts that are no numbers.
    ("count-missing", lines("qubits", "opens 0"), "refused 13 10 1 7", "the line end in place of a space"),
    ("count-missing-after-space", lines("qubits ", "opens 0"), "refused 13 10 1 8", "the line end in place of a count"),
    ("count-two", lines("qubits 2 2", "opens 0"), "refused 13 32 1 9", "a space in place of the line end"),
    ("count-word", lines("qubits two"), "refused 13 116 1 8", "no digits"),
    ("count-minus", lines("qubits -1"), "refused 13 45 1 8", "a sign is no digit"),
    ("count-plus", lines("qubits +1"), "refused 13 43 1 8", "a sign is no digit"),
    ("count-point", lines("qubits 1.0"), "refused 13 49 1 8", "a point is no digit"),
    ("count-letter-behind", lines("qubits 17x"), "refused 13 49 1 8", "no number, so its range does not matter"),
    ("count-hexadecimal", lines("qubits 0x1"), "refused 13 48 1 8", "x is no digit"),
    ("count-comma", lines("qubits 2", "opens 0", "steps 2,000"), "refused 13 50 3 7", "a comma is no digit"),
    ("count-zero-before-qubits", lines("qubits 02", "opens 0", "steps 0", "reads 0"), "refused 13 48 1 8",
     "a needless zero"),
    ("count-zero-before-opens", lines("qubits 2", "opens 00", "steps 0", "reads 0"), "refused 13 48 2 7",
     "a needless zero"),
    ("count-zero-before-steps", lines("qubits 2", "opens 0", "steps 01", "h 0 0", "reads 0"), "refused 13 48 3 7",
     "a needless zero"),
    ("count-zero-before-reads", lines("qubits 2", "opens 0", "steps 0", "reads 00000"), "refused 13 48 4 7",
     "needless zeros"),
    ("count-zero-before-out-of-range", lines("qubits 017"), "refused 13 48 1 8",
     "no number, so its range does not matter"),
    ("count-six-digits-qubits", lines("qubits 100000"), "refused 13 49 1 8", "a number has at most five digits"),
    ("count-six-digits-opens", lines("qubits 2", "opens 100000"), "refused 13 49 2 7",
     "a number has at most five digits"),
    ("count-six-digits-steps", lines("qubits 2", "opens 0", "steps 200000"), "refused 13 50 3 7",
     "a number has at most five digits"),
    ("count-six-digits-reads", lines("qubits 2", "opens 0", "steps 0", "reads 999999"), "refused 13 57 4 7",
     "a number has at most five digits"),
    ("count-six-zeros", lines("qubits 2", "opens 000000"), "refused 13 48 2 7", "six digits and needless zeros"),
    ("count-32-bits-and-1", lines("qubits 4294967297", "opens 0", "steps 0", "reads 0"), "refused 13 52 1 8",
     "ten digits, 1 in 32 bits"),
    ("count-64-bits-and-1", lines("qubits 18446744073709551617", "opens 0", "steps 0", "reads 0"),
     "refused 13 49 1 8", "twenty digits, 1 in 64 bits"),

    # Counts that are numbers out of range.
    ("range-qubits-0", lines("qubits 0", "opens 0", "steps 0", "reads 0"), "refused 14 0 1 8", "below 1"),
    ("range-qubits-17", lines("qubits 17", "opens 0", "steps 0", "reads 0"), "refused 14 17 1 8", "above 16"),
    ("range-qubits-257", lines("qubits 257", "opens 0", "steps 0", "reads 0"), "refused 14 257 1 8",
     "above 16, 1 in 8 bits"),
    ("range-qubits-65537", lines("qubits 65537", "opens 0", "steps 0", "reads 0"), "refused 14 65537 1 8",
     "above 16, 1 in 16 bits"),
    ("range-qubits-99999", lines("qubits 99999", "opens 0", "steps 0", "reads 0"), "refused 14 99999 1 8",
     "the greatest number"),
    ("range-opens-5", lines("qubits 2", "opens 5") + lines("0 00") * 5 + lines("steps 0", "reads 0"),
     "refused 14 5 2 7", "above 4"),
    ("range-opens-10000", lines("qubits 2", "opens 10000"), "refused 14 10000 2 7", "five digits, above 4"),
    ("range-steps-2001", lines("qubits 2", "opens 0", "steps 2001", "h 0 0"), "refused 14 2001 3 7", "above 2000"),
    ("range-steps-65536", lines("qubits 2", "opens 0", "steps 65536", "reads 0"), "refused 14 65536 3 7",
     "above 2000, 0 in 16 bits"),
    ("range-reads-101", lines("qubits 2", "opens 0", "steps 0", "reads 101"), "refused 14 101 4 7", "above 100"),
    ("range-reads-99999", lines("qubits 2", "opens 0", "steps 0", "reads 99999"), "refused 14 99999 4 7",
     "the greatest number"),
    ("range-before-space", lines("qubits 17 2"), "refused 14 17 1 8", "the count stands before the wrong space"),
    ("range-before-end", "qubits 17", "refused 14 17 1 8", "the count stands before the missing line end"),
    ("range-before-later-range", lines("qubits 0", "opens 5"), "refused 14 0 1 8", "the first of two counts"),
    ("range-after-wrong-word", lines("qubits 2", "openings 5"), "refused 13 111 2 1", "the wrong word comes first"),
    ("range-after-wrong-opening", lines("qubits 2", "opens 1", "0 0", "steps 2001"), "refused 13 48 3 3",
     "the wrong opening comes first"),
    ("range-after-step", lines("qubits 2", "opens 0", "steps 1", "h 0 0", "reads 101"), "refused 14 101 5 7",
     "the count after a good step"),
    ("range-two-spaces-before", lines("qubits  17"), "refused 13 32 1 8", "the second space comes first"),

    # Counts that disagree with the number of lines.
    ("lines-openings-few", lines("qubits 2", "opens 2", "0 00", "steps 0", "reads 0"), "refused 13 115 4 1",
     "steps in place of a register"),
    ("lines-openings-none", lines("qubits 2", "opens 1", "steps 0", "reads 0"), "refused 13 115 3 1",
     "steps in place of a register"),
    ("lines-openings-many", lines("qubits 2", "opens 1", "0 00", "1 00", "steps 0", "reads 0"), "refused 13 49 4 1",
     "an opening in place of steps"),
    ("lines-openings-one-too-many", lines("qubits 2", "opens 0", "0 00", "steps 0", "reads 0"), "refused 13 48 3 1",
     "an opening in place of steps"),
    ("lines-steps-few", lines("qubits 2", "opens 0", "steps 3", "h 0 0", "h 0 0", "reads 0"), "refused 13 114 6 1",
     "reads in place of a step"),
    ("lines-steps-none", lines("qubits 2", "opens 0", "steps 1", "reads 0"), "refused 13 114 4 1",
     "reads in place of a step"),
    ("lines-steps-many", lines("qubits 2", "opens 0", "steps 1", "h 0 0", "x 0 0", "reads 0"), "refused 13 120 5 1",
     "a step in place of reads"),
    ("lines-steps-one-too-many", lines("qubits 2", "opens 0", "steps 0", "close 0", "reads 0"), "refused 13 99 4 1",
     "a step in place of reads"),
    ("lines-reads-few", lines("qubits 2", "opens 0", "steps 0", "reads 2", "same 0 0"), "refused 13 0 6 1",
     "the end in place of a question"),
    ("lines-reads-many", lines("qubits 2", "opens 0", "steps 0", "reads 1", "same 0 0", "amp 0 00"),
     "refused 13 97 6 1", "a question in place of the end"),
    ("lines-reads-one-too-many", lines("qubits 2", "opens 0", "steps 0", "reads 0", "weight 0 0 1"),
     "refused 13 119 5 1", "a question in place of the end"),
    ("lines-reads-99-of-100", lines("qubits 2", "opens 0", "steps 0", "reads 100") + lines("same 0 0") * 99,
     "refused 13 0 104 1", "the end in place of the hundredth question"),

    # Openings: a register and as many bits as qubits.
    ("opening-register-letter", opening("r 00"), "refused 13 114 3 1", "no number"),
    ("opening-register-zero-before", opening("01 00"), "refused 13 48 3 1", "a needless zero"),
    ("opening-register-six-digits", opening("100000 00"), "refused 13 49 3 1", "a number has at most five digits"),
    ("opening-register-missing", opening(" 00"), "refused 13 32 3 1", "a space in place of a register"),
    ("opening-index-missing", opening("0"), "refused 13 10 3 2", "the line end in place of a space"),
    ("opening-index-missing-after-space", opening("0 "), "refused 13 10 3 3", "the line end in place of an index word"),
    ("opening-index-short", opening("0 1"), "refused 13 49 3 3", "one bit for two qubits"),
    ("opening-index-long", opening("0 110"), "refused 13 49 3 3", "three bits for two qubits"),
    ("opening-index-two-words", opening("0 0 1"), "refused 13 48 3 3", "the first word has one bit for two qubits"),
    ("opening-index-letter-first", opening("0 o0"), "refused 13 111 3 3", "a letter is no bit"),
    ("opening-index-letter-last", opening("0 0o"), "refused 13 48 3 3", "a letter is no bit"),
    ("opening-index-digit-2", opening("0 02"), "refused 13 48 3 3", "2 is no bit"),
    ("opening-index-15-of-16", lines("qubits 16", "opens 1", "10 010101010101010"), "refused 13 48 3 4",
     "15 bits for 16 qubits"),
    ("opening-index-17-of-16", lines("qubits 16", "opens 1", "10 01010101010101011"), "refused 13 48 3 4",
     "17 bits for 16 qubits"),
    ("opening-index-2-of-1", lines("qubits 1", "opens 1", "0 00"), "refused 13 48 3 3", "two bits for one qubit"),
    ("opening-word-too-many", opening("0 00 0"), "refused 13 32 3 5", "a space in place of the line end"),
    ("opening-words-exchanged", opening("00 0"), "refused 13 48 3 1", "00 is no number"),
    ("opening-second-wrong", lines("qubits 2", "opens 2", "0 00", "1 0", "steps 0", "reads 0"), "refused 13 48 4 3",
     "one bit for two qubits in the second opening"),

    # Steps of one number: close.
    ("step-close-alone", step("close"), "refused 13 10 4 6", "the line end in place of a space"),
    ("step-close-letter", step("close r"), "refused 13 114 4 7", "no number"),
    ("step-close-two-numbers", step("close 0 1"), "refused 13 32 4 8", "a space in place of the line end"),
    ("step-close-zero-before", step("close 00"), "refused 13 48 4 7", "a needless zero"),

    # Steps of two numbers: gates on one qubit, and copy.
    ("step-x-alone", step("x"), "refused 13 10 4 2", "the line end in place of a space"),
    ("step-z-space", step("z "), "refused 13 10 4 3", "the line end in place of a register"),
    ("step-h-one-number", step("h 0"), "refused 13 10 4 4", "the line end in place of a space"),
    ("step-s-register-letter", step("s q 0"), "refused 13 113 4 3", "no number"),
    ("step-t-qubit-letter", step("t 0 q"), "refused 13 113 4 5", "no number"),
    ("step-rx-three-numbers", step("rx 0 0 1"), "refused 13 32 4 7", "a space in place of the line end"),
    ("step-ry-one-number", step("ry 3"), "refused 13 10 4 5", "the line end in place of a space"),
    ("step-h-register-zero-before", step("h 00 1"), "refused 13 48 4 3", "a needless zero"),
    ("step-h-register-six-digits", step("h 123456 0"), "refused 13 49 4 3", "a number has at most five digits"),
    ("step-h-qubit-six-digits", step("h 0 123456"), "refused 13 49 4 5", "a number has at most five digits"),
    ("step-h-qubit-minus", step("h 0 -0"), "refused 13 45 4 5", "a sign is no digit"),
    ("step-h-qubit-letter-behind", step("h 0 1a"), "refused 13 49 4 5", "a letter is no digit"),
    ("step-copy-alone", step("copy"), "refused 13 10 4 5", "the line end in place of a space"),
    ("step-copy-one-number", step("copy 0"), "refused 13 10 4 7", "the line end in place of a space"),
    ("step-copy-source-letter", step("copy a 1"), "refused 13 97 4 6", "no number"),
    ("step-copy-target-letter", step("copy 0 b"), "refused 13 98 4 8", "no number"),
    ("step-copy-three-numbers", step("copy 0 1 2"), "refused 13 32 4 9", "a space in place of the line end"),

    # Steps of three numbers: gates on two qubits.
    ("step-cx-register-letter", step("cx r 0 1"), "refused 13 114 4 4", "no number"),
    ("step-cx-control-letter", step("cx 0 c 1"), "refused 13 99 4 6", "no number"),
    ("step-cx-target-letter", step("cx 0 0 t"), "refused 13 116 4 8", "no number"),
    ("step-cx-one-number", step("cx 0"), "refused 13 10 4 5", "the line end in place of a space"),
    ("step-cz-two-numbers", step("cz 0 1"), "refused 13 10 4 7", "the line end in place of a space"),
    ("step-cz-four-numbers", step("cz 0 0 1 1"), "refused 13 32 4 9", "a space in place of the line end"),
    ("step-cz-target-zero-before", step("cz 0 0 01"), "refused 13 48 4 8", "a needless zero"),

    # Steps of four numbers: the gate on three qubits.
    ("step-ccx-register-letter", step("ccx r 0 1 2"), "refused 13 114 4 5", "no number"),
    ("step-ccx-first-control-letter", step("ccx 0 c 1 2"), "refused 13 99 4 7", "no number"),
    ("step-ccx-second-control-letter", step("ccx 0 0 c 2"), "refused 13 99 4 9", "no number"),
    ("step-ccx-target-letter", step("ccx 0 0 1 t"), "refused 13 116 4 11", "no number"),
    ("step-ccx-three-numbers", step("ccx 0 0 1"), "refused 13 10 4 10", "the line end in place of a space"),
    ("step-ccx-five-numbers", step("ccx 0 0 1 1 0"), "refused 13 32 4 12", "a space in place of the line end"),
    ("step-ccx-long-numbers", step("ccx 0 10000 200000 3"), "refused 13 50 4 13", "six digits in the second control"),

    # Words that begin no step.
    ("step-y", step("y 0 0"), "refused 13 121 4 1", "not one of the gates"),
    ("step-capital", step("H 0 0"), "refused 13 72 4 1", "a capital letter"),
    ("step-r", step("r 0 0"), "refused 13 114 4 1", "the beginning of a gate word"),
    ("step-rz", step("rz 0 0"), "refused 13 114 4 1", "not one of the gates"),
    ("step-rxx", step("rxx 0 0"), "refused 13 114 4 1", "more than a gate word"),
    ("step-c", step("c 0 0 1"), "refused 13 99 4 1", "the beginning of a gate word"),
    ("step-cc", step("cc 0 0 1 1"), "refused 13 99 4 1", "the beginning of a gate word"),
    ("step-ccz", step("ccz 0 0 1 1"), "refused 13 99 4 1", "not one of the gates"),
    ("step-cccx", step("cccx 0 0 1 2 3"), "refused 13 99 4 1", "not one of the gates"),
    ("step-copies", step("copies 0 1"), "refused 13 99 4 1", "not one of the steps"),
    ("step-open", step("open 0 00"), "refused 13 111 4 1", "not one of the steps"),
    ("step-is-opening", step("0 00"), "refused 13 48 4 1", "an opening in place of a step"),
    ("step-is-question", step("amp 0 00"), "refused 13 97 4 1", "a question in place of a step"),
    ("step-comment", step("h 0 0 # turn"), "refused 13 32 4 6", "a space in place of the line end"),
    ("step-comment-line", step("# turn"), "refused 13 35 4 1", "not one of the steps"),
    ("step-two-on-a-line", lines("qubits 2", "opens 0", "steps 2", "h 0 0 h 0 1", "reads 0"), "refused 13 32 4 6",
     "a space in place of the line end"),
    ("step-third-wrong", lines("qubits 2", "opens 0", "steps 3", "h 0 0", "cx 0 0 1", "cx 0 1", "reads 0"),
     "refused 13 10 6 7", "a number is missing in the third step"),

    # Questions.
    ("read-amp-alone", read("amp"), "refused 13 10 5 4", "the line end in place of a space"),
    ("read-amp-register-letter", read("amp r 00"), "refused 13 114 5 5", "no number"),
    ("read-amp-index-missing", read("amp 0"), "refused 13 10 5 6", "the line end in place of a space"),
    ("read-amp-index-short", read("amp 0 0"), "refused 13 48 5 7", "one bit for two qubits"),
    ("read-amp-index-long", read("amp 0 000"), "refused 13 48 5 7", "three bits for two qubits"),
    ("read-amp-index-letter", read("amp 0 1l"), "refused 13 49 5 7", "a letter is no bit"),
    ("read-amp-index-digit-2", read("amp 0 20"), "refused 13 50 5 7", "2 is no bit"),
    ("read-amp-word-too-many", read("amp 0 00 0"), "refused 13 32 5 9", "a space in place of the line end"),
    ("read-weight-alone", read("weight"), "refused 13 10 5 7", "the line end in place of a space"),
    ("read-weight-one-number", read("weight 0"), "refused 13 10 5 9", "the line end in place of a space"),
    ("read-weight-bit-missing", read("weight 0 1"), "refused 13 10 5 11", "the line end in place of a space"),
    ("read-weight-register-letter", read("weight r 0 1"), "refused 13 114 5 8", "no number"),
    ("read-weight-qubit-letter", read("weight 0 q 1"), "refused 13 113 5 10", "no number"),
    ("read-weight-bit-letter", read("weight 0 0 b"), "refused 13 98 5 12", "a letter is no bit"),
    ("read-weight-bit-2", read("weight 0 0 2"), "refused 13 50 5 12", "2 is no bit"),
    ("read-weight-bit-00", read("weight 0 0 00"), "refused 13 48 5 12", "a bit is one letter"),
    ("read-weight-bit-10", read("weight 0 0 10"), "refused 13 49 5 12", "a bit is one letter"),
    ("read-weight-word-too-many", read("weight 0 0 1 1"), "refused 13 32 5 13", "a space in place of the line end"),
    ("read-same-alone", read("same"), "refused 13 10 5 5", "the line end in place of a space"),
    ("read-same-one-register", read("same 0"), "refused 13 10 5 7", "the line end in place of a space"),
    ("read-same-first-letter", read("same r 0"), "refused 13 114 5 6", "no number"),
    ("read-same-second-letter", read("same 0 r"), "refused 13 114 5 8", "no number"),
    ("read-same-three-registers", read("same 0 1 2"), "refused 13 32 5 9", "a space in place of the line end"),
    ("read-same-six-digits", read("same 0 000001"), "refused 13 48 5 8", "six digits and needless zeros"),
    ("read-amplitude", read("amplitude 0 00"), "refused 13 97 5 1", "not one of the questions"),
    ("read-am", read("am 0 00"), "refused 13 97 5 1", "the beginning of a question word"),
    ("read-is-step", read("h 0 0"), "refused 13 104 5 1", "a step in place of a question"),
    ("read-is-answer", read("same 0 0 yes"), "refused 13 32 5 9", "a space in place of the line end"),
    ("read-is-section", read("reads 0"), "refused 13 114 5 1", "a section in place of a question"),

    # Spaces and empty lines.
    ("space-alone", " ", "refused 13 32 1 1", "a space in place of the first word"),
    ("space-first", " " + SMALLEST, "refused 13 32 1 1", "a space in place of the first word"),
    ("space-double-before-count", lines("qubits  2"), "refused 13 32 1 8", "a space in place of the count"),
    ("space-after-count", lines("qubits 2 ", "opens 0"), "refused 13 32 1 9", "a space in place of the line end"),
    ("space-before-section", lines("qubits 2", " opens 0"), "refused 13 32 2 1", "a space in place of opens"),
    ("space-after-last-count", lines("qubits 2", "opens 0", "steps 0", "reads 0 "), "refused 13 32 4 8",
     "a space in place of the line end"),
    ("space-before-opening", opening(" 0 00"), "refused 13 32 3 1", "a space in place of a register"),
    ("space-after-opening", opening("0 00 "), "refused 13 32 3 5", "a space in place of the line end"),
    ("space-before-step", step(" h 0 0"), "refused 13 32 4 1", "a space in place of a step's word"),
    ("space-double-after-gate", step("h  0 0"), "refused 13 32 4 3", "a space in place of a register"),
    ("space-double-before-last-qubit", step("ccx 0 0 1  1"), "refused 13 32 4 11", "a space in place of a qubit"),
    ("space-after-step", step("h 0 0 "), "refused 13 32 4 6", "a space in place of the line end"),
    ("space-after-short-step", step("cx 0 1 "), "refused 13 10 4 8", "the line end in place of a qubit"),
    ("space-before-question", read(" same 0 0"), "refused 13 32 5 1", "a space in place of a question's word"),
    ("space-double-before-bit", read("weight 0 0  1"), "refused 13 32 5 12", "a space in place of a bit"),
    ("space-after-question", read("same 0 0 "), "refused 13 32 5 9", "a space in place of the line end"),
    ("space-line-of-spaces", step("   "), "refused 13 32 4 1", "a space in place of a step's word"),
    ("empty-line-alone", "\n", "refused 13 10 1 1", "a line end in place of the first word"),
    ("empty-line-first", "\n" + SMALLEST, "refused 13 10 1 1", "a line end in place of the first word"),
    ("empty-line-after-qubits", lines("qubits 2", "", "opens 0"), "refused 13 10 2 1", "a line end in place of opens"),
    ("empty-line-before-opening", lines("qubits 2", "opens 1", "", "0 00"), "refused 13 10 3 1",
     "a line end in place of a register"),
    ("empty-line-after-opening", lines("qubits 2", "opens 1", "0 00", "", "steps 0"), "refused 13 10 4 1",
     "a line end in place of steps"),
    ("empty-line-between-steps", lines("qubits 2", "opens 0", "steps 2", "h 0 0", "", "h 0 1"), "refused 13 10 5 1",
     "a line end in place of a step"),
    ("empty-line-before-reads", lines("qubits 2", "opens 0", "steps 1", "h 0 0", "", "reads 0"), "refused 13 10 5 1",
     "a line end in place of reads"),
    ("empty-line-between-questions", lines("qubits 2", "opens 0", "steps 0", "reads 2", "same 0 0", "", "same 0 0"),
     "refused 13 10 6 1", "a line end in place of a question"),
    ("line-end-within-section-line", "qubits\n2\n", "refused 13 10 1 7", "a line end in place of a space"),
    ("line-end-within-step", lines("qubits 2", "opens 0", "steps 1", "cx 0", "0 1", "reads 0"), "refused 13 10 4 5",
     "a line end in place of a space"),
]


def disagreement_with_answer(name, found):
    """What the finished program's answer to a given circuit says against the verdict, or None."""
    answer = (ANSWERS / f"{name}.out").read_bytes()
    if isinstance(found, Counts):
        agrees = answer.startswith(f"qubits {found.qubits}\n".encode())
    else:
        agrees = answer == found.standard_output()
    return None if agrees else f"{name}: {found}, but its answer begins {answer[:20]!r}"


def collect():
    """The files to be written, by path, and the disagreements found on the way."""
    files, printed, disagreements = {}, [], []
    for answer in sorted(ANSWERS.glob("*.out")):
        name = answer.stem
        found = verdict((DATA / f"{name}.in").read_bytes())
        disagreements.append(disagreement_with_answer(name, found))
        printed.append((name, found))
    for name, text, by_hand, reason in HAND_MADE:
        data = text.encode("latin-1")
        found = verdict(data)
        if str(found) != by_hand:
            disagreements.append(f"{name}: {found}, by hand {by_hand} ({reason})")
        files[DATA / f"{name}.in"] = data
        printed.append((name, found))
    names = [name for name, _ in printed]
    strays = {path.stem for path in DATA.glob("*.in")} - set(names)
    disagreements += [f"{name}: a text that belongs to no case" for name in sorted(strays)]
    disagreements += [f"{name}: a name used twice" for name in sorted(set(names)) if names.count(name) > 1]
    files[DATA / "cases.txt"] = "".join(f"{name}\n" for name in names).encode()
    files[CRATE / "stdout"] = "".join(f"{name}: {found}\n" for name, found in printed).encode()
    return files, [disagreement for disagreement in disagreements if disagreement]


def main():
    """Writes or checks the files, and fails on any disagreement."""
    files, faults = collect()
    if "--check" in sys.argv[1:]:
        faults += [f"{path.name}: not as made" for path, data in files.items()
                   if not path.exists() or path.read_bytes() != data]
    elif not faults:
        for path, data in files.items():
            path.write_bytes(data)
    cases = files[DATA / "cases.txt"].count(b"\n")
    print("\n".join(faults + [f"{cases} cases, {len(HAND_MADE)} of them made by hand, {len(faults)} faults"]))
    return 1 if faults else 0


if __name__ == "__main__":
    sys.exit(main())
