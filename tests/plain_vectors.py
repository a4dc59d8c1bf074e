#!/usr/bin/env python3
"""Runs the definitions of the plain machine on circuits and compares the answers.

    python3 tests/plain_vectors.py            the circuits of up to 4 qubits that have a file in tests/answers
    python3 tests/plain_vectors.py NAME ..    these circuits only

A circuit text is turned into a list of calls, and its file in tests/answers, which was not made by the plain
machine, into the answers expected. A crate made for the occasion says of every circuit that the definitions
give these answers, and the prover checks that by computing them. Then another last answer is claimed of every
circuit, which the prover must refuse. RT names the command of the toolchain if it is not `rt`.
"""

import os
import re
import shutil
import subprocess
import sys
import tempfile
from collections import namedtuple
from pathlib import Path

REPOSITORY = Path(__file__).resolve().parent.parent
CIRCUITS = REPOSITORY / "crates/text_cases/data"
ANSWERS = REPOSITORY / "tests/answers"
CRATES = "gates exact matrices functions adder slicing recipes diagrams calls plain plain_examples".split()
MOST_QUBITS = 4
LIMIT = 2048
# In longer runs no space is reckoned, by a rule that gives no function any part: the prover would need more steps than
# it takes for one proof.
LONGEST_WITH_SPACE = 30
# The entries of these grow to 19 bits, and the definition of the width takes as many steps as an entry is large.
LEFT_OUT = ("power-40", "refused-10")

# Refusals while a circuit runs. The value of these is the word at the place that the output names;
BY_WORD = {2: "NoSuchRegister {}", 3: "RegisterEmpty {}", 4: "RegisterOpen {}",
           6: "QubitOutOfRange (qubit {})", 7: "QubitTwice (qubit {})"}
# that of 9 is the limit; and a gate raises the power, which was at most 40, by 1 at most, so that of 10 is 41.
BY_LINE = {9: f"Store (NoSpace {LIMIT})", 10: "PowerTooHigh (record { 0 = 41 })"}

FUNCTION = """
/// The plain machine answers as expected.
pub fn {name}()
    ensures {{ {module}Agrees }}
{{}}
"""

SPEC_USES = """\
-- One circuit and the answers expected.
use Rattle.std.specs.Prelude.{◌≡◌, true, false, List, [], ◌∷◌, pos, negsuc, Ok, Err}
use Rattle.exact.specs.Quadruples.{quadruple}
use Rattle.functions.specs.declared.faults.StoreFault.TheVariants.{NoSpace}
use Rattle.functions.specs.Meanings.{Setting}
use Rattle.gates.specs.declared.Gate.TheVariants.{X, Z, H, S, T, Rx, Ry, Cx, Cz, Ccx}
use Rattle.calls.specs.declared.Answer.TheVariants as answered
use Rattle.calls.specs.declared.Answer.TheVariants.{Done}
use Rattle.calls.specs.declared.Call.{Call}
use Rattle.calls.specs.declared.Call.TheVariants.{Open, Gate, Copy, Close, Amplitude, Weight, Same}
use Rattle.calls.specs.declared.faults.SimulatorFault.TheVariants.{NoSuchRegister, RegisterEmpty, RegisterOpen, QubitOutOfRange, QubitTwice, PowerTooHigh, Store}
use Rattle.plain.specs.Runs.{Outcome, answers_of_run}
use Rattle.plain_examples.specs.Examples.{node_store, qubit}
"""

ANSWER = """\
use Rattle.std.proofs.Common.{{refl}}
use Rattle.plain_examples.proofs.Computing.{{a_run}}
use Rattle.trial.proofs.{name}.Goals as goal

pub returns : goal.returns
unfolding a_run
returns c = refl
"""

Line = namedtuple("Line", "number words kind")

# The lines as far as the program gets, and their answers.
Run = namedtuple("Run", "name qubits lines answers")


# ---- as the definitions write it

def listed(items):
    """A list."""
    return " ∷ ".join([*items, "[]"])


def integer(value):
    """An integer."""
    return f"(pos {value})" if value >= 0 else f"(negsuc {-value - 1})"


def quadruple(parts):
    """A quadruple."""
    return "quadruple " + " ".join(integer(int(part)) for part in parts)


def power(word):
    """A power of root two or of two."""
    return f"record {{ 0 = {word} }}"


def opening(words):
    """The call of an opening's line."""
    return f"Open {words[0]} {int(words[1], 2)}"


def step(words):
    """The call of a step's line. A gate's array of three qubits is filled up with zeros."""
    name, *numbers = words
    if name == "copy":
        return f"Copy {numbers[0]} {numbers[1]}"
    if name == "close":
        return f"Close {numbers[0]}"
    three = (numbers[1:] + ["0", "0"])[:3]
    return f"Gate {name.capitalize()} {numbers[0]} ({listed([f'qubit {word}' for word in three])})"


def question(words):
    """The call of a question's line."""
    if words[0] == "amp":
        return f"Amplitude {words[1]} {int(words[2], 2)}"
    if words[0] == "weight":
        return f"Weight {words[1]} (qubit {words[2]}) {'true' if words[3] == '1' else 'false'}"
    return f"Same {words[1]} {words[2]}"


CALLS = {"opens": opening, "steps": step, "reads": question}


def answer(words, line):
    """The answer to a question, of the line of the output that repeats its words and goes on with the answer."""
    told = line.split(" ")
    assert told[:len(words)] == words, line
    told = told[len(words):]
    if words[0] == "amp":
        return f"Ok (answered.Amplitude (record {{ quadruple = {quadruple(told[:4])}; power = {power(told[4])} }}))"
    if words[0] == "weight":
        return f"Ok (answered.Weight (record {{ whole = {told[0]}; root = {integer(int(told[1]))}; power = {power(told[2])} }}))"
    return f"Ok (answered.Same {'true' if told == ['yes'] else 'false'})"


def refusal(text, number, line, column):
    """The answer of a line `refused`."""
    fault = BY_LINE.get(number) or BY_WORD[number].format(text[line - 1][column - 1:].split(" ")[0])
    return f"Err ({fault})"


def definition(name, kind, value):
    """A definition."""
    return f"abbrev pub {name} : {kind}\n{name} = {value}\n"


# ---- circuits

def lines_of(text):
    """The lines of a circuit text that are calls."""
    kind = None
    for number, line in enumerate(text, 1):
        words = line.split(" ")
        if words[0] in ("qubits", "opens", "steps", "reads"):
            kind = words[0]
        else:
            yield Line(number, words, kind)


def run_of(name, text, output):
    """The run of a circuit, of its text and the output expected."""
    assert output[0] == text[0], output[0]
    run = Run(name, int(text[0].split(" ")[1]), [], [])
    output = output[1:]
    refused = None
    if output and output[-1].startswith("refused "):
        refused = [int(word) for word in output.pop().split(" ")[1:]]
    for line in lines_of(text):
        run.lines.append(line)
        if refused and line.number == refused[1]:
            run.answers.append(refusal(text, *refused))
            refused = None
            break
        run.answers.append(answer(line.words, output.pop(0)) if line.kind == "reads" else "Ok Done")
    assert not output and not refused, (output, refused)
    return run


def runs(names):
    """The runs that are wanted. A text that is refused for its form has none."""
    for path in sorted(ANSWERS.glob("*.out")):
        text = (CIRCUITS / f"{path.stem}.in").read_bytes().decode("latin-1").splitlines()
        output = path.read_text().splitlines()
        if output[0].startswith("refused ") or names and path.stem not in names:
            continue
        if names or int(text[0].split(" ")[1]) <= MOST_QUBITS:
            yield run_of(path.stem, text, output)


def has_space(run):
    """Whether space is reckoned in a run."""
    return len(run.lines) <= LONGEST_WITH_SPACE


def turned(run):
    """The run with another last answer."""
    last = "Err (RegisterEmpty 0)" if run.answers[-1] == "Ok Done" else "Ok Done"
    return run._replace(answers=run.answers[:-1] + [last])


# ---- the crate

class Trial:
    """A crate that says of circuits that the plain machine's answers are those given."""

    def __init__(self, place, some_runs):
        self.place = Path(place)
        for name in CRATES:
            shutil.copytree(REPOSITORY / "crates" / name, self.place / "crates" / name,
                            ignore=shutil.ignore_patterns("must-fail", "out"))
        lines = (REPOSITORY / "crates.txt").read_text().splitlines()
        kept = [line for line in lines if line.split(":")[0] in CRATES]
        (self.place / "crates.txt").write_text("\n".join(kept + [f"trial: {' '.join(CRATES)}", ""]))
        self.write_crate(some_runs)

    def write(self, name, text):
        """Writes a file of the crate."""
        path = self.place / "crates/trial" / name
        path.parent.mkdir(parents=True, exist_ok=True)
        path.write_text(text)

    def write_crate(self, some_runs):
        """Writes a function for each circuit, whose contract the definitions of the circuit state."""
        modules = [module(run) for run in some_runs]
        uses = "".join(f"ghost use Rattle.trial.specs.{name}.{{{name}Agrees}};\n" for name in modules)
        functions = "".join(FUNCTION.format(name=identifier(run), module=module(run)) for run in some_runs)
        self.write("src/lib.rt", "//! Circuits.\n#![tactic(auto)]\n\n" + uses + functions)
        self.write("specs/Lib.antt", "".join(f"pub mod {name}\n" for name in modules))
        for run in some_runs:
            self.write(f"proofs/{identifier(run)}/Answers.antt", ANSWER.format(name=identifier(run)))

    def check(self, some_runs):
        """The names of the circuits whose answers the prover passes, and of those it refuses, and what it says."""
        for run in some_runs:
            self.write(f"specs/{module(run)}.antt", circuit_text(run))
        done = subprocess.run([os.environ.get("RT", "rt"), "check"], cwd=self.place / "crates/trial", text=True,
                              stdout=subprocess.PIPE, stderr=subprocess.STDOUT, check=False)
        said = dict(re.findall(r"^fn trial::(\w+): (.*)$", done.stdout, re.M))
        passed = {name for name, verdict in said.items() if verdict == "proved"}
        refused = {name for name, verdict in said.items() if verdict == "not proved"}
        return passed, refused, done.stdout


def identifier(run):
    """The name of a circuit's function."""
    return run.name.replace("-", "_")


def module(run):
    """The name of the module with a circuit's definitions."""
    return "".join(word.capitalize() for word in run.name.split("-"))


def circuit_text(run):
    """The definitions of a circuit: its calls, the answers expected, and that the plain machine gives them."""
    setting = f"node_store {run.qubits} {LIMIT}"
    if not has_space(run):
        setting = f"record {{ qubits = {run.qubits}; limit = {LIMIT}; parts = λ f. [] }}"
    return "\n".join([
        SPEC_USES,
        definition("setting", "Setting", setting),
        definition("asked", "List Call", listed([CALLS[line.kind](line.words) for line in run.lines])),
        definition("expected", "List Outcome", listed(run.answers)),
        definition(f"{module(run)}Agrees", "Type 0", "answers_of_run setting asked ≡ expected"),
    ])


def main():
    """Checks all circuits, prints what was found of each, and the prover's words if something failed."""
    wanted = [run for run in runs(sys.argv[1:]) if run.name not in LEFT_OUT]
    with tempfile.TemporaryDirectory() as place:
        trial = Trial(place, wanted)
        passed, _, right_log = trial.check(wanted)
        _, refused, wrong_log = trial.check([turned(run) if run.lines else run for run in wanted])
    failed = False
    for run in wanted:
        if identifier(run) not in passed:
            failed = True
            print(f"FAILED: {run.name}")
        elif run.lines and identifier(run) not in refused:
            failed = True
            print(f"FAILED: {run.name}, another last answer is not refused")
        else:
            print(f"passed: {run.name}, {len(run.lines)} calls{'' if has_space(run) else ', without reckoning space'}")
    print(f"left out: {', '.join(LEFT_OUT)}")
    if failed:
        print(right_log, wrong_log, sep="\n")
    return 1 if failed else 0


if __name__ == "__main__":
    sys.exit(main())
