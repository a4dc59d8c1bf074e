#!/usr/bin/env python3
"""Runs the built program on every text of crates/text_cases/data and checks what it does.

    python3 tests/run_vectors.py [PROGRAM]    PROGRAM is crates/slicesim/out/slicesim if not given

Each text is given on standard input and as a file. Standard output, exit status and
standard error must be as form_oracle.py says. Beyond these texts, it tries inputs
without an end, which must be refused as too long, and files that cannot be read.
"""

import sys
from pathlib import Path
from subprocess import DEVNULL

from form_oracle import TEXT_LIMIT, TOO_LONG, Refusal, complaint, program_path, verdict

DATA = Path(__file__).resolve().parent.parent / "crates/text_cases/data"


def runs(program):
    """Yields for each run what it is about and the complaint about it, or None."""
    for path in sorted(DATA.glob("*.in")):
        data = path.read_bytes()
        expected = verdict(data)
        yield f"{path.name} on standard input", complaint([program], expected, input=data)
        yield f"{path.name} as a file", complaint([program, path], expected, stdin=DEVNULL)
    endless = Refusal(TOO_LONG, TEXT_LIMIT + 1, 1, 1)
    with open("/dev/zero", "rb") as zeros:
        yield "endless standard input", complaint([program], endless, stdin=zeros)
    yield "endless file", complaint([program, "/dev/zero"], endless, stdin=DEVNULL)
    yield "missing file", complaint([program, DATA / "no-such-file"], None, stdin=DEVNULL)
    yield "directory as a file", complaint([program, DATA], None, stdin=DEVNULL)


def main():
    """Prints each complaint and the number of runs."""
    done = list(runs(program_path(*sys.argv[1:2])))
    faults = [f"{about}: {found}" for about, found in done if found]
    print("\n".join(faults + [f"{len(done)} runs, {len(faults)} faults"]))
    return 1 if faults else 0


if __name__ == "__main__":
    sys.exit(main())
