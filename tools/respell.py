#!/usr/bin/env python3
"""Brings the repository's own names of definitions and lemmas to the library's spelling.

usage: python3 tools/respell.py            at the top of the repository, once, after the toolchain's own upgrade script

Functions, lemmas, fields and bound names are in snake case (value-at becomes value_at), facts and other types in upper
camel case (Slice-added becomes SliceAdded). Names of the library, names that the toolchain makes of the code, comments and
strings stay as they are.
"""

import collections
import os
import re
import sys

# A name that would fall together with another one gets a name of its own.
BY_HAND = {"Circuit-text": "IsCircuitText"}

NAME = r"[^\s(){}\[\];,.:`\"λ«»|@]+"
DECLARED = re.compile(
    rf"\s*(?:(?:pub|abbrev|unfoldable|record|data)\s+)+({NAME})|\s*({NAME})(?:\s+[({{][^=]*)?\s*:\s"
)
BOUND = re.compile(rf"\blet\s+({NAME})\s*[:=]|λ\s+\(?({NAME})\s*[:.]|[({{]((?:{NAME}\s+)*{NAME})\s+:\s")
IMPORT = re.compile(r"^\s*(?:pub )?(?:ghost )?use ([\w.'+«»]+)\.\{([^}]*)\}")
ANSWER = re.compile(rf"({NAME})\s*:\s*(?:goal|Goals|given|Given)\.")
# Made by the toolchain of the code: what a value is after a branch, the second call of a function.
MADE = re.compile(r"(\w+-is|word-\d)$")
ANSWERS = ("Answers.antt", "Invariants.antt", "Proof.antt")


def texts(ending):
    for folder, folders, files in os.walk("crates"):
        folders[:] = sorted(f for f in folders if f != "out")
        for file in sorted(files):
            if file.endswith(ending):
                path = os.path.join(folder, file)
                with open(path, encoding="utf-8") as f:
                    yield path, f.read()


def dashed(name):
    return "-" in name.strip("-") and not name.startswith("--") and re.search(r"\w-\w", name)


def own_names():
    own, kept = set(), set()
    for path, text in texts(".antt"):
        for line in text.split("\n"):
            if line.strip().startswith("--"):
                continue
            use = IMPORT.match(line)
            if use:
                if use[1].startswith("Rattle.std") or re.search(r"\.(Goals|Given)$", use[1]):
                    kept |= {n.strip().split(" as ")[0] for n in use[2].split(",")}
                continue
            kept |= set(ANSWER.findall(line))
            found = DECLARED.match(line)
            if found:
                own.add(found[1] or found[2])
            for bound in BOUND.findall(line):
                own |= {n for part in bound for n in part.split()}
    return {n for n in own - kept if dashed(n)}


def respelled(name):
    if name in BY_HAND:
        return BY_HAND[name]
    if name[0].isupper():
        return "".join(part[:1].upper() + part[1:] for part in name.split("-"))
    return re.sub(r"(?<=\S)-(?=\S)", "_", name)


def turn_code(code, names, in_answers):
    def one(found):
        name = found[0]
        after_dot = found.start() > 0 and code[found.start() - 1] == "."
        if name not in names or (in_answers and after_dot and MADE.match(name)):
            return name
        return names[name]

    return re.sub(NAME, one, code)


def turn(text, names, comment, in_answers):
    lines = []
    for line in text.split("\n"):
        # a string, the code before it, or the comment at the end of the line
        parts = re.split(r'("(?:[^"\\]|\\.)*")', line)
        out, open_comment = [], False
        for part in parts:
            if open_comment or part.startswith('"'):
                out.append(part)
                continue
            at = re.search(comment, part)
            if at:
                open_comment = True
                out.append(turn_code(part[: at.start()], names, in_answers) + part[at.start() :])
            else:
                out.append(turn_code(part, names, in_answers))
        lines.append("".join(out))
    return "\n".join(lines)


def main():
    names = {n: respelled(n) for n in own_names()}
    together = collections.Counter(names.values())
    clash = sorted(n for n, new in names.items() if together[new] > 1)
    if clash:
        sys.exit(f"respell: these names fall together: {', '.join(clash)}")
    changed = 0
    for ending, comment in ((".antt", r"(?:^|(?<=\s))--(?=\s|$)"), (".rt", r"//")):
        for path, text in texts(ending):
            new = turn(text, names, comment, os.path.basename(path) in ANSWERS)
            if new != text:
                changed += 1
                with open(path, "w", encoding="utf-8") as f:
                    f.write(new)
    print(f"respell: {len(names)} names, {changed} files")


if __name__ == "__main__":
    main()
