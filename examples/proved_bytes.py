#!/usr/bin/env python3
"""The bytes of example sites that stand in proved statements are those of the example sites.

    proved_bytes.py              # the exit status is 0 if they are
    proved_bytes.py --self-test  # a damaged copy of each must be noticed

crates/proof_wait_cases/specs/Examples.antt writes personalities out, each behind a comment that ends in `examples/NAME`. This script works
them out and compares them with examples/NAME/personality.bin."""
import re
import sys
from pathlib import Path

HERE = Path(__file__).resolve().parent
SOURCE = HERE.parent / "crates/proof_wait_cases/specs/Examples.antt"
SITE = re.compile(r"^-- .*examples/(\w+)\n.*\n(\w+) =\n((?:    .*\n)+)", re.M)
TOKEN = re.compile(r"\(|\)|\[\]|∷|\+\+|\w+")


def two(number):
    return [number % 256, number // 256]


def section(kind, body):
    return two(len(body)) + two(kind) + body


# The functions of crates/rules/specs/Junctions.antt that the statements use.
FUNCTIONS = {
    "two": two,
    "twos": lambda numbers: [byte for number in numbers for byte in two(number)],
    "fours": lambda numbers: [byte for number in numbers for byte in two(number % 65536) + two(number // 65536)],
    "sections": lambda *bodies: [byte for kind, body in enumerate(bodies, 1) for byte in section(kind, body)],
    "cut_offs": lambda times: section(7, FUNCTIONS["twos"](times)),
}


def value(tokens):
    """The value of the tokens up to a closing bracket or the end: applications, joined from the right by ∷ and ++."""
    words = []
    while tokens and tokens[0] not in (")", "∷", "++"):
        token = tokens.pop(0)
        if token == "(":
            words.append(value(tokens))
            tokens.pop(0)
        else:
            words.append([] if token == "[]" else int(token) if token.isdigit() else FUNCTIONS[token])
    left = words[0](*words[1:]) if callable(words[0]) else words[0]
    if not tokens or tokens[0] == ")":
        return left
    return ([left] if tokens.pop(0) == "∷" else left) + value(tokens)


def differing(text):
    """The sites of the text whose bytes are not those of their example."""
    sites = SITE.findall(text)
    return [name for name, _, body in sites if bytes(value(TOKEN.findall(body))) != (HERE / name / "personality.bin").read_bytes()], sites


def main(arguments):
    text = SOURCE.read_text(encoding="utf-8")
    wrong, sites = differing(text)
    print(f"{len(sites)} sites, {len(wrong)} differ: {' '.join(wrong) or 'none'}")
    if not sites or wrong:
        return 1
    if arguments == ["--self-test"]:
        for name, _, body in sites:
            number = re.search(r"\d+", body)[0]
            damaged = text.replace(body, body.replace(number, str(int(number) + 1), 1))
            if differing(damaged)[0] != [name]:
                print(f"a damaged {name} is not noticed")
                return 1
    return 0


if __name__ == "__main__":
    sys.exit(main(sys.argv[1:]))
