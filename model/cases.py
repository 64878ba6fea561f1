#!/usr/bin/env python3
"""The case file that crates/conformance is held to, and its lines (docs/CASES.md).

    python3 model/cases.py A.cases A.expected [B.cases B.expected ..]   writes crates/conformance/stdin and stdout
    python3 model/cases.py --check                                      tells whether they are what the model gives today
    python3 model/cases.py --run FILE                                   prints the lines that the model gives for a case file

stdin is the outside part, the named files in this order, and then our own part: the bench examples, the evening's batches, the channels,
the ages, the bad areas, the protected files, the places, the labels, the tapes (absolute load files), the pieces (load files that come in
pieces), the squeezes, the repairs, the proposals, the trials and one seed of random requests. Its lines come from the model alone.
"""
import itertools
import pathlib
import sys

import ages
import bads
import bench
import casefile
import channels
import evening
import guards
import labels
import pieces
import places
import proposals
import repairs
import requests
import squeezes
import tapes
import trials

CONFORMANCE = pathlib.Path(__file__).resolve().parent.parent / "crates" / "conformance"
STDIN, STDOUT = CONFORMANCE / "stdin", CONFORMANCE / "stdout"
SEED, DIRECTORIES = 1976, 150
END_RECORD = b"\0\0"


def own_part():
    case = casefile.CaseFile()
    bench.add(case)
    evening.add(case)
    channels.add(case)
    ages.add(case)
    bads.add(case)
    guards.add(case)
    places.add(case)
    labels.add(case)
    tapes.add(case)
    pieces.add(case)
    squeezes.add(case)
    repairs.add(case)
    proposals.add(case)
    trials.add(case)
    requests.add(case, SEED, DIRECTORIES)
    case.end()
    return case


def write(paths):
    """The paths are in turn a case file's and its lines'. A file's last word, where it is 0, is its end record, and is left out."""
    files = [pathlib.Path(path).read_bytes() for path in paths]
    case = own_part()
    STDIN.write_bytes(b"".join(records.removesuffix(END_RECORD) for records in files[::2]) + case.record_bytes())
    STDOUT.write_bytes(b"".join(files[1::2]) + case.line_bytes())


def first_difference(stored, lines):
    """The place, from 1, of the first line that is not the stored one; 0 where all are."""
    return next((i for i, (old, new) in enumerate(itertools.zip_longest(stored, lines), 1) if old != new), 0)


def compare(what, stored, lines):
    line = first_difference(stored, lines)
    if line:
        sys.exit(f"cases.py: {what} differs in crates/conformance/stdout from what the model gives, first at its line {line}")
    print(f"{what}: {len(lines)} lines are as the model gives them")


def check_outside(records, lines):
    try:
        compare("the outside part", lines, casefile.run(records + END_RECORD).lines)
    except casefile.UnknownType as unknown:
        print(f"the outside part: not compared, since {unknown}")


def check():
    """The random requests depend on the words that the model made before them, so a changed rule can change the records too."""
    case = own_part()
    records, lines = STDIN.read_bytes(), STDOUT.read_text().splitlines()
    if not records.endswith(case.record_bytes()):
        sys.exit("cases.py: our own part in crates/conformance/stdin has other records than the model makes today")
    compare("our own part", lines[-len(case.lines) :], case.lines)
    check_outside(records.removesuffix(case.record_bytes()), lines[: -len(case.lines)])


def main():
    arguments = sys.argv[1:]
    if arguments == ["--check"]:
        check()
    elif len(arguments) == 2 and arguments[0] == "--run":
        sys.stdout.buffer.write(casefile.run(pathlib.Path(arguments[1]).read_bytes()).line_bytes())
    elif arguments and len(arguments) % 2 == 0:
        write(arguments)
    else:
        sys.exit(__doc__)


if __name__ == "__main__":
    main()
