#!/usr/bin/env python3
"""Checks the reference program against the definitions taken at their word.

    tools/oracle.py [--kind texts|questions|lives ...] [--seeds N] [--first SEED]
                    [--family FAMILY ...] [--report COMMAND] [--replay COMMAND]
    tools/oracle.py --text FILE        prints the report on one text
    tools/oracle.py --script FILE      prints what replaying one script writes

A seed is a text of each family, a script of 20 questions, or a life of 50
calls. All are small, since the definitions (definitions.py) and the plain model
of the pile (piles.py) are slow. A COMMAND is checked in place of the reference.
"""

import argparse
import collections
import pathlib
import shlex
import sys

sys.dont_write_bytecode = True
import definitions
import families
import piles
import programs
import scripts

QUESTIONS_EACH = 20


def text_cases(options):
    for family in options.family or ["small"]:
        for seed in range(options.first, options.first + options.seeds):
            text = families.make(family, seed)
            yield f"{family} {seed}", text, (definitions.report(text), 0)


def question_cases(options):
    for seed in range(options.first, options.first + options.seeds):
        script = scripts.make_questions(seed, QUESTIONS_EACH, small=True)
        yield f"questions {seed}", script, piles.replay(script)


def life_cases(options):
    for seed in range(options.first, options.first + options.seeds):
        script = scripts.make_life(seed, small=True)
        yield f"life {seed}", script, piles.replay(script)


CASES = {"texts": text_cases, "questions": question_cases, "lives": life_cases}


def check(kind, options, command):
    """Compares all cases of a kind, and counts what they gave."""
    counts = collections.Counter()
    passed = 0
    for label, given, expected in CASES[kind](options):
        if programs.run(command, given) != expected:
            print(f"{label}: the program differs; expected with exit status {expected[1]}")
            sys.stdout.flush()
            sys.stdout.buffer.write(expected[0])
            print(f"{passed} passed, 1 failed")
            sys.exit(1)
        counts.update(programs.outcomes(kind, *expected))
        passed += 1
    print(f"{kind}: {passed}")
    for outcome, count in sorted(counts.items(), key=programs.outcome_order):
        print(f"{count:9} {outcome}")
    return passed


def main():
    parser = argparse.ArgumentParser(
        description="Checks the reference program against the definitions taken at their word."
    )
    parser.add_argument("--kind", action="append", choices=CASES)
    parser.add_argument("--seeds", type=int, default=1000, help="cases of each kind")
    parser.add_argument("--first", type=int, default=0, help="the first seed")
    parser.add_argument("--family", action="append", choices=families.FAMILIES)
    parser.add_argument("--report", type=shlex.split, help="what reports on texts")
    parser.add_argument("--replay", type=shlex.split, help="what replays scripts")
    parser.add_argument("--text", type=pathlib.Path, help="print the report on this text")
    parser.add_argument("--script", type=pathlib.Path, help="print the answers to this script")
    options = parser.parse_args()
    if options.text:
        sys.stdout.buffer.write(definitions.report(options.text.read_bytes()))
        return
    if options.script:
        written, status = piles.replay(options.script.read_bytes())
        sys.stdout.buffer.write(written)
        sys.exit(status)
    reference = programs.build_reference()
    report = programs.existing_command(options.report or [reference])
    replay = programs.existing_command(options.replay or [reference, "replay"])
    passed = 0
    for kind in options.kind or CASES:
        passed += check(kind, options, report if kind == "texts" else replay)
    print(f"{passed} passed, 0 failed")


if __name__ == "__main__":
    main()
