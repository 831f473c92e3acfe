"""Building and running the programs, and telling what they wrote apart."""

import os
import pathlib
import re
import shutil
import signal
import subprocess
import sys

ROOT = pathlib.Path(__file__).resolve().parent.parent
REFERENCE = ROOT / "target" / "reference" / "release" / "reference"
REPORT = ROOT / "crates" / "report" / "out" / "report"
REPLAY = ROOT / "crates" / "replay" / "out" / "replay"

# A program that has not answered by then never will.
SECONDS_ALLOWED = 20


def build_reference():
    """Builds the reference program for release and returns its path."""
    subprocess.run(
        [
            "cargo",
            "build",
            "--quiet",
            "--offline",
            "--release",
            f"--manifest-path={ROOT / 'tools' / 'reference' / 'Cargo.toml'}",
            f"--target-dir={ROOT / 'target' / 'reference'}",
        ],
        check=True,
    )
    return REFERENCE


def existing_command(words):
    """The words of a command whose program is there."""
    found = shutil.which(words[0])
    if found is None:
        sys.exit(f"{words[0]}: no such program; build it first")
    return [os.path.abspath(found), *words[1:]]


class StillRunning(Exception):
    pass


def give_up(_signal, _frame):
    raise StillRunning


def complaint(command, given):
    """What the program writes to standard error."""
    done = subprocess.run(command, input=given, capture_output=True, timeout=SECONDS_ALLOWED)
    return done.stderr


def run(command, given, seconds=SECONDS_ALLOWED):
    """What the program writes on the given bytes, and its exit status. Files in
    memory take the place of pipes: nobody has to wait for anybody."""
    command = [os.fspath(word) for word in command]
    source = os.memfd_create("given")
    target = os.memfd_create("written")
    try:
        os.write(source, given)
        os.lseek(source, 0, os.SEEK_SET)
        actions = [
            (os.POSIX_SPAWN_DUP2, source, 0),
            (os.POSIX_SPAWN_DUP2, target, 1),
            (os.POSIX_SPAWN_OPEN, 2, os.devnull, os.O_WRONLY, 0),
        ]
        process = os.posix_spawn(command[0], command, {}, file_actions=actions)
        status = wait_for(process, seconds)
        size = os.fstat(target).st_size
        return os.pread(target, size, 0), status
    finally:
        os.close(source)
        os.close(target)


def wait_for(process, seconds):
    """The exit status of a process, or None if it had to be stopped."""
    signal.signal(signal.SIGALRM, give_up)
    signal.alarm(seconds)
    try:
        _, status = os.waitpid(process, 0)
        return os.waitstatus_to_exitcode(status)
    except StillRunning:
        os.kill(process, signal.SIGKILL)
        os.waitpid(process, 0)
        return None
    finally:
        signal.alarm(0)


def outcome(report):
    """The kind of a report, for counting."""
    letter, first = report[:1], report[1:5].strip()
    if not first.isdigit():
        return "not a report"
    if letter == b"!":
        return f"refused {int(first)}"
    if letter == b"V":
        return "nothing empty" if report[1:9].split() == [b"0", b"0"] else "some empty"
    return "not a report"


# The kinds of answers to a call, and what their lines end in.
ANSWERS = [
    ("done", rb": done"),
    ("dropped", rb": \d+ dropped"),
    ("nothing empty", rb": 0 forced empty"),
    ("some empty", rb": \d+ forced empty: [a-z0-9, ]+"),
    ("yes", rb": yes"),
    ("no", rb": no"),
    ("counts", rb": \d+ classes, \d+ arrows"),
    ("a number", rb": \d+"),
    ("no row", rb": none"),
    ("no such call here", rb": no such call here"),
    ("no such part", rb": no such part"),
    ("a row", rb": . \d+ \d+ \d+"),
]
ANSWER = re.compile(
    b"|".join(b"(%s$)" % form for _, form in ANSWERS) + rb"|: refused (\d+): [ -~]+$", re.DOTALL
)
ASKED = re.compile(rb"^\d+: \w+ ask (.)", re.DOTALL)


def answer_kind(line):
    """The kind of one line of answers, for counting."""
    found = ANSWER.search(line)
    if not found:
        return "not an answer"
    number = found.group(len(ANSWERS) + 1)
    if number:
        return f"refused {int(number)}"
    return ANSWERS[found.lastindex - 1][0]


def outcomes(kind, written, status):
    """The kinds of all that was written on one case, for counting."""
    if kind == "texts":
        return [outcome(written)]
    if status:
        return ["bad script"]
    lines = written.split(b"\n")[:-1]
    if kind == "lives":
        return [answer_kind(line) for line in lines]
    kinds = []
    for line in lines[1:]:
        answer = answer_kind(line)
        letter = ASKED.match(line).group(1).decode("latin-1")
        kinds.append(f"{letter} {answer}" if answer in ("yes", "no") else answer)
    return kinds


def outcome_order(item):
    """Refusals after answers, and by their numbers."""
    name = item[0]
    number = int(name.split()[1]) if name.startswith("refused") else 0
    return number, name
