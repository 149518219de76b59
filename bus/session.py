"""The session program, run from Python: what each line of its input prints."""
import os
import pathlib
import subprocess
import sys

ROOT = pathlib.Path(__file__).resolve().parent.parent
PROGRAM = ROOT / "target" / "bin" / "session"

# Two lines that the session refuses, so they change nothing, and what it prints for them. They follow each line of the
# input: what is printed before them is the answer to that line.
MARK = ["S 9999999", "F 800 0"]
MARKED = ["E 3", "E 1"]


def run(text):
    """The bytes that the session prints for the bytes of its input."""
    if not PROGRAM.exists():
        sys.exit("there is no session program: run `tools/session` first")
    command = [ROOT / "host" / "run", PROGRAM]
    return subprocess.run(command, input=text, stdout=subprocess.PIPE, check=True).stdout


def answers(lines):
    """The line that the session prints for each line of the input, or None where it prints nothing."""
    marked = "".join("\n".join([line, *MARK]) + "\n" for line in lines)
    printed = run(marked.encode()).decode().splitlines()
    found = []
    at = 0
    for _ in lines:
        own = None
        if printed[at:at + 2] != MARKED:
            own = printed[at]
            at += 1
        if printed[at:at + 2] != MARKED:
            sys.exit(f"the session printed more than a line, or stopped: {printed[at:at + 2]}")
        found.append(own)
        at += 2
    return found


def not_tried(words):
    """Says what a check leaves out because a tool is not installed. Where the gate could install all of them, GATE_ALL is set: then it fails."""
    print(words)
    if os.environ.get("GATE_ALL"):
        sys.exit("GATE_ALL is set: nothing may be left out")
