#!/usr/bin/env python3
"""stack.py OBJECT: the most stack that each export of an object of host/cross can use on a Cortex-M.

OBJECT.o has OBJECT.su beside it, clang's list of the bytes of stack of each function. A line has the export, the greatest sum of these
bytes along the calls, and the library's functions among the calls, whose stack is not counted. Exits 1 at a recursion, at a
call by pointer and at a function whose stack is not of a fixed size: there is no bound then.
"""
import os
import re
import subprocess
import sys

FUNCTION = re.compile(r"^[0-9a-f]+ <(.+)>:$")
CALL = re.compile(r"\bR_ARM_THM_(?:CALL|JUMP\d+)\s+(\S+)$")
# bl names its own section's start where a relocation follows, and else what it calls
BRANCH_AND_LINK = re.compile(r"\tbl\s+[0-9a-f]+ <([^+>]+)")
# blx and bx with a register other than lr, and a load or move to pc; returns are `bx lr` and `pop {.., pc}`
BY_POINTER = re.compile(r"\t(blx\s+(?:r\d+|ip)|bx\s+(?:r\d+|ip)|mov\s+pc,|ldr(?:\.w)?\s+pc,)")


class NoBound(Exception):
    """The stack has no bound that this program can find."""


def frames_of(path):
    """The bytes of stack of each function, from lines FILE:FUNCTION<tab>BYTES<tab>KIND."""
    frames = {}
    with open(path, encoding="ascii") as file:
        for line in file:
            where, size, kind = line.rstrip("\n").split("\t")
            name = where.partition(":")[2]
            if kind != "static":
                raise NoBound(f"the stack of {name} is {kind}")
            frames[name] = int(size)
    return frames


def calls_of(path):
    """The functions that each function calls: the relocations of its branches, and calls within its own section."""
    command = ["arm-none-eabi-objdump", "-dr", path]
    lines = subprocess.run(command, capture_output=True, text=True, check=True).stdout.splitlines()
    calls, function = {}, None
    for line, after in zip(lines, lines[1:] + [""]):
        begins, called, linked = FUNCTION.match(line), CALL.search(line), BRANCH_AND_LINK.search(line)
        if begins:
            function = begins.group(1)
            calls[function] = set()
        elif called:
            calls[function].add(called.group(1))
        elif linked and not CALL.search(after):
            calls[function].add(linked.group(1))
        elif BY_POINTER.search(line):
            raise NoBound(f"{function} calls by pointer: {' '.join(line.split())}")
    return calls


def bound(function, frames, calls, path=()):
    """The most bytes of stack from a function on, and the library's functions that it can reach."""
    if function in path:
        raise NoBound(f"recursion: {' '.join(path)} {function}")
    if function not in frames:
        return 0, {function}
    deepest, library = 0, set()
    for called in calls[function]:
        depth, reached = bound(called, frames, calls, path + (function,))
        deepest = max(deepest, depth)
        library |= reached
    return frames[function] + deepest, library


def main(arguments):
    """Prints the lines; answers what the program exits with."""
    if len(arguments) != 1:
        print("usage: stack.py OBJECT", file=sys.stderr)
        return 2
    try:
        frames = frames_of(os.path.splitext(arguments[0])[0] + ".su")
        calls = calls_of(arguments[0])
        if set(frames) != set(calls):
            raise NoBound("the .su file is of another object")
        for export in sorted(name for name in frames if name.startswith("haybleater_at_")):
            depth, library = bound(export, frames, calls)
            print(export.removeprefix("haybleater_at_"), depth, *sorted(library))
    except (OSError, ValueError, subprocess.CalledProcessError, NoBound) as problem:
        print(f"stack.py: {arguments[0]}: {problem}", file=sys.stderr)
        return 1
    return 0


if __name__ == "__main__":
    sys.exit(main(sys.argv[1:]))
