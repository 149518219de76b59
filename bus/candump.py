"""Logs of candump: the file form (`candump -L`, `candump -l`), and the form on the screen with absolute or no time."""
import re

from frames import HIGHEST_STANDARD, BadInput, Frame

INTERFACE = "can0"
SECOND = 1_000_000
ERROR_FLAG = 0x20000000

FILE = re.compile(r"\((\d+)\.(\d{6})\) +([\w.:-]+) +([0-9A-Fa-f]{3}|[0-9A-Fa-f]{8})#(\S*)( [RT])?\s*")
SCREEN = re.compile(
    r"\s*(?:\((\d+)\.(\d{6})\))?\s*([\w.:-]+)\s+(?:[RT]X [-B] [-E]\s+)?([0-9A-Fa-f]{3}|[0-9A-Fa-f]{8})\s+\[(\d+)\]\s*(.*)")
BYTES = re.compile(r"(?:[0-9A-Fa-f]{2}[. ]?)*")


class Entry:
    """One line of a log: its frame, or why it is not one that a head of this kind can see."""

    def __init__(self, number, interface, frame, left_out):
        self.number, self.interface, self.frame, self.left_out = number, interface, frame, left_out


def render(frames):
    """The text of a log, in the file form."""
    return "".join(
        f"({frame.micros // SECOND:010}.{frame.micros % SECOND:06}) {INTERFACE} "
        f"{frame.identifier:03X}#{frame.data.hex().upper()}\n" for frame in frames)


def why_left_out(identifier, rest, fd):
    """Why a line is not a data frame with an 11-bit identifier, or None if it is one."""
    if len(identifier) == 8 and int(identifier, 16) & ERROR_FLAG:
        return "error frame"
    if len(identifier) == 8:
        return "29-bit identifier"
    if int(identifier, 16) > HIGHEST_STANDARD:
        return "identifier above 7FFh"
    if fd:
        return "CAN FD frame"
    return "remote frame" if rest[:1] in ("R", "r") else None


def data_of(number, rest, length):
    """The data bytes of a line."""
    match = BYTES.match(rest)
    data = bytes.fromhex(match[0].replace(".", " "))
    if length is None:
        if match.end() != len(rest) or len(data) > 8:
            raise BadInput(f"line {number}: not data bytes: {rest}")
        return data
    if length > 8 or len(data) < length:
        raise BadInput(f"line {number}: not {length} data bytes: {rest}")
    return data[:length]


def parse_line(number, text):
    """One line of a log, taken apart."""
    match = FILE.fullmatch(text)
    if match:
        rest, length, fd = match[5], None, match[5].startswith("#")
    else:
        match = SCREEN.fullmatch(text)
        if not match:
            raise BadInput(f"line {number}: not a line of a candump log")
        rest, length, fd = match[6], int(match[5]), len(match[5]) == 2
    seconds, micros, interface, identifier = match.group(1, 2, 3, 4)
    reason = why_left_out(identifier, rest, fd)
    time = 0 if seconds is None else int(seconds) * SECOND + int(micros)
    frame = Frame(time, int(identifier, 16), b"" if reason else data_of(number, rest, length))
    return Entry(number, interface, frame, reason)


def parse(text):
    """The lines of a log. They have to be of one bus and in the order of time."""
    entries = [parse_line(number, line) for number, line in enumerate(text.split("\n"), 1) if line.strip()]
    for before, entry in zip(entries, entries[1:]):
        if entry.interface != before.interface:
            raise BadInput(f"line {entry.number}: {entry.interface} beside {before.interface}: cut the log to one bus")
        if entry.frame.micros < before.frame.micros:
            raise BadInput(f"line {entry.number}: the time goes back: log with candump -L, or -t a on the screen")
    return entries


def frames(text):
    """The data frames with an 11-bit identifier of a log."""
    return [entry.frame for entry in parse(text) if not entry.left_out]
