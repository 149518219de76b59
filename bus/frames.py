"""Frames with the time at which they are on the bus, and the frames of a transcript."""
import re
from typing import NamedTuple

# Power-up is at second 1: log2asc of can-utils takes a log that begins in second 0 for one that has not begun.
POWER_UP = 1_000_000
TICK = 1_000
# Frames of one millisecond follow each other by 100 us: about a frame of 8 bytes at 1 Mbit/s.
STEP = 100
HIGHEST_STANDARD = 0x7FF

RECEIVED = re.compile(r"F ([0-9A-Fa-f]{1,8}) ([0-8])((?: [0-9A-Fa-f]{2})*)")
SENT = re.compile(r"([0-9A-F]{3}) ([0-8])((?: [0-9A-F]{2})*)")
TICKS = re.compile(r"T ([0-9]{1,4})")
SAMPLE = re.compile(r"S ([0-9]{1,10}|-)")


class BadInput(Exception):
    """What is wrong with a line of the input, said in one line."""


class Frame(NamedTuple):
    """A data frame with an 11-bit identifier, at a time in microseconds."""
    micros: int
    identifier: int
    data: bytes


def frame_of(form, text, micros):
    """The frame that `text` gives in the session's own form, or None if it gives none."""
    match = form.fullmatch(text)
    if not match:
        return None
    data = bytes.fromhex(match[3])
    if len(data) != int(match[2]):
        return None
    return Frame(micros, int(match[1], 16), data)


def said(frame):
    """A frame as a slot of the session prints it."""
    return " ".join([f"{frame.identifier:03X}", str(len(frame.data)), *(f"{byte:02X}" for byte in frame.data)])


def frame_at(line, micros):
    """The frame that a line of a transcript puts on the bus, or None. A refused line puts none there, nor does a sample."""
    if line.printed and line.printed.startswith("E "):
        return None
    if line.given == "?":
        if line.printed is None:
            raise BadInput(f"line {line.number}: a slot without what it prints: make the transcript with bus/transcript")
        frame = frame_of(SENT, line.printed, micros)
        if frame is None and line.printed != "-":
            raise BadInput(f"line {line.number}: not what a slot prints: {line.printed}")
        return frame
    frame = frame_of(RECEIVED, line.given, micros)
    if frame and frame.identifier > HIGHEST_STANDARD:
        raise BadInput(f"line {line.number}: the head refuses this frame: make the transcript with bus/transcript")
    if frame is None and not SAMPLE.fullmatch(line.given) and not TICKS.fullmatch(line.given):
        raise BadInput(f"line {line.number}: not a line of the session: {line.given}")
    return frame


def on_the_bus(lines):
    """The frames of a transcript, in order. A frame comes when its millisecond has come and the frame before it is over."""
    now, free, found = POWER_UP, POWER_UP, []
    for line in lines:
        if line.given is None:
            continue
        frame = frame_at(line, max(now, free))
        if frame:
            found.append(frame)
            free = frame.micros + STEP
        ticks = TICKS.fullmatch(line.given)
        if ticks and line.printed is None:
            now += int(ticks[1]) * TICK
    return found
