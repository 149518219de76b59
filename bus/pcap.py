"""A pcap of frames, link type 227 (LINKTYPE_CAN_SOCKETCAN)."""
import struct

MAGIC = 0xA1B2C3D4
VERSION = (2, 4)
LONGEST = 65535
LINKTYPE_CAN_SOCKETCAN = 227
SECOND = 1_000_000


def packet(frame):
    """A frame as SocketCAN has it: the identifier high byte first, the length, three reserved bytes, the data."""
    return struct.pack(">IBxxx", frame.identifier, len(frame.data)) + frame.data


def record(frame):
    """A frame with its time and its length before it."""
    body = packet(frame)
    return struct.pack("<IIII", frame.micros // SECOND, frame.micros % SECOND, len(body), len(body)) + body


def render(frames):
    """The bytes of the file."""
    header = struct.pack("<IHHiIII", MAGIC, *VERSION, 0, 0, LONGEST, LINKTYPE_CAN_SOCKETCAN)
    return header + b"".join(record(frame) for frame in frames)
