"""The frames of a head of node N as those of node 1, which is the session program's node: N and 1 change places on the whole bus."""
import re
import sys

from frames import HIGHEST_STANDARD

OWN = 1
HIGHEST = 127
NUMBER = re.compile("[0-9]{1,3}")
IDENTIFIER = re.compile("(?:0x)?0*[0-7]?[0-9A-Fa-f]{1,2}")
NMT_COMMAND = 0x000
NMT_LENGTH = 2
REQUEST = 0x600
REPLY = 0x580
# Top bits of byte 0: a write, or a read and its reply. Other frames have no value in bytes 4 to 7: a segment has bytes of a name.
WITH_VALUE = (1, 2)
# The entries that have an identifier as their value, as the bytes 1 to 3 of a request and a reply: 1014-0, 1800-1, 1801-1.
WITH_IDENTIFIER = (b"\x14\x10\x00", b"\x00\x18\x01", b"\x01\x18\x01")


def of_option(command, asked):
    """The node number that --node gives; a wrong one ends the program with one line."""
    text = asked.get("--node", str(OWN))
    if not NUMBER.fullmatch(text) or not OWN <= int(text) <= HIGHEST:
        sys.exit(f"{command}: --node: not a node number, {OWN} to {HIGHEST}: {text}")
    return int(text)


def number(at, node):
    """The node number `at` when N and 1 change places."""
    return {OWN: node, node: OWN}.get(at, at)


def identifier_of(command, option, text):
    """The identifier that an option gives; a wrong one ends the program with one line."""
    if not IDENTIFIER.fullmatch(text):
        sys.exit(f"{command}: {option}: not an identifier in hex: {text}")
    return int(text, 16)


def identifier(held, node):
    """An identifier: a function in the upper four bits, a node number in the lower seven."""
    function = held & ~HIGHEST
    return function | number(held & HIGHEST, node) if function else held


def value(data, node):
    """The data of an SDO frame, with the identifier that is in it."""
    held = int.from_bytes(data[4:], "little")
    moved = identifier(held & HIGHEST_STANDARD, node) | held & ~HIGHEST_STANDARD
    return data[:4] + moved.to_bytes(len(data) - 4, "little")


def as_node_1(frame, node):
    """A frame of a log whose head has this node number."""
    data = frame.data
    if frame.identifier == NMT_COMMAND and len(data) == NMT_LENGTH:
        data = bytes([data[0], number(data[1], node)])
    if frame.identifier in (REQUEST + node, REPLY + node) and data[1:4] in WITH_IDENTIFIER and data[0] >> 5 in WITH_VALUE:
        data = value(data, node)
    return frame._replace(identifier=identifier(frame.identifier, node), data=data)
