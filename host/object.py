#!/usr/bin/env python3
"""object.py OBJECT: sizes, exports and needs of a little-endian ELF object, for any processor.

Prints three lines: `text T, data D, bss B` in bytes, `exports NAME..`, `needs NAME..`. What is not loaded into memory is not counted.
"""
import struct
import sys

WRITE, ALLOC = 1, 2
SYMTAB, NOBITS = 2, 8
WEAK_OR_GLOBAL = (1, 2)
SECTION = {1: "<IIIIIIIIII", 2: "<IIQQQQIIQQ"}
# in the order of the file, and where in it name, info and section stand
SYMBOL = {1: ("<IIIBBH", 0, 3, 5), 2: ("<IBBHQQ", 0, 1, 3)}


class NotAnObject(Exception):
    """The file is not what this program reads."""


def sections_of(image):
    """The section headers, each (name, type, flags, address, offset, size, link, ...), and the kind: 1 has 32 bits, 2 has 64."""
    if image[:4] != b"\x7fELF" or image[5] != 1 or image[4] not in SECTION:
        raise NotAnObject("not a little-endian ELF file")
    kind = image[4]
    start = struct.unpack_from("<Q", image, 40)[0] if kind == 2 else struct.unpack_from("<I", image, 32)[0]
    size, count = struct.unpack_from("<HH", image, 58 if kind == 2 else 46)
    return kind, [struct.unpack_from(SECTION[kind], image, start + i * size) for i in range(count)]


def sizes(sections):
    """The bytes that the sections take in memory: read-only, written with given contents, written and 0 at first."""
    text = data = bss = 0
    for section in sections:
        kind, flags, size = section[1], section[2], section[5]
        if not flags & ALLOC:
            continue
        if kind == NOBITS:
            bss += size
        elif flags & WRITE:
            data += size
        else:
            text += size
    return text, data, bss


def name_at(image, at):
    """The text that ends in a zero byte."""
    return image[at : image.index(b"\0", at)].decode()


def symbols(image, kind, sections):
    """The names that the object shows others and those that it needs of others."""
    exports, needs = [], []
    form, name_in, info_in, section_in = SYMBOL[kind]
    for table in (section for section in sections if section[1] == SYMTAB):
        names = sections[table[6]][4]
        for at in range(table[4], table[4] + table[5], struct.calcsize(form)):
            symbol = struct.unpack_from(form, image, at)
            if symbol[info_in] >> 4 in WEAK_OR_GLOBAL:
                (exports if symbol[section_in] else needs).append(name_at(image, names + symbol[name_in]))
    return sorted(exports), sorted(needs)


def main(arguments):
    """Prints the three lines; answers what the program exits with."""
    if len(arguments) != 1:
        print("usage: object.py OBJECT", file=sys.stderr)
        return 2
    try:
        with open(arguments[0], "rb") as file:
            image = file.read()
        kind, sections = sections_of(image)
        exports, needs = symbols(image, kind, sections)
        print("text {}, data {}, bss {}".format(*sizes(sections)), " ".join(["exports", *exports]),
              " ".join(["needs", *(needs or ["nothing"])]), sep="\n", flush=True)
    except (OSError, NotAnObject, IndexError, ValueError, struct.error) as problem:
        print(f"object.py: {arguments[0]}: {problem}", file=sys.stderr)
        return 1
    return 0


if __name__ == "__main__":
    sys.exit(main(sys.argv[1:]))
