"""The list of entries, read out of the code and out of the specification, one row for each entry."""
import dataclasses
import pathlib
import re

ROOT = pathlib.Path(__file__).resolve().parent.parent
ENTRIES = ROOT / "crates" / "entries"
CODE, SPECIFICATION = ENTRIES / "src" / "table.rt", ENTRIES / "specs" / "Table.antt"

# A column is a word, and the numbers or the name of a constant behind it.
COLUMN = r"[A-Z][A-Za-z]*(?:\([0-9A-Za-z_, ]+\))?"
CODE_ROW = re.compile(rf" +0x([0-9A-F]{{4}}_[0-9A-F]{{2}}) => Some\(line\(k, (U8|U16|U32|S32|NAME), (RO|RW), ({COLUMN}), ({COLUMN}), ({COLUMN})\)\),")
PART = re.compile(r"fn from_[0-9A-F]{4}\(k: u32\) -> Option<Row>")
CONSTANT = re.compile(r"(?:pub )?const ([A-Z0-9_]+): u32 = (0x[0-9A-F]{4}_[0-9A-F]{2});")
SPEC_COLUMN = r"[A-Z][A-Za-z]*|\([A-Z][A-Za-z]*(?: [0-9A-Fx_]+)+\)"
SPEC_ROW = re.compile(rf" +row 0x([0-9A-F]{{4}}) ([0-9]+) (U8|U16|U32|S32|name) (ro|rw) ({SPEC_COLUMN}) ({SPEC_COLUMN}) ({SPEC_COLUMN}) ∷")
NUMBER = re.compile(r"0x[0-9A-F]+(?:_[0-9A-F]+)*|0|[1-9][0-9]*(?:_[0-9]{3})*")


class Refused(Exception):
    """What is wrong with a list, in one line."""


class Hex(int):
    """A number that is written in hex."""


@dataclasses.dataclass(frozen=True)
class Row:
    """A row. Its last three columns are tuples: the word, then its numbers."""
    key: int
    type: str
    access: str
    accepted: tuple
    blank: tuple
    source: tuple

    @property
    def name(self):
        """The entry as 01 names it."""
        return name(self.key)


def name(key):
    """1800_05h is 1800-5."""
    return f"{key >> 8:04X}-{key & 0xFF}"


def number(text, constants):
    """A number, or that of a constant."""
    if text in constants:
        return constants[text]
    if not NUMBER.fullmatch(text):
        raise Refused(f"neither a number nor a constant: {text}")
    return Hex(text, 16) if text.startswith("0x") else int(text)


def column(text, constants):
    """`Between(1_000, 1_000_000)` and `(Between 1000 1000000)` as a tuple."""
    word, *numbers = re.findall(r"\w+", text)
    return word, *(number(each, constants) for each in numbers)


def row(key, kind, access, columns, constants):
    """A row of either list."""
    return Row(key, kind.replace("NAME", "name"), access.lower(), *(column(each, constants) for each in columns))


def code_lines(text):
    """The lines of the functions from_1000 and so on: between `match k {` and the line for any other key."""
    part = inside = False
    for line in text.splitlines():
        if inside and line.strip() == "_ => None,":
            part = inside = False
        elif inside:
            yield line
        elif part and line.strip() == "match k {":
            inside = True
        elif PART.match(line):
            part = True


def code_rows(text):
    """The rows of the code's list."""
    constants = {constant: Hex(key, 16) for constant, key in CONSTANT.findall(text)}
    found = []
    for line in code_lines(text):
        match = CODE_ROW.fullmatch(line)
        if match is None:
            raise Refused(f"not a line of the list: {line.strip()}")
        found.append(row(int(match[1], 16), match[2], match[3], match.groups()[3:], constants))
    return in_order(found)


def spec_rows(text):
    """The rows of the specification's list."""
    lines = text.partition("\ntable =\n")[2].partition("\n    []\n")[0].splitlines()
    found = []
    for line in lines:
        match = SPEC_ROW.fullmatch(line)
        if match is None:
            raise Refused(f"not a line of the specification's list: {line.strip()}")
        found.append(row(int(match[1], 16) << 8 | int(match[2]), match[3], match[4], match.groups()[4:], {}))
    return in_order(found)


def in_order(rows):
    """The rows, of rising keys; a setting has the key of one of them."""
    if not rows:
        raise Refused("the list has no line")
    for before, after in zip(rows, rows[1:]):
        if before.key >= after.key:
            raise Refused(f"not in index order: {after.name} after {before.name}")
    keys = {each.key for each in rows}
    for each in rows:
        if each.source[0] == "Setting" and not keys.issuperset(each.source[1:]):
            raise Refused(f"{each.name}: no row has the key of its setting, {name(each.source[1])}")
    return rows
