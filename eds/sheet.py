"""The data sheet, read strictly: every line has a known form, stands once, and is used."""
import dataclasses
import re

LINE_END = "\r\n"
LONGEST_LINE = 255
SECTION = re.compile(r"\[([A-Za-z0-9]+)\]")
KEY = re.compile(r"([A-Za-z0-9_]+)=(\S.*\S|\S)")
NUMBER = re.compile(r"0x[0-9A-F]+|0|[1-9][0-9]*")
NODE_FORMULA = "$NODEID+"

# ObjectType and DataType, CiA 301; a VISIBLE_STRING is a name in the proved list
VAR, ARRAY, RECORD = 0x7, 0x8, 0x9
NAME = "name"
TYPES = {0x0004: "S32", 0x0005: "U8", 0x0006: "U16", 0x0007: "U32", 0x0009: NAME}
WIDTHS = {"U8": 1, "U16": 2, "U32": 4, "S32": 4}

MANDATORY = [0x1000, 0x1001, 0x1018]
MANUFACTURER = range(0x2000, 0x6000)


class Fault(Exception):
    """What is wrong with the data sheet, in one line."""


@dataclasses.dataclass(frozen=True)
class Entry:
    """An entry of the dictionary, as the data sheet has it."""
    index: int
    sub: int
    section: str
    title: str
    type: str
    access: str
    default: str | None
    low: int | None
    high: int | None
    mappable: int
    flags: int

    @property
    def key(self):
        """6003-0 is 0x6003_00."""
        return self.index << 8 | self.sub

    @property
    def width(self):
        """The bytes of its type; 0 for a name, whose length is its own."""
        return WIDTHS.get(self.type, 0)


class Lines:
    """The lines of a data sheet by section and key. It remembers which were asked for."""

    def __init__(self, text):
        self.sections = {}
        self.unused = set()
        at = None
        for line in lines_of(text):
            if line:
                at = self.add(at, line)

    def add(self, at, line):
        """Adds a line that follows the heading of section `at`; returns the section that the next line is in."""
        if heading := SECTION.fullmatch(line):
            at = heading[1]
            self.put(self.sections, at, {}, (at, None))
            return at
        pair = KEY.fullmatch(line)
        if at is None or pair is None:
            raise Fault(f"neither a section nor a key with a value: {line}")
        self.put(self.sections[at], pair[1], pair[2], (at, pair[1]))
        return at

    def put(self, known, name, value, place):
        """Puts a value under a name that has none yet."""
        if name in known:
            raise Fault(f"twice in the file: {shown(place)}")
        known[name] = value
        self.unused.add(place)

    def has(self, section, key=None):
        """Whether the section is there, and the key in it."""
        return section in self.sections and (key is None or key in self.sections[section])

    def text(self, section, key):
        """The value of a key that has to be there."""
        if not self.has(section, key):
            raise Fault(f"[{section}] has no {key}")
        self.unused -= {(section, None), (section, key)}
        return self.sections[section][key]

    def number(self, section, key):
        """The same, a number."""
        return number(self.text(section, key), f"[{section}] {key}")

    def number_if_any(self, section, key):
        """The number of a key that may be absent."""
        return self.number(section, key) if self.has(section, key) else None


def shown(place):
    """A section, or a key in it, as messages name it."""
    section, key = place
    return f"[{section}] {key}" if key else f"[{section}]"


def lines_of(text):
    """The lines without their ends."""
    if not text.strip():
        raise Fault("the file is empty")
    if "\n" in text and LINE_END not in text:
        raise Fault("the lines end in LF; write CR LF (unix2dos)")
    lines = text.splitlines(keepends=True)
    for place, line in enumerate(lines, 1):
        if fault := fault_of(line):
            raise Fault(f"line {place} {fault}")
    return [line.removesuffix(LINE_END) for line in lines]


def fault_of(line):
    """What is wrong with the bytes of a line and its end, if anything."""
    if not line.isascii():
        return "has a byte that is not ASCII"
    if not line.endswith(LINE_END):
        return "does not end in CR LF"
    if len(line) > LONGEST_LINE + len(LINE_END):
        return f"is longer than {LONGEST_LINE} bytes"
    return None


def number(text, where):
    """A number as CiA 306 writes it: decimal without leading zeros, or hex."""
    if not NUMBER.fullmatch(text):
        raise Fault(f"{where}: no number: {text}")
    return int(text, 0)


def at_node(text, node, where):
    """A number, or one that depends on the node number, as $NODEID+0x180."""
    if text.startswith(NODE_FORMULA):
        return node + number(text.removeprefix(NODE_FORMULA), where)
    return number(text, where)


def one_of(known, value, where):
    """The value, which has to be a known one."""
    if value not in known:
        raise Fault(f"{where}: {value} is not among {', '.join(map(str, known))}")
    return value


def listed(lines, section):
    """The indices of a list of objects, numbered 1..n."""
    count = lines.number(section, "SupportedObjects")
    return [lines.number(section, str(place)) for place in range(1, count + 1)]


def object_indices(lines):
    """The indices that the three lists name, each list in rising order, with its own indices and no others."""
    lists = {name: listed(lines, name) for name in ("MandatoryObjects", "OptionalObjects", "ManufacturerObjects")}
    for name, indices in lists.items():
        if indices != sorted(set(indices)):
            raise Fault(f"[{name}] is not in rising order")
    if lists["MandatoryObjects"] != MANDATORY:
        raise Fault("[MandatoryObjects] is not 1000h, 1001h, 1018h")
    for index in lists["OptionalObjects"]:
        if index in MANDATORY or index in MANUFACTURER:
            raise Fault(f"[OptionalObjects] lists {index:04X}h")
    for index in lists["ManufacturerObjects"]:
        if index not in MANUFACTURER:
            raise Fault(f"[ManufacturerObjects] lists {index:04X}h")
    return sorted(sum(lists.values(), []))


def entry(lines, index, sub, section):
    """The entry that a section describes."""
    return Entry(
        index, sub, section,
        title=lines.text(section, "ParameterName"),
        type=TYPES[one_of(TYPES, lines.number(section, "DataType"), f"[{section}] DataType")],
        access=one_of(("const", "ro", "rw"), lines.text(section, "AccessType"), f"[{section}] AccessType"),
        default=lines.text(section, "DefaultValue") if lines.has(section, "DefaultValue") else None,
        low=lines.number_if_any(section, "LowLimit"),
        high=lines.number_if_any(section, "HighLimit"),
        mappable=one_of((0, 1), lines.number(section, "PDOMapping"), f"[{section}] PDOMapping"),
        flags=lines.number_if_any(section, "ObjFlags") or 0)


def sub_entries(lines, index):
    """The entries of an object with sub-indices."""
    found = []
    for sub in range(0x100):
        section = f"{index:04X}sub{sub:X}"
        if lines.has(section):
            one_of((VAR,), lines.number(section, "ObjectType"), f"[{section}] ObjectType")
            found.append(entry(lines, index, sub, section))
    if lines.number(f"{index:04X}", "SubNumber") != len(found):
        raise Fault(f"[{index:04X}] SubNumber is not {len(found)}, the number of its sub-indices")
    if len({each.title for each in found}) != len(found):
        raise Fault(f"[{index:04X}] has two sub-indices of one name")
    return found


def objects(lines):
    """ObjectType and entries of each object, by its index."""
    found = {}
    names = set()
    for index in object_indices(lines):
        section = f"{index:04X}"
        names.add(lines.text(section, "ParameterName"))
        kind = one_of((VAR, ARRAY, RECORD), lines.number(section, "ObjectType"), f"[{section}] ObjectType")
        found[index] = (kind, [entry(lines, index, 0, section)] if kind == VAR else sub_entries(lines, index))
    if len(names) != len(found):
        raise Fault("two objects have one name")
    return found
