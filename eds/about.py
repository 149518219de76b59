"""The sections of the data sheet that are not about entries: FileInfo, DeviceInfo, DummyUsage and Comments."""
import re

from sheet import Fault, at_node, one_of

LONGEST_TEXT = 243
TIME = re.compile(r"(0[1-9]|1[0-2]):[0-5][0-9](AM|PM)")
DATE = re.compile(r"(0[1-9]|1[0-2])-(0[1-9]|[12][0-9]|3[01])-[0-9]{4}")
EDS_VERSION = "4.0"
BYTE = range(0x100)
NUMBER_32 = range(0x1_0000_0000)
BIT_RATES = (10, 20, 50, 125, 250, 500, 800, 1000)
# Of CiA 306's features the head has the boot-up as a slave alone. No PDO can be mapped, so nothing is granular or a dummy.
FEATURES = {"SimpleBootUpMaster": 0, "SimpleBootUpSlave": 1, "Granularity": 0, "DynamicChannelsSupported": 0,
            "GroupMessaging": 0, "LSS_Supported": 0}
DUMMIES = range(1, 8)

NAME = r"[0-9A-F]{4}(?:sub[0-9A-F]+)?"
NAMES = rf"({NAME}(?:, {NAME})*)"
ACCEPTS = re.compile(rf"{NAMES} accepts? (.+)\.")
WHILE = re.compile(rf"{NAMES} can be written only while (.+)\.")


def text(lines, section, key, form=None):
    """Takes a text, of the form if there is one."""
    found = lines.text(section, key)
    if len(found) > LONGEST_TEXT or (form and not form.fullmatch(found)):
        raise Fault(f"[{section}] {key} is not of its form: {found}")
    return found


def file_info(lines, file_name):
    """FileInfo names the file and is of CiA 306's form."""
    section = "FileInfo"
    if text(lines, section, "FileName") != file_name:
        raise Fault(f"[{section}] FileName is not {file_name}")
    for key in ("FileVersion", "FileRevision"):
        one_of(BYTE, lines.number(section, key), f"[{section}] {key}")
    one_of((EDS_VERSION,), lines.text(section, "EDSVersion"), f"[{section}] EDSVersion")
    for key in ("Description", "CreatedBy", "ModifiedBy"):
        text(lines, section, key)
    for key in ("Creation", "Modification"):
        text(lines, section, f"{key}Time", TIME)
        text(lines, section, f"{key}Date", DATE)


def device_info(lines, objects):
    """DeviceInfo has the features of the head and counts its PDOs. Returns vendor, product and revision."""
    section = "DeviceInfo"
    for key in ("VendorName", "ProductName", "OrderCode"):
        text(lines, section, key)
    rates = [one_of((0, 1), lines.number(section, f"BaudRate_{rate}"), f"[{section}] BaudRate_{rate}") for rate in BIT_RATES]
    if not any(rates):
        raise Fault(f"[{section}] has no bit rate")
    for key, value in FEATURES.items():
        one_of((value,), lines.number(section, key), f"[{section}] {key}")
    for key, communication, mapping in (("NrOfRXPDO", 0x1400, 0x1600), ("NrOfTXPDO", 0x1800, 0x1A00)):
        count = lines.number(section, key)
        for first in (communication, mapping):
            if [index for index in objects if first <= index < first + 0x200] != list(range(first, first + count)):
                raise Fault(f"[{section}] {key} is not the number of objects from {first:04X}h")
    return tuple(one_of(NUMBER_32, lines.number(section, f"{whose}Number"), f"[{section}] {whose}Number")
                 for whose in ("Vendor", "Product", "Revision"))


def dummy_usage(lines):
    """No dummy can be mapped."""
    for dummy in DUMMIES:
        one_of((0,), lines.number("DummyUsage", f"Dummy{dummy:04}"), "[DummyUsage]")


class Comments:
    """What the comments say of entries, by the name of an entry's section."""

    def __init__(self, lines):
        self.sentences = set()
        self.accepted = {}
        self.conditions = {}
        for place in range(1, lines.number("Comments", "Lines") + 1):
            self.understand(lines.text("Comments", f"Line{place}"))

    def understand(self, line):
        """Takes a line down, and what it says of entries if it has one of the two forms."""
        self.sentences.add(line)
        if found := ACCEPTS.fullmatch(line):
            note(self.accepted, found[1], [part.split("..") for part in re.split(", | and ", found[2])])
        elif found := WHILE.fullmatch(line):
            note(self.conditions, found[1], found[2])

    def ranges(self, entry, node):
        """The numbers that a write accepts, as pairs of the lowest and the highest: as a comment says, else within the limits."""
        if entry.section not in self.accepted:
            if entry.low is None or entry.high is None:
                raise Fault(f"neither limits nor [Comments] say what {entry.section} accepts")
            return [(entry.low, entry.high)]
        where = f"[Comments] on {entry.section}"
        ends = [[at_node(end, node, where) for end in part] for part in self.accepted[entry.section]]
        if any(len(part) > 2 or part[0] > part[-1] for part in ends):
            raise Fault(f"{where}: not from the lowest to the highest")
        return [(part[0], part[-1]) for part in ends]

    def names(self):
        """The entries of which the comments say what a write needs."""
        return {*self.accepted, *self.conditions}


def note(about, names, what):
    """Takes down what is said of each name, once."""
    for name in names.split(", "):
        if name in about:
            raise Fault(f"[Comments] say two things of {name}")
        about[name] = what
