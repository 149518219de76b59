"""A second reader of the data sheet, which shares nothing with the first: Python's configparser, used as tools of other makers use it."""
import configparser
import re

VAR, VISIBLE_STRING = 7, 9
INDEX = re.compile(r"^([0-9A-Fa-f]{4})$")
SUB_INDEX = re.compile(r"^([0-9A-Fa-f]{4})[Ss]ub([0-9A-Fa-f]+)$")


def parsed(text):
    """The file as configparser has it: it refuses what stands twice."""
    parser = configparser.RawConfigParser(inline_comment_prefixes=(";",))
    parser.optionxform = str
    parser.read_file(text.splitlines())
    return parser


def value(text, node):
    """A number in which the node number may stand."""
    if text is None:
        return None
    plain = text.replace(" ", "").upper()
    if "$NODEID" in plain:
        return int(re.sub(r"\+?\$NODEID\+?", "", plain), 0) + node
    return int(plain, 0)


def variable(section, node):
    """Name, type, access, default, limits, and whether it can be mapped. The default of a string is its text."""
    kind, default = int(section["DataType"], 0), section.get("DefaultValue")
    return (section["ParameterName"], kind, section["AccessType"].lower(), default if kind == VISIBLE_STRING else value(default, node),
            value(section.get("LowLimit"), node), value(section.get("HighLimit"), node), bool(int(section.get("PDOMapping", "0"), 0)))


def dictionary(parser, node):
    """The variables by index and sub-index: VAR sections, and the sub-index sections of the others."""
    found = {}
    for name in parser.sections():
        section = parser[name]
        if (index := INDEX.match(name)) and int(section["ObjectType"], 0) == VAR:
            found[int(index[1], 16), 0] = variable(section, node)
        elif sub := SUB_INDEX.match(name):
            found[int(sub[1], 16), int(sub[2], 16)] = variable(section, node)
    return found


def read(text, node):
    """The dictionary of a node, or in one line why there is none."""
    try:
        return dictionary(parsed(text), node)
    except (configparser.Error, KeyError, ValueError) as error:
        return f"configparser cannot read it: {' '.join(str(error).split())}"
