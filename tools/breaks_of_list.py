"""Breaks that tools/entries --check has to find: which text, what stands there, what stands there instead, words of the line that tells."""

AT_1015 = "        0x1015_00 => Some(line(k, U16, RW, All, Never, Setting(INHIBIT))),\n"
AT_1017 = "        0x1017_00 => Some(line(k, U16, RW, All, Never, Setting(HEARTBEAT))),\n"
AT_1801 = "        0x1801_05 => Some(line(k, U16, RW, All, Never, Setting(TPDO2_EVENT))),\n"
AT_6200 = "0x6200_00 => Some(line(k, U16, RW, All, Never, Setting(TPDO1_EVENT)"
AT_1800 = "0x1800_00 => Some(line(k, U8, RO, Nothing, Never, Fixed(5)"
AT_6504 = "0x6504_00 => Some(line(k, U16, RO, Nothing, Never, Fixed(1)"
SIGNATURES = """\
        0x1010_01 => Some(line(k, U32, RW, Signature(0x6576_6173), Never, Fixed(1))),
        0x1011_00 => Some(line(k, U8, RO, Nothing, Never, Fixed(1))),
        0x1011_01 => Some(line(k, U32, RW, Signature(0x6461_6F6C), Never, Fixed(1))),
"""
IDENTITY = """\
        0x1018_01 => Some(line(k, U32, RO, Nothing, Never, Vendor)),
        0x1018_02 => Some(line(k, U32, RO, Nothing, Never, Product)),
        0x1018_03 => Some(line(k, U32, RO, Nothing, Never, Revision)),
        0x1018_04 => Some(line(k, U32, RO, Nothing, Never, Serial)),
"""
PDOS = """\
                    identifier: 0x180 + n,
                    transmission: 254,
                    event: 100,
                },
                pdo2: Pdo {
                    identifier: 0x280 + n,
                    transmission: 1,
                    event: 0,
"""


def swapped(text, one, other):
    """The text with the two in each other's place."""
    return other.join(part.replace(other, one) for part in text.split(one))


BREAKS = [
    # the order and the number of the lines
    ("code", AT_1015 + AT_1017, AT_1017 + AT_1015, "not in index order: 1015-0 after 1017-0"),
    ("code", AT_1015, AT_1015 + AT_1015, "not in index order: 1015-0 after 1015-0"),
    ("code", AT_1801, "", "-| 1801-5 | U16 rw | 0; all |"),
    ("code", AT_1801, "", "the code has 1A00-0 where the specification has 1801-5"),
    ("code", AT_1801, AT_1801.replace("_05", "_06"), "1801-6: no row has the key of its setting, 1801-5"),
    ("code", "fn from_1000(k: u32) -> Option<Row>", "fn earlier(k: u32) -> Option<Row>", "the code has 1800-0 where the specification has 1000-0"),
    ("code", "        0x6004_00 =>", "        // 0x6004_00 =>", "not a line of the list"),
    ("code", "        0x6004_00 =>", "        0x6004_00 | 0x6006_00 =>", "not a line of the list"),
    # each column
    ("code", "0x6509_00 => Some(line(k, S32,", "0x6509_00 => Some(line(k, U32,", "6509-0: type is U32 in the code, S32 in the specification"),
    ("code", "0x1009_00 => Some(line(k, NAME,", "0x1009_00 => Some(line(k, U32,", "+| 1009-0 | U32 ro"),
    ("code", "0x1009_00 => Some(line(k, NAME,", "0x1009_00 => Some(line(k, U64,", "not a line of the list"),
    ("code", "0x1005_00 => Some(line(k, U32, RO, Nothing", "0x1005_00 => Some(line(k, U32, RW, All", "1005-0: access is rw in the code"),
    ("code", "0x1005_00 => Some(line(k, U32, RO,", "0x1005_00 => Some(line(k, U32, RW,", "1005-0: rw, and it accepts Nothing"),
    ("code", "0x1015_00 => Some(line(k, U16, RW,", "0x1015_00 => Some(line(k, U16, RO,", "1015-0: ro, and it accepts All"),
    ("code", "Between(1_000, 1_000_000)", "Between(999, 1_000_000)", "6002-0: accepted is Between 999 1000000 in the code"),
    ("code", "Between(5_000, 1_000_000)", "Between(5_000, 100_000)", "+| 6005-1 | U32 rw | 5,000; 5,000..100,000 |"),
    ("code", "Signature(0x6576_6173)", "Signature(0x6576_6174)", '+| 1010-1 | U32 rw | read 1; "tave"'),
    ("code", "BelowRange, Never", "Below, Never", "6003-0: no words for Below"),
    ("code", "Missing, Position", "Never, Position", "6004-0: blank is Never in the code"),
    ("code", "Beyond(3), Fixed", "Beyond(4), Fixed", "1003-3: blank beyond 4, and not beyond its sub-index"),
    ("code", "Fixed(0x0008_0196)", "Fixed(0x0002_0196)", "+| 1000-0 | U32 ro | 0002 0196h |"),
    ("code", "Never, Vendor", "Never, Serial", "1018-1: source is Serial in the code"),
    ("code", "Never, Status", "Never, Gauge", "6500-0: no words for Gauge"),
    ("code", "Never, Status", "Never, Status(1)", "6500-0: Status has other numbers than its words"),
    ("code", "Never, Name(3)", "Never, Name(4)", "100A-0: there is no name 4"),
    # settings
    ("code", AT_6200, AT_6200.replace("TPDO1", "TPDO2"), "+| 6200-0 | U16 rw | 1801-5 under a second index |"),
    ("code", "Setting(RANGE)", "Setting(LENGTH)", "neither a number nor a constant: LENGTH"),
    ("code", "pub const STEP: u32 = 0x6005_01;", "pub const STEP: u32 = 0x6006_01;", "6005-1: no row has the key of its setting, 6006-1"),
    ("factory", "transmission: 254", "transmission: 255", "+| 1800-2 | U8 rw | 255; 1..240, 254, 255 |"),
    ("factory", "identifier: 0x280 + n", "identifier: 0x280", "+| 1801-1 | U32 rw | 280h; bits"),
    ("profile", "FULL_RANGE: u32 = 1_048_576", "FULL_RANGE: u32 = 1_048_575", "+| 6002-0 | U32 rw | 1,048,575;"),
    # the specification and the page
    ("specification", "row 0x6005 1 U32 rw (Between 5000", "row 0x6005 1 U32 rw (Between 1000",
     "6005-1: accepted is Between 5000 1000000 in the code, Between 1000"),
    ("specification", "    row 0x6504 0", "    line 0x6504 0", "not a line of the specification's list"),
    ("specification", "(0x1017_00, c.heartbeat)", "(0x1017_00, c.pulse)", "1017-0: the factory settings have no .pulse"),
    ("specification", "    (0x1017_00, c.heartbeat) ∷\n", "", "1017-0: no factory value"),
    ("page", "| 1801-5 | U16 rw | 0; all |\n", "", "+| 1801-5 | U16 rw | 0; all |"),
]

# Tried where 01 is there: it tells
SCOPE_BREAKS = [
    ("code", AT_1801, "", "1801-5 of 01 is missing"),
    ("code", "0x6509_00 => Some(line(k, S32,", "0x6509_00 => Some(line(k, U32,", "6509-0: 'U32 ro', and 'S32 ro' in 01"),
    ("code", "0x1005_00 => Some(line(k, U32, RO, Nothing", "0x1005_00 => Some(line(k, U32, RW, All", "1005-0: 'U32 rw', and 'U32 ro' in 01"),
    # numbers that stand elsewhere in 01's table, or below it
    ("code", "Fixed(0x0008_0196)", "Fixed(0x0002_0196)", "1000-0: '0002 0196h', and '0008 0196h' in 01"),
    ("code", "Fixed(0x80)", "Fixed(31)", "1005-0: '31', and '80h' in 01"),
    ("code", "Fixed(4)", "Fixed(1)", "1018-0: '1', and '4' in 01"),
    ("code", "Fixed(4)", "Fixed(2)", "1018-0: '2', and '4' in 01"),
    ("code", AT_1800, AT_1800.replace("Fixed(5)", "Fixed(4)"), "1800-0: '4', and '5' in 01"),
    ("code", "Fixed(5_000)", "Fixed(1)", "6501-0: '1', and '5,000' in 01"),
    ("code", AT_6504, AT_6504.replace("Fixed(1)", "Fixed(2)"), "6504-0: '2', and '1' in 01"),
    # sources, accepted values and blanks of other entries
    ("code", AT_6504, AT_6504.replace("Fixed(1)", "Register"), "6504-0: 'bit 0: as 1001', and '1' in 01"),
    ("code", IDENTITY, swapped(IDENTITY, "Vendor", "Serial"), "1018-4: 'identity (vendor)', and 'identity (serial number)' in 01"),
    ("code", SIGNATURES, swapped(SIGNATURES, "0x6576_6173", "0x6461_6F6C"),
     """1010-1: 'read 1; "load" 6461 6F6Ch', and 'read 1; "save" 6576 6173h' in 01"""),
    ("code", "Between(1_000, 1_000_000)", "Between(999, 1_000_000)", "6002-0: '1,048,576; 999..1,000,000', and '1,048,576; 1,000..1,000,000' in 01"),
    ("code", "OperatingParameters, Never", "PdoIdentifier, Never", "6000-0: '0; bits 30..11 zero;"),
    ("code", "Between(1_000, 1_000_000)", "PdoIdentifier", "6002-0: '1,048,576; bits 30..11 zero;"),
    ("code", "Missing, Position", "Never, Position", "6004-0: 'position', and 'position; blank while missing' in 01"),
    ("code", "Beyond(1), Fixed", "Never, Fixed", "1003-1: '0000 5000h', and '0000 5000h; blank beyond the count' in 01"),
    # settings
    ("code", AT_6200, AT_6200.replace("TPDO1", "TPDO2"), "6200-0: '1801-5 under a second index', and '1800-5 under a second index' in 01"),
    ("profile", "FULL_RANGE: u32 = 1_048_576", "FULL_RANGE: u32 = 1_048_575", "6002-0: '1,048,575; 1,000..1,000,000', and '1,048,576;"),
    ("factory", "event: 100", "event: 10", "1800-5: '10; all', and '100; all' in 01"),
    ("factory", PDOS, swapped(PDOS, "0x180", "0x280"), "1801-1: '180h+N; bits 30..11 zero; with bit 31 clear also 181h..57Fh', and '280h+N; bits"),
    ("factory", PDOS, swapped(PDOS, ": 254,", ": 1,"), "1801-2: '254; 1..240, 254, 255', and '1; 1..240, 254, 255' in 01"),
    ("factory", PDOS, swapped(PDOS, ": 100,", ": 0,"), "1801-5: '100; all', and '0; all' in 01"),
    # 01 itself
    ("scope", "| 1018-0, -1..4 |", "| 1018-0, -1..5 |", "1018-5 of 01 is missing"),
    ("scope", "| 6501-0 | U32 ro |", "| 6501-0 | U16 ro |", "6501-0: 'U32 ro', and 'U16 ro' in 01"),
    ("scope", "| U8/U32 ro |", "| U8/U16/U32 ro |", "01 has 3 types for the 2 places of 1A00-0/1, 1A01-0/1"),
    ("scope", "| 1; 6004 0020h |", "| 6004 0020h; 1 |", "1A01-1: '6004 0020h', and '1' in 01"),
    ("scope", "| 6004-0 | U32 ro | position; blank while missing |\n", "", "01 has not 1008-0, 1009-0, 100A-0, 6004-0"),
    ("scope", ", empties the list", "", "01 has these words 0 times: , empties the list"),
    ("scope", "PDO identifier: bits 30..11", "PDO identifier: bits 29..11", "with bit 31 clear also 181h..57Fh', and '180h+N; bits 29..11 zero;"),
    ("scope", " 1003-1..4 beyond the count are blank.", "", "1003-4: '0000 5000h; blank beyond the count', and '0000 5000h' in 01"),
    ("scope", "## Entries", "## Others", "01 has no table of entries"),
]
