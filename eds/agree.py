"""Where the data sheet and the head differ: each function yields one line for each difference."""
from entry_list import Refused, code_rows, name
from head import VALUE, WRITE, WRITTEN, abort_code, upload
from sheet import ARRAY, NAME, VAR, Fault, at_node

NODES = (1, 127)

UNKNOWN_COMMAND, NO_SUCH_INDEX, NO_SUCH_SUB_INDEX = 0x05040001, 0x06020000, 0x06090011
READ_ONLY, BAD_VALUE, BAD_SIGNATURE = 0x06010002, 0x06090030, 0x08000020
BAD_STATE, BLANK = 0x08000022, 0x08000024
ABORT_CODES = {NO_SUCH_INDEX, NO_SUCH_SUB_INDEX, READ_ONLY, BAD_VALUE, BAD_SIGNATURE, BAD_STATE, BLANK}

# A write of these is a command: it empties the list, saves, loads, or makes the present place read the number.
# No download writes them, bit 0 of ObjFlags.
COMMANDS = (0x1003_00, 0x1010_01, 0x1011_01, 0x6003_00)
REFUSE_DOWNLOAD = 1
SIGNATURES = {0x1010_01, 0x1011_01}
# CiA 306's limits are those of the value. These read a value that a write does not accept, so they have no limits.
WITHOUT_LIMITS = {0x1003_00, *SIGNATURES}
# ARRAY by CiA 301 and CiA 406; other objects with sub-indices are a RECORD.
ARRAYS = {0x1003, 0x1010, 0x1011, 0x6005}
MAPPINGS = range(0x1A00, 0x1C00)

# What brings a head into the state that a comment names, before an entry is written
SCALING_ON = ("write", 0x6000_00, 2, 0x0004)
CONDITIONS = {
    "scaling is on (bit 2 of 6000 is 1)": lambda entry: (SCALING_ON,),
    "the reading is good": lambda entry: (("sample", 0),),
    "the PDO is off (bit 31 of its sub1 is 1)": lambda entry: (("write", entry.index << 8 | 1, 4, 0x8000_0000),),
}

# Steps for the sentences of the comments that hold over several requests
SAMPLE = ("sample", 100)
RANGE, STEP, PRESET = ("write", 0x6002_00, 4, 1000), ("write", 0x6005_01, 4, 10_000), ("write", 0x6003_00, 4, 40)
IN_ORDER = (SCALING_ON, RANGE, STEP, SAMPLE, PRESET)
READ_PRESET, READ_POSITION, READ_OFFSET = ("read", 0x6003_00), ("read", 0x6004_00), ("read", 0x6509_00)
TAPE, DEFAULT_PRESET = ("sample", 20_000), ("write", 0x6003_00, 4, 0)
FACTORY_RANGE = ("write", 0x6002_00, 4, 1_048_576)
# Scaling and direction
BOTH_OFF, DIRECTION_ON, BOTH_ON = (("write", 0x6000_00, 2, control) for control in (0x0000, 0x0008, 0x000C))
# A step of 1 mm
COARSE_STEP = ("write", 0x6005_01, 4, 1_000_000)

# Steps for the sentences about position frames: the tape is at 100, and moves or is lost while a frame waits
TPDO1, TPDO2 = 0x180, 0x280
FIRST, SECOND = ("sent", TPDO1), ("sent", TPDO2)
STARTED, SYNC, MOVED, AGAIN, LOST = (SAMPLE, ("start",)), ("sync",), ("moved", 200), ("moved", 300), ("lost",)

# The names: CiA 301 calls their access const, which the proved list and the head do not tell from ro
CONSTANT = {0x1008_00, 0x1009_00, 0x100A_00}
TRANSFERS = "The names are read by segmented upload, all other entries by expedited upload. Every write is an expedited download."


def proved_list(entries, text):
    """The lines of the proved list have the data sheet's entries: index, sub-index, type, access, limits and numbers that stay as they are."""
    try:
        proved = {row.key: row for row in code_rows(text)}
    except Refused as refusal:
        yield str(refusal)
        return
    by_key = {entry.key: entry for entry in entries}
    for key in sorted(proved.keys() | by_key.keys()):
        entry, row = by_key.get(key), proved.get(key)
        own = entry and (entry.type, "ro" if entry.access == "const" else entry.access)
        due = row and (row.type, row.access)
        if own != due:
            yield f"{name(key)}: {words(own)} in the data sheet, {words(due)} in the proved list"
        elif row.accepted[0] == "Between" and row.accepted[1:] != (entry.low, entry.high):
            yield f"{name(key)}: limits {entry.low} and {entry.high} in the data sheet, {row.accepted[1]} and {row.accepted[2]} in the proved list"
        elif row.source[0] == "Fixed" and row.blank == ("Never",) and fixed(entry) != row.source[1]:
            yield f"{name(key)}: {fixed(entry)} in the data sheet, {row.source[1]} in the proved list"


def fixed(entry):
    """The default of one node, None if there is none; that it is the same in every node, `reads` sees."""
    return None if entry.default is None else at_node(entry.default, NODES[0], f"[{entry.section}] DefaultValue")


def number_of(reply):
    """The value or abort code that a reply carries."""
    return int.from_bytes(reply[4:], "little")


def words(found):
    """Type and access, or that there are none."""
    return " ".join(found) if found else "nothing"


def existence(objects, head):
    """The head has the indices and the sub-indices that the data sheet lists, and no others."""
    listed = {index: [entry.key for entry in entries] for index, (_, entries) in objects.items()}
    for node in NODES:
        there = head.entries(node, NO_SUCH_INDEX, NO_SUCH_SUB_INDEX)
        for index in sorted(listed.keys() | there.keys()):
            if index not in there:
                yield f"{index:04X}h is in the data sheet, and node {node} has no such index"
            elif index not in listed:
                yield f"{index:04X}h is not in the data sheet, and node {node} has it"
            elif listed[index] != there[index]:
                own, other = (" ".join(str(key & 0xFF) for key in keys) for keys in (listed[index], there[index]))
                yield f"{index:04X}h: sub-indices {own} in the data sheet, {other} in node {node}"


def shapes(objects):
    """An object with sub-index 0 alone is a VAR; of others CiA decides."""
    for index, (kind, entries) in objects.items():
        if (kind == VAR) != (len(entries) == 1) or (kind == ARRAY) != (index in ARRAYS):
            yield f"{index:04X}h has another ObjectType"


def reads(entries, head, twin, node):
    """Type and default of a number are what a fresh head answers. What is blank, or differs in a twin of another serial number, has no default."""
    entries = [entry for entry in entries if entry.type != NAME]
    keys = [entry.key for entry in entries]
    for entry, reply, other in zip(entries, head.reads(node, keys).values(), twin.reads(node, keys).values()):
        code = abort_code(reply)
        needed = code is None and reply == other
        if code not in (None, BLANK):
            yield f"{name(entry.key)}: node {node} aborts a read with {code:08X}h"
        elif needed != (entry.default is not None):
            yield f"{name(entry.key)} {'needs a' if needed else 'has no'} DefaultValue: node {node} answers {reply.hex(' ')}"
        elif code is None and VALUE.get(reply[0]) != entry.width:
            yield f"{name(entry.key)}: node {node} answers a read with another length than that of {entry.type}"
        elif needed and number_of(reply) != at_node(entry.default, node, f"[{entry.section}] DefaultValue"):
            yield f"{name(entry.key)}: DefaultValue is not what node {node} answers, {reply.hex(' ')}"


def names(entries, head, twin, node):
    """A name is read in segments, as it was given at power-up. It differs in the twin, so it has no default."""
    for entry in (entry for entry in entries if entry.type == NAME):
        if entry.default is not None:
            yield f"{name(entry.key)} has no DefaultValue: the device gives it at power-up"
        for each in (head, twin):
            due = upload(entry.key, each.names.get(entry.key, b""))
            steps = tuple(step for step, _ in due)
            replies = each.replies(node, [steps[:count] for count in range(1, len(steps) + 1)])
            for (step, answer), reply in zip(due, replies):
                if reply != answer:
                    what = "a read" if step[0] == "read" else f"the request for segment {step[2]}"
                    yield f"{name(entry.key)}: node {node} answers {what} with {reply.hex(' ')}, not with {answer.hex(' ')}"


def transfers(entries, comments, head, node):
    """The comments say how entries are read and written; a write in segments is refused, whatever the entry."""
    if TRANSFERS not in comments.sentences:
        yield f"[Comments] do not say: {TRANSFERS}"
    for entry, reply in zip(entries, head.replies(node, [(("begin", entry.key, entry.width),) for entry in entries])):
        if abort_code(reply) != UNKNOWN_COMMAND:
            yield f"{name(entry.key)}: node {node} answers a write in segments with {reply.hex(' ')}"


def access(entries, head, node):
    """A write is refused as one to a ro entry exactly if the data sheet says so; one to a name in each length."""
    writes = [("write", entry.key, width, 0) for entry in entries for width in ([entry.width] if entry.width else WRITE)]
    by_key = {entry.key: entry for entry in entries}
    for step, reply in zip(writes, head.replies(node, [(step,) for step in writes])):
        entry = by_key[step[1]]
        if (abort_code(reply) == READ_ONLY) != (entry.access != "rw"):
            yield f"{name(entry.key)}: AccessType {entry.access}, and node {node} answers a write with {reply.hex(' ')}"


def constants(entries):
    """The names are const, as CiA 301 has them, and nothing else is."""
    for entry in entries:
        if (entry.access == "const") != (entry.key in CONSTANT):
            yield f"{name(entry.key)}: AccessType is const of {', '.join(map(name, sorted(CONSTANT)))} alone"


def flags(entries):
    """A download leaves the commands out, and nothing else."""
    for entry in entries:
        if entry.flags != (REFUSE_DOWNLOAD if entry.key in COMMANDS else 0):
            yield f"{name(entry.key)}: ObjFlags is 1 of {', '.join(map(name, COMMANDS))} alone"


def limits(entries, comments):
    """A rw entry has limits, the lowest and the highest number that any node accepts; ro entries and some others have none."""
    for entry in entries:
        limited = entry.access == "rw" and entry.key not in WITHOUT_LIMITS
        if (entry.low is None) == limited or (entry.high is None) == limited:
            yield f"{name(entry.key)} needs {'both limits' if limited else 'no limits'}"
        elif entry.access == "rw":
            ranges = [each for node in NODES for each in comments.ranges(entry, node)]
            lowest, highest = min(low for low, _ in ranges), max(high for _, high in ranges)
            if limited and (entry.low, entry.high) != (lowest, highest):
                yield f"{name(entry.key)}: the limits are not the ends of what the comments say"
            if highest >= 1 << 8 * entry.width:
                yield f"{name(entry.key)}: {entry.type} has no {highest:#x}"


def tried(entry, ranges):
    """The numbers to write: all of a byte; otherwise every end, the number before and behind it, and each bit alone."""
    if entry.width == 1:
        return list(range(0x100))
    ends = [end + by for pair in ranges for end in pair for by in (-1, 0, 1)]
    bits = [1 << bit for bit in range(8 * entry.width)]
    return sorted(number for number in {*ends, *bits} if 0 <= number < 1 << 8 * entry.width)


def prepared(entry, comments):
    """The steps before a write, by the comment that names the state for it."""
    condition = comments.conditions.get(entry.section)
    if condition is None:
        return ()
    if condition not in CONDITIONS:
        raise Fault(f"[Comments] on {entry.section}: no known state: {condition}")
    return CONDITIONS[condition](entry)


def write(entry, number):
    """The step that writes a number to an entry."""
    return ("write", entry.key, entry.width, number)


def values(entries, comments, head, node):
    """In the state for it a write of an accepted number is accepted, and any other refused for its value."""
    ranges = {entry: comments.ranges(entry, node) for entry in entries}
    attempts = [(entry, number) for entry in entries for number in tried(entry, ranges[entry])]
    trials = [(*prepared(entry, comments), write(entry, number)) for entry, number in attempts]
    for (entry, number), reply in zip(attempts, head.replies(node, trials)):
        accepted = any(low <= number <= high for low, high in ranges[entry])
        refusal = BAD_SIGNATURE if entry.key in SIGNATURES else BAD_VALUE
        if accepted != (reply[0] == WRITTEN) or abort_code(reply) != (None if accepted else refusal):
            yield f"{name(entry.key)}: node {node} answers a write of {number:#x} with {reply.hex(' ')}"


def states(entries, comments, head, node):
    """In the state after power-up an accepted number is refused exactly if a comment names another state."""
    trials = [(write(entry, comments.ranges(entry, node)[0][-1]),) for entry in entries]
    for entry, reply in zip(entries, head.replies(node, trials)):
        if abort_code(reply) != (BAD_STATE if entry.section in comments.conditions else None):
            yield f"{name(entry.key)}: the comments on its state do not fit node {node}: it answers a write with {reply.hex(' ')}"


def sentences(node):
    """Sentences of the comments, each with trials and the number in the reply to the last step: a value, an abort code, or 0 for "written"."""
    identifiers = [(key, number) for key, held in ((0x1800_01, 0x180 + node), (0x1801_01, 0x280 + node))
                   for number in (held, 0x8000_0000, 0x8000_07FF)]
    return {
        "A write of 6003 has to be below 6002. Its HighLimit is for the highest range.": [
            ((SCALING_ON, RANGE, SAMPLE, ("write", 0x6003_00, 4, 999)), 0),
            ((SCALING_ON, RANGE, SAMPLE, ("write", 0x6003_00, 4, 1000)), BAD_VALUE)],
        "While a PDO is on, its sub1 still accepts the number that it holds, and numbers with bit 31 set, which switch it off.": [
            trial for key, number in identifiers
            for trial in (((("write", key, 4, number),), 0), ((("write", key, 4, number), ("read", key)), number))],
        "The default of 6002 is above its limit and cannot be written: 1048576 holds while scaling is off, "
        "and a write of 6000 with bit 2 clear brings it back.": [
            ((FACTORY_RANGE,), BAD_VALUE),
            ((SCALING_ON, FACTORY_RANGE), BAD_VALUE),
            ((SCALING_ON, ("read", 0x6002_00)), 1_000_000),
            ((SCALING_ON, RANGE, ("write", 0x6000_00, 2, 0), ("read", 0x6002_00)), 1_048_576)],
        "Write 6000 first, then 6002 and 6005sub1, then 6003: each write of the first three sets 6003 and 6509 to 0. "
        "A write of 6000 also sets 6002: to 1000000 with bit 2 set, to 1048576 with bit 2 clear.": [
            *(((SCALING_ON, RANGE, ("write", 0x6000_00, 2, control), ("read", 0x6002_00)), 1_000_000 if control & 0x0004 else 1_048_576)
              for control in (0x0000, 0x0004, 0x0008, 0x000C)),
            ((*IN_ORDER, SCALING_ON, ("read", 0x6005_01)), 10_000),
            ((*IN_ORDER, READ_PRESET), 40),
            ((*IN_ORDER, READ_OFFSET), 0xFFFF_FFF6),
            *(((*IN_ORDER, again, read), 0) for again in (SCALING_ON, RANGE, STEP) for read in (READ_PRESET, READ_OFFSET))],
        "A download in rising order of the indices loses the preset: 6005sub1 comes after 6003 and sets it to 0.": [
            ((SCALING_ON, RANGE, SAMPLE, PRESET, READ_PRESET), 40),
            ((SCALING_ON, RANGE, SAMPLE, PRESET, STEP, READ_PRESET), 0)],
        "6003 is a command: while the reading is good, a write makes the present place read the number. That holds for its default 0, too.": [
            ((TAPE, READ_POSITION), 20_000),
            ((TAPE, PRESET, READ_POSITION), 40),
            ((TAPE, DEFAULT_PRESET, READ_POSITION), 0),
            ((TAPE, DEFAULT_PRESET, READ_OFFSET), 0xFFFF_B1E0)],
        "6200 is 1800sub5 under a second index: a write of one changes both.": [
            ((("write", 0x6200_00, 2, 7), ("read", 0x1800_05)), 7),
            ((("write", 0x1800_05, 2, 7), ("read", 0x6200_00)), 7)],
        "While scaling is on, the count of steps of 6005sub1 is rounded to the nearest whole number, halves upward, "
        "before 6002, the direction and the preset apply.": [
            *((counted(SCALING_ON, STEP, raw=raw), due) for raw, due in ((1, 1), (6, 3), (7, 4), (1_048_575, 524_288))),
            *((counted(SCALING_ON, COARSE_STEP, raw=raw), due) for raw, due in ((99, 0), (100, 1), (101, 1), (299, 1), (300, 2), (1_048_575, 5_243))),
            *((counted(SCALING_ON, RANGE, STEP, raw=raw), due) for raw, due in ((1_998, 999), (1_999, 0), (2_001, 1))),
            *((counted(BOTH_ON, RANGE, STEP, raw=raw), due) for raw, due in ((1, 998), (1_998, 0), (1_999, 999))),
            ((SCALING_ON, RANGE, STEP, ("sample", 1_999), PRESET, READ_OFFSET), 40),
            *((counted(SCALING_ON, STEP, control, raw=7), due) for control, due in ((DIRECTION_ON, 1_048_568), (BOTH_OFF, 7)))],
    }


def counted(*steps, raw):
    """The trial that takes the steps and then reads the position of a raw one."""
    return (*steps, ("sample", raw), READ_POSITION)


def facts(comments, head, node):
    """Those sentences stand in the comments, and hold."""
    for sentence, trials in sentences(node).items():
        if sentence not in comments.sentences:
            yield f"[Comments] do not say: {sentence}"
        replies = head.replies(node, [trial for trial, _ in trials])
        for (trial, due), reply in zip(trials, replies):
            if not carries(reply, trial[-1], due):
                yield f"node {node} answers {reply.hex(' ')} to {trial[-1][0]} {name(trial[-1][1])}, against: {sentence}"


def carries(reply, step, due):
    """The reply to a step carries the number that is due, and is of the kind for it."""
    if due in ABORT_CODES:
        return abort_code(reply) == due
    kind = reply[0] in VALUE if step[0] == "read" else reply[0] == WRITTEN
    return kind and number_of(reply) == due


def typed(node, key, identifier, kind):
    """The steps that give a PDO a transmission type; it has to be off for that."""
    return ("write", key | 1, 4, 0x8000_0000), ("write", key | 2, 1, kind), ("write", key | 1, 4, identifier + node)


def frame_sentences(node):
    """Sentences of the comments about position frames, each with trials and the position in the frame that the last slot sends, or none."""
    timed = [typed(node, 0x1800_00, TPDO1, kind) + STARTED for kind in (254, 255)]
    by_sync = [typed(node, 0x1801_00, TPDO2, kind) + STARTED + (FIRST,) + (SYNC,) * kind for kind in (1, 2, 240)]
    first_by_sync = (*typed(node, 0x1800_00, TPDO1, 1), *STARTED, SYNC)
    factory = (*STARTED, FIRST, SYNC)
    return {
        "Types 1..240 of 1800sub2 and 1801sub2 send the position of the SYNC at which the frame is due, also if it leaves later. "
        "Types 254 and 255 send the position at the moment of sending.": [
            *(((*waiting, MOVED, FIRST), 200) for waiting in timed),
            *(((*waiting, MOVED, SECOND), 100) for waiting in (*by_sync, factory)),
            ((*first_by_sync, MOVED, FIRST), 100),
            ((*factory, MOVED, SYNC, AGAIN, SECOND), 200),
            ((*by_sync[1], MOVED, SYNC, AGAIN, SECOND), 100),
            ((*by_sync[1], MOVED, SYNC, SYNC, AGAIN, SECOND), 200)],
        "If the reading goes missing, a waiting frame of types 254 and 255 is taken back. "
        "One of types 1..240 still leaves, with the position of its SYNC.": [
            *(((*waiting, LOST, *slots), None) for waiting in timed for slots in ((FIRST,), (FIRST, FIRST), (MOVED, FIRST))),
            *(((*waiting, LOST, *later, SECOND), 100) for waiting in (*by_sync, factory) for later in ((), (SYNC,), (MOVED,))),
            ((*first_by_sync, LOST, FIRST), 100),
            ((*factory, SECOND, LOST, SYNC, FIRST, SECOND), None)],
    }


def position_frames(comments, head, node):
    """Those sentences stand in the comments, and the head's frames are as they say."""
    for sentence, trials in frame_sentences(node).items():
        if sentence not in comments.sentences:
            yield f"[Comments] do not say: {sentence}"
        for (trial, due), sent in zip(trials, head.replies(node, [trial for trial, _ in trials])):
            if sent != (b"" if due is None else due.to_bytes(4, "little")):
                yield f"node {node} sends {sent.hex(' ') or 'nothing'} as {trial[-1][1] + node:03X}h, against: {sentence}"


def mapping(entries, head, node):
    """An entry can be mapped exactly if the head maps it, in its whole length."""
    keys = [entry.key for entry in entries if entry.index in MAPPINGS and entry.sub > 0]
    mapped = {number_of(reply) for reply in head.reads(node, keys).values()}
    mappable = {entry.key << 8 | 8 * entry.width for entry in entries if entry.mappable}
    if mapped != mappable:
        yield f"PDOMapping is not 1 of exactly what node {node} maps"


def differences(objects, comments, head, twin, listed):
    """All of them. The twin is a head that differs in its serial number and its names."""
    entries = [entry for _, each in objects.values() for entry in each]
    strangers = comments.names() - {entry.section for entry in entries if entry.access == "rw"}
    if strangers:
        raise Fault(f"[Comments] speak of writes to {', '.join(sorted(strangers))}")
    yield from proved_list(entries, listed)
    yield from shapes(objects)
    yield from flags(entries)
    yield from constants(entries)
    yield from existence(objects, head)
    faults = list(limits(entries, comments))
    yield from faults
    writable = [] if faults else [entry for entry in entries if entry.access == "rw" and entry.type != NAME]
    for node in NODES:
        yield from reads(entries, head, twin, node)
        yield from names(entries, head, twin, node)
        yield from transfers(entries, comments, head, node)
        yield from access(entries, head, node)
        yield from mapping(entries, head, node)
        yield from facts(comments, head, node)
        yield from position_frames(comments, head, node)
        yield from values(writable, comments, head, node)
        yield from states(writable, comments, head, node)
