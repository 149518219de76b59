"""The head itself, asked over SDO and for its position frames: fresh heads of any node number, in Pre-operational, served by target/host/drive."""
import pathlib
import struct
import subprocess

ROOT = pathlib.Path(__file__).resolve().parent.parent
DRIVER = "target/host/drive"
COMMAND = ["host/run", DRIVER]
RECORD = 24
SECONDS = 300

BOOT_UP, EMERGENCY, SDO_REQUEST, SDO_REPLY = 0x700, 0x080, 0x600, 0x580
NMT, SYNC = 0x000, 0x080
PRE_OPERATIONAL = 0x7F
START = 0x01

# Steps after which the head does not get the bus, so that a frame that waits goes on waiting; "sent" is a slot by itself
WITHOUT_SLOT = ("start", "sync", "moved", "lost", "sent")

# First byte of a request or reply, by the number of data bytes
READ = 0x40
WRITE = {1: 0x2F, 2: 0x2B, 4: 0x23}
VALUE = {0x4F: 1, 0x4B: 2, 0x43: 4}
WRITTEN, ABORT = 0x60, 0x80

# First byte of a transfer in segments: of the request that begins a write, of the reply that begins a read, and of a request for a segment
BEGIN_WRITE, SIZE, SEGMENT = 0x21, 0x41, 0x60
TOGGLE = 0x10
SEGMENT_BYTES = 7
# The bytes of a name that one call of the driver brings
HALF = 16


class Stopped(Exception):
    """The head cannot be asked, in one line."""


def power_up(node, identity, names):
    """The calls that make a head: its names, each in two halves, then the power-up."""
    halves = [struct.pack("<c3B4x16s", b"N", which, half, len(name), name[half * HALF:][:HALF])
              for which, name in enumerate(names) for half in (0, 1)]
    return [*halves, struct.pack("<cB2x4I4x", b"P", node, *identity)]


def plain(which):
    """A call without arguments."""
    return struct.pack("<c23x", which)


def received(identifier, payload):
    """The call that brings a frame."""
    return struct.pack("<c2xBI8s8x", b"F", len(payload), identifier, payload)


def request(node, payload):
    """The call that brings a service request."""
    return received(SDO_REQUEST + node, payload)


SLOT, KEEP, TAKE_BACK = plain(b"?"), plain(b"K"), plain(b"R")
# Steps whose call is the same whatever the node
PLAIN_STEPS = {"sync": received(SYNC, b""), "lost": plain(b"M"), "sent": SLOT}


def step_call(node, step):
    """The call of a step: a sample, a start, a plain step, ("segment", key, number) of the transfer that runs, or one that names its entry."""
    what, *numbers = step
    if what in PLAIN_STEPS:
        return PLAIN_STEPS[what]
    if what in ("sample", "moved"):
        return struct.pack("<c3xI16x", b"S", *numbers)
    if what == "start":
        return received(NMT, bytes([START, node]))
    if what == "segment":
        return request(node, struct.pack("<B7x", SEGMENT | numbers[1] % 2 * TOGGLE))
    first, key, value = entry_request(what, *numbers)
    return request(node, struct.pack("<BHBI", first, key >> 8, key & 0xFF, value))


def step_calls(node, step):
    """The calls of a step: after most steps the head gets the bus for one frame."""
    call = step_call(node, step)
    return [call] if step[0] in WITHOUT_SLOT else [call, SLOT]


def entry_request(what, key, width=0, value=0):
    """First byte, entry and number of ("read", key), ("write", key, width, value) or ("begin", key, width), a write in segments."""
    if what == "begin":
        return BEGIN_WRITE, key, width
    return WRITE[width] if what == "write" else READ, key, value


def upload(key, name):
    """The steps that read a name, each with the reply that is due."""
    steps = [(("read", key), struct.pack("<BHBI", SIZE, key >> 8, key & 0xFF, len(name)))]
    for number, at in enumerate(range(0, len(name), SEGMENT_BYTES)):
        part = name[at:at + SEGMENT_BYTES]
        last = at + SEGMENT_BYTES >= len(name)
        first = number % 2 * TOGGLE | (SEGMENT_BYTES - len(part)) << 1 | last
        steps.append((("segment", key, number), struct.pack("<B7s", first, part)))
    return steps


def run(calls):
    """The driver's answers to the calls."""
    if not (ROOT / DRIVER).exists():
        raise Stopped(f"{DRIVER} is missing: run host/build first")
    try:
        done = subprocess.run(COMMAND, cwd=ROOT, input=b"".join(calls), stdout=subprocess.PIPE, check=True, timeout=SECONDS)
    except (OSError, subprocess.SubprocessError) as error:
        raise Stopped(f"{DRIVER} failed: {error}") from None
    if len(done.stdout) != RECORD * len(calls):
        raise Stopped(f"{DRIVER} did not answer every call")
    return [done.stdout[at:at + RECORD] for at in range(0, len(done.stdout), RECORD)]


def frame(answer):
    """Identifier and bytes of the frame that a slot sent, or None."""
    sent, length, identifier = struct.unpack_from("<BB2xI", answer)
    return (identifier, answer[8:8 + length]) if sent else None


def abort_code(reply):
    """The code of an abort; None of any other reply."""
    return int.from_bytes(reply[4:], "little") if reply[0] == ABORT else None


class Head:
    """Fresh heads of each node number with one identity and the names of some entries, by their keys."""

    def __init__(self, identity, names):
        self.identity = identity
        self.names = names
        self.altered = ()
        self.known = {}
        self.scans = {}

    def wrong(self, pattern, instead):
        """A head that gives another reply to the steps that begin with the pattern."""
        other = Head(self.identity, self.names)
        other.altered = ((pattern, instead),)
        other.known = self.known
        if pattern[0] != "read":
            other.scans = self.scans
        return other

    def replies(self, node, trials):
        """The reply to the last step of each trial, a tuple of steps that a fresh head takes; of ("sent", identifier) the position frame."""
        known = self.known.setdefault(node, {})
        new = [trial for trial in dict.fromkeys(trials) if trial not in known]
        if new:
            known.update(zip(new, self.ask(node, new)))
        return [self.alter(trial[-1], known[trial]) for trial in trials]

    def ask(self, node, trials):
        """The driver's reply to the last step of each trial."""
        calls = [*power_up(node, self.identity, self.names.values()), SLOT, SLOT, SLOT, KEEP]
        made = len(calls) - 1
        ends = []
        for trial in trials:
            calls.append(TAKE_BACK)
            for step in trial:
                calls += step_calls(node, step)
            ends.append(len(calls) - 1)
        answers = run(calls)
        booted(node, answers[made - 3:made])
        return [answered(node, trial[-1], frame(answers[end])) for trial, end in zip(trials, ends)]

    def alter(self, step, reply):
        """The reply, or what a wrong head gives instead."""
        for pattern, instead in self.altered:
            if step[:len(pattern)] == pattern:
                return instead
        return reply

    def reads(self, node, keys):
        """The replies to reads, by key."""
        keys = list(keys)
        return dict(zip(keys, self.replies(node, [(("read", key),) for key in keys])))

    def entries(self, node, no_index, no_sub):
        """The keys of the entries that the head has, by index: whatever it does not refuse with one of the two codes."""
        if node not in self.scans:
            first = self.reads(node, range(0, 0x1000000, 0x100))
            indices = [key >> 8 for key, reply in first.items() if abort_code(reply) != no_index]
            every = self.reads(node, [index << 8 | sub for index in indices for sub in range(0x100)])
            self.scans[node] = {index: [] for index in indices}
            for key, reply in every.items():
                if abort_code(reply) != no_sub:
                    self.scans[node][key >> 8].append(key)
        return self.scans[node]


def booted(node, slots):
    """A fresh head boots up, announces the missing reading, and waits in Pre-operational with nothing more to send."""
    sent = [frame(slot) for slot in slots]
    identifiers = [each and each[0] for each in sent]
    if identifiers != [BOOT_UP + node, EMERGENCY + node, None] or slots[-1][2] != PRE_OPERATIONAL:
        raise Stopped(f"node {node} does not boot into Pre-operational")


def answered(node, step, sent):
    """What a trial shows: the bytes of the position frame that its last step is about, none if it does not leave; else those of an SDO reply."""
    if step[0] != "sent":
        return sdo_reply(node, sent)
    return sent[1] if sent and sent[0] == step[1] + node else b""


def sdo_reply(node, sent):
    """The bytes of a frame that has to be an SDO reply."""
    if sent is None or sent[0] != SDO_REPLY + node or len(sent[1]) != 8:
        raise Stopped(f"node {node} does not reply to a request")
    return sent[1]
