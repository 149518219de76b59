"""A transcript: a line of the session's input and, behind `  => `, the line that it prints. A line that begins with `;;` or `# `, or
an empty one, is a remark: it is not run."""
import pathlib
import signal
import sys
from typing import NamedTuple, Optional

ARROW = "  => "
REMARKS = (";;", "# ")


class Line(NamedTuple):
    """One line of a transcript: a remark has nothing given, and many lines print nothing."""
    number: int
    text: str
    given: Optional[str]
    printed: Optional[str]

    def answered(self, printed):
        """This line as a transcript shows it when the session prints `printed`."""
        if self.given is None:
            return self
        text = self.given if printed is None else self.given + ARROW + printed
        return self._replace(text=text, printed=printed)


def parse_line(number, text):
    """One line of a transcript, taken apart."""
    if text.startswith(REMARKS) or not text.strip():
        return Line(number, text, None, None)
    given, arrow, printed = text.rpartition(ARROW)
    if arrow:
        return Line(number, text, given, printed)
    return Line(number, text, text, None)


def parse(text, first=1):
    """The lines of a transcript, numbered from `first`. Lines of Windows end in CR LF: the CR is not part of the line."""
    lines = [line.removesuffix("\r") for line in text.removesuffix("\n").split("\n")]
    return [parse_line(number, line) for number, line in enumerate(lines, first)]


def render(lines):
    """The text of a transcript."""
    return "".join(line.text + "\n" for line in lines)


def answer(lines, answers):
    """The same lines, each with what the session prints for it; `answers` is that of session.py."""
    printed = iter(answers([line.given for line in lines if line.given is not None]))
    return [line if line.given is None else line.answered(next(printed)) for line in lines]


def read_text(name):
    """The text of a file, or of standard input for `-`, without a byte order mark; bad files end the program with one line."""
    try:
        raw = sys.stdin.buffer.read() if name == "-" else pathlib.Path(name).read_bytes()
        return raw.decode("utf-8-sig")
    except OSError as error:
        sys.exit(f"{name}: {error.strerror}")
    except UnicodeDecodeError:
        sys.exit(f"{name}: not a text in UTF-8")


def end_quietly():
    """Lets the program end without a word when its reader, such as head, has read enough."""
    signal.signal(signal.SIGPIPE, signal.SIG_DFL)
