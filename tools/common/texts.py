"""Reports and schedules, line by line."""
from .trouble import Trouble, read_octets, read_text

HELLO_LINES = ("hello", "greet", "forget", "break", "mend")  # of a schedule of `handshake`
CAUSES = ("none", "ttl", "lost", "link", "outer", "route")
INTERFACES = ("up", "down")  # lines of `handshake`: an interface comes up or goes down
ANSWERS = ("quiet", "cover")  # lines of `check`: what a line of the same name asks


class Told:
    """A line of a report: what a router delivered, or dropped and why. IS-IS frames have no injection and no BFR-ids.

    Nor has any other kind of line; of those, one about an interface has its router and neighbor, and an answer has its text
    alone."""

    __slots__ = ("text", "line", "kind", "router", "neighbor", "injection", "cause", "ids", "payload")

    @property
    def is_got(self):
        return self.kind == "got"

    @property
    def is_of_a_frame(self):
        return self.kind in ("got", "drop")


class Report:
    def __init__(self, told, end):
        self.told, self.end = told, end
        self.is_done = end.startswith("done ")

    def numbers(self):
        """The numbers of a `done` line by their names."""
        words = self.end.split()[1:]
        return {name: int(value) for name, value in zip(words[::2], words[1::2])}


def ids_of(word):
    return [] if word == "-" else [int(number) for number in word.split(",")]


def told_of(path, number, text):
    """One line of a report but the last."""
    words, told = text.split(" "), Told()
    told.text, told.payload, told.cause, told.injection, told.ids = text, "", "", None, ()
    told.router = told.neighbor = None
    try:
        told.line, told.kind = int(words[0]), words[1]
        if told.is_of_a_frame:
            told.router = words[2]
            told.injection = None if words[3] == "-" else int(words[3])
            if told.is_got:
                told.ids, told.payload = [int(words[4])], words[5]
            else:
                told.cause, told.ids = words[4], ids_of(words[5])
        elif told.kind in INTERFACES:
            told.router, told.neighbor = words[2:]
        elif told.kind not in ANSWERS:
            raise ValueError
    except (IndexError, ValueError):
        raise Trouble(f"{path}: line {number} isn't a line of a replay's report: {text[:60]}")
    return told


def read_report(path):
    return report_of(path, read_text(path))


def report_of(path, text):
    lines = text.splitlines()
    if not lines or not lines[-1].startswith(("done lines ", "refused ")):
        raise Trouble(f"{path}: not a complete report of a replay: its last line begins with neither `done` nor `refused`")
    if lines[-1].startswith(("refused conf", "refused record")):
        raise Trouble(f"{path}: the report of a run that was rejected at once: {lines[-1]}")
    told = [told_of(path, number, line) for number, line in enumerate(lines[:-1], 1)]
    return Report(told, lines[-1])


def read_schedule(path):
    """The lines of a schedule without line ends. A comment may contain any octets."""
    lines = read_octets(path).decode("utf-8", "replace").split("\n")
    if lines[-1] == "":
        lines.pop()
    return [line.removesuffix("\r") for line in lines]
