"""A replay that is continued while its schedule is written: the program reads lines from a pipe, and answers each at once."""
import os
import queue
import subprocess
import threading
import time

from . import capture, texts
from .trouble import Trouble, read_octets, write_octets

NUDGE = 1.0  # seconds without an answer after which a further line is sent


class Refused(Trouble):
    """The program rejected the schedule, so a second try would end the same."""


class Driver:
    """A domain whose schedule goes on, in a folder of its own.

    The program writes all output before it waits for further lines. So when it has read a line and answered it, and then reads
    another one, the frames of the first are in the capture. These two lines are packets from a router to itself, which are
    delivered at once and change nothing."""

    def __init__(self, program, folder, domain, echo, limit, command="replay"):
        self.program, self.folder, self.ends = program, folder, time.monotonic() + limit
        self.echo, self.count, self.injections = echo, 0, 0  # the line of such a packet; lines and injections so far
        self.said = []  # the lines of the report but the answers to such packets
        write_octets(self.at("domain.toml"), domain.encode())
        words = [program, command, "domain.toml", "/dev/stdin", "live"]
        self.process = subprocess.Popen(words, cwd=folder, stdin=subprocess.PIPE, stdout=subprocess.PIPE)
        self.answers, self.last, self.seen = queue.Queue(), "", len(capture.HEADER)
        threading.Thread(target=self.listen, daemon=True).start()

    def __enter__(self):
        return self

    def __exit__(self, *_):
        self.process.kill()
        self.process.wait()
        if os.path.exists(self.at("live")):
            os.remove(self.at("live"))

    def at(self, name):
        return os.path.join(self.folder, name)

    def listen(self):
        """Passes on the lines of the report as they come, and None at its end."""
        for line in self.process.stdout:
            self.answers.put(line.decode(errors="replace").rstrip("\n"))
        self.answers.put(None)

    def do(self, lines):
        """Does lines; the frames that each of them sends, by its place among them."""
        first = self.count
        self.answer(lines)
        octets, sent = read_octets(self.at("live"), self.seen), {}
        self.seen += len(octets)
        for record in capture.records_of(self.at("live"), octets, "<", 0):
            sent.setdefault(record.second - first - 1, []).append(record.octets)
        return sent

    def skip(self, lines):
        """Does lines, whatever they send."""
        self.answer(lines)
        self.seen = os.path.getsize(self.at("live"))

    def answer(self, lines):
        self.send(lines)
        self.await_answer()
        self.await_answer()

    def send(self, lines):
        try:
            self.process.stdin.write("".join(line + "\n" for line in lines).encode())
            self.process.stdin.flush()
        except BrokenPipeError:
            raise self.ended()
        self.count += len(lines)
        self.injections += sum(line.startswith("inject ") for line in lines)

    def await_answer(self):
        self.send([self.echo])
        wanted = f"{self.count} got "
        while True:
            try:
                line = self.answers.get(timeout=max(0.01, min(NUDGE, self.ends - time.monotonic())))
            except queue.Empty:
                if time.monotonic() > self.ends:
                    raise subprocess.TimeoutExpired(self.program, 0)
                # A read that was as long as it could be isn't known to be the last one before a wait.
                self.send(["#"])
                continue
            if line is None:
                self.answers.put(None)  # where `ended` looks for it
                raise self.ended()
            if line.startswith(wanted):
                return
            self.last = line
            self.said.append(line)

    def taken(self):
        """The lines of the report since this was last asked."""
        said, self.said = self.said, []
        return said

    def ended(self):
        """Why the program ended."""
        while (line := self.answers.get()) is not None:
            self.last = line
        return trouble_of(self.process.wait(), self.last)

    def replay(self, lines):
        """Replays a whole schedule, whose files stay in the folder; its report."""
        write_octets(self.at("schedule"), "".join(line + "\n" for line in lines).encode())
        words = [self.program, "replay", "domain.toml", "schedule", "frames"]
        done = subprocess.run(words, cwd=self.folder, stdout=subprocess.PIPE, timeout=max(0.01, self.ends - time.monotonic()))
        write_octets(self.at("report"), done.stdout)
        last = done.stdout.decode(errors="replace").splitlines()[-1:]
        if done.returncode or not last or not last[0].startswith("done lines "):
            raise trouble_of(done.returncode, " ".join(last))
        return texts.read_report(self.at("report"))


def trouble_of(status, last):
    return (Refused if status == 4 else Trouble)(f"status {status}, {last or 'no report'}")
