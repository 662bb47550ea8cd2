"""The streams of `live_router`: captures that grow, with events between the frames, and what the program writes of them."""
import collections
import fcntl
import os
import struct
import subprocess

from .capture import HEADER
from .trouble import Trouble

EVENT_TYPE = 0x88B5  # the EtherType of events, for local experiments
VERSION = 1
F_SETPIPE_SZ = 1031
MOST_WAITING = 4 << 20  # octets that wait for a program, with which no more frames are given to it
PIPE = 32768  # less than the program reads at a time, so that it writes all that it has before it waits


def event(line, address=bytes(4)):
    """The frame of an event; of a hello, with the IPv4 address of the interface."""
    return bytes(8) + address + struct.pack(">HB", EVENT_TYPE, VERSION) + line.encode()


def line_of(frame):
    """The line of an event, or None for another frame."""
    if len(frame) > 14 and frame[12:15] == struct.pack(">HB", EVENT_TYPE, VERSION):
        return frame[15:].decode("ascii", "replace")
    return None


def record(frame, now):
    """The record of a frame at a time in nanoseconds."""
    return struct.pack("<IIII", now // 10**9, now // 1000 % 10**6, len(frame), len(frame)) + frame


class Frames:
    """The frames of a capture that arrives in pieces."""

    def __init__(self):
        self.octets, self.at = b"", 0

    def feed(self, piece):
        """The frames that this piece completes."""
        self.octets += piece
        found = []
        start = 0
        if not self.at:
            if len(self.octets) < len(HEADER):
                return found
            self.at = start = len(HEADER)
        while len(self.octets) >= start + 16:
            length = struct.unpack_from("<I", self.octets, start + 8)[0]
            if len(self.octets) < start + 16 + length:
                break
            found.append(self.octets[start + 16 : start + 16 + length])
            start += 16 + length
        self.octets = self.octets[start:]
        return found


class Child:
    """A running `live_router`: its stream, its frames and its report are pipes."""

    def __init__(self, words, record_path=None, sent_path=None):
        frames, frames_in = os.pipe()
        fcntl.fcntl(frames_in, F_SETPIPE_SZ, 1 << 20)
        words = [*words, "/dev/stdin", f"/dev/fd/{frames_in}"]
        pipes = {"stdin": subprocess.PIPE, "stdout": subprocess.PIPE, "pass_fds": [frames_in]}
        try:
            # in a session of its own: Ctrl-C is for the tool, which then ends the stream
            self.process = subprocess.Popen(words, **pipes, start_new_session=True)
        except OSError as error:
            raise Trouble(f"{words[0]}: {error.strerror}")
        os.close(frames_in)
        self.stream = self.process.stdin.fileno()
        fcntl.fcntl(self.stream, F_SETPIPE_SZ, PIPE)
        self.frames, self.report = frames, self.process.stdout.fileno()
        for end in (self.stream, self.frames, self.report):
            os.set_blocking(end, False)
        self.kept = open(record_path, "wb") if record_path else None
        self.sent = open(sent_path, "wb") if sent_path else None
        self.parser, self.lines = Frames(), b""
        self.waiting, self.size = collections.deque(), 0  # records that the pipe has no room for, and their octets
        self.is_closing = self.has_frames_end = self.has_report_end = False
        self.give_octets(HEADER)

    def give(self, frame, now):
        self.give_octets(record(frame, now))

    def give_octets(self, octets):
        if self.is_closing:
            return
        if self.kept:
            self.kept.write(octets)
        self.waiting.append(octets)
        self.size += len(octets)
        if len(self.waiting) == 1:
            self.push()

    def push(self):
        """Writes what the pipe takes of what waits."""
        try:
            while self.waiting:
                first = self.waiting[0]
                done = os.write(self.stream, first)
                self.size -= done
                if done < len(first):
                    self.waiting[0] = first[done:]
                else:
                    self.waiting.popleft()
        except BlockingIOError:
            pass
        except BrokenPipeError:
            self.waiting.clear()
            self.size = 0
        if self.is_closing and not self.waiting and not self.process.stdin.closed:
            self.process.stdin.close()

    def is_behind(self):
        """Whether so much waits for it that no frame is to be added."""
        return self.size > MOST_WAITING

    def close(self):
        """Ends the stream once all of it is written."""
        self.is_closing = True
        self.push()

    def has_ended(self):
        return self.has_frames_end and self.has_report_end

    def read_frames(self):
        """The frames that the program has written."""
        octets = self.read(self.frames)
        if octets == b"":
            self.has_frames_end = True
        if self.sent and octets:
            self.sent.write(octets)
        return self.parser.feed(octets or b"")

    def read_report(self):
        """The lines that the program has reported."""
        octets = self.read(self.report)
        if octets == b"":
            self.has_report_end = True
        *lines, self.lines = (self.lines + (octets or b"")).split(b"\n")
        return [line.decode("ascii", "replace") for line in lines]

    @staticmethod
    def read(end):
        try:
            return os.read(end, 1 << 16)
        except BlockingIOError:
            return None

    def flush(self):
        for file in (self.kept, self.sent):
            if file:
                file.flush()

    def wait(self, seconds):
        """The program's status, once it has ended; it is stopped if it takes longer than that."""
        self.flush()
        try:
            return self.process.wait(seconds)
        except subprocess.TimeoutExpired:
            self.process.kill()
            return self.process.wait()
